//! Directories full of names that are easily taken for one another, and the
//! same directories with one name twice.

use crate::arguments::altered;
use crate::images;
use crate::rng::Rng;
use crate::tester::Tester;
use crate::tree::files;
use reference::layout::*;
use reference::worked::create;
use reference::State;
use std::collections::{BTreeSet, HashMap};

/// File slots of the largest directory.
const PLACES: usize = SLOTS_PER_BLOCK * MAX_DIRECTORY_BLOCKS - 2;

/// A kind of names, and how to make PLACES different ones.
struct Kind {
    what: &'static str,
    make: fn(&mut Rng) -> Vec<Vec<u8>>,
}

const KINDS: &[Kind] = &[
    Kind { what: "other last byte", make: |rng| one_byte_apart(rng, 40, 39) },
    Kind { what: "other first byte", make: |rng| one_byte_apart(rng, 40, 0) },
    Kind { what: "other byte within", make: |rng| one_byte_apart(rng, MAX_NAME, 40) },
    Kind { what: "prefixes of one another", make: |_| prefixes() },
    Kind { what: "a full field", make: |rng| different(|| any_bytes(rng, MAX_NAME)) },
    Kind {
        what: "a full field, other last byte",
        make: |rng| one_byte_apart(rng, MAX_NAME, MAX_NAME - 1),
    },
    Kind { what: "79 bytes", make: |rng| different(|| any_bytes(rng, MAX_NAME - 1)) },
    Kind { what: "79 bytes, and all but the last with one more", make: |rng| with_one_more(rng) },
    Kind { what: "bytes in another order", make: |rng| permutations(rng, 1) },
    Kind { what: "words in another order", make: |rng| permutations(rng, 4) },
    Kind { what: "double words in another order", make: |rng| permutations(rng, 8) },
    Kind { what: "one byte", make: |_| name_bytes().map(|b| vec![b]).collect() },
    Kind { what: "one checksum", make: one_checksum },
    Kind { what: "one hash", make: one_hash },
    Kind { what: "one hash for every two", make: equal_hashes },
    Kind { what: "any", make: |rng| different(|| images::good_name(rng)) },
];

pub const ROUNDS: u64 = KINDS.len() as u64;

/// One kind of names: all calls that search them, then each with a name twice.
pub fn run(rng: &mut Rng, round: u64, t: &mut Tester) {
    let kind = &KINDS[round as usize % KINDS.len()];
    t.report.about(format!("names: {}", kind.what));
    let mut names = (kind.make)(rng);
    t.report.agree("different names", names.iter().collect::<BTreeSet<_>>().len(), PLACES);
    rng.shuffle(&mut names);
    let n = rng.pick(&[66, 67, 127, 128, 129, 300]);
    let in_folder = n > 67 && rng.once_in(2);
    let (image, home) = images::with_names(rng, n, MAX_DIRECTORY_BLOCKS, &names, in_folder);
    t.check(&image);
    search(rng, t, &image);
    with_free_slots(rng, t, n, &names);
    for distance in 1..PLACES {
        for _ in 0..2 {
            twice(rng, t, &image, &home, distance);
        }
    }
}

/// Every name, and names one step away from each.
fn search(rng: &mut Rng, t: &mut Tester, image: &[u8]) {
    for file in files(image) {
        t.lookup(image, &file.path);
        if rng.once_in(4) {
            t.lookup(image, &altered(rng, &file.path));
        }
    }
}

/// 250 files: names that are taken, and the four that are left.
fn with_free_slots(rng: &mut Rng, t: &mut Tester, n: usize, names: &[Vec<u8>]) {
    let (taken, left) = names.split_at(250);
    let in_folder = n > 67 && rng.once_in(2);
    let (image, home) = images::with_names(rng, n, MAX_DIRECTORY_BLOCKS, taken, in_folder);
    let state = State { image, journal: reference::start(2000).unwrap() };
    t.check(&state.image);
    for name in left {
        let path = home.path_of(name);
        t.lookup(&state.image, &path);
        let number = t.change(&state, &create(&path));
        t.report.agree("plan", number, 0);
    }
    for _ in 0..8 {
        let number = t.change(&state, &create(&home.path_of(&rng.pick(taken))));
        t.report.agree("plan", number, 11);
    }
}

/// The name of one slot also in another, so many slots behind or before it.
fn twice(rng: &mut Rng, t: &mut Tester, image: &[u8], home: &Directory, distance: usize) {
    let last = PLACES - distance;
    let low = match rng.below(4) {
        0 => 1,
        1 => last,
        _ => rng.between(1, last),
    };
    let (from, to) = if rng.once_in(2) { (low, low + distance) } else { (low + distance, low) };
    let slots = slot_offsets(image, home.first);
    let mut both = image.to_vec();
    both.copy_within(slots[from] + slot::NAME..slots[from] + SLOT, slots[to] + slot::NAME);
    t.report.about(format!("the name of slot {from} also in slot {to}"));
    t.report.agree("plan", reference::check(&both), 5);
    t.check(&both);
}

/// So many different names as there are places.
fn different(mut name: impl FnMut() -> Vec<u8>) -> Vec<Vec<u8>> {
    let mut names = BTreeSet::new();
    while names.len() < PLACES {
        names.insert(name());
    }
    names.into_iter().collect()
}

fn any_bytes(rng: &mut Rng, len: usize) -> Vec<u8> {
    (0..len).map(|_| rng.name_byte()).collect()
}

/// Names of one length that differ in one byte.
fn one_byte_apart(rng: &mut Rng, len: usize, at: usize) -> Vec<Vec<u8>> {
    let mut name = any_bytes(rng, len);
    let with = |byte| {
        name[at] = byte;
        name.clone()
    };
    name_bytes().map(with).collect()
}

/// All bytes that a name may have: as many as there are places.
fn name_bytes() -> impl Iterator<Item = u8> {
    (1..=255).filter(|&byte| byte != b'/')
}

/// Names of 79 bytes, each also with one byte more.
fn with_one_more(rng: &mut Rng) -> Vec<Vec<u8>> {
    let short = different(|| any_bytes(rng, MAX_NAME - 1));
    short.into_iter().take(PLACES / 2).flat_map(|name| [[&name[..], b"x"].concat(), name]).collect()
}

/// Four names of 80 bytes, each with most of its prefixes.
fn prefixes() -> Vec<Vec<u8>> {
    let all = (1..=MAX_NAME).rev().flat_map(|len| b"abcd".map(|byte| vec![byte; len]));
    all.take(PLACES).collect()
}

/// The same groups of bytes in any order.
fn permutations(rng: &mut Rng, group: usize) -> Vec<Vec<u8>> {
    let count = rng.between(8, MAX_NAME / group);
    let mut groups: Vec<Vec<u8>> = (0..count).map(|_| any_bytes(rng, group)).collect();
    different(|| {
        rng.shuffle(&mut groups);
        groups.concat()
    })
}

/// Fletcher's sums over the words of a name: of the words, and of those sums.
fn checksum_of(name: &[u8]) -> (u64, u64) {
    let words = name.chunks_exact(4).map(|word| u32::from_be_bytes(word.try_into().unwrap()));
    words.fold((0, 0), |(a, b), word| (a + u64::from(word), b + a + u64::from(word)))
}

/// Names that have one checksum. In two groups of three words, a byte of the outer
/// words is so much more and that of the middle one twice as much less.
fn one_checksum(rng: &mut Rng) -> Vec<Vec<u8>> {
    let base: Vec<u8> = (0..24).map(|_| rng.between(101, 200) as u8).collect();
    let places = [rng.between(0, 3), 12 + rng.between(0, 3)];
    let form = |choice: u8| {
        let mut name = base.clone();
        for (at, step) in places.into_iter().zip([choice % 16, choice / 16]) {
            name[at] += step;
            name[at + 4] -= 2 * step;
            name[at + 8] += step;
        }
        name
    };
    let names: Vec<Vec<u8>> = (0..PLACES as u8).map(form).collect();
    assert!(names.iter().all(|name| checksum_of(name) == checksum_of(&names[0])));
    names
}

/// A polynomial hash of 24 bits. A check that compares hashes must not stop there.
fn hash_of(name: &[u8]) -> u32 {
    name.iter().fold(0, |sum, &byte| (sum * 251 + u32::from(byte)) % (1 << 24))
}

/// Names that have one hash, whatever number of bits it has. Of two neighbouring
/// bytes the first may be one more and the second 251 less; each of eight such
/// pairs is there in both forms.
fn one_hash(rng: &mut Rng) -> Vec<Vec<u8>> {
    let start = any_bytes(rng, 5);
    let pairs: Vec<(u8, u8)> =
        (0..8).map(|_| (rng.between(48, 254) as u8, rng.between(252, 255) as u8)).collect();
    let form = |choice: usize| {
        let bytes = pairs.iter().enumerate().flat_map(|(i, &(a, b))| {
            if choice >> i & 1 == 0 {
                [a, b]
            } else {
                [a + 1, b - 251]
            }
        });
        [&start[..], &bytes.collect::<Vec<u8>>()].concat()
    };
    let names: Vec<Vec<u8>> = (0..PLACES).map(form).collect();
    assert!(names.iter().all(|name| hash_of(name) == hash_of(&names[0])));
    names
}

/// Names of six bytes, each of which has its hash in common with one other.
fn equal_hashes(rng: &mut Rng) -> Vec<Vec<u8>> {
    let mut seen: HashMap<u32, Vec<u8>> = HashMap::new();
    let mut names = BTreeSet::new();
    while names.len() < PLACES {
        let name = any_bytes(rng, 6);
        match seen.remove(&hash_of(&name)) {
            Some(other) if other != name => names.extend([name, other]),
            _ => {
                seen.insert(hash_of(&name), name);
            }
        }
    }
    names.into_iter().collect()
}
