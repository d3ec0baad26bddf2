//! Settings with a past, in the root and in other directories: puts and gets of
//! data of every length, files of the form and of no form, full volumes,
//! directories and journals. The put of a file that is there is also held against
//! the library's own write of it, and one in the root against the call that brings
//! no directory.

use crate::arguments::*;
use crate::images::{self, Fill};
use crate::lent::Lent;
use crate::library::{self, Pair};
use crate::rng::Rng;
use crate::tester::{Get, Tester};
use crate::tree::root;
use crate::{damage, ffi, journals};
use reference::layout::*;
use reference::path::Want;
use reference::store::{file_of, revisions, HEAD, MAX_REVISIONS, MAX_SETTINGS, ROOT};
use reference::worked::{create_directory, fresh};
use reference::{Change, Put, Revision, State, Which};

const SERIAL: &[u8] = b"SN4471";

/// What stands at a serial number.
enum Standing {
    Nothing,
    Folder,
    File(Vec<u8>),
}

/// The directory that the calls bring, or none: those are of the root.
type Home = Option<Vec<u8>>;

/// A volume with this at the serial number of a directory, with or without a free
/// slot in it, and with so many free blocks, if a number is given. The directory is
/// the root, or one of up to eight levels.
fn volume(rng: &mut Rng, what: &Standing, open: bool, free: Option<usize>) -> (Vec<u8>, Home) {
    // A directory of the eighth level has room for files alone.
    let deepest = if let Standing::Folder = what { 7 } else { 8 };
    let levels = rng.pick(&[0, 0, 1, 1, 2, deepest]);
    let (image, directory) = volume_at(rng, what, open, free, levels);
    let brings = levels > 0 || rng.once_in(2);
    (image, brings.then_some(directory))
}

fn volume_at(
    rng: &mut Rng,
    what: &Standing,
    open: bool,
    free: Option<usize>,
    levels: usize,
) -> (Vec<u8>, Vec<u8>) {
    let size = if let Standing::File(bytes) = what { bytes.len() } else { 0 };
    let n = size.div_ceil(BLOCK) + rng.between(70, 170);
    let (mut image, mut pool) = loop {
        let d = rng.between(2, 6);
        let fill = rng.pick(&[Fill::Empty, Fill::Some]);
        let image = images::build(rng, n, d, fill);
        let mut pool = free_blocks(&image);
        rng.shuffle(&mut pool);
        let taken = tree(&image)[0].entries.iter().any(|e| e.name == SERIAL);
        let slots = free_slots(&image, root(&image));
        if slots.len() > 3 && pool.len() >= size.div_ceil(BLOCK) + 50 && !taken {
            break (image, pool);
        }
    };
    let (parent, directory) = deeper(rng, &mut image, &mut pool, levels);
    let mut slots = free_slots(&image, parent);
    rng.shuffle(&mut slots);
    match what {
        Standing::Nothing => {}
        Standing::Folder => {
            let (at, blocks) = (slots.pop().unwrap(), [pool.pop().unwrap()]);
            images::put_folder(rng, &mut image, at, parent, SERIAL, &blocks);
        }
        Standing::File(bytes) => {
            let at = slots.pop().unwrap();
            images::put_file(rng, &mut image, at, SERIAL, bytes.len(), &mut pool);
            fill_file(&mut image, at, bytes);
            if rng.once_in(3) {
                images::put_attributes(rng, &mut image, at, &mut pool);
            }
        }
    }
    if let Some(free) = free {
        let size = BLOCK * (pool.len() - free);
        images::put_file(rng, &mut image, slots.pop().unwrap(), b"the rest", size, &mut pool);
    }
    for (i, at) in slots.into_iter().enumerate().filter(|_| !open) {
        let name = format!("slot {i}");
        images::put_file(rng, &mut image, at, name.as_bytes(), 0, &mut pool);
    }
    images::put_header(&mut image);
    assert_eq!(reference::check(&image), 0, "the volume is sound");
    (image, directory)
}

/// New directories, each in the one before and the first in the root. Gives the
/// first block of the last, and its path.
fn deeper(
    rng: &mut Rng,
    image: &mut [u8],
    pool: &mut Vec<usize>,
    levels: usize,
) -> (usize, Vec<u8>) {
    let (mut home, mut path) = (root(image), vec![]);
    for level in 0..levels {
        let slots = free_slots(image, home);
        let name = rng.pick(&[format!("venue {level}"), format!("hall{level}"), "n".repeat(80)]);
        let blocks: Vec<usize> = (0..rng.between(2, 4)).filter_map(|_| pool.pop()).collect();
        let at = rng.pick(&slots);
        home = images::put_folder(rng, image, at, home, name.as_bytes(), &blocks);
        path = [&path[..], b"/", name.as_bytes()].concat();
    }
    (home, if path.is_empty() { ROOT.to_vec() } else { path })
}

fn free_slots(image: &[u8], home: usize) -> Vec<usize> {
    let mut slots = slot_offsets(image, home);
    slots.pop();
    slots.retain(|&at| image[at + slot::TYPE] == slot::TYPE_FREE);
    slots
}

/// Puts the bytes of the file of a slot into its blocks. Those past its end
/// stay as they are.
fn fill_file(image: &mut [u8], at: usize, bytes: &[u8]) {
    let blocks = Entry::read(image, 1, at).chain(image);
    for (b, part) in blocks.into_iter().zip(bytes.chunks(BLOCK)) {
        image[b * BLOCK..b * BLOCK + part.len()].copy_from_slice(part);
    }
}

fn put(rng: &mut Rng, home: &Home, length: usize) -> Change {
    put_of(home, rng.bytes(length), any_time(rng))
}

fn put_of(home: &Home, data: Vec<u8>, time: u64) -> Change {
    Change::Put(Put { directory: home.clone(), serial: SERIAL.to_vec(), data, time })
}

fn get_of(home: &Home, which: Which, buffer: Vec<u8>) -> Get {
    Get { directory: home.clone(), serial: SERIAL.to_vec(), which, buffer }
}

/// So many revisions from a number on, with data of up to `most` bytes.
fn some(rng: &mut Rng, first: u32, count: usize, most: usize) -> Vec<Revision> {
    let mut revision = |i: usize| {
        let length = if rng.once_in(4) { rng.pick(&[0, most]) } else { rng.below(most + 1) };
        Revision { number: first.wrapping_add(i as u32), data: rng.bytes(length) }
    };
    (0..count).map(&mut revision).collect()
}

/// A well-formed journal with room for any record of this image.
fn roomy(rng: &mut Rng, image: &[u8]) -> Vec<u8> {
    journals::with_records(rng, image, 1, journals::room_for_all(image))
}

/// Every revision from below the oldest to above the latest, and the latest.
fn gets(rng: &mut Rng, t: &mut Tester, image: &[u8], home: &Home, latest: u32) {
    let lent = t.lend(image);
    let near = (0..19).map(|i| latest.wrapping_add(1).wrapping_sub(i));
    for which in near.map(Which::Number).chain([Which::Number(0), Which::Latest]) {
        let length = rng.pick(&[200, 200, 201, 300]);
        t.get_in(&lent, image, &get_of(home, which, rng.bytes(length)));
    }
}

/// A put of so many bytes on a volume and all that can be asked then; undo brings both back.
/// Gives the number.
fn put_and_ask(rng: &mut Rng, t: &mut Tester, state: &State, home: &Home, length: usize) -> u32 {
    let mut pair = t.lend_pair(state);
    let change = put(rng, home, length);
    let number = t.change_in(&mut pair, state, &change);
    let after = pair.content();
    by_the_other_call(t, state, &change, &after);
    let directory = home.as_deref().unwrap_or(ROOT);
    let latest = reference::get_in(&after.image, directory, SERIAL, Which::Latest, 200);
    gets(rng, t, &after.image, home, latest.map_or(0, |r| r.number));
    t.check_in(&pair.image, &after.image);
    if number == 0 {
        t.undo_in(&mut pair, &after);
        t.report.agree("the image before the put", pair.content().image == state.image, true);
    }
    number
}

/// A put in the root, by the call that brings a directory and by the one that does
/// not: the same image and journal.
fn by_the_other_call(t: &mut Tester, state: &State, change: &Change, after: &State) {
    let Change::Put(p) = change else { unreachable!("a put") };
    let directory = match &p.directory {
        None => Some(ROOT.to_vec()),
        Some(directory) if directory == ROOT => None,
        Some(_) => return,
    };
    let mut pair = t.lend_pair(state);
    t.change_in(&mut pair, state, &Change::Put(Put { directory, ..p.clone() }));
    t.report.agree("the same by the other call", &pair.content() == after, true);
}

/// The put of a file that is there against the library's own write of the
/// whole file, which it can make up to 4,096 bytes.
fn as_write(t: &mut Tester, state: &State, home: &Home, data: &[u8], time: u64) {
    let directory = home.as_deref().unwrap_or(ROOT);
    let path = reference::store::path_of(directory, SERIAL);
    let old = reference::read(&state.image, &path, 0, usize::MAX).unwrap_or_default();
    let Some(mut all) = revisions(&old) else {
        t.report.agree("a file of the form", false, true);
        return;
    };
    let number = all.last().map_or(0, |revision| revision.number) + 1;
    if all.len() == MAX_REVISIONS {
        all.remove(0);
    }
    all.push(Revision { number, data: data.to_vec() });
    let whole = file_of(&all, old.len());
    if whole.len() > MAX_DATA {
        return;
    }
    let (path, whole) = (t.lend(&path), t.lend(&whole));
    let (serial, data) = (t.lend(SERIAL), t.lend(data));
    let (mut one, mut other) = (t.lend_pair(state), t.lend_pair(state));
    let directory = t.lend(directory);
    let put = one.put_in(&directory, &serial, &data, time);
    let written = other.write(&path, 0, &whole, time);
    t.report.agree(
        "the write's answer",
        (put.number, put.record),
        (written.number, written.record),
    );
    t.report.agree("image and journal of the write", one.content() == other.content(), true);
}

/// Data of every length, as the first put and over one revision.
pub fn lengths(rng: &mut Rng, _: u64, t: &mut Tester) {
    for length in 0..=MAX_SETTINGS + 1 {
        let expected = if length <= MAX_SETTINGS { 0 } else { 22 };
        for what in [Standing::Nothing, Standing::File(file_of(&some(rng, 1, 1, 200), 0))] {
            let (image, home) = volume(rng, &what, true, None);
            let state = State { journal: roomy(rng, &image), image };
            t.report.about(format!("data of {length} bytes"));
            let number = put_and_ask(rng, t, &state, &home, length);
            t.report.agree("plan", number, expected);
            if let (Standing::File(_), 0) = (what, expected) {
                as_write(t, &state, &home, &rng.bytes(length), any_time(rng));
            }
        }
    }
    let three = Standing::File(file_of(&some(rng, 1, 3, 200), 0));
    let (image, home) = volume(rng, &three, true, None);
    for length in 0..=2 * MAX_SETTINGS {
        t.report.about(format!("buffer of {length} bytes"));
        let expected = if length < MAX_SETTINGS { 22 } else { 0 };
        for which in [Which::Latest, Which::Number(1), Which::Number(3)] {
            let number = t.get(&image, &get_of(&home, which, rng.bytes(length)));
            t.report.agree("plan", number, expected);
        }
    }
    serials(rng, t, &image, &home);
    homes(rng, t);
}

/// Directories of one to twelve names of every length, in a volume that has just
/// the one that is asked for; and such with every byte in them.
fn homes(rng: &mut Rng, t: &mut Tester) {
    for levels in 0..=12 {
        let there = levels.min(MAX_LEVELS);
        let (image, mut directory) = volume_at(rng, &Standing::Nothing, true, None, there);
        for level in there..levels {
            directory.extend(format!("/level {level}").as_bytes());
        }
        let state = State { journal: roomy(rng, &image), image };
        let expected = if levels <= MAX_LEVELS { 0 } else { 17 };
        place(rng, t, &state, &directory, expected);
        // A part more that is not there, and one less of the last name.
        if (1..=MAX_LEVELS).contains(&levels) {
            let more = [&directory[..], b"/x"].concat();
            place(rng, t, &state, &more, if levels < MAX_LEVELS { 10 } else { 17 });
            let end = directory.len() - 1;
            let cut = if directory[end - 1] == b'/' { 22 } else { 10 };
            place(rng, t, &state, &directory[..end], cut);
            place(rng, t, &state, &directory[1..], 22);
            place(rng, t, &state, &[&directory[..], b"/"].concat(), 22);
            place(rng, t, &state, &[b"/", &directory[..]].concat(), 22);
        }
    }
    let (image, directory) = volume_at(rng, &Standing::Nothing, true, None, 1);
    let state = State { journal: roomy(rng, &image), image };
    for byte in 0..=255u8 {
        let mut other = directory.clone();
        other[1] = byte;
        let good = reference::path::parts(&other).is_some();
        let expected = match good {
            true if other == directory => 0,
            true => 10,
            false => 22,
        };
        place(rng, t, &state, &other, expected);
        if byte != b'/' {
            place(rng, t, &state, &[byte], 22);
        }
    }
    for bad in [&b""[..], b"//", b"/a//b", b"a", b"/a/"] {
        place(rng, t, &state, bad, 22);
    }
    for length in 1..=82 {
        let name = [b"/", &vec![b'q'; length][..]].concat();
        place(rng, t, &state, &name, if length <= NAME_FIELD { 10 } else { 22 });
    }
}

/// A put and a get in a directory: refused with this number, or accepted, and
/// then nothing is there to get before the put.
fn place(rng: &mut Rng, t: &mut Tester, state: &State, directory: &[u8], expected: u32) {
    t.report.about(format!("directory {}", directory.escape_ascii()));
    let home = Some(directory.to_vec());
    let number = put_and_ask(rng, t, state, &home, 9);
    t.report.agree("plan", number, expected);
    let number = t.get(&state.image, &get_of(&home, Which::Latest, rng.bytes(200)));
    t.report.agree("plan", number, if expected == 0 { 10 } else { expected });
}

/// Serial numbers of every length, and with every byte in every place.
fn serials(rng: &mut Rng, t: &mut Tester, image: &[u8], home: &Home) {
    let state = State { image: image.to_vec(), journal: roomy(rng, image) };
    let mut ask = |t: &mut Tester, serial: Vec<u8>, good: bool| {
        t.report.about(format!("serial number {}", serial.escape_ascii()));
        let (directory, data) = (home.clone(), b"baud=9600".to_vec());
        let change = Change::Put(Put { directory, serial: serial.clone(), data, time: 1 });
        let number = t.change(&state, &change);
        t.report.agree("plan", number != 22, good);
        let get = Get { serial, ..get_of(home, Which::Latest, rng.bytes(200)) };
        let number = t.get(&state.image, &get);
        t.report.agree("plan", number != 22, good);
    };
    for length in 0..=20 {
        ask(t, vec![b'x'; length], (1..=16).contains(&length));
    }
    for byte in 0..=255u8 {
        for place in [0, 7, 15] {
            let mut serial = vec![b'5'; 16];
            serial[place] = byte;
            ask(t, serial, byte.is_ascii_alphanumeric());
        }
        ask(t, vec![byte], byte.is_ascii_alphanumeric());
    }
}

/// One to forty puts, one after the other, then undo after undo.
pub fn puts(rng: &mut Rng, round: u64, t: &mut Tester) {
    let count = 1 + round as usize % 40;
    let most = rng.pick(&[0, 3, 60, 200, 200]);
    let (image, home) = volume(rng, &Standing::Nothing, true, None);
    let mut states = vec![State { image, journal: reference::start(400_000).unwrap() }];
    let mut pair = t.lend_pair(&states[0]);
    for i in 1..=count {
        t.report.about(format!("put {i} of {count}, up to {most} bytes"));
        let (length, state) = (rng.below(most + 1), states.last().unwrap());
        let (data, time) = (rng.bytes(length), any_time(rng));
        if i > 1 {
            as_write(t, state, &home, &data, time);
        }
        let number = t.change_in(&mut pair, state, &put_of(&home, data, time));
        t.report.agree("plan", number, 0);
        states.push(pair.content());
        gets(rng, t, &states[i].image, &home, i as u32);
    }
    for i in (1..=count).rev() {
        t.report.about(format!("undo of put {i} of {count}"));
        let number = t.undo_in(&mut pair, &states[i]);
        t.report.agree("plan", number, 0);
        t.report.agree("image and journal before the put", pair.content() == states[i - 1], true);
        gets(rng, t, &states[i - 1].image, &home, i as u32);
    }
}

/// A put and gets on a volume with this file: 24, or as for a file of the form.
fn form(rng: &mut Rng, t: &mut Tester, bytes: &[u8], good: bool) {
    t.report.agree("form", revisions(bytes).is_some(), good);
    let (image, home) = volume(rng, &Standing::File(bytes.to_vec()), true, None);
    let state = State { journal: roomy(rng, &image), image };
    let length = rng.below(201);
    let number = put_and_ask(rng, t, &state, &home, length);
    let asked = t.get(&state.image, &get_of(&home, Which::Latest, rng.bytes(200)));
    t.report.agree("plan", (number == 24, asked == 24), (!good, !good));
    if good && number == 0 {
        as_write(t, &state, &home, &rng.bytes(length), 7);
    }
}

/// Files of no form, of every kind, and of the form beside them.
pub fn forms(rng: &mut Rng, _: u64, t: &mut Tester) {
    every_byte(rng, t);
    every_length(rng, t);
    counts_and_numbers(rng, t);
    zeros(rng, t);
}

/// Every byte of the heads, each of its bits, one more and one less; version
/// and data length with every value.
fn every_byte(rng: &mut Rng, t: &mut Tester) {
    let all = some(rng, 0x0102_0304, 3, 20);
    let file = file_of(&all, 90);
    let mut at = HEAD;
    let mut heads: Vec<usize> = (0..HEAD).collect();
    for revision in &all {
        heads.extend(at..at + 5);
        at += 5 + revision.data.len();
    }
    let mut with = |t: &mut Tester, at: usize, value: u8| {
        let mut spoilt = file.clone();
        spoilt[at] = value;
        t.report.about(format!("byte {at} of {} is {value:#04x}", file.len()));
        let good = spoilt == file || revisions(&spoilt).is_some();
        form(rng, t, &spoilt, good);
    };
    for &at in &heads {
        for value in (0..8).map(|bit| file[at] ^ 1 << bit) {
            with(t, at, value);
        }
        with(t, at, file[at].wrapping_add(1));
        with(t, at, file[at].wrapping_sub(1));
    }
    for value in 0..=255 {
        with(t, 0, value);
        with(t, HEAD, value);
        with(t, 4, value);
    }
}

/// A file cut at every length, with the length it states and with its own; and
/// records that are cut.
fn every_length(rng: &mut Rng, t: &mut Tester) {
    let all = some(rng, 9, 3, 12);
    let file = file_of(&all, 0);
    for length in 0..file.len() {
        t.report.about(format!("cut at {length} of {}", file.len()));
        form(rng, t, &file[..length], false);
        if length < HEAD {
            continue;
        }
        let mut own = file[..length].to_vec();
        put_number(&mut own, 1, length as u32);
        let whole = (1..3).any(|count| file_of(&all[..count], 0).len() == length);
        form(rng, t, &own, whole);
    }
    for length in
        [0, 1, 4, 5, 6, 9, file.len() - 1, file.len() + 1, 1 << 16, 1 << 31, (1 << 32) - 1]
    {
        t.report.about(format!("length {length} instead of {}", file.len()));
        let mut spoilt = file.clone();
        put_number(&mut spoilt, 1, length as u32);
        form(rng, t, &spoilt, false);
        spoilt.resize(700, 0);
        form(rng, t, &spoilt, false);
    }
}

/// No record, 1 to 17, and more; numbers that begin with 0, go past the last
/// one, stay, fall or leave one out; data of 200 bytes and more.
fn counts_and_numbers(rng: &mut Rng, t: &mut Tester) {
    for count in (0..=18).chain([40]) {
        for most in [0, 1, 200] {
            t.report.about(format!("{count} records of up to {most} bytes"));
            let all = some(rng, 1, count, most);
            form(rng, t, &file_of(&all, 0), (1..=MAX_REVISIONS).contains(&count));
        }
    }
    for first in [0, 1, 2, 255, 256, 0xFFFF, 0x0100_0000, u32::MAX - 16, u32::MAX - 15, u32::MAX] {
        for count in [1, 2, 16] {
            t.report.about(format!("{count} records from number {first} on"));
            let good = first >= 1 && u64::from(first) + count as u64 - 1 <= u64::from(u32::MAX);
            let file = file_of(&some(rng, first, count, 9), 0);
            form(rng, t, &file, good);
        }
    }
    for i in 0..MAX_REVISIONS {
        for step in [-2, -1, 1, 2, 256, 1 << 16, i64::from(i32::MIN)] {
            let mut all = some(rng, 70_000, MAX_REVISIONS, 5);
            all[i].number = (i64::from(all[i].number) + step) as u32;
            t.report.about(format!("the number of record {i} is {step} off"));
            form(rng, t, &file_of(&all, 0), false);
        }
    }
    for length in [199, 200, 201, 202, 255] {
        for i in 0..3 {
            let mut all = some(rng, 5, 3, 30);
            all[i].data = rng.bytes(length);
            t.report.about(format!("record {i} has {length} bytes"));
            form(rng, t, &file_of(&all, 0), length <= MAX_SETTINGS);
        }
    }
}

/// Zeros after the records, and one byte among them that is none.
fn zeros(rng: &mut Rng, t: &mut Tester) {
    for size in [0, 40, 511, 512, 513, 1024, 3285, 3286, 4096, 4097, 9000, 20_000] {
        let file = file_of(&some(rng, 3, 2, 9), size);
        t.report.about(format!("a file of {} bytes", file.len()));
        form(rng, t, &file, true);
        let used = number(&file, 1) as usize;
        let edges =
            [used, used + 1, 511, 512, 513, 1023, 3284, 3285, 3286, 4095, 4096, file.len() - 1];
        for at in edges.into_iter().filter(|&at| used <= at && at < file.len()) {
            t.report.about(format!("byte {at} of {} is not zero", file.len()));
            let mut spoilt = file.clone();
            spoilt[at] = rng.nonzero_byte();
            form(rng, t, &spoilt, false);
        }
    }
    // What stands past the end of a file, in its last block, does not count.
    t.report.about("no file, and no bytes");
    form(rng, t, &[], false);
    form(rng, t, &[0; 512], false);
    form(rng, t, &[0xFF; 600], false);
}

/// Volumes with any file, and any puts and gets.
pub fn run(rng: &mut Rng, _: u64, t: &mut Tester) {
    let count = rng.between(1, 16);
    let first = rng.pick(&[1, 1, 2, 300, u32::MAX - 15, u32::MAX - count as u32, u32::MAX - 40]);
    let most = rng.pick(&[3, 40, 200]);
    let size = rng.pick(&[0, 0, 0, 600, 4000, 9000]);
    let mut file = file_of(&some(rng, first, count, most), size);
    let spoilt = rng.once_in(6);
    if spoilt {
        let at = rng.below(file.len());
        file[at] ^= 1 << rng.below(8);
    }
    let what = match rng.below(8) {
        0 => Standing::Nothing,
        1 => Standing::Folder,
        _ => Standing::File(file),
    };
    let free = rng.pick(&[None, None, Some(0), Some(1), Some(2)]);
    let open = !rng.once_in(4);
    let (image, home) = volume(rng, &what, open, free);
    let journal = if rng.once_in(3) { journals::any(rng, &image) } else { roomy(rng, &image) };
    let state = State { image, journal };
    t.report.about(format!("{count} records from {first} on, {free:?} free, slots {open}"));
    let length = rng.below(202);
    put_and_ask(rng, t, &state, &home, length);
    for _ in 0..4 {
        t.change(&state, &any_put(rng, &state.image));
        t.get(&state.image, &any_get(rng, &state.image));
    }
    exact_room(rng, t, &state, &home, length);
    exact_blocks(rng, t);
}

/// A journal with just the room for a put's record, and with less.
fn exact_room(rng: &mut Rng, t: &mut Tester, state: &State, home: &Home, length: usize) {
    let change = put(rng, home, length);
    let image = &state.image;
    let journal = reference::start(journals::room_for_all(image)).unwrap();
    let record = match reference::apply(&State { journal, image: image.clone() }, &change) {
        Ok(applied) => applied.record as usize,
        Err(_) => return,
    };
    for less in [0, 1, 4, 516, record] {
        t.report.about(format!("data of {length} bytes, journal {less} short"));
        let journal = journals::with_records(rng, image, 2, record - less);
        let number = t.change(&State { image: image.clone(), journal }, &change);
        t.report.agree("plan", number, if less == 0 { 0 } else { 15 });
    }
}

/// A file that fills its blocks to so many bytes before their end: the put that
/// just fits needs no block, and one byte more needs one.
fn exact_blocks(rng: &mut Rng, t: &mut Tester) {
    let (count, left) = (rng.between(1, 15), rng.between(5, 205));
    let mut all = some(rng, 1, count, 200);
    all[count - 1].data.clear();
    let wanted = (2 * BLOCK - left - file_of(&all, 0).len() % BLOCK) % BLOCK;
    if wanted > MAX_SETTINGS {
        return;
    }
    all[count - 1].data = rng.bytes(wanted);
    for (more, free, expected) in [(0, 0, 0), (1, 0, 14), (1, 1, 0)] {
        let length = left - 5 + more;
        if length > MAX_SETTINGS {
            continue;
        }
        t.report.about(format!("{left} bytes left, data of {length}, {free} blocks"));
        let (image, home) = volume(rng, &Standing::File(file_of(&all, 0)), true, Some(free));
        let state = State { journal: roomy(rng, &image), image };
        let number = put_and_ask(rng, t, &state, &home, length);
        t.report.agree("plan", number, expected);
    }
}

/// Every combination of reasons to refuse: the first in their order must win.
pub fn order(rng: &mut Rng, _: u64, t: &mut Tester) {
    const REASONS: [u32; 11] = [1, 8, 22, 17, 10, 11, 24, 25, 13, 14, 15];
    for mask in 0..1u32 << REASONS.len() {
        let chosen = REASONS.iter().enumerate().filter(|(i, _)| mask >> i & 1 == 1);
        let reasons: Vec<u32> = chosen.map(|(_, &reason)| reason).collect();
        // What stands there is a folder, a file, or nothing yet.
        if !reasons.contains(&11) || !reasons.iter().any(|r| [24, 25].contains(r)) {
            t.report.about(format!("put, reasons {reasons:?}"));
            put_in_order(rng, t, &reasons);
        }
    }
    gets_in_order(rng, t);
}

fn put_in_order(rng: &mut Rng, t: &mut Tester, reasons: &[u32]) {
    let has = |reason: u32| reasons.contains(&reason);
    let file = has(24) || has(25) || (!has(13) && rng.once_in(2));
    let what = match (has(11), file) {
        (true, _) => Standing::Folder,
        (_, true) => Standing::File(refused_file(rng, has(24), has(25))),
        _ => Standing::Nothing,
    };
    let (mut image, home) = volume(rng, &what, !has(13), has(14).then_some(0));
    let spare = if has(15) { rng.below(1036) } else { journals::room_for_all(&image) };
    let mut journal = journals::with_records(rng, &image, 1, spare);
    if has(8) {
        journal[0] = rng.pick(&[0, 2]);
    }
    // With 22 it is the data, the serial number or the directory that is bad.
    let bad = if has(22) { rng.between(1, 3) } else { 0 };
    let data = vec![9; if bad == 1 { rng.between(201, 700) } else { 200 }];
    let serial = if bad == 2 { bad_serial(rng) } else { SERIAL.to_vec() };
    let directory = home_for(rng, &image, home, [bad == 3, has(17), has(10)]);
    let stage = if has(1) { damage::any(rng, &mut image).stage } else { 0 };
    let change = Change::Put(Put { directory, serial, data, time: 4 });
    let number = t.change(&State { image, journal }, &change);
    // Where there is a file, a full root is no reason.
    let first = reasons.iter().find(|&&reason| reason != 13 || matches!(what, Standing::Nothing));
    let expected = first.map_or(0, |&reason| if reason == 1 { stage } else { reason });
    t.report.agree("plan", number, expected);
}

/// The directory of a call, if it is to be refused for it: of no form, of too many
/// levels, or not there.
fn home_for(rng: &mut Rng, image: &[u8], home: Home, refused: [bool; 3]) -> Home {
    match refused {
        [true, _, _] => Some(bad_home(rng)),
        [_, true, _] => Some(deep_path(rng, image, Want::Directory)),
        [_, _, true] => Some(lost_path(rng, image, Want::Directory)),
        _ => home,
    }
}

/// A file whose blocks are full, so that a put of 200 bytes needs one more.
fn refused_file(rng: &mut Rng, broken: bool, used_up: bool) -> Vec<u8> {
    let count = 2;
    let first = if used_up { u32::MAX - 1 } else { rng.pick(&[1, 50, u32::MAX - 2]) };
    let mut all = some(rng, first, count, 0);
    all[0].data = vec![1; 200];
    all[1].data = vec![2; 200];
    let mut file = file_of(&all, BLOCK);
    if broken {
        let at = rng.pick(&[0, 1, 5, 6, 9, BLOCK - 1]);
        file[at] ^= 1 << rng.below(8);
        file[BLOCK - 2] |= 1;
    }
    file
}

fn gets_in_order(rng: &mut Rng, t: &mut Tester) {
    let reasons = [1, 22, 17, 10, 24, 23];
    for mask in 0..1u32 << reasons.len() {
        let has = |reason: u32| {
            let i = reasons.iter().position(|&r| r == reason).unwrap();
            mask >> i & 1 == 1
        };
        t.report.about(format!("get, reasons {mask:06b}"));
        let what = match (has(10), rng.once_in(2)) {
            (true, true) => Standing::Folder,
            (true, false) => Standing::Nothing,
            _ => Standing::File(refused_file(rng, has(24), true)),
        };
        let (mut image, home) = volume(rng, &what, true, None);
        let bad = if has(22) { rng.between(1, 3) } else { 0 };
        let length = if bad == 1 { rng.below(200) } else { rng.between(200, 400) };
        let serial = if bad == 2 { bad_serial(rng) } else { SERIAL.to_vec() };
        let lost = has(10) && rng.once_in(2);
        let directory = home_for(rng, &image, home, [bad == 3, has(17), lost]);
        let which = match (has(23), rng.below(3)) {
            (true, 0) => Which::Number(0),
            (true, _) => Which::Number(u32::MAX - 2),
            (_, 0) => Which::Number(u32::MAX - 1),
            (_, 1) => Which::Number(u32::MAX),
            _ => Which::Latest,
        };
        let stage = if has(1) { damage::any(rng, &mut image).stage } else { 0 };
        let first = reasons.iter().find(|&&reason| has(reason));
        let expected = first.map_or(0, |&reason| if reason == 1 { stage } else { reason });
        let buffer = rng.bytes(length);
        let number = t.get(&image, &Get { directory, serial, which, buffer });
        t.report.agree("plan", number, expected);
    }
}

/// A file of thousands of blocks, all but its records zeros: all of them are
/// named. One byte at its end that is none, and a journal one byte too short.
pub fn long(rng: &mut Rng, _: u64, t: &mut Tester) {
    let size = rng.between(2000, 5000) * BLOCK - rng.below(BLOCK);
    let mut file = file_of(&some(rng, 1, 16, 200), size);
    t.report.about(format!("a file of {size} bytes"));
    let (image, home) = volume(rng, &Standing::File(file.clone()), true, Some(0));
    let record = 4 + 516 * (1 + size.div_ceil(BLOCK));
    let state = State { journal: reference::start(5 + record).unwrap(), image };
    let number = put_and_ask(rng, t, &state, &home, 200);
    t.report.agree("plan", number, 0);
    let short = State { journal: reference::start(4 + record).unwrap(), ..state.clone() };
    let number = t.change(&short, &put(rng, &home, 0));
    t.report.agree("plan", number, 15);
    *file.last_mut().unwrap() = 1;
    let (image, home) = volume(rng, &Standing::File(file), true, None);
    let number = put_and_ask(rng, t, &State { image, ..state }, &home, 200);
    t.report.agree("plan", number, 24);
}

/// The same few serial numbers in the root and in three other directories: after
/// each put every other answer is as it was; then undo after undo.
pub fn apart(rng: &mut Rng, _: u64, t: &mut Tester) {
    let homes = [&b"/"[..], b"/a", b"/b", b"/a/b"];
    let serials = [&b"SN1"[..], b"SN2", b"a"];
    let mut state = fresh(160, 4);
    for home in &homes[1..] {
        state = reference::apply(&state, &create_directory(home, 2)).unwrap().state;
    }
    let mut pair = t.lend_pair(&state);
    for i in 0..rng.between(20, 50) {
        let (home, serial) = (rng.pick(&homes), rng.pick(&serials));
        let length = rng.below(121);
        t.report.about(format!("put {i} in {}", home.escape_ascii()));
        let before = all_answers(&pair, &homes, &serials);
        let (directory, serial) = (Some(home.to_vec()), serial.to_vec());
        let change =
            Put { directory, serial: serial.clone(), data: rng.bytes(length), time: i as u64 };
        let number = t.change_in(&mut pair, &state, &Change::Put(change));
        state = pair.content();
        let after = all_answers(&pair, &homes, &serials);
        for ((at, old), (_, new)) in before.iter().zip(&after) {
            let own = *at == (home.to_vec(), serial.clone());
            t.report.agree("an answer changes", old != new, own && number == 0);
        }
    }
    while t.undo_in(&mut pair, &state) == 0 {
        state = pair.content();
    }
    t.report.agree("the start again", pair.content() == fresh(160, 4), true);
}

/// What the library answers for the latest revision at each directory and serial
/// number.
fn all_answers(
    pair: &Pair,
    homes: &[&[u8]],
    serials: &[&[u8]],
) -> Vec<((Vec<u8>, Vec<u8>), (ffi::Got, Vec<u8>))> {
    let ask = |home: &[u8], serial: &[u8]| {
        let (home, serial) = (Lent::new(home, 1), Lent::new(serial, 2));
        let mut buffer = Lent::new(&[0xA5; 200], 3);
        let got = library::get_in(&pair.image, &home, &serial, Which::Latest, &mut buffer);
        (got, buffer.content().to_vec())
    };
    let places = homes.iter().flat_map(|home| serials.iter().map(move |serial| (*home, *serial)));
    places.map(|(home, serial)| ((home.to_vec(), serial.to_vec()), ask(home, serial))).collect()
}
