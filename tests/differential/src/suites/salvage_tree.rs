//! Salvage of broken volumes with directories. What a salvage promises is asked of
//! the library's own result, beside the comparison with the reference.

use super::salvage::{any_value, spoil, tear};
use crate::damage;
use crate::images::{self, Fill, Folders};
use crate::models::MODELS;
use crate::report::{At, Met};
use crate::rng::Rng;
use crate::survival::{self, Count, Extent};
use crate::tester::Tester;
use crate::tree::{items, root, Item};
use reference::layout::*;
use reference::salvage::code;
use reference::salvage_tree::tree_code;
use reference::TreeSalvaged;

/// Random damage to small trees.
pub fn run(rng: &mut Rng, _: u64, t: &mut Tester) {
    let n = match rng.below(16) {
        0 => rng.pick(&[127, 128, 129, 130, 256, 257]),
        1 => rng.between(40, 300),
        _ => rng.between(3, 40),
    };
    let sound = sound_tree(rng, n);
    let mut image = sound.clone();
    let how = rng.below(16);
    t.report.about(format!("n {n}, damage of kind {how}"));
    match how {
        0 => {}
        1 => tear(rng, &mut image),
        2 => {
            damage::any(rng, &mut image);
        }
        3 => image = wild(rng, n),
        4 => image = rng.bytes(n * BLOCK),
        5 => another_length(rng, &mut image),
        _ => {
            for _ in 0..rng.pick(&[1, 1, 2, 2, 3, 5, 12]) {
                spoil_tree(rng, &sound, &mut image);
            }
        }
    }
    let report = any_report(rng, block_count(&image));
    salvage(rng, t, &image, &report);
    if rng.once_in(200) {
        every_report(rng, t, &image);
    }
}

/// Every clause of the check, broken in trees.
pub fn clauses(rng: &mut Rng, _: u64, t: &mut Tester) {
    for clause in damage::clauses() {
        for _ in 0..4 {
            let n = images::small_n(rng);
            let mut image = sound_tree(rng, n);
            if (clause.make)(rng, &mut image).is_some() {
                t.report.about(format!("n {n}, stage {}: {}", clause.stage, clause.what));
                let report = any_report(rng, block_count(&image));
                salvage(rng, t, &image, &report);
            }
        }
    }
}

/// Every length from 0 blocks on, those where the table grows, and lengths that are
/// none; reports of every length around 4n; and every set of reasons to refuse.
pub fn lengths(rng: &mut Rng, _: u64, t: &mut Tester) {
    for n in (0..=40).chain([127, 128, 129, 255, 256, 257, 383, 384, 385]) {
        t.report.about(format!("n {n}"));
        let noise = rng.bytes(n * BLOCK);
        salvage(rng, t, &noise, &vec![7; 4 * n]);
        salvage(rng, t, &vec![0; n * BLOCK], &vec![7; 4 * n]);
        if n < MIN_BLOCKS {
            continue;
        }
        let image = wild(rng, n);
        salvage(rng, t, &image, &vec![7; 4 * n]);
        let sound = images::of(rng, n);
        salvage(rng, t, &sound, &vec![7; 4 * n]);
        every_report(rng, t, &image);
        for byte in [1, 511] {
            t.salvage_tree(&[&sound[..], &vec![0; byte]].concat(), &vec![7; 4 * n + 4]);
            t.salvage_tree(&sound[..sound.len() - byte], &vec![7; 4 * n]);
        }
        refusals(rng, t, &sound);
    }
    for (m, n) in [(2, 5), (3, 5), (5, 5), (65_535, 5), (65_536, 5), (65_537, 5), (3, 300)] {
        t.report.about(format!("a header of {m} blocks on {n}"));
        let mut image = images::of(rng, n);
        put_length(&mut image, m);
        salvage(rng, t, &image, &vec![7; 4 * n]);
    }
}

/// Length, header and report, each right or wrong: the lowest refusal is given.
fn refusals(rng: &mut Rng, t: &mut Tester, sound: &[u8]) {
    let n = block_count(sound);
    for wrong in 0..8 {
        let mut image = sound.to_vec();
        if wrong & 2 != 0 {
            let m = rng.pick(&[n + 1, n + 128, MIN_BLOCKS, MAX_BLOCKS]);
            put_length(&mut image, m);
        }
        if wrong & 1 != 0 {
            image.pop();
        }
        let len = if wrong & 4 != 0 { rng.below(4 * n) } else { 4 * n };
        t.salvage_tree(&image, &rng.bytes(len));
    }
}

/// Puts the numbers of a volume of m blocks into the header.
fn put_length(image: &mut [u8], m: usize) {
    put_number(image, header::TOTAL, m as u32);
    put_number(image, header::TABLE_BLOCKS, table_blocks(m) as u32);
    put_number(image, header::ROOT, root_block(m) as u32);
}

/// The greatest lengths, and those where the library changes from small volumes to
/// large ones; the largest directories on all levels; chains of all blocks.
pub fn largest(rng: &mut Rng, _: u64, t: &mut Tester) {
    for n in [4096, 4097, MAX_BLOCKS - 1, MAX_BLOCKS] {
        let sound = images::build_tree(rng, n, 3, Fill::Some, Folders::Many);
        t.report.about(format!("n {n}"));
        salvage(rng, t, &sound, &vec![7; 4 * n]);
        let mut image = sound.clone();
        for _ in 0..12 {
            spoil_tree(rng, &sound, &mut image);
        }
        salvage(rng, t, &image, &vec![7; 4 * n + 9]);
        t.salvage_tree(&image, &vec![7; 4 * n - 1]);
    }
    t.report.about("a block too many");
    t.salvage_tree(&vec![0; BLOCK * (MAX_BLOCKS + 1)], &vec![7; 4 * (MAX_BLOCKS + 1)]);
    t.report.about("the largest directories");
    let sound = images::deepest(rng, Fill::Slots);
    let mut image = sound.clone();
    for _ in 0..12 {
        spoil_tree(rng, &sound, &mut image);
    }
    salvage(rng, t, &image, &vec![7; 4 * MAX_BLOCKS]);
    t.report.about("a chain of all blocks");
    salvage(rng, t, &long_chain(), &vec![7; 4 * MAX_BLOCKS]);
}

/// The largest image, all of whose blocks are one chain behind a root of 64 blocks:
/// each of its files is said to have more of them than there are, but for the last.
fn long_chain() -> Vec<u8> {
    let n = MAX_BLOCKS;
    let first = root_block(n);
    let mut image = vec![0; n * BLOCK];
    let blocks: Vec<usize> = (first..first + MAX_DIRECTORY_BLOCKS).collect();
    images::put_directory(&mut image, &blocks, first);
    let behind = first + MAX_DIRECTORY_BLOCKS;
    link(&mut image, &(behind..n).collect::<Vec<_>>());
    let slots = slot_offsets(&image, first);
    for (i, &at) in slots[1..slots.len() - 1].iter().enumerate() {
        let count = if i < 2 { n - behind + 1 } else { n - behind - 2 };
        image[at + slot::TYPE] = 0x60;
        put_number(&mut image, at + slot::FIRST, (behind + i % 2) as u32);
        put_number(&mut image, at + slot::SIZE, (count * BLOCK) as u32);
        put_number(&mut image, at + slot::BLOCKS, count as u32);
        image[at + slot::NAME..at + SLOT].copy_from_slice(&name_field(&[b'a', 1 + i as u8]));
    }
    image
}

/// Volumes without directories: the first salvage gives the same image and codes.
pub fn flat(rng: &mut Rng, _: u64, t: &mut Tester) {
    let n = images::small_n(rng);
    let sound = images::flat(rng, n);
    let mut image = sound.clone();
    t.report.about(format!("n {n}, without directories"));
    match rng.below(8) {
        0 => tear(rng, &mut image),
        _ => (0..rng.pick(&[1, 2, 3, 9])).for_each(|_| spoil(rng, &sound, &mut image)),
    }
    let report = rng.bytes(4 * n);
    salvage(rng, t, &image, &report);
    let Some(first) = t.salvage(&image, &[7; 256]) else {
        return;
    };
    let Some(second) = t.salvage_tree(&image, &report) else {
        return;
    };
    if second.report.contains(&tree_code::HUNG) {
        return;
    }
    t.report.agree("the first salvage's image", second.image == first.image, true);
    let slots = slot_offsets(&image, root(&image));
    let codes: Vec<u8> = slots.iter().map(|at| second.report[at / SLOT]).collect();
    t.report.agree("the first salvage's codes", &codes[..], &first.report[..slots.len()]);
}

/// 900 boxes, damaged by each kind: both sides keep the same, and enough of it.
pub fn survival(rng: &mut Rng, _: u64, t: &mut Tester) {
    let extent = Extent { volumes: 8, blocks: 4096, times: 4 };
    let counts = kept(rng, t, &extent);
    for (model, count) in MODELS.iter().zip(&counts) {
        t.report.about(format!("kept {:.2} % of {}", count.percent(), model.kept));
        t.report.agree(model.name, count.percent() >= model.kept - 0.5, true);
    }
}

/// What the library keeps of damaged volumes.
pub fn kept(rng: &mut Rng, t: &mut Tester, extent: &Extent) -> Vec<Count> {
    survival::measure(rng, extent, |model, image| {
        t.report.about(format!("900 boxes, {}", model.name));
        let after = t.salvage_tree(image, &vec![7; 4 * extent.blocks]);
        let sound = after.filter(|after| reference::check(&after.image) == 0);
        t.report.agree("sound by the reference", sound.is_some(), true);
        sound.map(|after| after.image)
    })
}

/// A sound volume, nearly always with directories.
fn sound_tree(rng: &mut Rng, n: usize) -> Vec<u8> {
    if rng.once_in(4) {
        return images::of(rng, n);
    }
    let most = (n - table_blocks(n) - 1).min(4);
    let d = rng.between(1, most);
    let fill = rng.pick(&[Fill::Some, Fill::Some, Fill::Slots, Fill::Blocks]);
    let folders = rng.pick(&[Folders::Few, Folders::Many, Folders::Many, Folders::Deep]);
    images::build_tree(rng, n, d, fill, folders)
}

/// A report that is long enough, but for some; its bytes are random.
fn any_report(rng: &mut Rng, n: usize) -> Vec<u8> {
    let enough = 4 * n;
    let len = match rng.below(24) {
        0 if n > 0 => rng.below(enough),
        1 if n > 0 => enough - 1,
        2 => enough + 1,
        3 => enough + rng.below(600),
        _ => enough,
    };
    rng.bytes(len)
}

/// Reports of every length up to some more than are needed; of large volumes those
/// around that length.
fn every_report(rng: &mut Rng, t: &mut Tester, image: &[u8]) {
    let enough = 4 * block_count(image);
    for len in (0..=16).chain(enough.saturating_sub(16).max(17)..=enough + 5) {
        t.salvage_tree(image, &rng.bytes(len));
    }
}

/// One salvage, and what holds of it.
fn salvage(rng: &mut Rng, t: &mut Tester, before: &[u8], report: &[u8]) {
    let Some(after) = t.salvage_tree(before, report) else {
        return;
    };
    t.check(&after.image);
    let sound = reference::check(&after.image) == 0;
    t.report.agree("sound by the reference", sound, true);
    if !sound {
        return;
    }
    let codes = 4 * block_count(before);
    t.report.agree("the rest of the report", &after.report[codes..], &report[codes..]);
    let quiet = after.report[..codes].iter().all(|&code| code == code::KEPT);
    t.report.agree("the report tells", quiet, after.image == before);
    t.report.agree("only a sound image stays", quiet, reference::check(before) == 0);
    let other = any_report(rng, block_count(before));
    if let Some(again) = t.salvage_tree(&after.image, &other) {
        let quiet = again.report[..codes].iter().all(|&code| code == code::KEPT);
        let nothing = quiet && (again.dropped, again.freed) == (0, 0);
        t.report.agree("twice is once", nothing && again.image == after.image, true);
    }
    let faults = [slots_as_coded(t, before, &after), blocks_as_coded(t, before, &after)].concat();
    t.report.agree("what stays", faults, vec![]);
}

/// The slots of all directories that their codes do not tell of.
fn slots_as_coded(t: &mut Tester, before: &[u8], after: &TreeSalvaged) -> Vec<String> {
    let mut faults = Vec::new();
    let mut dropped = 0;
    for home in tree(&after.image) {
        let offsets = slot_offsets(&after.image, home.first);
        let end = offsets.len() - 1;
        for (i, &at) in offsets.iter().enumerate() {
            let place = match after.image[at + slot::TYPE] {
                _ if i == 0 => At::SelfSlot,
                _ if i == end => At::EndSlot,
                slot::TYPE_FREE => At::Free,
                kind if is_file_type(kind) => At::File,
                _ => At::Directory,
            };
            let code = after.report[at / SLOT];
            let was_free = before[at + slot::TYPE] == slot::TYPE_FREE;
            t.report.met(Met::Tree(place, code));
            if code == tree_code::HUNG && !was_free {
                t.report.met(Met::HungOver);
                dropped += 1;
            }
            dropped += u32::from(code == code::BAD_ENTRY || code == code::BAD_CHAIN);
            let expected = expected_slot(place, code, &before[at..at + SLOT], after, at);
            if expected.as_deref() != Some(&after.image[at..at + SLOT]) {
                faults.push(format!("slot {i} of {}, code {code}, {place:?}", home.first));
            }
        }
    }
    if dropped != after.dropped {
        faults.push(format!("{dropped} codes of dropped entries"));
    }
    faults
}

/// What a slot must be by its code, as far as the code says: the bytes that the code
/// lets change are taken from the result. None for a code that cannot stand there.
fn expected_slot(
    place: At,
    code: u8,
    before: &[u8],
    after: &TreeSalvaged,
    at: usize,
) -> Option<Vec<u8>> {
    let result = &after.image[at..at + SLOT];
    let mut expected = before.to_vec();
    let mut free = |range: std::ops::Range<usize>| {
        expected[range.clone()].copy_from_slice(&result[range]);
    };
    match (place, code) {
        (_, code::KEPT) | (At::File, code::PUT_RIGHT) => {}
        (At::Free, code::BAD_ENTRY | code::BAD_CHAIN) => return Some(vec![0; SLOT]),
        (At::SelfSlot, code::PUT_RIGHT) => {
            free(slot::TYPE..slot::TYPE + 1);
            free(slot::SELF_BLOCK..slot::BLOCKS + 4);
            free(slot::NAME..SLOT);
        }
        (At::EndSlot, code::PUT_RIGHT) => free(slot::TYPE..slot::TYPE + 1),
        (At::Directory, code::PUT_RIGHT) => free(slot::BLOCKS..slot::BLOCKS + 4),
        (At::Directory, tree_code::HUNG) => return Some(result.to_vec()),
        (At::File, code::BAD_ATTRIBUTES) => expected[slot::ATTRIBUTE_BLOCK..slot::FLAGS].fill(0),
        _ => return None,
    }
    Some(expected)
}

/// The blocks of no directory, and the header, that did not stay as they must: a
/// block in use keeps its bytes, one that was freed is blank and has code 5, one that
/// was free is not touched.
fn blocks_as_coded(t: &mut Tester, before: &[u8], after: &TreeSalvaged) -> Vec<String> {
    let TreeSalvaged { image, report, freed, .. } = after;
    let n = block_count(before);
    let mut of_directory = vec![false; n];
    for home in tree(image) {
        for b in directory_chain(image, home.first) {
            of_directory[b] = true;
        }
    }
    let mut faults = Vec::new();
    let mut count = 0;
    for b in (table_blocks(n) + 1..n).filter(|&b| !of_directory[b]) {
        let place = b * BLOCK..(b + 1) * BLOCK;
        let is_freed = entry(before, b) != 0 && entry(image, b) == 0;
        let expected = if is_freed { &[0; BLOCK] } else { &before[place.clone()] };
        let code = if is_freed { tree_code::FREED } else { code::KEPT };
        if image[place] != *expected || report[4 * b..4 * b + 4] != [code, 0, 0, 0] {
            faults.push(format!("block {b}, freed {is_freed}"));
        }
        if is_freed {
            t.report.met(Met::Tree(At::Block, tree_code::FREED));
            count += 1;
        }
    }
    if count != *freed {
        faults.push(format!("{count} blocks freed"));
    }
    t.report.met(Met::Tree(At::Header, report[0]));
    let table: Vec<usize> = (0..=table_blocks(n)).collect();
    let elsewhere = table.iter().copied().chain(n..table_blocks(n) * ENTRIES_PER_TABLE_BLOCK);
    let changed = before[..32] != image[..32]
        || elsewhere.into_iter().any(|b| entry(before, b) != entry(image, b));
    let rest = table.iter().skip(1).all(|b| report[4 * b..4 * b + 4] == [0; 4]);
    if before[32..BLOCK] != image[32..BLOCK] || (report[0] == code::PUT_RIGHT) != changed || !rest {
        faults.push("the header".to_string());
    }
    faults
}

/// A header that is whole, of another length: the image was cut or got longer.
fn another_length(rng: &mut Rng, image: &mut Vec<u8>) {
    let n = block_count(image);
    let m = rng.pick(&[n.saturating_sub(1), n + 1, n / 2, n + 200, MIN_BLOCKS, n]);
    image.resize(m * BLOCK, 0);
    // Now and then the header is not whole.
    if rng.once_in(3) && !image.is_empty() {
        image[rng.below(32)] ^= 1 << rng.below(8);
    }
}

/// One damage of an image that was sound once.
fn spoil_tree(rng: &mut Rng, sound: &[u8], image: &mut [u8]) {
    let items = items(sound);
    let homes = tree(sound);
    let home = rng.pick(&homes);
    let blocks = directory_chain(sound, home.first);
    if items.is_empty() || rng.once_in(3) {
        spoil_directory(rng, sound, image, &home, &blocks);
    } else if rng.once_in(3) {
        spoil_rest(rng, sound, image, &blocks);
    } else {
        let item = rng.pick(&items);
        spoil_item(rng, sound, image, &item, &items);
    }
}

/// Damage to a directory itself.
fn spoil_directory(
    rng: &mut Rng,
    sound: &[u8],
    image: &mut [u8],
    home: &Directory,
    blocks: &[usize],
) {
    let value = any_value(rng, sound);
    let own = home.first * BLOCK;
    let end = blocks[blocks.len() - 1] * BLOCK + 3 * SLOT;
    let d = rng.pick(&[0, 1, 2, 3, blocks.len() as u32 + 1, 64, 65, value]);
    match rng.below(9) {
        0 => image[own] = rng.pick(&[0x00, 0x02, 0x20, 0x60, 0xFF]),
        1 => put_number(image, own + slot::SELF_BLOCK, value),
        2 => put_number(image, own + slot::SELF_PARENT, rng.pick(&[value, root(sound) as u32])),
        3 => put_number(image, own + slot::BLOCKS, d),
        4 => image[own + slot::NAME + rng.pick(&[0, 0, 1, 79])] = rng.pick(&[0, b'/', b'a', b'z']),
        5 | 6 => set_entry(image, rng.pick(blocks), value),
        7 => image[end] = rng.pick(&[0x00, 0x01, 0x20, 0x60, 0xFE]),
        _ => {
            let b = rng.pick(blocks);
            let bytes = if rng.once_in(2) { vec![0; BLOCK] } else { rng.bytes(BLOCK) };
            image[b * BLOCK..(b + 1) * BLOCK].copy_from_slice(&bytes);
        }
    }
}

/// Damage to the entry of a file or directory, or to its chains.
fn spoil_item(rng: &mut Rng, sound: &[u8], image: &mut [u8], item: &Item, items: &[Item]) {
    let (value, at) = (any_value(rng, sound), item.at);
    let chain = item.chain(sound);
    match rng.below(10) {
        0 | 1 => put_number(image, at + slot::FIRST, value),
        2 => {
            let more = rng.pick(&[1, 2, 3, 64, 65, u32::MAX]);
            put_number(image, at + slot::BLOCKS, more);
            if item.is_file() {
                put_number(image, at + slot::SIZE, more.wrapping_mul(512));
            }
        }
        3 => put_number(image, at + slot::ATTRIBUTE_BLOCK, value),
        4 => put_number(image, at + slot::ATTRIBUTE_SIZE, rng.below(10) as u32),
        5 => image[at + rng.pick(&[0, 4, 7, 11, 15, 35, 39, 48, 127])] = rng.byte(),
        6 => damage::rename(image, item, &name_field(&rng.pick(items).name)),
        7 => image[at..at + SLOT].fill(0),
        8 if !chain.is_empty() => set_entry(image, rng.pick(&chain), value),
        _ => copy(rng, sound, image, item),
    }
}

/// A second entry for the same blocks, in any slot of any directory.
fn copy(rng: &mut Rng, sound: &[u8], image: &mut [u8], item: &Item) {
    let home = rng.pick(&tree(sound));
    let slots = slot_offsets(sound, home.first);
    let to = slots[rng.between(1, slots.len() - 2)];
    image.copy_within(item.at..item.at + SLOT, to);
    if !rng.once_in(4) {
        image[to + slot::NAME..to + SLOT].copy_from_slice(&name_field(&images::good_name(rng)));
    }
}

/// Damage to header and table, and to blocks anywhere.
fn spoil_rest(rng: &mut Rng, sound: &[u8], image: &mut [u8], blocks: &[usize]) {
    let (n, t) = (block_count(sound), table_blocks(block_count(sound)));
    let value = any_value(rng, sound);
    let b = rng.between(t + 1, n - 1);
    match rng.below(8) {
        0 => image[rng.below(32)] ^= 1 << rng.below(8),
        1 => image[..32].fill(rng.byte()),
        2 => set_entry(image, rng.below(t * ENTRIES_PER_TABLE_BLOCK), value),
        3 => image[BLOCK * rng.between(1, t)..][..BLOCK].fill(0),
        4 => set_entry(image, b, value),
        5 => {
            // A directory's block lies elsewhere, or a second time.
            let from = rng.pick(blocks);
            image.copy_within(from * BLOCK..(from + 1) * BLOCK, b * BLOCK);
            set_entry(image, b, rng.pick(&[1, value]));
        }
        6 => lost_directory(rng, image, b),
        _ => image[b * BLOCK + rng.below(BLOCK)] = rng.byte(),
    }
}

/// Makes a block that looks like the first of a directory of the root.
fn lost_directory(rng: &mut Rng, image: &mut [u8], b: usize) {
    let at = b * BLOCK;
    let parent = root(image) as u32;
    image[at + slot::TYPE] = slot::TYPE_SELF;
    put_number(image, at + slot::SELF_BLOCK, b as u32);
    put_number(image, at + slot::SELF_PARENT, parent);
    put_number(image, at + slot::BLOCKS, rng.between(0, 4) as u32);
    let name = name_field(&images::good_name(rng));
    image[at + slot::NAME..at + SLOT].copy_from_slice(&name);
    if entry(image, b) == 0 && !rng.once_in(4) {
        set_entry(image, b, 1);
    }
}

/// A volume whose blocks all look like directories, with entries that lead anywhere.
fn wild(rng: &mut Rng, n: usize) -> Vec<u8> {
    let t = table_blocks(n);
    let mut image = vec![0; n * BLOCK];
    if !rng.once_in(3) {
        images::put_header(&mut image);
    }
    for b in 0..t * ENTRIES_PER_TABLE_BLOCK {
        let any = rng.between(t + 1, n) as u32;
        let next = b as u32 + 1;
        set_entry(&mut image, b, rng.pick(&[0, 1, 1, any, any, next]));
    }
    for b in t + 1..n {
        for i in 0..SLOTS_PER_BLOCK {
            wild_slot(rng, &mut image, b, i, t);
        }
    }
    image
}

fn wild_slot(rng: &mut Rng, image: &mut [u8], b: usize, i: usize, t: usize) {
    let n = block_count(image);
    let at = b * BLOCK + i * SLOT;
    let any = rng.between(t + 1, n) as u32;
    let blocks = rng.below(5) as u32;
    let name = [rng.pick(&[b'a', b'b', b'c', b'd', b'e', b'/'])];
    image[at + slot::NAME..at + SLOT].copy_from_slice(&name_field(&name));
    put_number(image, at + slot::BLOCKS, blocks);
    if i == 0 && !rng.once_in(3) {
        image[at] = slot::TYPE_SELF;
        put_number(image, at + slot::SELF_BLOCK, rng.pick(&[b as u32, b as u32, any]));
        put_number(image, at + slot::SELF_PARENT, rng.pick(&[t as u32 + 1, any]));
        return;
    }
    let kind = rng.pick(&[0x00, 0x01, 0x20, 0x2F, 0x60, 0x60, 0x61, 0xFF, 0xFF]);
    image[at] = kind;
    put_number(image, at + slot::FIRST, if is_file_type(kind) && blocks == 0 { 0 } else { any });
    if is_file_type(kind) {
        put_number(image, at + slot::SIZE, 512 * blocks);
        if rng.once_in(4) {
            put_number(image, at + slot::ATTRIBUTE_BLOCK, any);
            put_number(image, at + slot::ATTRIBUTE_SIZE, rng.between(1, 3) as u32);
        }
    }
}
