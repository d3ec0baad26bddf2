//! Salvage of broken volumes. What a salvage promises is asked of the library's
//! own result, beside the comparison with the reference.

use crate::arguments::changes;
use crate::damage::*;
use crate::images;
use crate::report::Met;
use crate::rng::Rng;
use crate::tester::Tester;
use crate::tree::{files, in_root, root, root_chain, Item};
use reference::layout::*;
use reference::salvage::code;
use reference::{Change, Salvaged, State};
use std::collections::BTreeSet;

/// Random damage to small volumes, nearly all of them without folders.
pub fn run(rng: &mut Rng, _: u64, t: &mut Tester) {
    let n = match rng.below(16) {
        0 => rng.pick(&[127, 128, 129, 130, 256, 257]),
        1 => rng.between(40, 300),
        _ => rng.between(3, 40),
    };
    let sound = if rng.once_in(50) { images::of(rng, n) } else { images::flat(rng, n) };
    let mut image = sound.clone();
    let how = rng.below(16);
    t.report.about(format!("n {n}, damage of kind {how}"));
    match how {
        0 => {}
        1 => tear(rng, &mut image),
        2 => {
            any(rng, &mut image);
        }
        _ => {
            for _ in 0..rng.pick(&[1, 1, 2, 2, 3, 5, 9]) {
                spoil(rng, &sound, &mut image);
            }
        }
    }
    if rng.once_in(30) {
        refusable(rng, &mut image);
    }
    let report = any_report(rng, &sound);
    salvage(rng, t, &image, &report);
    if rng.once_in(100) {
        every_report(rng, t, &sound, &image);
    }
}

/// Every clause of the check that a volume without folders can break.
pub fn clauses(rng: &mut Rng, _: u64, t: &mut Tester) {
    for clause in crate::damage::clauses() {
        for _ in 0..4 {
            let n = images::small_n(rng);
            let sound = images::flat(rng, n);
            let mut image = sound.clone();
            if (clause.make)(rng, &mut image).is_some() {
                t.report.about(format!("n {n}, stage {}: {}", clause.stage, clause.what));
                let report = any_report(rng, &sound);
                salvage(rng, t, &image, &report);
            }
        }
    }
}

/// The largest volumes, and those where the library changes from small ones to
/// large ones; and every report of the largest root.
pub fn largest(rng: &mut Rng, _: u64, t: &mut Tester) {
    for n in [4096, 4097, MAX_BLOCKS] {
        let sound = images::flat(rng, n);
        t.report.about(format!("n {n}"));
        salvage(rng, t, &sound, &[7; 256]);
        for spoilt in [1, 20] {
            let mut image = sound.clone();
            for _ in 0..spoilt {
                spoil(rng, &sound, &mut image);
            }
            salvage(rng, t, &image, &[7; 300]);
        }
    }
    t.report.about("a block too many");
    t.salvage(&vec![0; BLOCK * (MAX_BLOCKS + 1)], &[7; 256]);
    let d = MAX_DIRECTORY_BLOCKS;
    let sound = images::build_tree(rng, 300, d, images::Fill::Slots, images::Folders::None);
    let mut image = sound.clone();
    for _ in 0..20 {
        spoil(rng, &sound, &mut image);
    }
    t.report.about("the largest root");
    every_report(rng, t, &sound, &image);
}

/// A report that is long enough, but for some; its bytes are random.
fn any_report(rng: &mut Rng, sound: &[u8]) -> Vec<u8> {
    let slots = 4 * root_chain(sound).len();
    let len = match rng.below(20) {
        0 => rng.below(slots),
        1 => slots - 1,
        2..=7 => slots,
        8 => slots + 1,
        _ => rng.between(slots, 300),
    };
    rng.bytes(len)
}

/// Reports of every length up to one more than there are slots.
fn every_report(rng: &mut Rng, t: &mut Tester, sound: &[u8], image: &[u8]) {
    for len in 0..=4 * root_chain(sound).len() + 1 {
        let report = rng.bytes(len);
        t.salvage(image, &report);
    }
}

/// One salvage, and what holds of it.
fn salvage(rng: &mut Rng, t: &mut Tester, before: &[u8], report: &[u8]) {
    let Some(after) = t.salvage(before, report) else {
        return;
    };
    t.check(&after.image);
    t.report.agree("sound by the reference", reference::check(&after.image), 0);
    if reference::check(&after.image) != 0 {
        return;
    }
    let slots = slot_offsets(before, root(before));
    t.report.agree("the rest of the report", &after.report[slots.len()..], &report[slots.len()..]);
    let again = t.salvage(&after.image, report);
    let image = again.as_ref().map(|again| &again.image);
    t.report.agree("twice is once", image == Some(&after.image), true);
    let codes = again.as_ref().map(|again| &again.report[..slots.len()]);
    t.report.agree("nothing the second time", codes, Some(&vec![code::KEPT; slots.len()][..]));
    if reference::check(before) == 0 {
        t.report.agree("a sound image stays", after.image == *before, true);
    }
    let faults: Vec<String> =
        [slots_as_coded(t, before, &after, &slots), blocks_as_before(t, before, &after.image)]
            .concat();
    t.report.agree("what stays", faults, vec![]);
    read_back(rng, t, before, &after, &slots);
}

/// The slots that their codes do not tell of.
fn slots_as_coded(t: &mut Tester, before: &[u8], after: &Salvaged, slots: &[usize]) -> Vec<String> {
    let end = slots.len() - 1;
    let mut faults = Vec::new();
    for (i, &at) in slots.iter().enumerate() {
        let mut expected = before[at..at + SLOT].to_vec();
        match (after.report[i], i == end) {
            (code::KEPT, _) => {}
            (code::BAD_ENTRY | code::BAD_CHAIN, false) => expected.fill(0),
            (code::PUT_RIGHT, false) => {}
            (code::PUT_RIGHT, true) => expected[slot::TYPE] = slot::TYPE_END,
            (code::BAD_ATTRIBUTES, false) => {
                expected[slot::ATTRIBUTE_BLOCK..slot::FLAGS].fill(0);
            }
            (other, _) => faults.push(format!("slot {i} has code {other}")),
        }
        if after.image[at..at + SLOT] != expected {
            faults.push(format!("slot {i} is not what its code says"));
        }
        let in_use = before[at + slot::TYPE] != slot::TYPE_FREE;
        if (1..end).contains(&i) && in_use {
            t.report.met(Met::Code(after.report[i]));
        }
        if i == end && after.report[i] != code::KEPT {
            t.report.met(Met::EndType);
        }
    }
    faults
}

/// The blocks behind the root, and the header's parts, that did not stay as they
/// must: a block in use keeps its bytes, one that was freed is blank, one that was
/// free is not touched.
fn blocks_as_before(t: &mut Tester, before: &[u8], after: &[u8]) -> Vec<String> {
    let n = block_count(before);
    let root: BTreeSet<usize> = root_chain(before).into_iter().collect();
    let mut faults = Vec::new();
    for b in (table_blocks(n) + 1..n).filter(|b| !root.contains(b)) {
        let place = b * BLOCK..(b + 1) * BLOCK;
        let freed = entry(before, b) != 0 && entry(after, b) == 0;
        let expected = if freed { &[0; BLOCK] } else { &before[place.clone()] };
        if after[place] != *expected {
            faults.push(format!("block {b}, freed {freed}"));
        }
        if freed {
            t.report.met(Met::Freed);
        }
    }
    if before[..header::OCCUPIED] != after[..header::OCCUPIED]
        || before[header::ROOT..BLOCK] != after[header::ROOT..BLOCK]
    {
        faults.push("the header".to_string());
    }
    faults
}

/// Some kept files, read by the library: their bytes are those that the broken
/// image had for them.
fn read_back(rng: &mut Rng, t: &mut Tester, before: &[u8], after: &Salvaged, slots: &[usize]) {
    let mut kept = entries(&after.image, root(before));
    rng.shuffle(&mut kept);
    for (i, file) in kept.iter().enumerate() {
        let Some(chain) = chain(before, file.first, file.blocks as usize) else {
            t.report.agree("a kept file's chain", file.slot, usize::MAX);
            continue;
        };
        let last = chain.last().map_or(1, |&b| entry(before, b));
        if last == 0 {
            t.report.met(Met::FreeLast);
        }
        if last != 1 && after.report[file.slot] == code::BAD_ATTRIBUTES {
            t.report.met(Met::BothCodes);
        }
        if i >= 2 {
            continue;
        }
        let path = in_root(&file.name);
        let mut bytes = bytes_of(before, &chain);
        bytes.truncate(file.size as usize);
        let read = reference::read(&after.image, &path, 0, bytes.len() + 1);
        t.report.agree("a kept file", read == Ok(bytes.clone()), true);
        t.read(&after.image, &path, 0, &rng.bytes(bytes.len() + 1));
        t.read_attributes(&after.image, &path, &rng.bytes(BLOCK * MAX_ATTRIBUTE_BLOCKS));
        if after.report[file.slot] == code::KEPT {
            let old = Entry::read(before, file.slot, slots[file.slot]);
            let bytes = bytes_of(before, &old.attributes(before));
            let read = reference::read_attributes(&after.image, &path, 5000);
            t.report.agree("a kept file's attributes", read == Ok(bytes), true);
        }
    }
}

fn bytes_of(image: &[u8], blocks: &[usize]) -> Vec<u8> {
    blocks.iter().flat_map(|&b| &image[b * BLOCK..(b + 1) * BLOCK]).copied().collect()
}

/// An image that was half written: some blocks are as before some changes, the
/// others as after them.
pub fn tear(rng: &mut Rng, image: &mut [u8]) {
    let journal = reference::start(4_000_000).unwrap();
    let mut state = State { image: image.to_vec(), journal };
    for _ in 0..rng.between(1, 4) {
        for change in changes(rng, &state.image) {
            let of_directory =
                matches!(change, Change::CreateDirectory(_) | Change::DeleteDirectory(_));
            match reference::apply(&state, &change) {
                Ok(applied) if !of_directory => state = applied.state,
                _ => {}
            }
        }
    }
    let at = rng.between(1, block_count(image));
    let mixed = rng.once_in(2);
    for b in 0..block_count(image) {
        if if mixed { rng.once_in(2) } else { b < at } {
            let block = b * BLOCK..(b + 1) * BLOCK;
            image[block.clone()].copy_from_slice(&state.image[block]);
        }
    }
}

/// Damage that salvage refuses: of stages 1 to 4, or a directory in the root.
fn refusable(rng: &mut Rng, image: &mut Vec<u8>) {
    if image.len() < 3 * BLOCK || reference::check::sound_root(image).is_err() {
        return;
    }
    if rng.once_in(3) {
        let slots = slot_offsets(image, root(image));
        image[slots[rng.between(1, slots.len() - 1)]] = rng.between(0x20, 0x5F) as u8;
        return;
    }
    let all: Vec<_> = of_root().collect();
    let _ = (all[rng.below(all.len())].make)(rng, image);
}

/// A number where a block's is wanted: mostly one that something has.
pub fn any_value(rng: &mut Rng, sound: &[u8]) -> u32 {
    let (n, t) = (block_count(sound), table_blocks(block_count(sound)));
    let any = rng.between(t + 1, n - 1) as u32;
    match rng.below(8) {
        0 => rng.pick(&[0, 1, t, n, n + 1, n - 1, t + 1]) as u32,
        1 => rng.next() as u32 >> rng.below(32),
        2 => rng.pick(&[any | 1 << 16, any | 1 << 24, any << 8]),
        3 | 4 => any,
        _ => {
            let used: Vec<usize> = (t + 1..n).filter(|&b| entry(sound, b) != 0).collect();
            rng.pick(&used) as u32
        }
    }
}

/// One damage of an image that was sound once. Header and root stay in order.
pub fn spoil(rng: &mut Rng, sound: &[u8], image: &mut [u8]) {
    let in_root = files(sound).into_iter().filter(|file| file.home == root(sound));
    let files: Vec<Item> = in_root.collect();
    if files.is_empty() || rng.once_in(4) {
        spoil_rest(rng, sound, image);
    } else {
        let file = rng.pick(&files);
        spoil_file(rng, sound, image, &file, &files);
    }
}

/// Damage to a file: to its entry or to one of its chains.
fn spoil_file(rng: &mut Rng, sound: &[u8], image: &mut [u8], file: &Item, files: &[Item]) {
    let (value, at) = (any_value(rng, sound), file.at);
    let (chain, attributes) = (file.chain(sound), file.attributes(sound));
    match rng.below(10) {
        0 => put_number(image, at + slot::FIRST, value),
        1 => {
            let _ = put_fields(image, file, value, rng.below(10) as u32);
        }
        2 => {
            let more = rng.pick(&[512, 1024, 513, u32::MAX - 511, u32::MAX - 1023, 1 << 24]);
            resize(image, file, file.size.wrapping_add(more));
        }
        3 if !chain.is_empty() => set_entry(image, chain[chain.len() - 1], value),
        4 if !attributes.is_empty() => set_entry(image, attributes[attributes.len() - 1], value),
        5 if !chain.is_empty() => set_entry(image, rng.pick(&chain), value),
        6 if !attributes.is_empty() => set_entry(image, rng.pick(&attributes), value),
        7 => image[at + rng.pick(&[0, 4, 7, 8, 11, 15, 35, 39, 48, 127])] = rng.byte(),
        8 => rename(image, file, &name_field(&rng.pick(files).name)),
        _ => copy(rng, sound, image, file),
    }
    // No file becomes a directory: that is another damage.
    if is_directory_type(image[at]) {
        image[at] ^= 0x80;
    }
}

/// A second entry for the same blocks, in any slot, mostly of another name.
fn copy(rng: &mut Rng, sound: &[u8], image: &mut [u8], file: &Item) {
    let slots = slot_offsets(sound, root(sound));
    let to = slots[rng.between(1, slots.len() - 2)];
    let entry = image[file.at..file.at + SLOT].to_vec();
    image[to..to + SLOT].copy_from_slice(&entry);
    if !rng.once_in(4) {
        image[to + slot::NAME..to + SLOT].copy_from_slice(&name_field(&images::good_name(rng)));
    }
    // Of no blocks but attributes, or shorter than it was.
    let blocks = number(&entry, slot::BLOCKS);
    match rng.below(4) {
        0 if blocks > 1 => {
            put_number(image, to + slot::SIZE, 512);
            put_number(image, to + slot::BLOCKS, 1);
        }
        1 => {
            for field in [slot::FIRST, slot::SIZE, slot::BLOCKS] {
                put_number(image, to + field, 0);
            }
        }
        _ => {}
    }
}

/// Damage to what no file has.
fn spoil_rest(rng: &mut Rng, sound: &[u8], image: &mut [u8]) {
    let (n, t) = (block_count(sound), table_blocks(block_count(sound)));
    let slots = slot_offsets(sound, root(sound));
    let end = slots.len() - 1;
    let value = any_value(rng, sound);
    let b = rng.between(t + 1, t * ENTRIES_PER_TABLE_BLOCK - 1);
    match rng.below(6) {
        0 => image[slots[end]] = rng.pick(&[0x00, 0x01, 0x20, 0x5F, 0x60, 0xFE]),
        1 => set_entry(image, rng.between(0, t), value),
        2 => put_number(image, rng.pick(&[header::OCCUPIED, header::FREE]), value),
        3 => image[slots[rng.between(1, end - 1)]] = rng.pick(&[0x00, 0x01, 0x1F, 0xA0, 0xFF]),
        _ if b < n && root_chain(sound).contains(&b) => {}
        _ => set_entry(image, b, value),
    }
}

/// A fault of one slot, and the code that it must get; all others have 0.
struct Plan {
    what: &'static str,
    code: u8,
    /// Gives the slot, or None if the image does not have what it takes.
    make: fn(&mut Rng, &mut Vec<u8>) -> Option<usize>,
}

/// Every plan, on volumes that are sound otherwise.
pub fn codes(rng: &mut Rng, _: u64, t: &mut Tester) {
    for plan in PLANS {
        let (sound, image, slot) = loop {
            let n = rng.between(24, 140);
            let sound = images::flat(rng, n);
            let mut image = sound.clone();
            if let Some(slot) = (plan.make)(rng, &mut image) {
                break (sound, image, slot);
            }
        };
        t.report.about(format!("n {}, {}", block_count(&image), plan.what));
        let slots = 4 * root_chain(&sound).len();
        let mut codes = vec![code::KEPT; slots];
        codes[slot] = plan.code;
        let got = t.salvage(&image, &rng.bytes(slots)).map(|after| after.report);
        t.report.agree("plan", got, Some(codes));
        let report = rng.bytes(slots);
        salvage(rng, t, &image, &report);
    }
}

/// The slot of the end.
fn end_of(image: &[u8]) -> (usize, usize) {
    let slots = slot_offsets(image, root(image));
    (slots.len() - 1, slots[slots.len() - 1])
}

/// A file and one in an earlier slot that meets a test.
fn file_after(rng: &mut Rng, image: &[u8], test: fn(&Item) -> bool) -> Option<(Item, Item)> {
    let earlier = file_where(rng, image, test)?;
    let later: Vec<Item> = files(image).into_iter().filter(|f| f.slot > earlier.slot).collect();
    (!later.is_empty()).then(|| (rng.pick(&later), earlier))
}

/// Sets the last value of a file's chain.
fn end_with(image: &mut [u8], file: &Item, value: u32) {
    let last = last_of(image, file);
    set_entry(image, last, value);
}

fn end_attributes_with(image: &mut [u8], file: &Item, value: u32) {
    let last = last_attribute(image, file);
    set_entry(image, last, value);
}

#[rustfmt::skip]
const PLANS: &[Plan] = &[
    Plan { what: "nothing", code: 0, make: |r, i| Some(any_file(r, i)?.slot) },
    Plan { what: "counts", code: 0, make: |_, i| { put_number(i, header::FREE, 9999); Some(0) } },
    Plan { what: "entry 0", code: 0, make: |r, i| { let v = not_one(r); set_entry(i, 0, v); Some(0) } },
    Plan { what: "an entry of a free block", code: 0, make: |r, i| { let b = free_block(r, i)?; set_entry(i, b, 1); Some(0) } },
    Plan { what: "a padding entry", code: 0, make: |_, i| {
        let n = block_count(i);
        if n % ENTRIES_PER_TABLE_BLOCK == 0 { return None; }
        set_entry(i, n, 1);
        Some(0)
    } },
    Plan { what: "type", code: 1, make: |r, i| { let f = any_file(r, i)?; i[f.at] = r.pick(&[0x01, 0x1F, 0xA0, 0xFF]); Some(f.slot) } },
    Plan { what: "no name", code: 1, make: |r, i| { let f = any_file(r, i)?; i[f.at + slot::NAME] = 0; Some(f.slot) } },
    Plan { what: "slash in a name", code: 1, make: |r, i| { let f = any_file(r, i)?; i[f.at + slot::NAME] = b'/'; Some(f.slot) } },
    Plan { what: "the name of an earlier file", code: 1, make: |r, i| {
        let (f, earlier) = file_after(r, i, |_| true)?;
        rename(i, &f, &name_field(&earlier.name));
        Some(f.slot)
    } },
    Plan { what: "size in blocks", code: 1, make: |r, i| { let f = any_file(r, i)?; put_number(i, f.at + slot::BLOCKS, f.blocks + 1); Some(f.slot) } },
    Plan { what: "no first block", code: 1, make: |r, i| { let f = file_with_blocks(r, i)?; put_number(i, f.at + slot::FIRST, 0); Some(f.slot) } },
    Plan { what: "attribute size 9", code: 1, make: |r, i| { let f = file_with_attributes(r, i)?; put_fields(i, &f, f.attribute_block, 9)?; Some(f.slot) } },
    Plan { what: "attribute size without a block", code: 1, make: |r, i| { let f = any_file(r, i)?; put_fields(i, &f, 0, 1)?; Some(f.slot) } },
    Plan { what: "first block outside", code: 2, make: |r, i| { let f = file_with_blocks(r, i)?; let b = outside(r, i); put_number(i, f.at + slot::FIRST, b); Some(f.slot) } },
    Plan { what: "next outside", code: 2, make: |r, i| {
        let f = long_file(r, i)?;
        let chain = f.chain(i);
        let b = outside(r, i);
        set_entry(i, chain[r.below(chain.len() - 1)], r.pick(&[0, 1, b]));
        Some(f.slot)
    } },
    Plan { what: "a block repeated", code: 2, make: |r, i| {
        let f = long_file(r, i)?;
        let chain = f.chain(i);
        let from = r.below(chain.len() - 1);
        set_entry(i, chain[from], chain[r.below(from + 1)] as u32);
        Some(f.slot)
    } },
    Plan { what: "a huge file on a loop", code: 2, make: |r, i| {
        let f = file_with_blocks(r, i)?;
        end_with(i, &f, f.first);
        resize(i, &f, u32::MAX);
        Some(f.slot)
    } },
    Plan { what: "a block of the root", code: 2, make: |r, i| { let f = file_with_blocks(r, i)?; let b = r.pick(&root_chain(i)); put_number(i, f.at + slot::FIRST, b as u32); Some(f.slot) } },
    Plan { what: "a block of an earlier file", code: 2, make: |r, i| {
        let (f, earlier) = file_after(r, i, |f| f.blocks > 0)?;
        if f.blocks == 0 { return None; }
        let b = r.pick(&earlier.chain(i));
        put_number(i, f.at + slot::FIRST, b as u32);
        Some(f.slot)
    } },
    Plan { what: "the end of an earlier file", code: 2, make: |r, i| {
        let (f, earlier) = file_after(r, i, |f| f.blocks > 0)?;
        if f.blocks < 2 { return None; }
        let last = last_of(i, &earlier);
        join(i, &f, last);
        Some(f.slot)
    } },
    Plan { what: "a block of an earlier file's attributes", code: 2, make: |r, i| {
        let (f, earlier) = file_after(r, i, |f| f.attribute_size > 0)?;
        if f.blocks == 0 { return None; }
        put_number(i, f.at + slot::FIRST, earlier.attribute_block);
        Some(f.slot)
    } },
    Plan { what: "last value", code: 3, make: |r, i| { let f = file_with_blocks(r, i)?; let v = not_one(r); end_with(i, &f, v); Some(f.slot) } },
    Plan { what: "last value 0", code: 3, make: |r, i| { let f = file_with_blocks(r, i)?; end_with(i, &f, 0); Some(f.slot) } },
    Plan { what: "a loop behind the end", code: 3, make: |r, i| { let f = file_with_blocks(r, i)?; end_with(i, &f, f.first); Some(f.slot) } },
    Plan { what: "a shorter file", code: 3, make: |r, i| { let f = long_file(r, i)?; resize(i, &f, 512); Some(f.slot) } },
    Plan { what: "attributes' last value", code: 3, make: |r, i| { let f = file_with_attributes(r, i)?; let v = not_one(r); end_attributes_with(i, &f, v); Some(f.slot) } },
    Plan { what: "both last values", code: 3, make: |r, i| {
        let f = file_where(r, i, |f| f.blocks > 0 && f.attribute_size > 0)?;
        end_with(i, &f, 0);
        end_attributes_with(i, &f, 0);
        Some(f.slot)
    } },
    Plan { what: "end type", code: 3, make: |r, i| { let (end, at) = end_of(i); i[at] = r.pick(&[0x00, 0x20, 0x60, 0xFE]); Some(end) } },
    Plan { what: "attributes outside", code: 4, make: |r, i| { let f = any_file(r, i)?; let b = outside(r, i); put_fields(i, &f, b, r.between(1, 8) as u32)?; Some(f.slot) } },
    Plan { what: "attributes on the root", code: 4, make: |r, i| { let f = any_file(r, i)?; let b = r.pick(&root_chain(i)); put_fields(i, &f, b as u32, 1)?; Some(f.slot) } },
    Plan { what: "attributes on the file itself", code: 4, make: |r, i| { let f = file_with_blocks(r, i)?; put_fields(i, &f, f.first, 1)?; Some(f.slot) } },
    Plan { what: "attributes on an earlier file", code: 4, make: |r, i| {
        let (f, earlier) = file_after(r, i, |f| f.blocks > 0)?;
        let last = last_of(i, &earlier);
        put_fields(i, &f, last as u32, 1)?;
        Some(f.slot)
    } },
    Plan { what: "attributes in a loop", code: 4, make: |r, i| {
        let f = file_with_attributes(r, i)?;
        end_attributes_with(i, &f, f.attribute_block);
        put_fields(i, &f, f.attribute_block, 8)?;
        (f.attribute_size < 8).then_some(f.slot)
    } },
    Plan { what: "attributes break off", code: 4, make: |r, i| {
        let f = long_attributes(r, i)?;
        set_entry(i, f.attribute_block as usize, r.pick(&[0, 1]));
        Some(f.slot)
    } },
    Plan { what: "last value, and attributes outside", code: 4, make: |r, i| {
        let f = file_with_blocks(r, i)?;
        end_with(i, &f, 0);
        let b = outside(r, i);
        put_fields(i, &f, b, 1)?;
        Some(f.slot)
    } },
];
