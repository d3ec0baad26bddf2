//! Kinds of damage that a volume meets: torn and stale writes, pages that are
//! lost, flipped bits, files that were cut, and wrong pointers.

use crate::boxes::{History, CHANGES};
use crate::rng::Rng;
use reference::layout::*;

const PAGE: usize = 4096;

/// What a kind of damage leaves, and the images that it was made of: the newest,
/// and an older one where the damage mixes two.
pub struct Damaged<'a> {
    pub image: Vec<u8>,
    pub new: &'a [u8],
    pub old: Option<&'a [u8]>,
}

pub struct Model {
    pub name: &'static str,
    pub damage: &'static str,
    /// The share of all files, in percent, that is to be kept, but for half a point.
    pub kept: f64,
    pub make: for<'a> fn(&mut Rng, &'a History) -> Damaged<'a>,
}

#[rustfmt::skip]
pub const MODELS: &[Model] = &[
    Model { name: "stale_reorg", damage: "boxes deleted, a directory made over their blocks; then one half old, or a prefix or single pages new", kept: 99.1, make: |r, h| {
        let (old, new) = (h.last(), &h.reorganized[..]);
        let image = match r.below(3) {
            0 => stale_half(r, old, new),
            1 => torn_prefix(r, old, new),
            _ => torn_pages(r, old, new),
        };
        Damaged { image, new, old: Some(old) }
    } },
    Model { name: "torn_prefix", damage: "of the changed blocks a prefix is new, the rest old", kept: 99.9, make: |r, h| mixed(r, h, 1, 4, torn_prefix) },
    Model { name: "torn_suffix", damage: "of the changed blocks a prefix is old, the rest new", kept: 99.9, make: |r, h| mixed(r, h, 1, 4, |r, old, new| torn_prefix(r, new, old)) },
    Model { name: "torn_pages", damage: "each changed 4 KiB page is new or old", kept: 99.9, make: |r, h| mixed(r, h, 1, 4, torn_pages) },
    Model { name: "stale_half", damage: "one half of the image is 20 to 60 changes older", kept: 100.0, make: |r, h| mixed(r, h, 20, CHANGES, stale_half) },
    Model { name: "zero_page", damage: "one 4 KiB page zero, anywhere", kept: 99.4, make: |r, h| damaged(h, |i| { let p = any_page(r, i); fill(r, i, p, false) }) },
    Model { name: "garbage_page", damage: "one 4 KiB page random, anywhere", kept: 99.7, make: |r, h| damaged(h, |i| { let p = any_page(r, i); fill(r, i, p, true) }) },
    Model { name: "zero_meta", damage: "one page with blocks of the table or of directories zero", kept: 96.9, make: |r, h| damaged(h, |i| { let p = meta_page(r, i); fill(r, i, p, false) }) },
    Model { name: "garbage_meta", damage: "one page with blocks of the table or of directories random", kept: 96.9, make: |r, h| damaged(h, |i| { let p = meta_page(r, i); fill(r, i, p, true) }) },
    Model { name: "zero_table", damage: "one page zero that holds links, and no directory", kept: 96.3, make: |r, h| damaged(h, |i| {
        let page = r.below(root_block(block_count(i)) * BLOCK / PAGE);
        fill(r, i, page, false);
    }) },
    Model { name: "zero_root", damage: "the root's first block zero", kept: 100.0, make: |_, h| damaged(h, |i| { let b = root_block(block_count(i)); zero_block(i, b) }) },
    Model { name: "zero_dirhead", damage: "one directory's first block zero", kept: 99.5, make: |r, h| damaged(h, |i| { let home = child(r, h.last()); zero_block(i, home.first as usize) }) },
    Model { name: "wrong_page", damage: "one page has another page's bytes", kept: 99.5, make: |r, h| damaged(h, |i| {
        let (from, to) = (any_page(r, i), any_page(r, i));
        i.copy_within(from * PAGE..(from + 1) * PAGE, to * PAGE);
    }) },
    Model { name: "flips", damage: "1 to 200 bits flipped, anywhere", kept: 99.2, make: |r, h| damaged(h, |i| {
        for _ in 0..some(r, 200) {
            let at = r.below(i.len());
            i[at] ^= 1 << r.below(8);
        }
    }) },
    Model { name: "flips_meta", damage: "1 to 30 bits flipped in header, table and directories", kept: 99.1, make: |r, h| damaged(h, |i| {
        let blocks = meta_blocks(h.last());
        for _ in 0..some(r, 30) {
            i[r.pick(&blocks) * BLOCK + r.below(BLOCK)] ^= 1 << r.below(8);
        }
    }) },
    Model { name: "bytes_meta", damage: "1 to 30 bytes random there", kept: 99.1, make: |r, h| damaged(h, |i| {
        let blocks = meta_blocks(h.last());
        for _ in 0..some(r, 30) {
            i[r.pick(&blocks) * BLOCK + r.below(BLOCK)] = r.byte();
        }
    }) },
    Model { name: "cut", damage: "cut anywhere, and padded with zeros", kept: 80.2, make: |_, h| damaged(h, |i| { let at = (h.place * i.len() as f64) as usize; i[at..].fill(0) }) },
    Model { name: "flip_pointer", damage: "one low bit of one entry's first block flipped", kept: 99.7, make: |r, h| damaged(h, |i| {
        let entry = any_entry(r, h.last(), |_| true);
        let low = low_bit(r, i);
        put_number(i, entry.at + slot::FIRST, entry.first ^ low);
    }) },
    Model { name: "pointers", damage: "1 to 16 first blocks or links lead to another block", kept: 98.1, make: |r, h| damaged(h, |i| {
        for _ in 0..some(r, 16) {
            let to = elsewhere(r, h.last());
            if r.once_in(2) {
                let at = any_entry(r, h.last(), |_| true).at;
                put_number(i, at + slot::FIRST, to);
            } else {
                let b = used(r, h.last()) as usize;
                set_entry(i, b, to);
            }
        }
    }) },
    Model { name: "ptr_file", damage: "1 to 16 files' first blocks do", kept: 97.7, make: |r, h| damaged(h, |i| {
        for _ in 0..some(r, 16) {
            let (at, to) = (any_entry(r, h.last(), Entry::is_file).at, elsewhere(r, h.last()));
            put_number(i, at + slot::FIRST, to);
        }
    }) },
    Model { name: "ptr_dir", damage: "one directory's first block does", kept: 99.9, make: |r, h| damaged(h, |i| {
        let (at, to) = (child(r, h.last()).at, elsewhere(r, h.last()));
        put_number(i, at + slot::FIRST, to);
    }) },
    Model { name: "root1", damage: "one fault in the root's self entry, chain, end or blocks", kept: 100.0, make: |r, h| damaged(h, |i| root_fault(r, h, i)) },
    Model { name: "root2", damage: "two", kept: 96.8, make: |r, h| damaged(h, |i| (0..2).for_each(|_| root_fault(r, h, i))) },
    Model { name: "child1", damage: "one fault in a directory's entry (but its name), self entry, chain, end or blocks", kept: 99.9, make: |r, h| damaged(h, |i| child_fault(r, h, i)) },
    Model { name: "child3", damage: "three", kept: 99.9, make: |r, h| damaged(h, |i| (0..3).for_each(|_| child_fault(r, h, i))) },
    Model { name: "dirchain", damage: "one low bit of one link of a directory's chain flipped", kept: 100.0, make: |r, h| damaged(h, |i| {
        let chain = child(r, h.last()).chain(h.last());
        let b = r.pick(&chain);
        let value = entry(i, b) ^ low_bit(r, i);
        set_entry(i, b, value);
    }) },
];

fn damaged(h: &History, damage: impl FnOnce(&mut Vec<u8>)) -> Damaged<'_> {
    let mut image = h.last().to_vec();
    damage(&mut image);
    Damaged { image, new: h.last(), old: None }
}

/// An image with some changes in it whole or not.
fn mixed<'a>(
    rng: &mut Rng,
    h: &'a History,
    least: usize,
    most: usize,
    mix: fn(&mut Rng, &[u8], &[u8]) -> Vec<u8>,
) -> Damaged<'a> {
    let changes = rng.between(least, most);
    let at = rng.between(0, CHANGES - changes);
    let (old, new) = (&h.images[at][..], &h.images[at + changes][..]);
    Damaged { image: mix(rng, old, new), new, old: Some(old) }
}

/// Of the blocks that differ, the first some are of the new image.
fn torn_prefix(rng: &mut Rng, old: &[u8], new: &[u8]) -> Vec<u8> {
    let block = |b: usize| b * BLOCK..(b + 1) * BLOCK;
    let differ: Vec<usize> =
        (0..block_count(old)).filter(|&b| old[block(b)] != new[block(b)]).collect();
    let count = rng.between(0, differ.len());
    let mut image = old.to_vec();
    for &b in &differ[..count] {
        image[block(b)].copy_from_slice(&new[block(b)]);
    }
    image
}

/// Each page is of the one or the other.
fn torn_pages(rng: &mut Rng, old: &[u8], new: &[u8]) -> Vec<u8> {
    let mut image = old.to_vec();
    for (page, newer) in image.chunks_mut(PAGE).zip(new.chunks(PAGE)) {
        if rng.once_in(2) {
            page.copy_from_slice(newer);
        }
    }
    image
}

/// One half, the front or the back, is of the old image.
fn stale_half(rng: &mut Rng, old: &[u8], new: &[u8]) -> Vec<u8> {
    let half = new.len() / 2;
    if rng.once_in(2) {
        [&old[..half], &new[half..]].concat()
    } else {
        [&new[..half], &old[half..]].concat()
    }
}

/// From 1 to `most`, a number as likely small as large.
fn some(rng: &mut Rng, most: usize) -> usize {
    let unit = rng.below(1 << 30) as f64 / f64::from(1 << 30);
    ((most as f64 + 1.0).powf(unit) as usize).clamp(1, most)
}

fn any_page(rng: &mut Rng, image: &[u8]) -> usize {
    rng.below(image.len() / PAGE)
}

fn fill(rng: &mut Rng, image: &mut [u8], page: usize, garbage: bool) {
    let bytes = if garbage { rng.bytes(PAGE) } else { vec![0; PAGE] };
    image[page * PAGE..(page + 1) * PAGE].copy_from_slice(&bytes);
}

fn zero_block(image: &mut [u8], b: usize) {
    image[b * BLOCK..(b + 1) * BLOCK].fill(0);
}

/// Header, table and all blocks of directories.
fn meta_blocks(image: &[u8]) -> Vec<usize> {
    let mut blocks: Vec<usize> = (0..root_block(block_count(image))).collect();
    for home in tree(image) {
        blocks.extend(directory_chain(image, home.first));
    }
    blocks
}

fn meta_page(rng: &mut Rng, image: &[u8]) -> usize {
    let mut pages: Vec<usize> = meta_blocks(image).iter().map(|b| b * BLOCK / PAGE).collect();
    pages.sort();
    pages.dedup();
    rng.pick(&pages)
}

fn any_entry(rng: &mut Rng, image: &[u8], wanted: fn(&Entry) -> bool) -> Entry {
    let all: Vec<Entry> =
        tree(image).into_iter().flat_map(|home| home.entries).filter(wanted).collect();
    rng.pick(&all)
}

/// The entry of a directory.
fn child(rng: &mut Rng, image: &[u8]) -> Entry {
    any_entry(rng, image, Entry::is_directory)
}

/// The number of a block above the table that is in use.
fn used(rng: &mut Rng, image: &[u8]) -> u32 {
    let n = block_count(image);
    loop {
        let b = rng.between(root_block(n), n - 1);
        if entry(image, b) != 0 {
            return b as u32;
        }
    }
}

/// The number of a block where a wrong pointer leads: half of the time one in use.
fn elsewhere(rng: &mut Rng, image: &[u8]) -> u32 {
    let n = block_count(image);
    if rng.once_in(2) {
        used(rng, image)
    } else {
        rng.between(root_block(n), n - 1) as u32
    }
}

/// A bit that a block number of this volume may have.
fn low_bit(rng: &mut Rng, image: &[u8]) -> u32 {
    1 << rng.below(block_count(image).ilog2() as usize)
}

fn root_fault(rng: &mut Rng, h: &History, image: &mut [u8]) {
    let root = root_block(block_count(image));
    let blocks = directory_chain(h.last(), root);
    fault(rng, image, &blocks, None);
}

/// A fault in one of the directories of the root.
fn child_fault(rng: &mut Rng, h: &History, image: &mut [u8]) {
    let root = root_block(block_count(image));
    let children: Vec<Entry> =
        entries(h.last(), root).into_iter().filter(Entry::is_directory).collect();
    let child = rng.pick(&children);
    fault(rng, image, &child.chain(h.last()), Some(child.at));
}

/// One fault of a directory of these blocks: in its self entry, its chain, its end,
/// one of its blocks, or, if it has one, its entry.
fn fault(rng: &mut Rng, image: &mut [u8], blocks: &[usize], own_entry: Option<usize>) {
    let own = blocks[0] * BLOCK;
    let end = blocks[blocks.len() - 1] * BLOCK + 3 * SLOT;
    let any = number_for(rng, image);
    match (rng.below(7), own_entry) {
        (0, _) => image[own + slot::TYPE] = rng.byte(),
        (1, _) => put_number(image, own + rng.pick(&[slot::SELF_BLOCK, slot::SELF_PARENT]), any),
        (2, _) => put_number(image, own + slot::BLOCKS, any),
        (3, _) => set_entry(image, rng.pick(blocks), any),
        (4, _) => image[end + slot::TYPE] = rng.byte(),
        (5, _) => zero_block(image, rng.pick(blocks)),
        (_, None) => image[own..own + SLOT].fill(0),
        (_, Some(at)) => match rng.pick(&[slot::TYPE, slot::FIRST, slot::BLOCKS]) {
            slot::TYPE => image[at] = rng.byte(),
            field => put_number(image, at + field, any),
        },
    }
}

/// A number where a block's, or a number of blocks, is wanted.
fn number_for(rng: &mut Rng, image: &[u8]) -> u32 {
    match rng.below(4) {
        0 => rng.below(3) as u32,
        1 => rng.between(1, 70) as u32,
        2 => rng.below(block_count(image)) as u32,
        _ => rng.next() as u32,
    }
}
