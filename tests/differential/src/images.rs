//! Random sound images. Every byte that the check does not look at is
//! random, chains are out of order, and files and folders are spread over the
//! slots.

use crate::rng::Rng;
use crate::tree::{root, slots};
use reference::layout::*;
use std::collections::BTreeSet;

/// How many folders a volume has. There may be fewer for want of blocks or
/// slots.
#[derive(Clone, Copy, Debug, PartialEq, Eq)]
pub enum Folders {
    None,
    Few,
    Many,
    /// One on each level.
    Deep,
}

/// How much of a volume is used.
#[derive(Clone, Copy, Debug, PartialEq, Eq)]
pub enum Fill {
    Empty,
    Some,
    /// No free slot in any directory.
    Slots,
    /// No free block, if there is a file to hold the blocks.
    Blocks,
}

/// A number of blocks: mostly small, often near the edges of the table.
pub fn any_n(rng: &mut Rng) -> usize {
    match rng.below(40) {
        0..=19 => rng.between(3, 24),
        20..=28 => rng.between(25, 127),
        29..=33 => rng.pick(&[127, 128, 129, 130, 255, 256, 257]),
        34..=37 => rng.between(130, 600),
        38 => rng.between(600, 5000),
        _ => rng.pick(&[1024, 3968, 3969, 4095, 4096, 4097, 4224, 4225]),
    }
}

pub fn small_n(rng: &mut Rng) -> usize {
    match rng.below(10) {
        0..=5 => rng.between(5, 40),
        6..=8 => rng.pick(&[127, 128, 129, 150, 200]),
        _ => rng.between(40, 300),
    }
}

pub fn any(rng: &mut Rng) -> Vec<u8> {
    let n = any_n(rng);
    of(rng, n)
}

pub fn of(rng: &mut Rng, n: usize) -> Vec<u8> {
    let most = (n - table_blocks(n) - 1).min(MAX_DIRECTORY_BLOCKS);
    let d = match rng.below(4) {
        0 => 1,
        1 => most,
        2 => rng.between(1, most),
        _ => rng.between(1, most.min(4)),
    };
    let fill =
        rng.pick(&[Fill::Empty, Fill::Some, Fill::Some, Fill::Some, Fill::Slots, Fill::Blocks]);
    build(rng, n, d, fill)
}

/// A sound image of n blocks, d of them for the root. An empty one has no
/// folders.
pub fn build(rng: &mut Rng, n: usize, d: usize, fill: Fill) -> Vec<u8> {
    let some = [Folders::None, Folders::Few, Folders::Few, Folders::Many, Folders::Deep];
    let folders = if fill == Fill::Empty { Folders::None } else { rng.pick(&some) };
    build_tree(rng, n, d, fill, folders)
}

pub fn build_tree(rng: &mut Rng, n: usize, d: usize, fill: Fill, folders: Folders) -> Vec<u8> {
    let (mut image, mut homes, mut pool) = only_root(rng, n, d);
    put_folders(rng, &mut image, &mut homes, &mut pool, folders);
    put_files(rng, &mut image, &mut homes, &mut pool, fill);
    finish(rng, image)
}

/// A sound image of n blocks without folders.
pub fn flat(rng: &mut Rng, n: usize) -> Vec<u8> {
    let most = (n - table_blocks(n) - 1).min(MAX_DIRECTORY_BLOCKS);
    let few = most.min(4);
    let d = if rng.once_in(8) { rng.between(1, most) } else { rng.between(1, few) };
    let fill = rng.pick(&[Fill::Some, Fill::Some, Fill::Slots, Fill::Blocks]);
    build_tree(rng, n, d, fill, Folders::None)
}

/// The largest image, with eight folders of the most blocks, each in the one
/// before.
pub fn deepest(rng: &mut Rng, fill: Fill) -> Vec<u8> {
    let d = MAX_DIRECTORY_BLOCKS;
    let (mut image, mut homes, mut pool) = only_root(rng, MAX_BLOCKS, d);
    for level in 0..MAX_LEVELS {
        let blocks: Vec<usize> = pool.drain(..d).collect();
        put_in(rng, &mut image, &mut homes, level, &blocks);
    }
    put_files(rng, &mut image, &mut homes, &mut pool, fill);
    finish(rng, image)
}

/// An image with an empty root of d blocks, and all blocks that are free, in
/// any order.
fn only_root(rng: &mut Rng, n: usize, d: usize) -> (Vec<u8>, Vec<Home>, Vec<usize>) {
    let t = table_blocks(n);
    let mut image = if rng.once_in(4) { vec![0; n * BLOCK] } else { rng.bytes(n * BLOCK) };
    image[BLOCK..BLOCK * (t + 1)].fill(0);
    for b in 0..=t {
        set_entry(&mut image, b, 1);
    }
    let mut pool: Vec<usize> = (t + 2..n).collect();
    if !rng.once_in(4) {
        rng.shuffle(&mut pool);
    }
    let mut blocks = vec![t + 1];
    blocks.extend(pool.drain(..d - 1));
    put_directory(&mut image, &blocks, t + 1);
    let root = Home::new(rng, &image, t + 1, 0);
    (image, vec![root], pool)
}

/// What is left to do for a sound image.
fn finish(rng: &mut Rng, mut image: Vec<u8>) -> Vec<u8> {
    put_header(&mut image);
    put_stray_names(rng, &mut image);
    assert_eq!(reference::check(&image), 0, "the builder makes sound images");
    image
}

/// A directory that is being filled: the offsets of its slots that are left,
/// in any order, and its names.
struct Home {
    first: usize,
    level: usize,
    left: Vec<usize>,
    names: BTreeSet<Vec<u8>>,
}

impl Home {
    fn new(rng: &mut Rng, image: &[u8], first: usize, level: usize) -> Home {
        let slots = slot_offsets(image, first);
        let mut left = slots[1..slots.len() - 1].to_vec();
        rng.shuffle(&mut left);
        Home { first, level, left, names: BTreeSet::new() }
    }

    /// A slot that was left, and a name that is new here.
    fn take(&mut self, rng: &mut Rng) -> (usize, Vec<u8>) {
        let mut name = good_name(rng);
        while !self.names.insert(name.clone()) {
            name = good_name(rng);
        }
        (self.left.pop().expect("a slot is left"), name)
    }
}

/// Links the blocks of a directory; puts its self entry and the types of its
/// slots. All other bytes stay as they are.
pub fn put_directory(image: &mut [u8], blocks: &[usize], parent: usize) {
    link(image, blocks);
    let at = blocks[0] * BLOCK;
    put_number(image, at + slot::SELF_BLOCK, blocks[0] as u32);
    put_number(image, at + slot::SELF_PARENT, parent as u32);
    put_number(image, at + slot::BLOCKS, blocks.len() as u32);
    let slots = slot_offsets(image, blocks[0]);
    for &at in &slots {
        image[at + slot::TYPE] = slot::TYPE_FREE;
    }
    image[at + slot::TYPE] = slot::TYPE_SELF;
    image[slots[slots.len() - 1] + slot::TYPE] = slot::TYPE_END;
}

/// Puts a folder into a slot whose other bytes stay as they are. Gives its
/// first block.
pub fn put_folder(
    rng: &mut Rng,
    image: &mut [u8],
    at: usize,
    parent: usize,
    name: &[u8],
    blocks: &[usize],
) -> usize {
    put_directory(image, blocks, parent);
    let own = blocks[0] * BLOCK;
    image[at + slot::TYPE] = rng.between(0x20, 0x5F) as u8;
    put_number(image, at + slot::FIRST, blocks[0] as u32);
    put_number(image, at + slot::SIZE, 0);
    put_number(image, at + slot::BLOCKS, blocks.len() as u32);
    put_number(image, at + slot::ATTRIBUTE_BLOCK, 0);
    put_number(image, at + slot::ATTRIBUTE_SIZE, 0);
    image[at + slot::NAME..at + SLOT].copy_from_slice(&name_field(name));
    image[own + slot::NAME..own + SLOT].copy_from_slice(&name_field(name));
    blocks[0]
}

fn put_folders(
    rng: &mut Rng,
    image: &mut [u8],
    homes: &mut Vec<Home>,
    pool: &mut Vec<usize>,
    folders: Folders,
) {
    let count = match folders {
        Folders::None => 0,
        Folders::Few => rng.between(1, 3),
        Folders::Many => rng.between(4, 24),
        Folders::Deep => rng.between(8, 12),
    };
    for _ in 0..count {
        let open = |home: &Home| home.level < MAX_LEVELS && !home.left.is_empty();
        let open: Vec<usize> = (0..homes.len()).filter(|&i| open(&homes[i])).collect();
        if open.is_empty() || pool.is_empty() {
            return;
        }
        // The deepest directory is the last, until there are eight levels.
        let deepest = folders == Folders::Deep && homes.len() <= MAX_LEVELS;
        let home = if deepest { open[open.len() - 1] } else { rng.pick(&open) };
        let most = rng.pick(&[1, 1, 2, 3, MAX_DIRECTORY_BLOCKS]).min(pool.len().div_ceil(3));
        let d = if deepest { 1 } else { rng.between(1, most) };
        let blocks: Vec<usize> = pool.drain(..d).collect();
        put_in(rng, image, homes, home, &blocks);
    }
}

/// Puts a folder of these blocks into a directory that is being filled.
fn put_in(rng: &mut Rng, image: &mut [u8], homes: &mut Vec<Home>, home: usize, blocks: &[usize]) {
    let (at, name) = homes[home].take(rng);
    let (parent, level) = (homes[home].first, homes[home].level + 1);
    let first = put_folder(rng, image, at, parent, &name, blocks);
    homes.push(Home::new(rng, image, first, level));
}

fn put_files(
    rng: &mut Rng,
    image: &mut [u8],
    homes: &mut [Home],
    pool: &mut Vec<usize>,
    fill: Fill,
) {
    let places: usize = homes.iter().map(|home| home.left.len()).sum();
    let count = match fill {
        Fill::Empty => 0,
        Fill::Slots => places,
        Fill::Some => rng.between(places.min(1), places.min(14)),
        Fill::Blocks => rng.between(places.min(1), places),
    };
    // Many files that are nearly all empty leave blocks free.
    let lean = fill == Fill::Slots && rng.once_in(2);
    for i in 0..count {
        let open: Vec<usize> = (0..homes.len()).filter(|&i| !homes[i].left.is_empty()).collect();
        let (at, name) = homes[rng.pick(&open)].take(rng);
        let size = if fill == Fill::Blocks && i + 1 == count {
            (pool.len() * BLOCK).saturating_sub(rng.below(BLOCK))
        } else if lean && !rng.once_in(9) {
            0
        } else {
            any_size(rng, pool.len() * BLOCK)
        };
        put_file(rng, image, at, &name, size, pool);
        if rng.once_in(if lean { 40 } else { 3 }) {
            put_attributes(rng, image, at, pool);
        }
    }
}

/// A sound image with one directory of d blocks and a file of each name in it,
/// in any slot: the root, or a folder of the root. Gives that directory too.
pub fn with_names(
    rng: &mut Rng,
    n: usize,
    d: usize,
    names: &[Vec<u8>],
    in_folder: bool,
) -> (Vec<u8>, Directory) {
    let mut image = build(rng, n, if in_folder { 1 } else { d }, Fill::Empty);
    let mut pool = free_blocks(&image);
    rng.shuffle(&mut pool);
    let mut first = root(&image);
    if in_folder {
        let blocks: Vec<usize> = pool.drain(..d).collect();
        let (at, name) = (slot_offsets(&image, first)[rng.between(1, 2)], good_name(rng));
        first = put_folder(rng, &mut image, at, first, &name, &blocks);
    }
    let mut places = slot_offsets(&image, first);
    places.pop();
    rng.shuffle(&mut places[1..]);
    for (name, &at) in names.iter().zip(&places[1..]) {
        let size = any_size(rng, pool.len() * BLOCK);
        put_file(rng, &mut image, at, name, size, &mut pool);
        if rng.once_in(8) {
            put_attributes(rng, &mut image, at, &mut pool);
        }
    }
    let image = finish(rng, image);
    let home = tree(&image).into_iter().find(|home| home.first == first);
    (image, home.expect("the directory is there"))
}

/// Puts names into some slots that are not in use: of entries, and new ones.
/// They must neither be found nor count as taken.
fn put_stray_names(rng: &mut Rng, image: &mut [u8]) {
    let names: Vec<Vec<u8>> = crate::tree::items(image).iter().map(|i| i.name.clone()).collect();
    for (i, slots) in slots(image).into_iter().enumerate() {
        for at in slots {
            let kind = image[at + slot::TYPE];
            // The self entry of a folder has its name.
            let own = kind == slot::TYPE_SELF && i > 0;
            if own || is_file_type(kind) || is_directory_type(kind) || rng.once_in(2) {
                continue;
            }
            let name =
                if names.is_empty() || rng.once_in(2) { good_name(rng) } else { rng.pick(&names) };
            image[at + slot::NAME..at + SLOT].copy_from_slice(&name_field(&name));
        }
    }
}

/// Puts a file into a slot whose other bytes stay as they are.
pub fn put_file(
    rng: &mut Rng,
    image: &mut [u8],
    at: usize,
    name: &[u8],
    size: usize,
    pool: &mut Vec<usize>,
) {
    let blocks: Vec<usize> = pool.drain(..size.div_ceil(BLOCK)).collect();
    link(image, &blocks);
    image[at + slot::TYPE] = rng.between(0x60, 0x9F) as u8;
    put_number(image, at + slot::FIRST, blocks.first().map_or(0, |&b| b as u32));
    put_number(image, at + slot::SIZE, size as u32);
    put_number(image, at + slot::BLOCKS, blocks.len() as u32);
    put_number(image, at + slot::ATTRIBUTE_BLOCK, 0);
    put_number(image, at + slot::ATTRIBUTE_SIZE, 0);
    image[at + slot::NAME..at + SLOT].copy_from_slice(&name_field(name));
}

/// Gives the file of a slot attributes, if there is a block for them.
pub fn put_attributes(rng: &mut Rng, image: &mut [u8], at: usize, pool: &mut Vec<usize>) {
    let most = rng.pick(&[1, 1, 2, 3, MAX_ATTRIBUTE_BLOCKS]);
    let count = rng.between(1, most).min(pool.len());
    let blocks: Vec<usize> = pool.drain(..count).collect();
    link(image, &blocks);
    put_number(image, at + slot::ATTRIBUTE_BLOCK, blocks.first().map_or(0, |&b| b as u32));
    put_number(image, at + slot::ATTRIBUTE_SIZE, count as u32);
}

/// The header's bytes 0 to 31, with the counts of the table.
pub fn put_header(image: &mut [u8]) {
    let n = block_count(image);
    let free = free_blocks(image).len();
    image[..8].copy_from_slice(header::SIGNATURE_BYTES);
    image[8..12].copy_from_slice(header::VERSION_BYTES);
    put_number(image, header::TOTAL, n as u32);
    put_number(image, header::TABLE_BLOCKS, table_blocks(n) as u32);
    put_number(image, header::OCCUPIED, (n - free) as u32);
    put_number(image, header::FREE, free as u32);
    put_number(image, header::ROOT, root_block(n) as u32);
}

fn any_size(rng: &mut Rng, most: usize) -> usize {
    let size = match rng.below(8) {
        0 | 1 => 0,
        2 => rng.pick(&[1, 2, 511, 512, 513, 1023, 1024, 1025]),
        3 => BLOCK * rng.between(1, 9),
        4 => rng.between(1, 6000),
        5 => rng.below(most + 1),
        _ => rng.between(1, 1500),
    };
    size.min(most)
}

/// Names that are easily confused, and some that are not.
pub fn good_name(rng: &mut Rng) -> Vec<u8> {
    match rng.below(7) {
        0 | 1 => format!("SN{}", rng.below(130)).into_bytes(),
        2 => vec![b'a'; rng.between(1, MAX_NAME)],
        3 => vec![rng.name_byte()],
        4 => {
            let mut name = vec![b'z'; rng.pick(&[MAX_NAME - 2, MAX_NAME - 1, MAX_NAME])];
            *name.last_mut().unwrap() = rng.name_byte();
            name
        }
        5 => (0..MAX_NAME).map(|_| rng.name_byte()).collect(),
        _ => (0..rng.between(1, 20)).map(|_| rng.name_byte()).collect(),
    }
}
