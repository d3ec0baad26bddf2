//! Damage for every clause of every stage of the check.

use crate::arguments::any_data_block;
use crate::images::put_folder;
use crate::rng::Rng;
use crate::tree::{files, folders, items, root, root_chain, slots, Item};
use reference::layout::*;

/// One way to break a sound image. `make` gives None if the image does not
/// have what it takes.
pub struct Clause {
    pub stage: u32,
    pub what: &'static str,
    pub make: fn(&mut Rng, &mut Vec<u8>) -> Option<()>,
}

fn n_t(image: &[u8]) -> (usize, usize) {
    let n = block_count(image);
    (n, table_blocks(n))
}

/// Where the root's self entry lies.
fn self_at(image: &[u8]) -> usize {
    root(image) * BLOCK
}

/// A number other than the one there, close to it or not at all.
fn put_other(rng: &mut Rng, image: &mut [u8], at: usize) -> Option<()> {
    let old = number(image, at);
    let bit = 1 << rng.below(32);
    let new = rng.pick(&[old + 1, old.wrapping_sub(1), 0, u32::MAX, old ^ bit, old << 8]);
    put_number(image, at, if new == old { old ^ bit } else { new });
    Some(())
}

pub fn file_where(rng: &mut Rng, image: &[u8], test: fn(&Item) -> bool) -> Option<Item> {
    let files: Vec<Item> = files(image).into_iter().filter(test).collect();
    (!files.is_empty()).then(|| rng.pick(&files))
}

pub fn any_file(rng: &mut Rng, image: &[u8]) -> Option<Item> {
    file_where(rng, image, |_| true)
}

pub fn file_with_blocks(rng: &mut Rng, image: &[u8]) -> Option<Item> {
    file_where(rng, image, |f| f.blocks >= 1)
}

pub fn long_file(rng: &mut Rng, image: &[u8]) -> Option<Item> {
    file_where(rng, image, |f| f.blocks >= 2)
}

pub fn file_with_attributes(rng: &mut Rng, image: &[u8]) -> Option<Item> {
    file_where(rng, image, |f| f.attribute_size >= 1)
}

pub fn long_attributes(rng: &mut Rng, image: &[u8]) -> Option<Item> {
    file_where(rng, image, |f| f.attribute_size >= 2)
}

fn any_folder(rng: &mut Rng, image: &[u8]) -> Option<Item> {
    let folders = folders(image);
    (!folders.is_empty()).then(|| rng.pick(&folders))
}

fn long_folder(rng: &mut Rng, image: &[u8]) -> Option<Item> {
    let folders: Vec<Item> = folders(image).into_iter().filter(|f| f.blocks >= 2).collect();
    (!folders.is_empty()).then(|| rng.pick(&folders))
}

/// A file or a folder.
fn any_item(rng: &mut Rng, image: &[u8]) -> Option<Item> {
    let items = items(image);
    (!items.is_empty()).then(|| rng.pick(&items))
}

/// Where the self entry of a folder lies.
fn own_self(folder: &Item) -> usize {
    folder.first as usize * BLOCK
}

pub fn last_of(image: &[u8], item: &Item) -> usize {
    *item.chain(image).last().unwrap()
}

/// A free block above the table. A table block's entry may be damaged already.
pub fn free_block(rng: &mut Rng, image: &[u8]) -> Option<usize> {
    let (_, t) = n_t(image);
    let free: Vec<usize> = free_blocks(image).into_iter().filter(|&b| b > t).collect();
    (!free.is_empty()).then(|| rng.pick(&free))
}

/// The offset of a slot for entries, in any directory.
fn any_slot(rng: &mut Rng, image: &[u8]) -> usize {
    let slots = rng.pick(&slots(image));
    slots[rng.between(1, slots.len() - 2)]
}

/// A free slot in any directory, and that directory's first block.
fn free_slot(rng: &mut Rng, image: &[u8]) -> Option<(usize, Directory)> {
    let mut homes = tree(image);
    rng.shuffle(&mut homes);
    homes.into_iter().find_map(|home| free_slot_in(image, home.first).map(|at| (at, home)))
}

fn free_slot_in(image: &[u8], first: usize) -> Option<usize> {
    let slots = slot_offsets(image, first);
    slots[1..slots.len() - 1].iter().copied().find(|&at| image[at] == slot::TYPE_FREE)
}

/// A name that a directory does not have.
fn new_name(home: &Directory) -> Vec<u8> {
    let is_new = |name: &Vec<u8>| home.entries.iter().all(|entry| &entry.name != name);
    (1..=255u8).map(|b| vec![b, b'2']).filter(|name| is_good_name(name)).find(is_new).unwrap()
}

/// A block number that no chain may hold.
pub fn outside(rng: &mut Rng, image: &[u8]) -> u32 {
    let (n, t) = n_t(image);
    let any = rng.next() as u32 | 0x8000_0000;
    rng.pick(&[
        n as u32,
        n as u32 + 1,
        t as u32,
        1.max(t as u32 / 2),
        4096.max(n as u32),
        65536,
        any,
        u32::MAX,
    ])
    .max(1)
}

/// A value that is not 1 although one of its bytes may be.
pub fn not_one(rng: &mut Rng) -> u32 {
    rng.pick(&[0, 0x0000_0101, 0x0001_0001, 0x0100_0001, 0x0100_0000, u32::MAX])
}

/// Puts a further file over blocks that have an owner already.
fn second_owner(rng: &mut Rng, image: &mut [u8], first: u32, size: u32) -> Option<()> {
    let (at, home) = free_slot(rng, image)?;
    image[at..at + SLOT].fill(0);
    image[at + slot::TYPE] = 0x77;
    put_number(image, at + slot::FIRST, first);
    put_number(image, at + slot::SIZE, size);
    put_number(image, at + slot::BLOCKS, size.div_ceil(512));
    image[at + slot::NAME..at + SLOT].copy_from_slice(&name_field(&new_name(&home)));
    Some(())
}

/// Ends a file or folder of two blocks or more with a block that has an owner
/// already.
pub fn join(image: &mut [u8], item: &Item, last: usize) {
    let chain = item.chain(image);
    join_chain(image, &chain, last);
}

fn join_chain(image: &mut [u8], chain: &[usize], last: usize) {
    set_entry(image, chain[chain.len() - 1], 0);
    set_entry(image, chain[chain.len() - 2], last as u32);
}

/// Sets the two attribute fields of a file or folder.
pub fn put_fields(image: &mut [u8], item: &Item, block: u32, size: u32) -> Option<()> {
    put_number(image, item.at + slot::ATTRIBUTE_BLOCK, block);
    put_number(image, item.at + slot::ATTRIBUTE_SIZE, size);
    Some(())
}

pub fn last_attribute(image: &[u8], file: &Item) -> usize {
    *file.attributes(image).last().unwrap()
}

/// A file other than this one that meets a test.
fn other_where(rng: &mut Rng, image: &[u8], file: &Item, test: fn(&Item) -> bool) -> Option<Item> {
    let others = files(image).into_iter().filter(|other| other.at != file.at && test(other));
    let others: Vec<Item> = others.collect();
    (!others.is_empty()).then(|| rng.pick(&others))
}

/// Sets a file's size and its size in blocks to match.
pub fn resize(image: &mut [u8], file: &Item, size: u32) {
    put_number(image, file.at + slot::SIZE, size);
    put_number(image, file.at + slot::BLOCKS, size.div_ceil(512));
}

pub fn rename(image: &mut [u8], item: &Item, field: &[u8]) {
    image[item.at + slot::NAME..item.at + SLOT].copy_from_slice(field);
}

/// Sets the blocks of a folder in its entry and in its self entry.
fn resize_folder(image: &mut [u8], folder: &Item, d: u32) {
    put_number(image, folder.at + slot::BLOCKS, d);
    put_number(image, own_self(folder) + slot::BLOCKS, d);
}

#[rustfmt::skip]
const LENGTH: &[Clause] = &[
    Clause { stage: 1, what: "no bytes", make: |_, i| { i.clear(); Some(()) } },
    Clause { stage: 1, what: "too short", make: |r, i| {
        i.truncate(r.pick(&[1, 4, 31, 511, 512, 513, 1023, 1024, 1025, 1535]));
        Some(())
    } },
    Clause { stage: 1, what: "a byte less", make: |_, i| { i.pop(); Some(()) } },
    Clause { stage: 1, what: "a byte more", make: |r, i| { i.push(r.byte()); Some(()) } },
    Clause { stage: 1, what: "half a block more", make: |_, i| { i.resize(i.len() + 256, 0); Some(()) } },
    // A large image: a caller that does not insist mostly does without it.
    Clause { stage: 1, what: "65,537 blocks", make: |r, i| {
        if !r.once_in(8) { return None; }
        i.resize((MAX_BLOCKS + 1) * 512, 0);
        Some(())
    } },
];

#[rustfmt::skip]
const HEADER: &[Clause] = &[
    Clause { stage: 2, what: "signature", make: |r, i| { i[r.below(8)] ^= 1 << r.below(8); Some(()) } },
    Clause { stage: 2, what: "version", make: |r, i| { i[r.between(8, 11)] ^= 1 << r.below(8); Some(()) } },
    Clause { stage: 2, what: "version of other byte order", make: |_, i| { i[8..12].copy_from_slice(&[0, 0, 1, 0]); Some(()) } },
    Clause { stage: 3, what: "total", make: |r, i| put_other(r, i, header::TOTAL) },
    Clause { stage: 3, what: "table blocks", make: |r, i| put_other(r, i, header::TABLE_BLOCKS) },
    Clause { stage: 3, what: "root block", make: |r, i| put_other(r, i, header::ROOT) },
    Clause { stage: 3, what: "a block more than the total", make: |_, i| {
        if block_count(i) == MAX_BLOCKS { return None; }
        i.resize(i.len() + 512, 0);
        Some(())
    } },
    Clause { stage: 7, what: "occupied", make: |r, i| put_other(r, i, header::OCCUPIED) },
    Clause { stage: 7, what: "free", make: |r, i| put_other(r, i, header::FREE) },
    Clause { stage: 7, what: "both counts, their sum right", make: |r, i| {
        let by = r.pick(&[1, 256, u32::MAX]);
        let (occupied, free) = (number(i, header::OCCUPIED), number(i, header::FREE));
        put_number(i, header::OCCUPIED, occupied.wrapping_add(by));
        put_number(i, header::FREE, free.wrapping_sub(by));
        Some(())
    } },
];

#[rustfmt::skip]
const ROOT: &[Clause] = &[
    Clause { stage: 4, what: "self type", make: |r, i| {
        let at = self_at(i);
        i[at] = r.pick(&[0x00, 0x02, 0x60, 0x81, 0xFF]);
        Some(())
    } },
    Clause { stage: 4, what: "block_self", make: |r, i| { let at = self_at(i); put_other(r, i, at + slot::SELF_BLOCK) } },
    Clause { stage: 4, what: "block_parent", make: |r, i| { let at = self_at(i); put_other(r, i, at + slot::SELF_PARENT) } },
    Clause { stage: 4, what: "size_blocks", make: |r, i| { let at = self_at(i); put_other(r, i, at + slot::BLOCKS) } },
    Clause { stage: 4, what: "size_blocks 0, 65 and more", make: |r, i| {
        let at = self_at(i) + slot::BLOCKS;
        put_number(i, at, r.pick(&[0, 65, 128, 4096, 0x0100_0001, u32::MAX]));
        Some(())
    } },
    Clause { stage: 4, what: "a root of 65 linked blocks", make: |r, i| {
        let mut root = root_chain(i);
        if root.len() != 64 { return None; }
        root.push(free_block(r, i)?);
        link(i, &root);
        let at = self_at(i) + slot::BLOCKS;
        put_number(i, at, 65);
        Some(())
    } },
    Clause { stage: 4, what: "chain shorter", make: |r, i| {
        let root = root_chain(i);
        if root.len() < 2 { return None; }
        let b = root[r.below(root.len() - 1)];
        set_entry(i, b, 1);
        Some(())
    } },
    Clause { stage: 4, what: "chain longer", make: |r, i| {
        let root = root_chain(i);
        let free = free_block(r, i)?;
        set_entry(i, root[root.len() - 1], free as u32);
        set_entry(i, free, 1);
        Some(())
    } },
    Clause { stage: 4, what: "last value", make: |r, i| {
        let root = root_chain(i);
        let value = not_one(r);
        set_entry(i, root[root.len() - 1], value);
        Some(())
    } },
    Clause { stage: 4, what: "loop", make: |r, i| {
        let root = root_chain(i);
        let back = root[r.below(root.len())];
        let from = root[r.below(root.len())];
        if root.len() > 1 && entry(i, from) as usize == back { return None; }
        set_entry(i, from, back as u32);
        Some(())
    } },
    Clause { stage: 4, what: "last block n, with an entry", make: |_, i| {
        let (n, t) = n_t(i);
        let root = root_chain(i);
        if root.len() < 2 || n == t * 128 { return None; }
        set_entry(i, root[root.len() - 2], n as u32);
        set_entry(i, n, 1);
        Some(())
    } },
    Clause { stage: 4, what: "last block t", make: |_, i| {
        let (_, t) = n_t(i);
        let root = root_chain(i);
        if root.len() < 2 { return None; }
        set_entry(i, root[root.len() - 2], t as u32);
        Some(())
    } },
    Clause { stage: 4, what: "next outside", make: |r, i| {
        let root = root_chain(i);
        let value = outside(r, i);
        if root.len() == 1 && value == 1 { return None; }
        set_entry(i, root[r.below(root.len().max(2) - 1)], value);
        Some(())
    } },
];

#[rustfmt::skip]
const FOLDER: &[Clause] = &[
    Clause { stage: 4, what: "a folder's self type", make: |r, i| {
        let at = own_self(&any_folder(r, i)?);
        i[at] = r.pick(&[0x00, 0x02, 0x20, 0x60, 0xFF]);
        Some(())
    } },
    Clause { stage: 4, what: "a folder's block_self", make: |r, i| { let f = any_folder(r, i)?; put_other(r, i, own_self(&f) + slot::SELF_BLOCK) } },
    Clause { stage: 4, what: "a folder's block_parent", make: |r, i| { let f = any_folder(r, i)?; put_other(r, i, own_self(&f) + slot::SELF_PARENT) } },
    Clause { stage: 4, what: "a folder as its own parent", make: |r, i| {
        let f = any_folder(r, i)?;
        put_number(i, own_self(&f) + slot::SELF_PARENT, f.first);
        Some(())
    } },
    Clause { stage: 4, what: "a folder of a folder with the root as parent", make: |r, i| {
        let f = any_folder(r, i)?;
        if f.level == 0 { return None; }
        let parent = root(i) as u32;
        put_number(i, own_self(&f) + slot::SELF_PARENT, parent);
        Some(())
    } },
    Clause { stage: 4, what: "size_blocks of a folder's self entry", make: |r, i| { let f = any_folder(r, i)?; put_other(r, i, own_self(&f) + slot::BLOCKS) } },
    Clause { stage: 4, what: "size in blocks of a folder's entry", make: |r, i| { let f = any_folder(r, i)?; put_other(r, i, f.at + slot::BLOCKS) } },
    Clause { stage: 4, what: "a folder of 0, 65 and more blocks", make: |r, i| {
        let f = any_folder(r, i)?;
        resize_folder(i, &f, r.pick(&[0, 65, 4096, 0x0100_0001, u32::MAX]));
        Some(())
    } },
    Clause { stage: 4, what: "a folder of 65 linked blocks", make: |r, i| {
        let f = any_folder(r, i)?;
        let mut chain = f.chain(i);
        let (_, t) = n_t(i);
        chain.extend(free_blocks(i).into_iter().filter(|&b| b > t));
        chain.truncate(65);
        if chain.len() < 65 { return None; }
        link(i, &chain);
        resize_folder(i, &f, 65);
        Some(())
    } },
    Clause { stage: 4, what: "a folder of one block more or less than its chain", make: |r, i| {
        let f = any_folder(r, i)?;
        resize_folder(i, &f, r.pick(&[f.blocks - 1, f.blocks + 1]));
        Some(())
    } },
    Clause { stage: 4, what: "another name in a folder's self entry", make: |r, i| {
        let f = any_folder(r, i)?;
        i[own_self(&f) + slot::NAME + r.below(f.name.len())] ^= 1 << r.below(8);
        Some(())
    } },
    Clause { stage: 4, what: "last byte of the name field of a folder's self entry", make: |r, i| {
        let f = any_folder(r, i)?;
        i[own_self(&f) + SLOT - 1] ^= 1 << r.below(8);
        Some(())
    } },
    Clause { stage: 4, what: "another name in a folder's entry", make: |r, i| {
        let f = any_folder(r, i)?;
        let field = name_field(&new_name(tree(i).iter().find(|home| home.first == f.home)?));
        rename(i, &f, &field);
        Some(())
    } },
    Clause { stage: 4, what: "a folder's first block outside", make: |r, i| {
        let f = any_folder(r, i)?;
        let value = outside(r, i);
        put_number(i, f.at + slot::FIRST, r.pick(&[0, 1, value]));
        Some(())
    } },
    Clause { stage: 4, what: "a folder on any other block", make: |r, i| {
        let f = any_folder(r, i)?;
        let b = any_data_block(r, i);
        if b == f.first { return None; }
        put_number(i, f.at + slot::FIRST, b);
        Some(())
    } },
    Clause { stage: 4, what: "a folder's chain shorter", make: |r, i| {
        let chain = long_folder(r, i)?.chain(i);
        set_entry(i, chain[r.below(chain.len() - 1)], 1);
        Some(())
    } },
    Clause { stage: 4, what: "a folder's chain longer", make: |r, i| {
        let (f, free) = (any_folder(r, i)?, free_block(r, i)?);
        let last = last_of(i, &f);
        set_entry(i, last, free as u32);
        set_entry(i, free, 1);
        Some(())
    } },
    Clause { stage: 4, what: "a folder's last value", make: |r, i| {
        let f = any_folder(r, i)?;
        let (last, value) = (last_of(i, &f), not_one(r));
        set_entry(i, last, value);
        Some(())
    } },
    Clause { stage: 4, what: "a folder's chain a loop", make: |r, i| {
        let chain = any_folder(r, i)?.chain(i);
        let back = chain[r.below(chain.len())];
        set_entry(i, chain[chain.len() - 1], back as u32);
        Some(())
    } },
    Clause { stage: 4, what: "a folder's next outside", make: |r, i| {
        let chain = long_folder(r, i)?.chain(i);
        let value = outside(r, i);
        set_entry(i, chain[r.below(chain.len() - 1)], value);
        Some(())
    } },
    Clause { stage: 4, what: "two folders with one end", make: |r, i| {
        let (f, g) = (long_folder(r, i)?, any_folder(r, i)?);
        let (own, last) = (last_of(i, &f), last_of(i, &g));
        if f.at == g.at || last == g.first as usize { return None; }
        if !is_unused(i, own) || !is_unused(i, last) { return None; }
        join(i, &f, last);
        Some(())
    } },
    Clause { stage: 4, what: "a folder with the root's end", make: |r, i| {
        let f = long_folder(r, i)?;
        let chain = root_chain(i);
        let last = chain[chain.len() - 1];
        if chain.len() == 1 || !is_unused(i, last) { return None; }
        join(i, &f, last);
        Some(())
    } },
    Clause { stage: 4, what: "a folder twice", make: |r, i| {
        // In another directory, or in its own by another name.
        let f = any_folder(r, i)?;
        let (at, home) = free_slot(r, i)?;
        i.copy_within(f.at..f.at + SLOT, at);
        if home.entries.iter().any(|entry| entry.name == f.name) {
            i[at + slot::NAME..at + SLOT].copy_from_slice(&name_field(&new_name(&home)));
        }
        Some(())
    } },
    Clause { stage: 4, what: "the root within itself", make: |r, i| {
        // Nothing but its block tells that it was met.
        let home = tree(i).swap_remove(0);
        let at = free_slot_in(i, home.first)?;
        put_loop(r, i, at, home.first, &new_name(&home));
        Some(())
    } },
    Clause { stage: 4, what: "a folder on its parent's last block", make: |r, i| {
        // That block's first slot is made a self entry. It comes after the folder.
        let mut homes = tree(i);
        r.shuffle(&mut homes);
        let (at, home, last) = homes.into_iter().find_map(|home| {
            let last = *directory_chain(i, home.first).last()?;
            let at = free_slot_in(i, home.first)?;
            let fits = home.level < MAX_LEVELS && last != home.first && at / BLOCK != last;
            (fits && is_unused(i, last)).then_some((at, home, last))
        })?;
        put_folder(r, i, at, home.first, &new_name(&home), &[last]);
        Some(())
    } },
    Clause { stage: 4, what: "a ninth level", make: |r, i| {
        let home = tree(i).into_iter().find(|home| home.level == MAX_LEVELS)?;
        let (at, b) = (free_slot_in(i, home.first)?, free_block(r, i)?);
        put_folder(r, i, at, home.first, &new_name(&home), &[b]);
        Some(())
    } },
];

/// Whether no slot of a directory's last block but the end is in use.
fn is_unused(image: &[u8], block: usize) -> bool {
    (0..3).all(|slot| image[block * BLOCK + slot * SLOT] == slot::TYPE_FREE)
}

/// Puts into a slot of a directory an entry for that directory itself.
fn put_loop(rng: &mut Rng, image: &mut [u8], at: usize, first: usize, name: &[u8]) {
    let (own, d) = (first * BLOCK, directory_chain(image, first).len());
    image[at + slot::TYPE] = rng.between(0x20, 0x5F) as u8;
    put_number(image, at + slot::FIRST, first as u32);
    put_number(image, at + slot::SIZE, 0);
    put_number(image, at + slot::BLOCKS, d as u32);
    put_number(image, at + slot::ATTRIBUTE_BLOCK, 0);
    put_number(image, at + slot::ATTRIBUTE_SIZE, 0);
    image[at + slot::NAME..at + SLOT].copy_from_slice(&name_field(name));
    image[own + slot::NAME..own + SLOT].copy_from_slice(&name_field(name));
}

#[rustfmt::skip]
const DIRECTORY: &[Clause] = &[
    Clause { stage: 5, what: "end type", make: |r, i| {
        let at = *r.pick(&slots(i)).last().unwrap();
        i[at] = r.pick(&[0x00, 0x01, 0x60, 0x7F, 0xFE]);
        Some(())
    } },
    Clause { stage: 5, what: "slot type", make: |r, i| {
        let at = any_slot(r, i);
        i[at] = r.pick(&[0x01, 0x02, 0x1F, 0xA0, 0xC0, 0xFE, 0xFF]);
        Some(())
    } },
    Clause { stage: 5, what: "no name", make: |r, i| { let f = any_item(r, i)?; rename(i, &f, &[0; 80]); Some(()) } },
    Clause { stage: 5, what: "name starts with 0", make: |r, i| { let f = any_item(r, i)?; i[f.at + slot::NAME] = 0; Some(()) } },
    Clause { stage: 5, what: "byte after the name", make: |r, i| {
        let f = any_item(r, i)?;
        if f.name.len() >= NAME_FIELD - 1 { return None; }
        let at = f.at + slot::NAME + r.between(f.name.len() + 1, NAME_FIELD - 1);
        i[at] = r.nonzero_byte();
        Some(())
    } },
    Clause { stage: 5, what: "last byte of the name field", make: |r, i| {
        let f = any_item(r, i)?;
        if f.name.len() >= NAME_FIELD - 1 { return None; }
        i[f.at + SLOT - 1] = r.nonzero_byte();
        Some(())
    } },
    Clause { stage: 5, what: "slash in a name", make: |r, i| {
        let f = any_item(r, i)?;
        i[f.at + slot::NAME + r.below(f.name.len())] = b'/';
        Some(())
    } },
    Clause { stage: 5, what: "name twice", make: |r, i| {
        // The name of a file or folder also for a file in the same directory.
        let (one, other) = (any_file(r, i)?, any_item(r, i)?);
        if one.at == other.at || one.home != other.home { return None; }
        let field = name_field(&other.name);
        rename(i, &one, &field);
        Some(())
    } },
    Clause { stage: 5, what: "first and last name equal", make: |r, i| {
        let home = any_item(r, i)?.home;
        let mut all = files(i);
        all.retain(|f| f.home == home);
        if all.len() < 2 { return None; }
        let field = name_field(&all[0].name);
        rename(i, &all[all.len() - 1], &field);
        Some(())
    } },
    Clause { stage: 5, what: "size of a folder", make: |r, i| {
        let f = any_folder(r, i)?;
        put_number(i, f.at + slot::SIZE, r.pick(&[1, 512 * f.blocks, 1 << 24, u32::MAX]));
        Some(())
    } },
    Clause { stage: 5, what: "a folder as a file", make: |r, i| {
        let f = any_folder(r, i)?;
        i[f.at] = r.pick(&[0x60, 0x9F]);
        Some(())
    } },
    Clause { stage: 5, what: "a file with blocks as a folder", make: |r, i| {
        let f = file_with_blocks(r, i)?;
        i[f.at] = r.pick(&[0x20, 0x5F]);
        Some(())
    } },
    Clause { stage: 5, what: "attribute block without a size", make: |r, i| {
        let f = any_item(r, i)?;
        if f.attribute_size != 0 { return None; }
        i[f.at + slot::ATTRIBUTE_BLOCK + r.below(4)] = r.nonzero_byte();
        Some(())
    } },
    Clause { stage: 5, what: "attribute size without a block", make: |r, i| {
        let f = any_item(r, i)?;
        if f.attribute_size != 0 { return None; }
        i[f.at + slot::ATTRIBUTE_SIZE + r.below(4)] = r.nonzero_byte();
        Some(())
    } },
    Clause { stage: 5, what: "attribute block 0", make: |r, i| {
        let f = file_with_attributes(r, i)?;
        put_fields(i, &f, 0, f.attribute_size)
    } },
    Clause { stage: 5, what: "attribute size 0", make: |r, i| {
        let f = file_with_attributes(r, i)?;
        put_fields(i, &f, f.attribute_block, 0)
    } },
    Clause { stage: 5, what: "attribute size above 8", make: |r, i| {
        let f = any_file(r, i)?;
        let block = if f.attribute_block == 0 { any_data_block(r, i) } else { f.attribute_block };
        let low = f.attribute_size;
        put_fields(i, &f, block, r.pick(&[9, 10, 16, 256 + low, 0x0100_0000 + low, 0x8000_0001, u32::MAX]))
    } },
    Clause { stage: 5, what: "nine linked blocks of attributes", make: |r, i| {
        let (f, (_, t)) = (any_file(r, i)?, n_t(i));
        let mut free: Vec<usize> = free_blocks(i).into_iter().filter(|&b| b > t).collect();
        if free.len() < 9 { return None; }
        r.shuffle(&mut free);
        link(i, &free[..9]);
        put_fields(i, &f, free[0] as u32, 9)
    } },
    Clause { stage: 5, what: "attributes of a folder", make: |r, i| {
        let (f, free) = (any_folder(r, i)?, free_block(r, i)?);
        set_entry(i, free, 1);
        put_fields(i, &f, free as u32, 1)
    } },
    Clause { stage: 5, what: "size in blocks", make: |r, i| { let f = any_file(r, i)?; put_other(r, i, f.at + slot::BLOCKS) } },
    Clause { stage: 5, what: "size past its blocks", make: |r, i| {
        let f = any_file(r, i)?;
        let size = f.blocks.wrapping_mul(512) + r.pick(&[1, 2, 512]);
        put_number(i, f.at + slot::SIZE, size);
        Some(())
    } },
    Clause { stage: 5, what: "size below its last block", make: |r, i| {
        let f = file_with_blocks(r, i)?;
        put_number(i, f.at + slot::SIZE, (f.blocks - 1) * 512);
        Some(())
    } },
    Clause { stage: 5, what: "huge size of no blocks", make: |r, i| {
        let f = any_file(r, i)?;
        put_number(i, f.at + slot::SIZE, r.pick(&[u32::MAX, u32::MAX - 510]));
        put_number(i, f.at + slot::BLOCKS, 0);
        Some(())
    } },
    Clause { stage: 5, what: "empty file with a first block", make: |r, i| {
        let f = file_where(r, i, |f| f.size == 0)?;
        let b = any_data_block(r, i);
        put_number(i, f.at + slot::FIRST, r.pick(&[1, b, u32::MAX]));
        Some(())
    } },
    Clause { stage: 5, what: "file without a first block", make: |r, i| {
        let f = file_with_blocks(r, i)?;
        put_number(i, f.at + slot::FIRST, 0);
        Some(())
    } },
];

#[rustfmt::skip]
const CHAINS: &[Clause] = &[
    Clause { stage: 6, what: "first outside", make: |r, i| {
        let f = file_with_blocks(r, i)?;
        let value = outside(r, i);
        put_number(i, f.at + slot::FIRST, value);
        Some(())
    } },
    Clause { stage: 6, what: "first block n, with an entry", make: |r, i| {
        let (n, t) = n_t(i);
        let f = file_where(r, i, |f| f.blocks == 1)?;
        if n == t * 128 { return None; }
        set_entry(i, f.first as usize, 0);
        put_number(i, f.at + slot::FIRST, n as u32);
        set_entry(i, n, 1);
        Some(())
    } },
    Clause { stage: 6, what: "first block t", make: |r, i| {
        let (_, t) = n_t(i);
        let f = file_where(r, i, |f| f.blocks == 1)?;
        set_entry(i, f.first as usize, 0);
        put_number(i, f.at + slot::FIRST, t as u32);
        Some(())
    } },
    Clause { stage: 6, what: "next outside", make: |r, i| {
        let f = long_file(r, i)?;
        let chain = f.chain(i);
        let value = outside(r, i);
        set_entry(i, chain[r.below(chain.len() - 1)], value);
        Some(())
    } },
    Clause { stage: 6, what: "last value", make: |r, i| {
        let f = file_with_blocks(r, i)?;
        let last = last_of(i, &f);
        let value = not_one(r);
        set_entry(i, last, value);
        Some(())
    } },
    Clause { stage: 6, what: "last value a free block", make: |r, i| {
        let f = file_with_blocks(r, i)?;
        let (last, free) = (last_of(i, &f), free_block(r, i)?);
        set_entry(i, last, free as u32);
        set_entry(i, free, 1);
        Some(())
    } },
    Clause { stage: 6, what: "loop", make: |r, i| {
        let f = file_with_blocks(r, i)?;
        let chain = f.chain(i);
        let back = chain[r.below(chain.len())];
        set_entry(i, chain[chain.len() - 1], back as u32);
        Some(())
    } },
    Clause { stage: 6, what: "chain ends early", make: |r, i| {
        let f = long_file(r, i)?;
        let chain = f.chain(i);
        set_entry(i, chain[r.below(chain.len() - 1)], 1);
        Some(())
    } },
    Clause { stage: 6, what: "a block more than the chain", make: |r, i| {
        let f = any_file(r, i)?;
        if f.blocks == 0 { return None; }
        resize(i, &f, f.size + 512);
        Some(())
    } },
    Clause { stage: 6, what: "a block less than the chain", make: |r, i| {
        let f = long_file(r, i)?;
        resize(i, &f, f.size - 512);
        Some(())
    } },
    Clause { stage: 6, what: "huge size", make: |r, i| {
        let f = file_with_blocks(r, i)?;
        resize(i, &f, r.pick(&[u32::MAX, u32::MAX - 511, 0x8000_0000, 4096 * 512, 65536 * 512, 65537 * 512]));
        Some(())
    } },
    Clause { stage: 6, what: "size in blocks right in its low bits", make: |r, i| {
        let f = file_with_blocks(r, i)?;
        let more = r.pick(&[1 << 8, 1 << 12, 1 << 16, 1 << 20, 1 << 22]);
        resize(i, &f, f.size + 512 * more);
        Some(())
    } },
    Clause { stage: 6, what: "huge size on a loop", make: |r, i| {
        let f = file_with_blocks(r, i)?;
        let last = last_of(i, &f);
        set_entry(i, last, f.first);
        resize(i, &f, r.pick(&[u32::MAX, 4096 * 512, 65536 * 512]));
        Some(())
    } },
    Clause { stage: 6, what: "two files on one chain", make: |r, i| {
        let f = file_with_blocks(r, i)?;
        second_owner(r, i, f.first, f.size)
    } },
    Clause { stage: 6, what: "two files on one last block", make: |r, i| {
        let f = file_with_blocks(r, i)?;
        let (last, size) = (last_of(i, &f), r.between(1, 512));
        second_owner(r, i, last as u32, size as u32)
    } },
    Clause { stage: 6, what: "two files with one end", make: |r, i| {
        let f = long_file(r, i)?;
        let mut others = files(i);
        others.retain(|g| g.blocks >= 1 && g.at != f.at);
        if others.is_empty() { return None; }
        let last = last_of(i, &r.pick(&others));
        join(i, &f, last);
        Some(())
    } },
    Clause { stage: 6, what: "a file with the root's end", make: |r, i| {
        let f = long_file(r, i)?;
        let last = *root_chain(i).last().unwrap();
        join(i, &f, last);
        Some(())
    } },
    Clause { stage: 6, what: "a file on the root's last block", make: |r, i| {
        let last = *root_chain(i).last().unwrap();
        second_owner(r, i, last as u32, 9)
    } },
    Clause { stage: 6, what: "a file on the whole root", make: |r, i| {
        let root = root_chain(i);
        second_owner(r, i, root[0] as u32, 512 * root.len() as u32)
    } },
    Clause { stage: 6, what: "a file with a folder's end", make: |r, i| {
        let (f, folder) = (long_file(r, i)?, any_folder(r, i)?);
        let last = last_of(i, &folder);
        join(i, &f, last);
        Some(())
    } },
    Clause { stage: 6, what: "a file on a whole folder", make: |r, i| {
        let f = any_folder(r, i)?;
        second_owner(r, i, f.first, 512 * f.blocks)
    } },
    Clause { stage: 6, what: "the blocks of a folder that is gone", make: |r, i| {
        let f = any_folder(r, i)?;
        i[f.at] = slot::TYPE_FREE;
        Some(())
    } },
    Clause { stage: 6, what: "a free block with an entry", make: |r, i| {
        let free = free_block(r, i)?;
        let value = r.pick(&[1, 2, free as u32, 0x0100_0000, u32::MAX]);
        set_entry(i, free, value);
        Some(())
    } },
    Clause { stage: 6, what: "last block of the image with an entry", make: |_, i| {
        let last = block_count(i) - 1;
        if entry(i, last) != 0 { return None; }
        set_entry(i, last, 1);
        Some(())
    } },
    Clause { stage: 6, what: "entry 0", make: |r, i| { let v = not_one(r); set_entry(i, 0, v); Some(()) } },
    Clause { stage: 6, what: "entry of a table block", make: |r, i| {
        let (_, t) = n_t(i);
        let (b, v) = (r.between(1, t), not_one(r));
        set_entry(i, b, v);
        Some(())
    } },
    Clause { stage: 6, what: "entry of the last table block", make: |r, i| {
        let (_, t) = n_t(i);
        let v = not_one(r);
        set_entry(i, t, v);
        Some(())
    } },
    Clause { stage: 6, what: "entry n", make: |r, i| {
        let (n, t) = n_t(i);
        if n == t * 128 { return None; }
        let v = r.pick(&[1, 2, 0x0100_0000, 1 << 16]);
        set_entry(i, n, v);
        Some(())
    } },
    Clause { stage: 6, what: "entry from n on", make: |r, i| {
        let (n, t) = n_t(i);
        if n == t * 128 { return None; }
        let (b, v) = (r.between(n, t * 128 - 1), r.nonzero_byte());
        set_entry(i, b, u32::from(v));
        Some(())
    } },
    Clause { stage: 6, what: "last entry of the table", make: |_, i| {
        let (n, t) = n_t(i);
        if n == t * 128 { return None; }
        set_entry(i, t * 128 - 1, 1);
        Some(())
    } },
];

#[rustfmt::skip]
const ATTRIBUTES: &[Clause] = &[
    Clause { stage: 6, what: "attributes' first outside", make: |r, i| {
        let f = file_with_attributes(r, i)?;
        let value = outside(r, i);
        put_fields(i, &f, value, f.attribute_size)
    } },
    Clause { stage: 6, what: "attributes' first block n, with an entry", make: |r, i| {
        let (n, t) = n_t(i);
        let f = file_where(r, i, |f| f.attribute_size == 1)?;
        if n == t * 128 { return None; }
        set_entry(i, f.attribute_block as usize, 0);
        set_entry(i, n, 1);
        put_fields(i, &f, n as u32, 1)
    } },
    Clause { stage: 6, what: "attributes' first block t", make: |r, i| {
        let (_, t) = n_t(i);
        let f = file_where(r, i, |f| f.attribute_size == 1)?;
        set_entry(i, f.attribute_block as usize, 0);
        put_fields(i, &f, t as u32, 1)
    } },
    Clause { stage: 6, what: "attributes' next outside", make: |r, i| {
        let chain = long_attributes(r, i)?.attributes(i);
        let value = outside(r, i);
        set_entry(i, chain[r.below(chain.len() - 1)], value);
        Some(())
    } },
    Clause { stage: 6, what: "attributes' last value", make: |r, i| {
        let f = file_with_attributes(r, i)?;
        let (last, value) = (last_attribute(i, &f), not_one(r));
        set_entry(i, last, value);
        Some(())
    } },
    Clause { stage: 6, what: "attributes' last value a free block", make: |r, i| {
        let f = file_with_attributes(r, i)?;
        let (last, free) = (last_attribute(i, &f), free_block(r, i)?);
        set_entry(i, last, free as u32);
        set_entry(i, free, 1);
        Some(())
    } },
    Clause { stage: 6, what: "attributes' loop", make: |r, i| {
        let chain = file_with_attributes(r, i)?.attributes(i);
        let back = chain[r.below(chain.len())];
        set_entry(i, chain[chain.len() - 1], back as u32);
        Some(())
    } },
    Clause { stage: 6, what: "attributes' loop, eight times around", make: |r, i| {
        let f = file_with_attributes(r, i)?;
        let last = last_attribute(i, &f);
        set_entry(i, last, f.attribute_block);
        put_fields(i, &f, f.attribute_block, 8)
    } },
    Clause { stage: 6, what: "attributes end early", make: |r, i| {
        let chain = long_attributes(r, i)?.attributes(i);
        set_entry(i, chain[r.below(chain.len() - 1)], 1);
        Some(())
    } },
    Clause { stage: 6, what: "more blocks than the attributes", make: |r, i| {
        let f = file_where(r, i, |f| (1..8).contains(&f.attribute_size))?;
        put_fields(i, &f, f.attribute_block, r.between(f.attribute_size as usize + 1, 8) as u32)
    } },
    Clause { stage: 6, what: "fewer blocks than the attributes", make: |r, i| {
        let f = long_attributes(r, i)?;
        put_fields(i, &f, f.attribute_block, r.between(1, f.attribute_size as usize - 1) as u32)
    } },
    Clause { stage: 6, what: "attributes on a free block", make: |r, i| {
        let (f, free) = (any_file(r, i)?, free_block(r, i)?);
        put_fields(i, &f, free as u32, r.between(1, 8) as u32)
    } },
    Clause { stage: 6, what: "attributes on the file's own chain", make: |r, i| {
        let f = file_where(r, i, |f| (1..=8).contains(&f.blocks))?;
        put_fields(i, &f, f.first, f.blocks)
    } },
    Clause { stage: 6, what: "attributes on the file's own last block", make: |r, i| {
        let f = file_with_blocks(r, i)?;
        let last = last_of(i, &f);
        put_fields(i, &f, last as u32, 1)
    } },
    Clause { stage: 6, what: "attributes with the file's own end", make: |r, i| {
        let f = file_where(r, i, |f| f.attribute_size >= 2 && f.blocks >= 1)?;
        let (chain, last) = (f.attributes(i), last_of(i, &f));
        join_chain(i, &chain, last);
        Some(())
    } },
    Clause { stage: 6, what: "a file that goes on into its attributes", make: |r, i| {
        let f = file_where(r, i, |f| f.attribute_size >= 1 && f.blocks >= 1)?;
        let last = last_of(i, &f);
        set_entry(i, last, f.attribute_block);
        Some(())
    } },
    Clause { stage: 6, what: "attributes on another file's chain", make: |r, i| {
        let f = any_file(r, i)?;
        let g = other_where(r, i, &f, |g| (1..=8).contains(&g.blocks))?;
        put_fields(i, &f, g.first, g.blocks)
    } },
    Clause { stage: 6, what: "attributes on another file's last block", make: |r, i| {
        let f = any_file(r, i)?;
        let g = other_where(r, i, &f, |g| g.blocks >= 1)?;
        let last = last_of(i, &g);
        put_fields(i, &f, last as u32, 1)
    } },
    Clause { stage: 6, what: "two files with one chain of attributes", make: |r, i| {
        let f = any_file(r, i)?;
        let g = other_where(r, i, &f, |g| g.attribute_size >= 1)?;
        put_fields(i, &f, g.attribute_block, g.attribute_size)
    } },
    Clause { stage: 6, what: "two chains of attributes with one end", make: |r, i| {
        let f = long_attributes(r, i)?;
        let g = other_where(r, i, &f, |g| g.attribute_size >= 1)?;
        let (chain, last) = (f.attributes(i), last_attribute(i, &g));
        join_chain(i, &chain, last);
        Some(())
    } },
    Clause { stage: 6, what: "attributes on the root's last block", make: |r, i| {
        let (f, last) = (any_file(r, i)?, *root_chain(i).last().unwrap());
        put_fields(i, &f, last as u32, 1)
    } },
    Clause { stage: 6, what: "attributes with the root's end", make: |r, i| {
        let (chain, last) = (long_attributes(r, i)?.attributes(i), *root_chain(i).last().unwrap());
        join_chain(i, &chain, last);
        Some(())
    } },
    Clause { stage: 6, what: "attributes on a whole folder", make: |r, i| {
        let (f, folder) = (any_file(r, i)?, any_folder(r, i)?);
        if folder.blocks > 8 { return None; }
        put_fields(i, &f, folder.first, folder.blocks)
    } },
    Clause { stage: 6, what: "a file on another's attributes", make: |r, i| {
        let f = file_with_attributes(r, i)?;
        second_owner(r, i, f.attribute_block, 512 * f.attribute_size)
    } },
    Clause { stage: 6, what: "a file with the end of attributes", make: |r, i| {
        let (f, g) = (long_file(r, i)?, file_with_attributes(r, i)?);
        let last = last_attribute(i, &g);
        join(i, &f, last);
        Some(())
    } },
    Clause { stage: 6, what: "the blocks of attributes that are gone", make: |r, i| {
        let f = file_with_attributes(r, i)?;
        put_fields(i, &f, 0, 0)
    } },
    Clause { stage: 6, what: "the attributes of an empty file that is gone", make: |r, i| {
        let f = file_where(r, i, |f| f.attribute_size >= 1 && f.size == 0)?;
        i[f.at] = slot::TYPE_FREE;
        Some(())
    } },
];

/// All clauses, by what they break.
pub const ALL: [&[Clause]; 7] = [LENGTH, HEADER, ROOT, FOLDER, DIRECTORY, CHAINS, ATTRIBUTES];

/// Whether of two clauses the first is met before the second, by their stages.
/// Faults of directories come in the order of the tree; but the root's own
/// stage 4 comes before all of them.
pub fn comes_first(low: &Clause, high: &Clause) -> bool {
    let of_tree = |clause: &Clause| clause.stage == 4 || clause.stage == 5;
    let of_root = ROOT.iter().any(|clause| std::ptr::eq(clause, low));
    low.stage < high.stage && (of_root || !of_tree(low) || !of_tree(high))
}

/// The clauses of stages 1 to 4 that concern no folder.
pub fn of_root() -> impl Iterator<Item = &'static Clause> {
    [LENGTH, HEADER, ROOT].into_iter().flatten().filter(|clause| clause.stage <= 4)
}

pub fn clauses() -> impl Iterator<Item = &'static Clause> {
    ALL.into_iter().flatten()
}

/// Damages a sound image in one random way; gives the stage that it breaks.
pub fn any(rng: &mut Rng, image: &mut Vec<u8>) -> &'static Clause {
    let all: Vec<&Clause> = clauses().collect();
    loop {
        let clause = all[rng.below(all.len())];
        if (clause.make)(rng, image).is_some() {
            return clause;
        }
    }
}
