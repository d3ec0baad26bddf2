//! The calls on an image: format, look up, read, look in place, and what the
//! changes do to an image. No journal here.

use crate::check::{length, sound};
use crate::layout::*;
use crate::path::{named, parts, place, Want};
use crate::store::{self, Put};
use crate::Refusal;
use std::collections::BTreeSet;
use std::ops::Range;

/// What look up gives.
#[derive(Clone, Copy, Debug, PartialEq, Eq)]
pub struct Found {
    pub slot: u32,
    pub size: u32,
    pub blocks: u32,
}

#[derive(Clone, Debug, PartialEq, Eq)]
pub struct Create {
    pub path: Vec<u8>,
    pub kind: u8,
    pub user: u8,
    pub group: u8,
    pub permissions: u8,
    pub flags: u32,
    pub time: u64,
}

#[derive(Clone, Debug, PartialEq, Eq)]
pub struct Write {
    pub path: Vec<u8>,
    pub offset: u64,
    pub data: Vec<u8>,
    pub time: u64,
}

#[derive(Clone, Debug, PartialEq, Eq)]
pub struct Delete {
    pub path: Vec<u8>,
}

/// What a create brings, and the blocks that the directory is given.
#[derive(Clone, Debug, PartialEq, Eq)]
pub struct CreateDirectory {
    pub entry: Create,
    pub blocks: u32,
}

#[derive(Clone, Debug, PartialEq, Eq)]
pub struct DeleteDirectory {
    pub path: Vec<u8>,
}

#[derive(Clone, Debug, PartialEq, Eq)]
pub struct SetAttributes {
    pub path: Vec<u8>,
    pub data: Vec<u8>,
}

#[derive(Clone, Debug, PartialEq, Eq)]
pub struct ClearAttributes {
    pub path: Vec<u8>,
}

#[derive(Clone, Debug, PartialEq, Eq)]
pub struct ClearFlags {
    pub path: Vec<u8>,
}

#[derive(Clone, Debug, PartialEq, Eq)]
pub struct Shorten {
    pub path: Vec<u8>,
    pub size: u64,
    pub time: u64,
}

#[derive(Clone, Debug, PartialEq, Eq)]
pub struct Replace {
    pub path: Vec<u8>,
    pub data: Vec<u8>,
    pub time: u64,
}

#[derive(Clone, Debug, PartialEq, Eq)]
pub struct Move {
    pub path: Vec<u8>,
    pub to: Vec<u8>,
}

/// A call that changes the image.
#[derive(Clone, Debug, PartialEq, Eq)]
pub enum Change {
    Create(Create),
    Write(Write),
    Delete(Delete),
    CreateDirectory(CreateDirectory),
    DeleteDirectory(DeleteDirectory),
    SetAttributes(SetAttributes),
    ClearAttributes(ClearAttributes),
    ClearFlags(ClearFlags),
    Shorten(Shorten),
    Replace(Replace),
    Move(Move),
    Put(Put),
}

impl Change {
    /// The path that the change brings; of a put, that of its file.
    pub fn path(&self) -> Vec<u8> {
        match self {
            Change::Create(c) => c.path.clone(),
            Change::Write(w) => w.path.clone(),
            Change::Delete(d) => d.path.clone(),
            Change::CreateDirectory(c) => c.entry.path.clone(),
            Change::DeleteDirectory(d) => d.path.clone(),
            Change::SetAttributes(s) => s.path.clone(),
            Change::ClearAttributes(c) => c.path.clone(),
            Change::ClearFlags(c) => c.path.clone(),
            Change::Shorten(s) => s.path.clone(),
            Change::Replace(r) => r.path.clone(),
            Change::Move(m) => m.path.clone(),
            Change::Put(p) => store::path_of(p.directory(), &p.serial),
        }
    }

    /// All paths that the change is about: a move has two.
    pub fn paths(&self) -> Vec<Vec<u8>> {
        match self {
            Change::Move(m) => vec![m.path.clone(), m.to.clone()],
            _ => vec![self.path()],
        }
    }
}

/// An image after a change, and what the journal and the caller need of it.
pub struct Changed {
    pub image: Vec<u8>,
    pub named: BTreeSet<usize>,
    /// The slot that a create or a move used, the revision of a put; 0 for the others.
    pub slot: u32,
}

/// The formatted image of `len` bytes.
pub fn format(
    len: usize,
    root_blocks: u32,
    time: u64,
    uuid: [u8; 16],
    volume_name: &[u8],
) -> Result<Vec<u8>, Refusal> {
    let mut image = vec![0; len];
    if !length(&image) {
        return Err(1);
    }
    let d = root_blocks as usize;
    if !(1..=MAX_DIRECTORY_BLOCKS).contains(&d) || volume_name.len() != header::VOLUME_NAME_SIZE {
        return Err(9);
    }
    let n = block_count(&image);
    let t = table_blocks(n);
    let occupied = t + 1 + d;
    if occupied > n {
        return Err(14);
    }

    put(&mut image, header::SIGNATURE, header::SIGNATURE_BYTES);
    put(&mut image, header::VERSION, header::VERSION_BYTES);
    put_number(&mut image, header::TOTAL, n as u32);
    put_number(&mut image, header::TABLE_BLOCKS, t as u32);
    put_number(&mut image, header::OCCUPIED, occupied as u32);
    put_number(&mut image, header::FREE, (n - occupied) as u32);
    put_number(&mut image, header::ROOT, root_block(n) as u32);
    put(&mut image, header::UUID, &uuid);
    put(&mut image, header::VOLUME_NAME, volume_name);

    for b in 0..=t {
        set_entry(&mut image, b, 1);
    }
    let root: Vec<usize> = (t + 1..=t + d).collect();
    put_directory(&mut image, &root, root[0], time);
    Ok(image)
}

/// Links the blocks of an empty directory, all zeros so far, and puts its self
/// entry and its end type.
fn put_directory(image: &mut [u8], blocks: &[usize], parent: usize, time: u64) {
    link(image, blocks);
    let at = blocks[0] * BLOCK;
    image[at + slot::TYPE] = slot::TYPE_SELF;
    put_number(image, at + slot::SELF_BLOCK, blocks[0] as u32);
    put_number(image, at + slot::SELF_PARENT, parent as u32);
    put_number(image, at + slot::BLOCKS, blocks.len() as u32);
    put_time(image, at + slot::CREATED, time);
    put_time(image, at + slot::MODIFIED, time);
    let end = blocks[blocks.len() - 1] * BLOCK + (SLOTS_PER_BLOCK - 1) * SLOT;
    image[end + slot::TYPE] = slot::TYPE_END;
}

pub fn lookup(image: &[u8], path: &[u8]) -> Result<Found, Refusal> {
    sound(image)?;
    let file = find_file(image, path)?;
    Ok(Found { slot: file.slot as u32, size: file.size, blocks: file.blocks })
}

/// The bytes that read puts at the front of a buffer of `buffer_len` bytes.
pub fn read(image: &[u8], path: &[u8], offset: u64, buffer_len: usize) -> Result<Vec<u8>, Refusal> {
    sound(image)?;
    let file = find_file(image, path)?;
    if offset > u64::from(file.size) {
        return Err(12);
    }
    let content = content(image, &file);
    let rest = &content[offset as usize..];
    Ok(rest[..rest.len().min(buffer_len)].to_vec())
}

/// The bytes that read attributes puts at the front of a buffer of `buffer_len`
/// bytes: as many whole blocks as there are and fit.
pub fn read_attributes(image: &[u8], path: &[u8], buffer_len: usize) -> Result<Vec<u8>, Refusal> {
    sound(image)?;
    let file = find_file(image, path)?;
    let blocks = file.attributes(image);
    let count = blocks.len().min(buffer_len / BLOCK);
    Ok(bytes_of(image, &blocks[..count]))
}

/// The part of the image that holds the file's block `index`, cut at the
/// file's end; 0..0 if there is none.
pub fn look_in_place(image: &[u8], path: &[u8], index: u64) -> Range<usize> {
    let file = match sound(image).and_then(|()| find_file(image, path)) {
        Ok(file) => file,
        Err(_) => return 0..0,
    };
    if index >= u64::from(file.blocks) {
        return 0..0;
    }
    let index = index as usize;
    let start = file.chain(image)[index] * BLOCK;
    let left = file.size as usize - index * BLOCK;
    start..start + left.min(BLOCK)
}

/// The file of a path; weighs 9 (for the path), 17 and 10.
fn find_file(image: &[u8], path: &[u8]) -> Result<Entry, Refusal> {
    place(path, Want::File, true)?.find(image, Want::File)
}

/// A change of a sound image; weighs the numbers 9 or 22, 20, 17, 26, 10 to 12,
/// 18, 24, 25, 13, 14.
pub fn change(image: &[u8], change: &Change) -> Result<Changed, Refusal> {
    match change {
        Change::Create(c) => create(image, c),
        Change::Write(w) => write(image, w),
        Change::Delete(d) => delete(image, d),
        Change::CreateDirectory(c) => create_directory(image, c),
        Change::DeleteDirectory(d) => delete_directory(image, d),
        Change::SetAttributes(s) => set_attributes(image, s),
        Change::ClearAttributes(c) => clear_attributes(image, c),
        Change::ClearFlags(c) => clear_flags(image, c),
        Change::Shorten(s) => shorten(image, s),
        Change::Replace(r) => replace(image, r),
        Change::Move(m) => move_file(image, m),
        Change::Put(p) => store::put(image, p),
    }
}

pub(crate) fn create(image: &[u8], c: &Create) -> Result<Changed, Refusal> {
    let place = place(&c.path, Want::File, is_file_type(c.kind))?;
    no_flags(c)?;
    let (slot, at) = free_slot(image, place.home(image)?, place.name)?;
    let mut after = image.to_vec();
    put(&mut after, at, &new_entry(c, place.name));
    Ok(Changed { image: after, named: BTreeSet::from([at / BLOCK]), slot })
}

/// What is created has no system flags; weighs 26.
fn no_flags(c: &Create) -> Result<(), Refusal> {
    if c.flags == 0 {
        Ok(())
    } else {
        Err(26)
    }
}

/// The lowest free slot of a directory, and its offset; weighs 11 and 13.
fn free_slot(image: &[u8], directory: usize, name: &[u8]) -> Result<(u32, usize), Refusal> {
    if named(image, directory, name).is_some() {
        return Err(11);
    }
    let offsets = slot_offsets(image, directory);
    let free = (1..offsets.len() - 1).find(|&i| image[offsets[i] + slot::TYPE] == slot::TYPE_FREE);
    free.map(|i| (i as u32, offsets[i])).ok_or(13)
}

/// The slot of something just created: size 0 and no block.
fn new_entry(c: &Create, name: &[u8]) -> [u8; SLOT] {
    let mut entry = [0; SLOT];
    entry[slot::TYPE] = c.kind;
    entry[slot::USER] = c.user;
    entry[slot::GROUP] = c.group;
    entry[slot::PERMISSIONS] = c.permissions;
    put_time(&mut entry, slot::CREATED, c.time);
    put_time(&mut entry, slot::MODIFIED, c.time);
    put_number(&mut entry, slot::FLAGS, c.flags);
    put(&mut entry, slot::NAME, &name_field(name));
    entry
}

fn create_directory(image: &[u8], c: &CreateDirectory) -> Result<Changed, Refusal> {
    let d_in_range = (1..=MAX_DIRECTORY_BLOCKS as u32).contains(&c.blocks);
    let good = is_directory_type(c.entry.kind) && d_in_range;
    let place = place(&c.entry.path, Want::Directory, good)?;
    no_flags(&c.entry)?;
    let parent = place.home(image)?;
    let (slot, at) = free_slot(image, parent, place.name)?;
    let taken = lowest_free(image, c.blocks as usize)?;

    let mut entry = new_entry(&c.entry, place.name);
    put_number(&mut entry, slot::FIRST, taken[0] as u32);
    put_number(&mut entry, slot::BLOCKS, taken.len() as u32);

    let mut after = image.to_vec();
    put(&mut after, at, &entry);
    blank(&mut after, &taken);
    put_directory(&mut after, &taken, parent, c.entry.time);
    put(&mut after, taken[0] * BLOCK + slot::NAME, &name_field(place.name));
    recount(&mut after);

    let mut named = BTreeSet::from([0, at / BLOCK]);
    named.extend(&taken);
    named.extend(changed_table_blocks(image, &after));
    Ok(Changed { image: after, named, slot })
}

fn delete_directory(image: &[u8], d: &DeleteDirectory) -> Result<Changed, Refusal> {
    let place = place(&d.path, Want::Directory, true)?;
    let directory = place.find(image, Want::Directory)?;
    if !entries(image, directory.first as usize).is_empty() {
        return Err(18);
    }
    Ok(removed(image, &directory))
}

fn write(image: &[u8], w: &Write) -> Result<Changed, Refusal> {
    write_at_most(image, w, MAX_DATA)
}

/// A write that may bring so many bytes.
pub fn write_at_most(image: &[u8], w: &Write, most: usize) -> Result<Changed, Refusal> {
    let place = place(&w.path, Want::File, w.data.len() <= most)?;
    let file = place.find(image, Want::File)?;
    if w.offset > u64::from(file.size) {
        return Err(12);
    }
    let offset = w.offset as usize;
    let size = (file.size as usize).max(offset + w.data.len());
    let taken = lowest_free(image, size.div_ceil(BLOCK) - file.blocks as usize)?;
    let mut blocks = file.chain(image);
    blocks.extend(&taken);

    let mut after = image.to_vec();
    blank(&mut after, &taken);
    link(&mut after, &blocks);
    let mut named = BTreeSet::from([file.at / BLOCK]);
    for (i, &byte) in w.data.iter().enumerate() {
        let b = blocks[(offset + i) / BLOCK];
        after[b * BLOCK + (offset + i) % BLOCK] = byte;
        named.insert(b);
    }
    put_extent(&mut after, &file, &blocks, size, w.time);
    recount(&mut after);
    if !taken.is_empty() {
        named.insert(0);
        named.extend(changed_table_blocks(image, &after));
    }
    Ok(Changed { image: after, named, slot: 0 })
}

fn delete(image: &[u8], d: &Delete) -> Result<Changed, Refusal> {
    Ok(removed(image, &find_file(image, &d.path)?))
}

/// The image without a file or an empty directory.
fn removed(image: &[u8], entry: &Entry) -> Changed {
    let mut after = image.to_vec();
    let mut named = BTreeSet::from([entry.at / BLOCK]);
    after[entry.at..entry.at + SLOT].fill(0);
    free(&mut after, &entry.chain(image), &mut named);
    free(&mut after, &entry.attributes(image), &mut named);
    Changed { image: after, named, slot: 0 }
}

fn set_attributes(image: &[u8], s: &SetAttributes) -> Result<Changed, Refusal> {
    if parts(&s.path).is_none() || s.data.is_empty() || s.data.len() % BLOCK != 0 {
        return Err(9);
    }
    if s.data.len() / BLOCK > MAX_ATTRIBUTE_BLOCKS {
        return Err(20);
    }
    let file = find_file(image, &s.path)?;
    let mut after = image.to_vec();
    let mut named = BTreeSet::from([file.at / BLOCK]);
    free(&mut after, &file.attributes(image), &mut named);

    let taken = lowest_free(&after, s.data.len() / BLOCK)?;
    link(&mut after, &taken);
    for (&b, part) in taken.iter().zip(s.data.chunks(BLOCK)) {
        put(&mut after, b * BLOCK, part);
        named.extend([0, b, table_block_of(b)]);
    }
    put_attributes(&mut after, &file, taken[0], taken.len());
    recount(&mut after);
    Ok(Changed { image: after, named, slot: 0 })
}

fn clear_attributes(image: &[u8], c: &ClearAttributes) -> Result<Changed, Refusal> {
    let file = find_file(image, &c.path)?;
    let mut after = image.to_vec();
    let mut named = BTreeSet::from([file.at / BLOCK]);
    free(&mut after, &file.attributes(image), &mut named);
    put_attributes(&mut after, &file, 0, 0);
    Ok(Changed { image: after, named, slot: 0 })
}

fn clear_flags(image: &[u8], c: &ClearFlags) -> Result<Changed, Refusal> {
    let file = find_file(image, &c.path)?;
    let mut after = image.to_vec();
    put_number(&mut after, file.at + slot::FLAGS, 0);
    Ok(Changed { image: after, named: BTreeSet::from([file.at / BLOCK]), slot: 0 })
}

fn shorten(image: &[u8], s: &Shorten) -> Result<Changed, Refusal> {
    let file = find_file(image, &s.path)?;
    if s.size > u64::from(file.size) {
        return Err(12);
    }
    Ok(shortened(image, &file, s.size as usize, s.time))
}

/// The image with a file cut to a size that is not above its own.
fn shortened(image: &[u8], file: &Entry, size: usize, time: u64) -> Changed {
    let blocks = file.chain(image);
    let (kept, freed) = blocks.split_at(size.div_ceil(BLOCK));
    let mut after = image.to_vec();
    let mut named = BTreeSet::from([file.at / BLOCK]);
    free(&mut after, freed, &mut named);
    link(&mut after, kept);
    if let Some(&last) = kept.last() {
        if !freed.is_empty() {
            named.insert(table_block_of(last));
        }
        if size < file.size as usize && size % BLOCK != 0 {
            after[last * BLOCK + size % BLOCK..(last + 1) * BLOCK].fill(0);
            named.insert(last);
        }
    }
    put_extent(&mut after, file, kept, size, time);
    Changed { image: after, named, slot: 0 }
}

/// What a shorten to the smaller size and a write of the bytes at 0 leave.
fn replace(image: &[u8], r: &Replace) -> Result<Changed, Refusal> {
    let file = place(&r.path, Want::File, r.data.len() <= MAX_DATA)?.find(image, Want::File)?;
    let size = r.data.len().min(file.size as usize);
    let cut = shortened(image, &file, size, r.time);
    let written = Write { path: r.path.clone(), offset: 0, data: r.data.clone(), time: r.time };
    let mut changed = write(&cut.image, &written)?;
    changed.named.extend(cut.named);
    Ok(changed)
}

/// The first block, the sizes and the modified time of a file.
fn put_extent(image: &mut [u8], file: &Entry, blocks: &[usize], size: usize, time: u64) {
    put_number(image, file.at + slot::FIRST, blocks.first().map_or(0, |&b| b as u32));
    put_number(image, file.at + slot::SIZE, size as u32);
    put_number(image, file.at + slot::BLOCKS, blocks.len() as u32);
    put_time(image, file.at + slot::MODIFIED, time);
}

/// The entry goes, with the new name, to the lowest slot of the directory of
/// `to` that is free or is its own.
fn move_file(image: &[u8], m: &Move) -> Result<Changed, Refusal> {
    let from = place(&m.path, Want::File, parts(&m.to).is_some())?;
    let to = place(&m.to, Want::File, true)?;
    let file = from.find(image, Want::File)?;
    let home = to.home(image)?;
    if named(image, home, to.name).is_some() {
        return Err(11);
    }
    let offsets = slot_offsets(image, home);
    let open = |at: usize| at == file.at || image[at + slot::TYPE] == slot::TYPE_FREE;
    let slot = (1..offsets.len() - 1).find(|&i| open(offsets[i])).ok_or(13u32)?;
    let at = offsets[slot];

    let mut after = image.to_vec();
    after[file.at..file.at + SLOT].fill(0);
    put(&mut after, at, &image[file.at..file.at + SLOT]);
    put(&mut after, at + slot::NAME, &name_field(to.name));
    let named = BTreeSet::from([file.at / BLOCK, at / BLOCK]);
    Ok(Changed { image: after, named, slot: slot as u32 })
}

/// The two attribute fields of a file.
pub(crate) fn put_attributes(image: &mut [u8], file: &Entry, first: usize, count: usize) {
    put_number(image, file.at + slot::ATTRIBUTE_BLOCK, first as u32);
    put_number(image, file.at + slot::ATTRIBUTE_SIZE, count as u32);
}

/// Frees the blocks of a chain, which become blank. With any of them, block 0
/// and the table blocks of their entries are named too.
fn free(image: &mut [u8], blocks: &[usize], named: &mut BTreeSet<usize>) {
    for &b in blocks {
        set_entry(image, b, 0);
        named.extend([0, b, table_block_of(b)]);
    }
    blank(image, blocks);
    recount(image);
}

/// So many free blocks, lowest number first; weighs 14.
fn lowest_free(image: &[u8], count: usize) -> Result<Vec<usize>, Refusal> {
    let free = free_blocks(image);
    free.get(..count).map(|blocks| blocks.to_vec()).ok_or(14)
}

pub(crate) fn blank(image: &mut [u8], blocks: &[usize]) {
    for &b in blocks {
        image[b * BLOCK..(b + 1) * BLOCK].fill(0);
    }
}

/// A file's bytes: its blocks in chain order, cut at its size.
pub(crate) fn content(image: &[u8], file: &Entry) -> Vec<u8> {
    let mut bytes = bytes_of(image, &file.chain(image));
    bytes.truncate(file.size as usize);
    bytes
}

/// All bytes of some blocks, in their order.
pub(crate) fn bytes_of(image: &[u8], blocks: &[usize]) -> Vec<u8> {
    blocks.iter().flat_map(|&b| &image[b * BLOCK..(b + 1) * BLOCK]).copied().collect()
}

/// Makes the header's counts those of the table.
pub(crate) fn recount(image: &mut [u8]) {
    let free = free_blocks(image).len();
    let occupied = block_count(image) - free;
    put_number(image, header::OCCUPIED, occupied as u32);
    put_number(image, header::FREE, free as u32);
}

/// The table blocks with an entry that differs between the two images.
fn changed_table_blocks(before: &[u8], after: &[u8]) -> Vec<usize> {
    let t = table_blocks(block_count(before));
    (1..=t)
        .filter(|&b| before[b * BLOCK..(b + 1) * BLOCK] != after[b * BLOCK..(b + 1) * BLOCK])
        .collect()
}

fn put(bytes: &mut [u8], at: usize, part: &[u8]) {
    bytes[at..at + part.len()].copy_from_slice(part);
}
