//! What calls bring: paths, offsets, data and buffers, near every edge.

use crate::images::good_name;
use crate::rng::Rng;
use crate::tester::Get;
use crate::tree::{files, folders, items, slots, Item};
use reference::journal::HEAD;
use reference::layout::*;
use reference::path::Want;
use reference::store::ROOT;
use reference::worked::list_of;
use reference::{
    Append, Change, ClearAttributes, ClearFlags, Create, CreateDirectory, Delete, DeleteDirectory,
    Move, Put, Replace, SetAttributes, Shorten, State, Which, Write,
};

fn any(rng: &mut Rng, items: Vec<Item>) -> Option<Item> {
    (!items.is_empty()).then(|| rng.pick(&items))
}

/// A file of a sound image, if it has one.
pub fn any_file(rng: &mut Rng, image: &[u8]) -> Option<Item> {
    any(rng, files(image))
}

/// A folder of a sound image, if it has one.
pub fn any_folder(rng: &mut Rng, image: &[u8]) -> Option<Item> {
    any(rng, folders(image))
}

/// A good path that leads to nothing yet, in a directory that is there, so
/// that it may become what is wanted.
pub fn missing_path(rng: &mut Rng, image: &[u8], want: Want) -> Vec<u8> {
    let mut homes = tree(image);
    homes.retain(|home| want == Want::File || home.level < MAX_LEVELS);
    let home = rng.pick(&homes);
    home.path_of(&missing_name(rng, image, &home))
}

/// A good name that a directory does not have: often one step away from a
/// name that it has, or one that another directory has.
pub fn missing_name(rng: &mut Rng, image: &[u8], home: &Directory) -> Vec<u8> {
    loop {
        let name = match rng.below(3) {
            0 if !home.entries.is_empty() => {
                let near = rng.pick(&home.entries).name;
                altered(rng, &near)
            }
            1 => any(rng, items(image)).map_or(vec![], |item| item.name.clone()),
            _ => good_name(rng),
        };
        if is_good_name(&name) && home.entries.iter().all(|entry| entry.name != name) {
            return name;
        }
    }
}

/// A name one step away from the given one.
pub fn altered(rng: &mut Rng, name: &[u8]) -> Vec<u8> {
    let mut name = name.to_vec();
    match rng.below(5) {
        0 => name.push(rng.nonzero_byte()),
        1 => {
            name.pop();
        }
        2 => *name.last_mut().unwrap() ^= 0x20,
        3 => name[0] = name[0].wrapping_add(1),
        _ => {
            let i = rng.below(name.len());
            name[i] ^= 1 << rng.below(8);
        }
    }
    name
}

pub fn bad_name(rng: &mut Rng) -> Vec<u8> {
    let good = good_name(rng);
    match rng.below(8) {
        0 => vec![],
        1 => vec![b'n'; MAX_NAME + 1],
        2 => vec![b'n'; MAX_NAME + 2],
        3 => vec![0],
        4 => [&good[..], &[0]].concat(),
        5 => [&[0], &good[..good.len() - 1]].concat(),
        6 => {
            let mut name = vec![b'n'; MAX_NAME];
            name[rng.below(MAX_NAME)] = 0;
            name
        }
        _ => (0..rng.between(MAX_NAME + 1, 700)).map(|_| rng.name_byte()).collect(),
    }
}

/// The path of these names.
pub fn path_of(names: &[Vec<u8>]) -> Vec<u8> {
    names.iter().flat_map(|name| [b"/", &name[..]].concat()).collect()
}

fn good_names(rng: &mut Rng, count: usize) -> Vec<Vec<u8>> {
    (0..count).map(|_| good_name(rng)).collect()
}

/// Anything but a path, also of too many names.
pub fn bad_path(rng: &mut Rng) -> Vec<u8> {
    let count = rng.pick(&[1, 1, 2, 3, 9, 12]);
    let mut names = good_names(rng, count);
    match rng.below(8) {
        0 => vec![],
        1 => vec![b'/'; rng.between(1, 3)],
        2 => path_of(&names)[1..].to_vec(),
        3 => [&path_of(&names)[..], b"/"].concat(),
        4 => [b"/", &path_of(&names)[..]].concat(),
        5 => {
            let mut path = path_of(&names);
            path[0] = rng.name_byte();
            path
        }
        _ => {
            let i = rng.below(names.len());
            names[i] = bad_name(rng);
            path_of(&names)
        }
    }
}

/// A path of more directories than there may be. It may begin with those of
/// the image.
pub fn deep_path(rng: &mut Rng, image: &[u8], want: Want) -> Vec<u8> {
    let least = MAX_LEVELS + 1 + usize::from(want == Want::File);
    let count = least + rng.pick(&[0, 0, 0, 1, 5, 100]);
    let mut names = good_names(rng, count);
    if let Some(folder) = any_folder(rng, image) {
        let real = folder.path[1..].split(|&b| b == b'/').map(|name| name.to_vec());
        real.zip(names.iter_mut()).for_each(|(name, to)| *to = name);
    }
    path_of(&names)
}

/// A good path to nothing, or to something other than is wanted.
pub fn lost_path(rng: &mut Rng, image: &[u8], want: Want) -> Vec<u8> {
    loop {
        let path = match rng.below(4) {
            0 => missing_path(rng, image, want),
            1 => through_nothing(rng, image),
            2 => match any_file(rng, image) {
                Some(file) => [&file.path[..], b"/", &good_name(rng)].concat(),
                None => continue,
            },
            _ => match any(rng, items(image)) {
                Some(item) if item.is_file() != (want == Want::File) => item.path,
                _ => continue,
            },
        };
        let most = if want == Want::File { MAX_LEVELS + 1 } else { MAX_LEVELS };
        if path.iter().filter(|&&b| b == b'/').count() <= most {
            return path;
        }
    }
}

/// A good path through a directory that is not there.
pub fn through_nothing(rng: &mut Rng, image: &[u8]) -> Vec<u8> {
    let mut homes = tree(image);
    homes.retain(|home| home.level < MAX_LEVELS);
    let home = rng.pick(&homes);
    let missing = missing_name(rng, image, &home);
    let last = any(rng, items(image)).map_or(good_name(rng), |item| item.name.clone());
    [&home.path_of(&missing)[..], b"/", &last].concat()
}

/// Any path: of a file, if one is wanted, or of a folder more often than not.
pub fn any_path(rng: &mut Rng, image: &[u8], want: Want) -> Vec<u8> {
    let item = match want {
        Want::File => any_file(rng, image),
        Want::Directory => any_folder(rng, image),
    };
    match (rng.below(16), item) {
        (0, _) => bad_path(rng),
        (1, _) => missing_path(rng, image, want),
        (2, Some(item)) => {
            let start = item.path.len() - item.name.len();
            [&item.path[..start], &altered(rng, &item.name)].concat()
        }
        (3, Some(item)) => [&item.path[..], &vec![0; NAME_FIELD - item.name.len()]].concat(),
        (4, _) => name_in_any_slot(rng, image),
        (5, _) => lost_path(rng, image, want),
        (6, _) if rng.once_in(2) => deep_path(rng, image, want),
        (7, Some(item)) => altered(rng, &item.path),
        (_, Some(item)) => item.path,
        (_, None) => lost_path(rng, image, want),
    }
}

/// The path that what stands in the name field of a slot would have, be the
/// slot in use or not.
fn name_in_any_slot(rng: &mut Rng, image: &[u8]) -> Vec<u8> {
    let i = rng.below(tree(image).len());
    let slots = &slots(image)[i];
    let at = if rng.once_in(3) { slots[slots.len() - 1] } else { rng.pick(slots) };
    tree(image)[i].path_of(stored_name(&image[at + slot::NAME..at + SLOT]))
}

/// The size of the file that a path leads to, or 0.
pub fn size_of(image: &[u8], path: &[u8]) -> u64 {
    files(image).iter().find(|f| f.path == path).map_or(0, |f| u64::from(f.size))
}

pub fn any_offset(rng: &mut Rng, size: u64) -> u64 {
    match rng.below(14) {
        0..=2 => 0,
        3..=5 => size,
        6 => size.saturating_sub(1),
        7 => size + 1,
        8 => size / 512 * 512,
        9 => far_offset(rng, size),
        _ => rng.below(size as usize + 1) as u64,
    }
}

/// An offset above the size, also one that is below it in 32 bits.
pub fn far_offset(rng: &mut Rng, size: u64) -> u64 {
    let wrapped = (1 << 32) + rng.below(size as usize + 1) as u64;
    let any = (size + 1).saturating_add(rng.next() >> rng.below(64));
    rng.pick(&[
        size + 1,
        size + 512,
        u64::from(u32::MAX),
        1 << 32,
        wrapped,
        1 << 63,
        u64::MAX - 4095,
        u64::MAX,
        any,
    ])
}

pub fn any_data(rng: &mut Rng, size: u64, offset: u64) -> Vec<u8> {
    let to_end = size.saturating_sub(offset) as usize;
    let length = match rng.below(12) {
        0 => 0,
        1 => rng.pick(&[1, 511, 512, 513]),
        2 => rng.pick(&[4095, 4096]),
        3 => rng.pick(&[4097, 4098, 8192]),
        4 => to_end,
        5 => to_end + 1,
        6 => BLOCK - offset as usize % BLOCK,
        7 => BLOCK - offset as usize % BLOCK + 1,
        8 => rng.between(1, 4096),
        _ => rng.between(1, 1200),
    };
    let length = length.min(9000);
    if rng.once_in(6) {
        vec![0; length]
    } else {
        rng.bytes(length)
    }
}

pub fn any_buffer(rng: &mut Rng, size: u64) -> Vec<u8> {
    let size = size as usize;
    let length = match rng.below(10) {
        0 => 0,
        1 => 1,
        2 => rng.pick(&[511, 512, 513]),
        3 => size,
        4 => size + 1,
        5 => size.saturating_sub(1),
        6 => size + 1000,
        _ => rng.below(2 * size + 600),
    };
    rng.bytes(length)
}

pub fn any_index(rng: &mut Rng, size: u64) -> u64 {
    let blocks = size.div_ceil(512);
    match rng.below(8) {
        0 => 0,
        1 => blocks,
        2 => blocks.saturating_sub(1),
        3 => blocks + 1,
        4 => rng.pick(&[1 << 32, (1 << 32) + 1, 1 << 55, 1 << 63, u64::MAX]),
        _ => rng.below(blocks as usize + 1) as u64,
    }
}

/// A buffer around the lengths of a volume's labels and of a name's field.
pub fn any_label_buffer(rng: &mut Rng) -> Vec<u8> {
    let more = rng.between(0, 200);
    let len = rng.pick(&[0, 1, 15, 16, 17, 79, 80, 81, 143, 144, 145, more]);
    rng.bytes(len)
}

/// The path of a directory to be listed, often the root's.
pub fn any_listed(rng: &mut Rng, image: &[u8]) -> Vec<u8> {
    match rng.below(4) {
        0 => b"/".to_vec(),
        _ => any_path(rng, image, Want::Directory),
    }
}

/// A slot to begin with, often one that there is.
pub fn any_slot(rng: &mut Rng) -> u32 {
    let low = rng.between(0, 12) as u32;
    let high = rng.between(0, 260) as u32;
    rng.pick(&[0, 1, low, low, high, 255, 256, u32::MAX])
}

pub fn any_time(rng: &mut Rng) -> u64 {
    rng.next() >> rng.below(64)
}

/// Flags that nothing may be created with.
pub fn bad_flags(rng: &mut Rng) -> u32 {
    let any = rng.next() as u32 | 1 << rng.below(32);
    rng.pick(&[1, 0x100, 0x1_0000, 0x0100_0000, 0x8000_0000, u32::MAX, any])
}

/// Mostly those that something may be created with.
fn any_flags(rng: &mut Rng) -> u32 {
    if rng.once_in(12) {
        bad_flags(rng)
    } else {
        0
    }
}

fn given(rng: &mut Rng, path: Vec<u8>, kind: u8, flags: u32) -> Create {
    let (user, group, permissions) = (rng.byte(), rng.byte(), rng.byte());
    Create { path, kind, user, group, permissions, flags, time: any_time(rng) }
}

pub fn create(rng: &mut Rng, path: Vec<u8>, kind: u8, flags: u32) -> Change {
    Change::Create(given(rng, path, kind, flags))
}

pub fn create_directory(rng: &mut Rng, path: Vec<u8>, kind: u8, flags: u32, blocks: u32) -> Change {
    Change::CreateDirectory(CreateDirectory { entry: given(rng, path, kind, flags), blocks })
}

/// A type from a range, often at its edges.
fn from_range(rng: &mut Rng, low: u8, high: u8) -> u8 {
    match rng.below(4) {
        0 => rng.pick(&[low, high]),
        _ => rng.between(low.into(), high.into()) as u8,
    }
}

/// A type out of a range, often next to it.
fn out_of_range(rng: &mut Rng, low: u8, high: u8) -> u8 {
    match rng.below(3) {
        0 => rng.pick(&[0x00, 0x01, low - 1, high + 1, 0xFF]),
        1 => rng.below(low.into()) as u8,
        _ => rng.between(usize::from(high) + 1, 0xFF) as u8,
    }
}

/// A type for what is wanted.
pub fn good_kind(rng: &mut Rng, want: Want) -> u8 {
    match want {
        Want::File => from_range(rng, 0x60, 0x9F),
        Want::Directory => from_range(rng, 0x20, 0x5F),
    }
}

pub fn bad_kind(rng: &mut Rng, want: Want) -> u8 {
    match want {
        Want::File => out_of_range(rng, 0x60, 0x9F),
        Want::Directory => out_of_range(rng, 0x20, 0x5F),
    }
}

/// A number of blocks that no directory may have.
pub fn bad_blocks(rng: &mut Rng) -> u32 {
    rng.pick(&[0, 65, 66, 256, 257, 0x0100_0001, u32::MAX])
}

/// A path for something new, mostly, and mostly a type for it.
fn any_new(rng: &mut Rng, image: &[u8], want: Want) -> (Vec<u8>, u8) {
    let path =
        if rng.once_in(3) { any_path(rng, image, want) } else { missing_path(rng, image, want) };
    let kind = if rng.once_in(12) { bad_kind(rng, want) } else { good_kind(rng, want) };
    (path, kind)
}

pub fn any_create(rng: &mut Rng, image: &[u8]) -> Change {
    let (path, kind) = any_new(rng, image, Want::File);
    let flags = any_flags(rng);
    create(rng, path, kind, flags)
}

pub fn any_create_directory(rng: &mut Rng, image: &[u8]) -> Change {
    let (path, kind) = any_new(rng, image, Want::Directory);
    let free = free_blocks(image).len() as u32;
    let blocks = match rng.below(10) {
        0 => bad_blocks(rng),
        1 => free,
        2 => free + 1,
        3 => 64,
        4 => rng.between(1, 64) as u32,
        _ => rng.between(1, 3) as u32,
    };
    let flags = any_flags(rng);
    create_directory(rng, path, kind, flags, blocks)
}

pub fn any_write(rng: &mut Rng, image: &[u8]) -> Change {
    let path = any_path(rng, image, Want::File);
    let size = size_of(image, &path);
    let offset = any_offset(rng, size);
    let mut data = any_data(rng, size, offset);
    if rng.once_in(10) {
        keep_old_bytes(image, &path, offset, &mut data);
    }
    Change::Write(Write { path, offset, data, time: any_time(rng) })
}

/// Makes the data equal to what the file holds there already.
fn keep_old_bytes(image: &[u8], path: &[u8], offset: u64, data: &mut [u8]) {
    if let Ok(old) = reference::read(image, path, offset, data.len()) {
        data[..old.len()].copy_from_slice(&old);
    }
}

pub fn any_delete(rng: &mut Rng, image: &[u8]) -> Change {
    Change::Delete(Delete { path: any_path(rng, image, Want::File) })
}

pub fn any_delete_directory(rng: &mut Rng, image: &[u8]) -> Change {
    let empty = |folder: &Item| entries(image, folder.first as usize).is_empty();
    let empty = folders(image).into_iter().filter(empty).collect();
    let path = match any(rng, empty) {
        Some(folder) if rng.once_in(2) => folder.path,
        _ => any_path(rng, image, Want::Directory),
    };
    Change::DeleteDirectory(DeleteDirectory { path })
}

/// The blocks of attributes that the file of a path has, or 0.
pub fn attribute_blocks(image: &[u8], path: &[u8]) -> usize {
    files(image).iter().find(|f| f.path == path).map_or(0, |f| f.attribute_size as usize)
}

/// Data that no attributes can be: of no bytes, or with a part of a block.
pub fn bad_attributes(rng: &mut Rng) -> Vec<u8> {
    let odd = BLOCK * rng.below(12) + rng.between(1, BLOCK - 1);
    let length = rng.pick(&[0, 0, 1, 511, 513, 4095, 4097, 4607, 4609, odd]);
    rng.bytes(length)
}

/// So many whole blocks.
pub fn whole_blocks(rng: &mut Rng, count: usize) -> Vec<u8> {
    if rng.once_in(6) {
        vec![0; BLOCK * count]
    } else {
        rng.bytes(BLOCK * count)
    }
}

/// The path of a file with attributes more often than not.
fn path_with_attributes(rng: &mut Rng, image: &[u8]) -> Vec<u8> {
    let with = files(image).into_iter().filter(|file| file.attribute_size > 0).collect();
    match any(rng, with) {
        Some(file) if rng.once_in(2) => file.path,
        _ => any_path(rng, image, Want::File),
    }
}

pub fn any_set_attributes(rng: &mut Rng, image: &[u8]) -> Change {
    let path = path_with_attributes(rng, image);
    let old = attribute_blocks(image, &path);
    let most = free_blocks(image).len() + old;
    let count = match rng.below(10) {
        0 => rng.pick(&[9, 10, 16, 65]),
        1 => MAX_ATTRIBUTE_BLOCKS,
        2 => old.max(1),
        3 => old + 1,
        4 => most.clamp(1, 9),
        5 => (most + 1).min(9),
        6 => rng.between(1, MAX_ATTRIBUTE_BLOCKS),
        _ => rng.between(1, most.clamp(1, MAX_ATTRIBUTE_BLOCKS)),
    };
    let data = if rng.once_in(8) { bad_attributes(rng) } else { whole_blocks(rng, count) };
    Change::SetAttributes(SetAttributes { path, data })
}

pub fn any_clear_attributes(rng: &mut Rng, image: &[u8]) -> Change {
    Change::ClearAttributes(ClearAttributes { path: path_with_attributes(rng, image) })
}

/// The path of a file with flags more often than not.
pub fn any_clear_flags(rng: &mut Rng, image: &[u8]) -> Change {
    let flagged = |file: &Item| number(image, file.at + slot::FLAGS) != 0;
    let with = files(image).into_iter().filter(flagged).collect();
    let path = match any(rng, with) {
        Some(file) if rng.once_in(2) => file.path,
        _ => any_path(rng, image, Want::File),
    };
    Change::ClearFlags(ClearFlags { path })
}

/// Often to an edge of a block, or to the size that the file has.
pub fn any_shorten(rng: &mut Rng, image: &[u8]) -> Change {
    let path = any_path(rng, image, Want::File);
    let size = size_of(image, &path);
    let to = match rng.below(12) {
        0 => 0,
        1 => size,
        2 => size.saturating_sub(1),
        3 => size + 1,
        4 => far_offset(rng, size),
        5 => size / 512 * 512,
        6 => (size / 512 * 512).saturating_sub(1),
        7 => (512 * rng.below(size as usize / 512 + 1) as u64 + 1).min(size),
        8 => 512 * rng.below(size as usize / 512 + 1) as u64,
        _ => rng.below(size as usize + 1) as u64,
    };
    Change::Shorten(Shorten { path, size: to, time: any_time(rng) })
}

/// Often as long as the room for it, its own blocks counted, or one byte more.
pub fn any_replace(rng: &mut Rng, image: &[u8]) -> Change {
    let path = any_path(rng, image, Want::File);
    let size = size_of(image, &path) as usize;
    let most = BLOCK * (free_blocks(image).len() + size.div_ceil(BLOCK));
    let length = match rng.below(10) {
        0 => rng.pick(&[4096, 4097, 5000]),
        1 => 0,
        2 => size,
        3 => rng.below(size + 1),
        4 => most,
        5 => most + 1,
        6 => BLOCK * rng.below(9),
        _ => rng.below(4097),
    };
    let data = rng.bytes(length.min(5000));
    Change::Replace(Replace { path, data, time: any_time(rng) })
}

/// Mostly to a path that leads to nothing yet, in the file's own directory or in
/// another one; now and then to a path that is taken, its own among them.
pub fn any_move(rng: &mut Rng, image: &[u8]) -> Change {
    let path = any_path(rng, image, Want::File);
    let to = match rng.below(10) {
        0 => any_path(rng, image, Want::File),
        1 => any_path(rng, image, Want::Directory),
        2 => lost_path(rng, image, Want::File),
        3 => path.clone(),
        4 => [&path[..], b"/", &good_name(rng)].concat(),
        5 | 6 => beside(rng, &path),
        _ => missing_path(rng, image, Want::File),
    };
    Change::Move(Move { path, to })
}

/// A path with another last name.
pub fn beside(rng: &mut Rng, path: &[u8]) -> Vec<u8> {
    let start = path.iter().rposition(|&b| b == b'/').map_or(0, |i| i + 1);
    [&path[..start], &good_name(rng)].concat()
}

/// A buffer for attributes of so many blocks.
pub fn any_attributes_buffer(rng: &mut Rng, blocks: usize) -> Vec<u8> {
    let size = BLOCK * blocks;
    let length = match rng.below(8) {
        0 => rng.pick(&[0, 1, 511, 512, 513]),
        1 => size,
        2 => size + 1,
        3 => size.saturating_sub(1),
        4 => size + 1000,
        5 => BLOCK * rng.below(10),
        _ => rng.below(5000),
    };
    rng.bytes(length)
}

/// A piece for the end of a file of so many bytes, also one byte too long.
pub fn any_piece(rng: &mut Rng, size: u64) -> Vec<u8> {
    if rng.once_in(6) {
        vec![]
    } else {
        any_data(rng, size, size)
    }
}

pub fn any_append(rng: &mut Rng, image: &[u8]) -> Append {
    let path = any_path(rng, image, Want::File);
    let piece = any_piece(rng, size_of(image, &path));
    Append { path, piece, time: any_time(rng) }
}

/// The same write with an offset that an item can hold.
pub fn as_item(mut write: Write) -> Write {
    write.offset = write.offset.min(u32::MAX.into());
    write
}

/// A write that may stand in a list.
pub fn any_item(rng: &mut Rng, image: &[u8]) -> Write {
    match any_write(rng, image) {
        Change::Write(write) => as_item(write),
        _ => unreachable!("a write"),
    }
}

/// A list of a few writes, now and then not of the form.
pub fn any_list(rng: &mut Rng, image: &[u8]) -> Vec<u8> {
    let writes: Vec<Write> = (0..rng.below(6)).map(|_| any_item(rng, image)).collect();
    let mut list = list_of(&writes);
    if rng.once_in(8) {
        let at = rng.below(list.len());
        list[at] ^= 1 << rng.below(8);
    }
    list
}

/// A serial number that is none.
pub fn bad_serial(rng: &mut Rng) -> Vec<u8> {
    let mut serial = good_serial(rng);
    let i = rng.below(serial.len());
    match rng.below(6) {
        0 => vec![],
        1 => (0..rng.pick(&[17, 18, 32, 80, 300])).map(|_| rng.pick(b"0aZ")).collect(),
        2 => [b"/", &serial[..]].concat(),
        3 => {
            serial.push(0);
            serial
        }
        4 => {
            serial[i] = rng.pick(b"/:@[`{\0 -_\x80\xFF\xC1");
            serial
        }
        _ => {
            serial[i] |= 0x80;
            serial
        }
    }
}

pub fn good_serial(rng: &mut Rng) -> Vec<u8> {
    match rng.below(4) {
        0 => (0..16).map(|_| rng.pick(b"09AZaz5Mm")).collect(),
        1 => (0..rng.between(1, 16)).map(|_| rng.pick(b"09AZaz5Mm")).collect(),
        _ => format!("SN{}", rng.below(12)).into_bytes(),
    }
}

/// A directory that is neither the root nor a path.
pub fn bad_home(rng: &mut Rng) -> Vec<u8> {
    loop {
        let path = bad_path(rng);
        if path != ROOT {
            return path;
        }
    }
}

/// The directory of a put or a get, none for the calls of the root: mostly one
/// that is there, and one that holds settings if there is any.
pub fn any_home(rng: &mut Rng, image: &[u8]) -> Option<Vec<u8>> {
    let holds = |home: &Directory| {
        home.entries.iter().any(|e| e.is_file() && file_revisions(image, e).is_some())
    };
    let homes: Vec<Directory> = tree(image).into_iter().filter(holds).collect();
    match rng.below(12) {
        0..=2 => None,
        3..=5 => Some(any_listed(rng, image)),
        6 => Some(deep_path(rng, image, Want::Directory)),
        7 => Some(bad_home(rng)),
        _ if !homes.is_empty() => Some(path_of_home(&rng.pick(&homes))),
        _ => Some(path_of_home(&rng.pick(&tree(image)))),
    }
}

/// A directory as the calls of settings take it.
pub fn path_of_home(home: &Directory) -> Vec<u8> {
    if home.path.is_empty() {
        ROOT.to_vec()
    } else {
        home.path.clone()
    }
}

/// Any serial number: of a file or folder of that directory more often than not.
pub fn any_serial(rng: &mut Rng, image: &[u8], directory: &[u8]) -> Vec<u8> {
    let mut homes = tree(image);
    let at = homes.iter().position(|home| path_of_home(home) == directory);
    let home = homes.swap_remove(at.unwrap_or(0));
    let fits = |e: &&Entry| e.name.len() <= 16 && e.name.iter().all(u8::is_ascii_alphanumeric);
    let fitting: Vec<&Entry> = home.entries.iter().filter(fits).collect();
    let settled = |e: &&&Entry| e.is_file() && file_revisions(image, e).is_some();
    let settled: Vec<&Entry> = fitting.iter().filter(settled).copied().collect();
    match rng.below(12) {
        0 => bad_serial(rng),
        1..=2 => good_serial(rng),
        3..=4 if !fitting.is_empty() => rng.pick(&fitting).name.clone(),
        _ if !settled.is_empty() => rng.pick(&settled).name.clone(),
        _ => good_serial(rng),
    }
}

/// The revisions of a file of a sound image, if it is of the form.
pub fn file_revisions(image: &[u8], file: &Entry) -> Option<Vec<reference::Revision>> {
    let blocks = file.chain(image);
    let bytes: Vec<u8> =
        blocks.iter().flat_map(|&b| &image[b * BLOCK..(b + 1) * BLOCK]).copied().collect();
    reference::store::revisions(&bytes[..file.size as usize])
}

pub fn any_settings(rng: &mut Rng) -> Vec<u8> {
    let length = match rng.below(12) {
        0 => 0,
        1 => 200,
        2 if rng.once_in(2) => rng.pick(&[201, 202, 255, 256, 257, 456, 4096]),
        3 => rng.pick(&[1, 2, 199]),
        _ => rng.below(201),
    };
    if rng.once_in(6) {
        vec![0; length]
    } else {
        rng.bytes(length)
    }
}

pub fn any_put(rng: &mut Rng, image: &[u8]) -> Change {
    let directory = any_home(rng, image);
    let serial = any_serial(rng, image, directory.as_deref().unwrap_or(ROOT));
    Change::Put(Put { directory, serial, data: any_settings(rng), time: any_time(rng) })
}

/// A directory and a serial number, a revision near those that stand, and a buffer.
pub fn any_get(rng: &mut Rng, image: &[u8]) -> Get {
    let directory = any_home(rng, image);
    let home = directory.as_deref().unwrap_or(ROOT);
    let serial = any_serial(rng, image, home);
    let latest = reference::get_in(image, home, &serial, Which::Latest, 200);
    let latest = latest.map_or(0, |r| r.number);
    let which = match rng.below(8) {
        0..=2 => Which::Latest,
        3 => Which::Number(rng.pick(&[0, 1, u32::MAX])),
        4 => Which::Number(latest.wrapping_add(1)),
        _ => Which::Number(latest.saturating_sub(rng.below(18) as u32)),
    };
    let length = match rng.below(10) {
        0 => rng.pick(&[0, 1, 100, 199]),
        1..=5 => 200,
        _ => rng.between(200, 1000),
    };
    Get { directory, serial, which, buffer: rng.bytes(length) }
}

/// One of each change.
pub fn changes(rng: &mut Rng, image: &[u8]) -> [Change; 12] {
    [
        any_create(rng, image),
        any_write(rng, image),
        any_delete(rng, image),
        any_create_directory(rng, image),
        any_delete_directory(rng, image),
        any_set_attributes(rng, image),
        any_clear_attributes(rng, image),
        any_clear_flags(rng, image),
        any_shorten(rng, image),
        any_replace(rng, image),
        any_move(rng, image),
        any_put(rng, image),
    ]
}

/// A block number of the image above the table, for damage.
pub fn any_data_block(rng: &mut Rng, image: &[u8]) -> u32 {
    let n = block_count(image);
    rng.between(root_block(n), n - 1) as u32
}

/// The marks of a journal that is well formed beside the image: 5, and where
/// its records end.
pub fn marks_of(state: &State) -> Vec<u32> {
    let records = reference::journal::records(&state.journal, block_count(&state.image));
    let ends = records.unwrap_or_default().into_iter().map(|record| record.end as u32);
    [HEAD as u32].into_iter().chain(ends).collect()
}

/// A number that is none of these marks.
pub fn no_mark(rng: &mut Rng, marks: &[u32]) -> u32 {
    loop {
        let near = rng.pick(marks);
        let above = marks[marks.len() - 1] + rng.between(1, 2000) as u32;
        let mark = match rng.below(9) {
            0 => rng.below(5) as u32,
            1 => near - 1,
            2 => near + 1,
            3 => near + 4,
            4 => near + 516,
            5 => rng.between(6, above as usize) as u32,
            6 => above,
            7 => 0x8000_0005,
            _ => u32::MAX,
        };
        if !marks.contains(&mark) {
            return mark;
        }
    }
}

/// A mark of the journal mostly, or a number that is none.
pub fn any_mark(rng: &mut Rng, state: &State) -> u32 {
    let marks = marks_of(state);
    match rng.below(6) {
        0 => no_mark(rng, &marks),
        1 => marks[0],
        2 => marks[marks.len() - 1],
        _ => rng.pick(&marks),
    }
}
