//! The volume's numbers, and the entries of a directory one after the other.

use crate::check::sound;
use crate::layout::*;
use crate::path::{place, Want};
use crate::Refusal;

/// The numbers of an answer in the order of C's struct, and the bytes for the
/// front of its buffer.
#[derive(Clone, Debug, PartialEq, Eq)]
pub struct Told {
    pub numbers: Vec<u64>,
    pub bytes: Vec<u8>,
}

/// Number, blocks, used, free, root blocks.
pub const VOLUME_NUMBERS: usize = 5;
/// Number, slot, type, user, group, permissions, flags, created, modified,
/// first, size, blocks, attribute block, attribute size.
pub const ENTRY_NUMBERS: usize = 14;

/// The UUID and the volume name, one behind the other.
pub const LABELS: usize = 16 + header::VOLUME_NAME_SIZE;

pub fn info(image: &[u8], buffer_len: usize) -> Result<Told, Refusal> {
    sound(image)?;
    let n = block_count(image);
    let root = directory_chain(image, root_block(n)).len();
    let (used, free) = (number(image, header::OCCUPIED), number(image, header::FREE));
    let labels = &image[header::UUID..header::UUID + LABELS];
    Ok(Told {
        numbers: vec![0, n as u64, used.into(), free.into(), root as u64],
        bytes: labels[..buffer_len.min(LABELS)].to_vec(),
    })
}

/// The entry in the lowest slot from the given one on that is not free. The
/// path of the root is `/`.
pub fn next_entry(
    image: &[u8],
    path: &[u8],
    slot: u64,
    buffer_len: usize,
) -> Result<Told, Refusal> {
    sound(image)?;
    let first = if path == b"/" {
        root_block(block_count(image))
    } else {
        place(path, Want::Directory, true)?.find(image, Want::Directory)?.first as usize
    };
    let all = entries(image, first);
    let found = all.iter().find(|entry| entry.slot as u64 >= slot);
    Ok(found.map_or(none(0, ENTRY_NUMBERS), |entry| told(image, entry, buffer_len)))
}

fn told(image: &[u8], entry: &Entry, buffer_len: usize) -> Told {
    let slot = &image[entry.at..entry.at + SLOT];
    let time = |at: usize| u64::from_be_bytes(slot[at..at + 8].try_into().unwrap());
    let mut numbers = vec![0, entry.slot as u64];
    numbers.extend(slot[slot::TYPE..=slot::PERMISSIONS].iter().map(|&b| u64::from(b)));
    numbers.push(number(slot, slot::FLAGS).into());
    numbers.extend([time(slot::CREATED), time(slot::MODIFIED)]);
    let (first, size, blocks) = (entry.first, entry.size, entry.blocks);
    let rest = [first, size, blocks, entry.attribute_block, entry.attribute_size];
    numbers.extend(rest.map(u64::from));
    let field = &slot[slot::NAME..slot::NAME + NAME_FIELD];
    Told { numbers, bytes: field[..buffer_len.min(NAME_FIELD)].to_vec() }
}

/// A number and zeros.
pub fn none(number: u32, count: usize) -> Told {
    let mut numbers = vec![0; count];
    numbers[0] = number.into();
    Told { numbers, bytes: vec![] }
}
