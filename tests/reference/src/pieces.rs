//! Files that arrive and leave a bit at a time: append, and read on.

use crate::check::sound;
use crate::journal::{apply, records, State};
use crate::layout::block_count;
use crate::volume::{self, lookup, read, Change, Write};
use crate::Refusal;

/// What an append brings.
#[derive(Clone, Debug, PartialEq, Eq)]
pub struct Append {
    pub path: Vec<u8>,
    pub piece: Vec<u8>,
    pub time: u64,
}

/// What an accepted append gives; the record of an empty piece has length 0.
#[derive(Clone, Debug, PartialEq, Eq)]
pub struct Appended {
    pub state: State,
    pub record: u32,
}

/// The write that a piece is: at the file's end as it stands in this image. A
/// path without a file has none, and its write is refused at any offset.
pub fn piece_write(image: &[u8], a: &Append) -> Write {
    let offset = lookup(image, &a.path).map_or(0, |file| u64::from(file.size));
    Write { path: a.path.clone(), offset, data: a.piece.clone(), time: a.time }
}

/// A piece is its write. An empty one adds no record, so all numbers of that
/// write but 15 are weighed, and nothing is done.
pub fn append(state: &State, a: &Append) -> Result<Appended, Refusal> {
    let write = Change::Write(piece_write(&state.image, a));
    if a.piece.is_empty() {
        sound(&state.image)?;
        records(&state.journal, block_count(&state.image))?;
        volume::change(&state.image, &write)?;
        return Ok(Appended { state: state.clone(), record: 0 });
    }
    let applied = apply(state, &write)?;
    Ok(Appended { state: applied.state, record: applied.record })
}

/// The image after one append of any length to a file of a sound image: the
/// write's rules without their limit of 4,096 bytes.
pub fn append_whole(image: &[u8], a: &Append) -> Result<Vec<u8>, Refusal> {
    let changed = volume::write_at_most(image, &piece_write(image, a), usize::MAX)?;
    Ok(changed.image)
}

/// Read at a position, which moves on by the count; refused, it stays.
pub fn read_next(
    image: &[u8],
    path: &[u8],
    position: &mut u64,
    buffer_len: usize,
) -> Result<Vec<u8>, Refusal> {
    let bytes = read(image, path, *position, buffer_len)?;
    *position += bytes.len() as u64;
    Ok(bytes)
}
