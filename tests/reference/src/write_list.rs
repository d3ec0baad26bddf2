//! A list of writes in one call.

use crate::check::sound;
use crate::journal::{apply, records, State};
use crate::layout::{block_count, number};
use crate::volume::{Change, Write};
use crate::Refusal;

pub const BAD_LIST: Refusal = 19;
pub const MAX_LIST: usize = 65_536;
pub const VERSION: u8 = 1;
/// Version byte and length of all.
pub const HEAD: usize = 5;

/// The fields of an item, and where its path begins.
pub mod item {
    pub const LENGTH: usize = 0;
    pub const TIME: usize = 4;
    pub const OFFSET: usize = 12;
    pub const PATH_LENGTH: usize = 16;
    pub const PATH: usize = 18;
}

/// What a list call leaves: image and journal, how many writes were done, and
/// the refusal that stopped them, or 0.
#[derive(Clone, Debug, PartialEq, Eq)]
pub struct Listed {
    pub state: State,
    pub number: u32,
    pub done: u32,
}

/// The writes of a list, if it is of the form; 19 otherwise.
pub fn writes(list: &[u8]) -> Result<Vec<Write>, Refusal> {
    if !(HEAD..=MAX_LIST).contains(&list.len())
        || list[0] != VERSION
        || number(list, 1) as usize != list.len()
    {
        return Err(BAD_LIST);
    }
    let mut found = Vec::new();
    let mut rest = &list[HEAD..];
    while !rest.is_empty() {
        let (first, others) = cut(rest).ok_or(BAD_LIST)?;
        found.push(write_of(first).ok_or(BAD_LIST)?);
        rest = others;
    }
    Ok(found)
}

/// The first item by its length, which counts itself, and what follows it.
fn cut(rest: &[u8]) -> Option<(&[u8], &[u8])> {
    let length = rest.get(item::LENGTH..4).map(|bytes| number(bytes, 0) as usize)?;
    (item::PATH <= length && length <= rest.len()).then(|| rest.split_at(length))
}

/// The write of an item, whose data are all that follows its path.
fn write_of(bytes: &[u8]) -> Option<Write> {
    let two = |at: usize| u16::from_be_bytes([bytes[at], bytes[at + 1]]);
    let data = item::PATH + usize::from(two(item::PATH_LENGTH));
    let time =
        u64::from(number(bytes, item::TIME)) << 32 | u64::from(number(bytes, item::TIME + 4));
    Some(Write {
        path: bytes.get(item::PATH..data)?.to_vec(),
        offset: u64::from(number(bytes, item::OFFSET)),
        data: bytes[data..].to_vec(),
        time,
    })
}

/// Weighs 1 to 8 and 19 before any item is done; then makes the writes one by
/// one, each with its own record, until the first refusal.
pub fn write_list(state: &State, list: &[u8]) -> Listed {
    let mut listed = Listed { state: state.clone(), number: 0, done: 0 };
    let writes = match accepted(state, list) {
        Ok(writes) => writes,
        Err(number) => return Listed { number, ..listed },
    };
    for write in writes {
        match apply(&listed.state, &Change::Write(write)) {
            Ok(applied) => listed.state = applied.state,
            Err(number) => return Listed { number, ..listed },
        }
        listed.done += 1;
    }
    listed
}

fn accepted(state: &State, list: &[u8]) -> Result<Vec<Write>, Refusal> {
    sound(&state.image)?;
    records(&state.journal, block_count(&state.image))?;
    writes(list)
}
