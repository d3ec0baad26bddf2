//! The journal, the changes that write a record to it, and undo.

use crate::check::sound;
use crate::layout::*;
use crate::volume::{self, Change};
use crate::Refusal;
use std::collections::BTreeSet;
use std::ops::Range;

pub const MIN_LENGTH: usize = 5;
pub const MAX_LENGTH: usize = 67_108_864;
/// Version byte and used length.
pub const HEAD: usize = 5;
pub const VERSION: u8 = 1;
/// A saved block in a record: its number and its bytes.
pub const SAVED: usize = 4 + BLOCK;

/// An image and the journal lent with it.
#[derive(Clone, Debug, PartialEq, Eq)]
pub struct State {
    pub image: Vec<u8>,
    pub journal: Vec<u8>,
}

/// What an accepted change gives.
#[derive(Clone, Debug, PartialEq, Eq)]
pub struct Applied {
    pub state: State,
    /// The slot of a create, the revision of a put; 0 for the others.
    pub slot: u32,
    pub record: u32,
}

/// What an accepted undo gives.
#[derive(Clone, Debug, PartialEq, Eq)]
pub struct Undone {
    pub state: State,
    pub record: u32,
}

/// A journal of `len` bytes, just started.
pub fn start(len: usize) -> Result<Vec<u8>, Refusal> {
    if !(MIN_LENGTH..=MAX_LENGTH).contains(&len) {
        return Err(8);
    }
    let mut journal = vec![0; len];
    journal[0] = VERSION;
    put_number(&mut journal, 1, HEAD as u32);
    Ok(journal)
}

/// The used length of a well-formed journal.
pub fn used(journal: &[u8]) -> usize {
    number(journal, 1) as usize
}

/// Where the records of a journal lie, in order, if it is well formed beside
/// an image of `n` blocks; 8 otherwise.
pub fn records(journal: &[u8], n: usize) -> Result<Vec<Range<usize>>, Refusal> {
    if !(MIN_LENGTH..=MAX_LENGTH).contains(&journal.len())
        || journal[0] != VERSION
        || !(HEAD..=journal.len()).contains(&used(journal))
    {
        return Err(8);
    }
    let mut found = Vec::new();
    let mut at = HEAD;
    let end = used(journal);
    while at < end {
        if end - at < 4 {
            return Err(8);
        }
        let length = number(journal, at) as usize;
        if length > end - at || !good_record(&journal[at..at + length], n) {
            return Err(8);
        }
        found.push(at..at + length);
        at += length;
    }
    Ok(found)
}

/// A record saves at least one block; the numbers rise and are below n.
fn good_record(record: &[u8], n: usize) -> bool {
    let k = record.len().saturating_sub(4) / SAVED;
    if k == 0 || record.len() != 4 + SAVED * k {
        return false;
    }
    let numbers: Vec<usize> = saved_blocks(record).map(|(b, _)| b).collect();
    numbers.windows(2).all(|pair| pair[0] < pair[1]) && numbers.iter().all(|&b| b < n)
}

/// The block numbers and old bytes in a record.
fn saved_blocks(record: &[u8]) -> impl Iterator<Item = (usize, &[u8])> {
    record[4..].chunks(SAVED).map(|saved| (number(saved, 0) as usize, &saved[4..]))
}

/// The record that saves the named blocks of an image.
fn record_of(image: &[u8], named: &BTreeSet<usize>) -> Vec<u8> {
    let length = 4 + SAVED * named.len();
    let mut record = (length as u32).to_be_bytes().to_vec();
    for &b in named {
        record.extend((b as u32).to_be_bytes());
        record.extend(&image[b * BLOCK..(b + 1) * BLOCK]);
    }
    record
}

/// A change with a journal. The order of the steps is the order in which the
/// numbers are weighed: 1 to 7, 8, those of the change, 15.
pub fn apply(state: &State, change: &Change) -> Result<Applied, Refusal> {
    sound(&state.image)?;
    records(&state.journal, block_count(&state.image))?;
    let changed = volume::change(&state.image, change)?;

    let record = record_of(&state.image, &changed.named);
    let at = used(&state.journal);
    if at + record.len() > state.journal.len() {
        return Err(15);
    }
    let mut journal = state.journal.clone();
    journal[at..at + record.len()].copy_from_slice(&record);
    put_number(&mut journal, 1, (at + record.len()) as u32);
    Ok(Applied {
        state: State { image: changed.image, journal },
        slot: changed.slot,
        record: record.len() as u32,
    })
}

/// Puts the last record's bytes back and removes the record.
pub fn undo(state: &State) -> Result<Undone, Refusal> {
    sound(&state.image)?;
    let records = records(&state.journal, block_count(&state.image))?;
    let last = records.last().cloned().ok_or(16u32)?;
    let record = last.len() as u32;
    Ok(Undone { state: taken_back(state, last), record })
}

/// Image and journal without the last record, whose bytes are put back.
pub fn taken_back(state: &State, last: Range<usize>) -> State {
    let mut image = state.image.clone();
    for (b, bytes) in saved_blocks(&state.journal[last.clone()]) {
        image[b * BLOCK..(b + 1) * BLOCK].copy_from_slice(bytes);
    }
    let mut journal = state.journal.clone();
    journal[last.clone()].fill(0);
    put_number(&mut journal, 1, last.start as u32);
    State { image, journal }
}
