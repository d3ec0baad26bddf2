//! What stands in a journal, and the way back to a mark in one call.
//!
//! A mark is a used length.

use crate::check::sound;
use crate::journal::{records, taken_back, used, State, HEAD};
use crate::layout::block_count;
use crate::Refusal;

pub const NO_MARK: Refusal = 27;

/// What an info of a journal answers.
#[derive(Clone, Copy, Debug, PartialEq, Eq)]
pub struct JournalInfo {
    pub used: u32,
    pub records: u32,
    /// The length of the last record; 0 if there is none.
    pub last: u32,
}

/// What an accepted undo to a mark gives.
#[derive(Clone, Debug, PartialEq, Eq)]
pub struct Backed {
    pub state: State,
    /// How many changes were taken back.
    pub done: u32,
}

pub fn journal_info(state: &State) -> Result<JournalInfo, Refusal> {
    sound(&state.image)?;
    let records = records(&state.journal, block_count(&state.image))?;
    Ok(JournalInfo {
        used: used(&state.journal) as u32,
        records: records.len() as u32,
        last: records.last().map_or(0, |record| record.len() as u32),
    })
}

/// Takes the last record back until the used length is the mark. The image is
/// checked before the first one only.
pub fn undo_to(state: &State, mark: u32) -> Result<Backed, Refusal> {
    sound(&state.image)?;
    let records = records(&state.journal, block_count(&state.image))?;
    let mark = mark as usize;
    let is_end = mark == HEAD || records.iter().any(|record| record.end == mark);
    if mark > used(&state.journal) || !is_end {
        return Err(NO_MARK);
    }
    let mut backed = Backed { state: state.clone(), done: 0 };
    for record in records.into_iter().rev() {
        if used(&backed.state.journal) == mark {
            break;
        }
        backed.state = taken_back(&backed.state, record);
        backed.done += 1;
    }
    Ok(backed)
}
