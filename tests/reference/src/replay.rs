//! Runs of calls. A replay has a copy of the start and the changes that
//! stand; it sees which calls are made and what each brings, and nothing of
//! the volume under test. (The rules call it a sheet, and its changes rows.)

use crate::journal::{apply, used, State};
use crate::marks::{journal_info, JournalInfo, NO_MARK};
use crate::overview::{info, next_entry, none, Told, ENTRY_NUMBERS, VOLUME_NUMBERS};
use crate::pieces::{append, piece_write, Append};
use crate::store::{get_in, Revision, Which, ROOT};
use crate::volume::{look_in_place, lookup, read, read_attributes, Change, Found};
use crate::write_list::{write_list, writes};
use crate::{check, Refusal};
use std::ops::Range;

/// A call of a run, with what it brings. A list of writes is no change itself;
/// each write of it that is done is one. So is the write of a piece.
#[derive(Clone, Debug)]
pub enum Call {
    Change(Change),
    WriteList(Vec<u8>),
    Append(Append),
    Undo,
    UndoTo(u32),
    JournalInfo,
    Check,
    Lookup {
        path: Vec<u8>,
    },
    Read {
        path: Vec<u8>,
        offset: u64,
        buffer: Vec<u8>,
    },
    LookInPlace {
        path: Vec<u8>,
        index: u64,
    },
    ReadAttributes {
        path: Vec<u8>,
        buffer: Vec<u8>,
    },
    /// With no directory, the call for the root.
    Get {
        directory: Option<Vec<u8>>,
        serial: Vec<u8>,
        which: Which,
        buffer: Vec<u8>,
    },
    Info {
        buffer: Vec<u8>,
    },
    Entry {
        path: Vec<u8>,
        slot: u32,
        buffer: Vec<u8>,
    },
}

/// What a call must give.
#[derive(Clone, Debug, PartialEq, Eq)]
pub enum Answer {
    /// In the slot's place a put has its revision.
    Changed {
        number: u32,
        slot: u32,
        record: u32,
    },
    /// What stopped a list, and how many of its writes were done.
    Listed {
        number: u32,
        done: u32,
    },
    /// How many changes an undo to a mark took back.
    Backed {
        number: u32,
        done: u32,
    },
    Journal(Result<JournalInfo, Refusal>),
    Checked(u32),
    Found(Result<Found, Refusal>),
    /// The number, the count and the whole buffer afterwards.
    Read {
        number: u32,
        count: u32,
        buffer: Vec<u8>,
    },
    /// The number, the revision, the length of its data and the whole buffer
    /// afterwards.
    Got {
        number: u32,
        revision: u32,
        length: u32,
        buffer: Vec<u8>,
    },
    /// The part of the image and the bytes in it.
    Part {
        range: Range<usize>,
        bytes: Vec<u8>,
    },
    /// The numbers in the order of C's struct, and the whole buffer afterwards.
    Told {
        numbers: Vec<u64>,
        buffer: Vec<u8>,
    },
}

pub struct Replay {
    start: State,
    standing: Vec<Change>,
    /// The pair that the standing changes give, made in order from the start.
    replayed: State,
}

impl Replay {
    /// Begins a run from a sound image and a journal just started.
    pub fn new(start: State) -> Replay {
        Replay { replayed: start.clone(), standing: Vec::new(), start }
    }

    /// What image and journal must be now.
    pub fn replayed(&self) -> &State {
        &self.replayed
    }

    pub fn standing(&self) -> &[Change] {
        &self.standing
    }

    /// Takes note of one call and gives its answer.
    pub fn call(&mut self, call: &Call) -> Answer {
        match call {
            Call::Change(change) => self.change(change),
            Call::WriteList(list) => self.write_list(list),
            Call::Append(a) => self.append(a),
            Call::Undo => self.undo(),
            Call::UndoTo(mark) => self.undo_to(*mark),
            Call::JournalInfo => Answer::Journal(self.journal_info()),
            look => look_at(&self.replayed.image, look),
        }
    }

    fn change(&mut self, change: &Change) -> Answer {
        match apply(&self.replayed, change) {
            Err(number) => Answer::Changed { number, slot: 0, record: 0 },
            Ok(applied) => {
                self.standing.push(change.clone());
                self.replayed = applied.state;
                Answer::Changed { number: 0, slot: applied.slot, record: applied.record }
            }
        }
    }

    fn write_list(&mut self, list: &[u8]) -> Answer {
        let listed = write_list(&self.replayed, list);
        let done = writes(list).unwrap_or_default().into_iter().take(listed.done as usize);
        self.standing.extend(done.map(Change::Write));
        self.replayed = listed.state;
        Answer::Listed { number: listed.number, done: listed.done }
    }

    fn append(&mut self, a: &Append) -> Answer {
        match append(&self.replayed, a) {
            Err(number) => Answer::Changed { number, slot: 0, record: 0 },
            Ok(appended) => {
                let write = piece_write(&self.replayed.image, a);
                self.standing.extend((!a.piece.is_empty()).then_some(Change::Write(write)));
                self.replayed = appended.state;
                Answer::Changed { number: 0, slot: 0, record: appended.record }
            }
        }
    }

    fn undo(&mut self) -> Answer {
        match self.standing.pop() {
            None => Answer::Changed { number: 16, slot: 0, record: 0 },
            Some(last) => {
                self.replayed = self.remake();
                let again = apply(&self.replayed, &last).expect("a standing change is accepted");
                Answer::Changed { number: 0, slot: 0, record: again.record }
            }
        }
    }

    /// The mark is the used length after some of the standing changes: the
    /// others go.
    fn undo_to(&mut self, mark: u32) -> Answer {
        let mut state = self.start.clone();
        let mut kept = 0;
        while used(&state.journal) as u32 != mark {
            match self.standing.get(kept) {
                None => return Answer::Backed { number: NO_MARK, done: 0 },
                Some(next) => {
                    state = apply(&state, next).expect("a standing change is accepted").state
                }
            }
            kept += 1;
        }
        let done = (self.standing.len() - kept) as u32;
        self.standing.truncate(kept);
        self.replayed = state;
        Answer::Backed { number: 0, done }
    }

    /// As many records stand as changes do.
    fn journal_info(&self) -> Result<JournalInfo, Refusal> {
        let info = journal_info(&self.replayed)?;
        Ok(JournalInfo { records: self.standing.len() as u32, ..info })
    }

    /// Makes all standing changes, in order, from the start.
    fn remake(&self) -> State {
        let mut state = self.start.clone();
        for change in &self.standing {
            state = apply(&state, change).expect("a standing change is accepted").state;
        }
        state
    }
}

/// The answer of a call that only looks.
fn look_at(image: &[u8], call: &Call) -> Answer {
    match call {
        Call::Check => Answer::Checked(check(image)),
        Call::Lookup { path } => Answer::Found(lookup(image, path)),
        Call::Read { path, offset, buffer } => {
            filled(buffer, read(image, path, *offset, buffer.len()))
        }
        Call::ReadAttributes { path, buffer } => {
            filled(buffer, read_attributes(image, path, buffer.len()))
        }
        Call::Get { directory, serial, which, buffer } => {
            let directory = directory.as_deref().unwrap_or(ROOT);
            got(buffer, get_in(image, directory, serial, *which, buffer.len()))
        }
        Call::LookInPlace { path, index } => {
            let range = look_in_place(image, path, *index);
            Answer::Part { bytes: image[range.clone()].to_vec(), range }
        }
        Call::Info { buffer } => told(buffer, VOLUME_NUMBERS, info(image, buffer.len())),
        Call::Entry { path, slot, buffer } => {
            told(buffer, ENTRY_NUMBERS, next_entry(image, path, u64::from(*slot), buffer.len()))
        }
        Call::Change(_)
        | Call::WriteList(_)
        | Call::Append(_)
        | Call::Undo
        | Call::UndoTo(_)
        | Call::JournalInfo => unreachable!("no look at an image alone"),
    }
}

/// The answer of a call that puts bytes at the front of a buffer.
fn filled(buffer: &[u8], bytes: Result<Vec<u8>, Refusal>) -> Answer {
    let mut after = buffer.to_vec();
    match bytes {
        Err(number) => Answer::Read { number, count: 0, buffer: after },
        Ok(bytes) => {
            after[..bytes.len()].copy_from_slice(&bytes);
            Answer::Read { number: 0, count: bytes.len() as u32, buffer: after }
        }
    }
}

/// The answer of a get.
fn got(buffer: &[u8], revision: Result<Revision, Refusal>) -> Answer {
    let mut after = buffer.to_vec();
    match revision {
        Err(number) => Answer::Got { number, revision: 0, length: 0, buffer: after },
        Ok(Revision { number: revision, data }) => {
            after[..data.len()].copy_from_slice(&data);
            Answer::Got { number: 0, revision, length: data.len() as u32, buffer: after }
        }
    }
}

/// The same of one that also gives numbers; refused, its number and zeros.
pub fn told(buffer: &[u8], count: usize, result: Result<Told, Refusal>) -> Answer {
    let Told { numbers, bytes } = result.unwrap_or_else(|number| none(number, count));
    let mut after = buffer.to_vec();
    after[..bytes.len()].copy_from_slice(&bytes);
    Answer::Told { numbers, buffer: after }
}
