//! Counts cases and refusal numbers, and prints what failed.

#[derive(Clone, Copy, Debug, PartialEq, Eq)]
pub enum Entry {
    Check,
    PlainCheck,
    Format,
    Lookup,
    Read,
    ReadNext,
    LookInPlace,
    Info,
    Entry,
    Start,
    Create,
    Write,
    Delete,
    CreateDirectory,
    DeleteDirectory,
    SetAttributes,
    ReadAttributes,
    ClearAttributes,
    ClearFlags,
    Shorten,
    Replace,
    Move,
    Append,
    WriteList,
    Put,
    Get,
    GetLatest,
    PutIn,
    GetIn,
    GetLatestIn,
    Undo,
    JournalInfo,
    UndoTo,
    LoadTable,
    StoreTable,
    Salvage,
    SalvageTree,
}

/// Every entry point, and the numbers that it can answer. Look in place has
/// no number; its row counts what look up would have answered.
const ENTRIES: [(Entry, &str, &[u32]); 37] = [
    (Entry::Check, "check", &[0, 1, 2, 3, 4, 5, 6, 7]),
    (Entry::PlainCheck, "plain_check", &[0, 1, 2, 3, 4, 5, 6, 7]),
    (Entry::Format, "format", &[0, 1, 9, 14]),
    (Entry::Lookup, "lookup", &[0, 1, 2, 3, 4, 5, 6, 7, 9, 10, 17]),
    (Entry::Read, "read", &[0, 1, 2, 3, 4, 5, 6, 7, 9, 10, 12, 17]),
    (Entry::ReadNext, "read_next", &[0, 1, 2, 3, 4, 5, 6, 7, 9, 10, 12, 17]),
    (Entry::LookInPlace, "look_in_place", &[0, 1, 2, 3, 4, 5, 6, 7, 9, 10, 17]),
    (Entry::Info, "info", &[0, 1, 2, 3, 4, 5, 6, 7]),
    (Entry::Entry, "entry", &[0, 1, 2, 3, 4, 5, 6, 7, 9, 10, 17]),
    (Entry::Start, "journal_start", &[0, 8]),
    (Entry::Create, "create", &[0, 1, 2, 3, 4, 5, 6, 7, 8, 9, 10, 11, 13, 15, 17, 26]),
    (Entry::Write, "write", &[0, 1, 2, 3, 4, 5, 6, 7, 8, 9, 10, 12, 14, 15, 17]),
    (Entry::Delete, "delete", &[0, 1, 2, 3, 4, 5, 6, 7, 8, 9, 10, 15, 17]),
    (
        Entry::CreateDirectory,
        "create_dir",
        &[0, 1, 2, 3, 4, 5, 6, 7, 8, 9, 10, 11, 13, 14, 15, 17, 26],
    ),
    (Entry::DeleteDirectory, "delete_dir", &[0, 1, 2, 3, 4, 5, 6, 7, 8, 9, 10, 15, 17, 18]),
    (Entry::SetAttributes, "set_attr", &[0, 1, 2, 3, 4, 5, 6, 7, 8, 9, 10, 14, 15, 17, 20]),
    (Entry::ReadAttributes, "read_attr", &[0, 1, 2, 3, 4, 5, 6, 7, 9, 10, 17]),
    (Entry::ClearAttributes, "clear_attr", &[0, 1, 2, 3, 4, 5, 6, 7, 8, 9, 10, 15, 17]),
    (Entry::ClearFlags, "clear_flags", &[0, 1, 2, 3, 4, 5, 6, 7, 8, 9, 10, 15, 17]),
    (Entry::Shorten, "shorten", &[0, 1, 2, 3, 4, 5, 6, 7, 8, 9, 10, 12, 15, 17]),
    (Entry::Replace, "replace", &[0, 1, 2, 3, 4, 5, 6, 7, 8, 9, 10, 14, 15, 17]),
    (Entry::Move, "move", &[0, 1, 2, 3, 4, 5, 6, 7, 8, 9, 10, 11, 13, 15, 17]),
    (Entry::Append, "append", &[0, 1, 2, 3, 4, 5, 6, 7, 8, 9, 10, 14, 15, 17]),
    (Entry::WriteList, "write_list", &[0, 1, 2, 3, 4, 5, 6, 7, 8, 9, 10, 12, 14, 15, 17, 19]),
    (Entry::Put, "put", &[0, 1, 2, 3, 4, 5, 6, 7, 8, 11, 13, 14, 15, 22, 24, 25]),
    (Entry::Get, "get", &[0, 1, 2, 3, 4, 5, 6, 7, 10, 22, 23, 24]),
    (Entry::GetLatest, "get_latest", &[0, 1, 2, 3, 4, 5, 6, 7, 10, 22, 24]),
    (Entry::PutIn, "put_in", &[0, 1, 2, 3, 4, 5, 6, 7, 8, 10, 11, 13, 14, 15, 17, 22, 24, 25]),
    (Entry::GetIn, "get_in", &[0, 1, 2, 3, 4, 5, 6, 7, 10, 17, 22, 23, 24]),
    (Entry::GetLatestIn, "get_latest_in", &[0, 1, 2, 3, 4, 5, 6, 7, 10, 17, 22, 24]),
    (Entry::Undo, "undo", &[0, 1, 2, 3, 4, 5, 6, 7, 8, 16]),
    (Entry::JournalInfo, "journal_info", &[0, 1, 2, 3, 4, 5, 6, 7, 8]),
    (Entry::UndoTo, "undo_to", &[0, 1, 2, 3, 4, 5, 6, 7, 8, 27]),
    (Entry::LoadTable, "load_table", &[0, 1, 2, 3, 4, 5, 6, 7, 21]),
    (Entry::StoreTable, "store_table", &[0, 1, 2, 3, 4, 5, 6, 7, 21]),
    (Entry::Salvage, "salvage", &[0, 1, 2, 3, 4, 5, 9]),
    (Entry::SalvageTree, "salvage_tree", &[0, 1, 3, 9]),
];

/// What salvages must have met at least once, beside their numbers.
#[derive(Clone, Copy, Debug, PartialEq, Eq)]
pub enum Met {
    /// A code of a slot before the end.
    Code(u8),
    /// Code 4, and the file's own last value put right as well.
    BothCodes,
    /// A last value that was 0.
    FreeLast,
    EndType,
    /// A block that became free, and blank.
    Freed,
    /// A code of a salvage of a volume with directories.
    Tree(At, u8),
    /// There, code 6 in a slot that was not free.
    HungOver,
}

/// Where a code of a salvage of a volume with directories stands.
#[derive(Clone, Copy, Debug, PartialEq, Eq)]
pub enum At {
    /// Byte 0.
    Header,
    /// The first slot of a directory.
    SelfSlot,
    /// The last.
    EndSlot,
    /// A slot that has a file afterwards.
    File,
    /// A slot that has a directory afterwards.
    Directory,
    /// A slot that is free afterwards.
    Free,
    /// A block that no directory has.
    Block,
}

const MET: [(Met, &str); 25] = [
    (Met::Code(0), "code 0"),
    (Met::Code(1), "code 1"),
    (Met::Code(2), "code 2"),
    (Met::Code(3), "code 3"),
    (Met::Code(4), "code 4"),
    (Met::BothCodes, "codes 3 and 4 at once"),
    (Met::FreeLast, "a last value of 0"),
    (Met::EndType, "an end type"),
    (Met::Freed, "a block freed"),
    (Met::Tree(At::Header, 0), "trees: header, code 0"),
    (Met::Tree(At::Header, 3), "trees: header, code 3"),
    (Met::Tree(At::SelfSlot, 0), "trees: self slot, code 0"),
    (Met::Tree(At::SelfSlot, 3), "trees: self slot, code 3"),
    (Met::Tree(At::EndSlot, 0), "trees: end slot, code 0"),
    (Met::Tree(At::EndSlot, 3), "trees: end slot, code 3"),
    (Met::Tree(At::File, 0), "trees: a file, code 0"),
    (Met::Tree(At::File, 3), "trees: a file, code 3"),
    (Met::Tree(At::File, 4), "trees: a file, code 4"),
    (Met::Tree(At::Directory, 0), "trees: a directory, code 0"),
    (Met::Tree(At::Directory, 3), "trees: a directory, code 3"),
    (Met::Tree(At::Directory, 6), "trees: a directory, code 6"),
    (Met::Tree(At::Free, 1), "trees: an entry, code 1"),
    (Met::Tree(At::Free, 2), "trees: an entry, code 2"),
    (Met::Tree(At::Block, 5), "trees: a block, code 5"),
    (Met::HungOver, "trees: code 6 over another"),
];

const NUMBERS: usize = 28;
const SHOWN_FAILURES: u64 = 20;

pub struct Report {
    passed: u64,
    failed: u64,
    hits: [[u64; NUMBERS]; ENTRIES.len()],
    met: [u64; MET.len()],
    place: Place,
}

/// Suite and round of the case at hand, and what it is about.
#[derive(Clone, Default)]
pub struct Place {
    suite: &'static str,
    round: u64,
    seed: u64,
    about: String,
}

impl Report {
    pub fn new() -> Report {
        Report {
            passed: 0,
            failed: 0,
            hits: [[0; NUMBERS]; ENTRIES.len()],
            met: [0; MET.len()],
            place: Place::default(),
        }
    }

    pub fn begin(&mut self, suite: &'static str, round: u64, seed: u64) {
        self.place = Place { suite, round, seed, about: String::new() };
    }

    /// Says what the following calls are about, for the message of a failure.
    pub fn about(&mut self, about: impl Into<String>) {
        self.place.about = about.into();
    }

    pub fn place(&self) -> Place {
        self.place.clone()
    }

    /// Goes back to a place for the answer of a call that was made there.
    pub fn back(&mut self, place: Place) {
        self.place = place;
    }

    /// Counts one call of an entry point.
    pub fn call(
        &mut self,
        entry: Entry,
        number: u32,
        troubles: impl IntoIterator<Item = Option<String>>,
    ) {
        let row = ENTRIES.iter().position(|e| e.0 == entry).unwrap();
        self.hits[row][number as usize] += 1;
        let troubles: Vec<String> = troubles.into_iter().flatten().collect();
        self.case(ENTRIES[row].1, troubles);
    }

    /// Takes note of what a salvage met.
    pub fn met(&mut self, what: Met) {
        if let Some(row) = MET.iter().position(|m| m.0 == what) {
            self.met[row] += 1;
        }
    }

    /// Counts one case that is not a call: the plan of a test against the
    /// reference, for instance.
    pub fn agree<T: PartialEq + std::fmt::Debug>(&mut self, what: &str, got: T, expected: T) {
        let troubles = if got == expected {
            vec![]
        } else {
            vec![format!("got {got:?}, expected {expected:?}")]
        };
        self.case(what, troubles);
    }

    fn case(&mut self, what: &str, troubles: Vec<String>) {
        if troubles.is_empty() {
            self.passed += 1;
            return;
        }
        self.failed += 1;
        if self.failed > SHOWN_FAILURES {
            return;
        }
        let Place { suite, round, seed, about } = &self.place;
        println!("FAILED {what}: suite {suite} round {round} (seed {seed:#018x}) {about}");
        for trouble in troubles {
            println!("       {trouble}");
        }
        println!("       again: --suite {suite} --round {round}");
    }

    /// Counts a failure of the whole.
    pub fn fail(&mut self, what: &str) {
        println!("FAILED {what}");
        self.failed += 1;
    }

    pub fn counts(&self) -> (u64, u64) {
        (self.passed, self.failed)
    }

    /// How often each entry point answered each number, and what salvages met.
    /// A number that an entry point can answer and never did is a failure if
    /// `all` is set, and so is something that no salvage met.
    pub fn table(&mut self, all: bool) {
        print!("{:<14}", "number");
        for number in 0..NUMBERS {
            print!("{number:>7}");
        }
        println!();
        let mut missing = Vec::new();
        for (row, (_, name, numbers)) in ENTRIES.iter().enumerate() {
            print!("{name:<14}");
            for number in 0..NUMBERS {
                let hits = self.hits[row][number];
                match (numbers.contains(&(number as u32)), hits) {
                    (false, 0) => print!("{:>7}", "."),
                    (true, 0) => {
                        print!("{:>7}", "NONE");
                        missing.push(format!("{name} never answered {number}"));
                    }
                    (true, _) => print!("{hits:>7}"),
                    (false, _) => {
                        print!("{:>7}", "!");
                        missing.push(format!("{name} answered {number}, which it must not"));
                    }
                }
            }
            println!();
        }
        for ((_, name), &hits) in MET.iter().zip(&self.met) {
            println!("salvage, {name}: {hits}");
            if hits == 0 {
                missing.push(format!("no salvage met {name}"));
            }
        }
        if all {
            for what in missing {
                self.fail(&what);
            }
        }
    }
}
