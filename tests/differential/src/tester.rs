//! Makes one call on both sides and compares everything that can be seen.

use crate::ffi;
use crate::lent::Lent;
use crate::library::{self, Pair};
use crate::plain::Plain;
use crate::report::{Entry, Report};
use reference::overview::{ENTRY_NUMBERS, VOLUME_NUMBERS};
use reference::replay::told;
use reference::store::ROOT;
use reference::{Answer, Append, Change, Listed, Salvaged, State, TreeSalvaged, Which};

pub struct Tester {
    pub report: Report,
    /// The lister program, if it is to be tested.
    pub lister: Option<String>,
    /// The program that runs scripts, if it is to be tested.
    pub scripts: Option<String>,
    pub plain: Plain,
    shift: usize,
}

fn number_of<T>(result: &Result<T, u32>) -> u32 {
    result.as_ref().err().copied().unwrap_or(0)
}

pub fn unequal<T: PartialEq + std::fmt::Debug>(got: T, expected: T) -> Option<String> {
    (got != expected).then(|| format!("got {got:?}, expected {expected:?}"))
}

impl Tester {
    pub fn new(report: Report, lister: Option<String>, scripts: Option<String>) -> Tester {
        Tester { report, lister, scripts, plain: Plain::default(), shift: 0 }
    }

    pub fn lend(&mut self, content: &[u8]) -> Lent {
        self.shift += 1;
        Lent::new(content, self.shift)
    }

    pub fn check(&mut self, image: &[u8]) {
        let lent = self.lend(image);
        self.check_in(&lent, image);
    }

    /// The check of an image that is lent already.
    pub fn check_in(&mut self, lent: &Lent, image: &[u8]) {
        let got = library::check(lent);
        let expected = reference::check(image);
        let troubles = [unequal(got, expected), lent.trouble("image", image)];
        self.report.call(Entry::Check, expected, troubles);
        self.plain.check(&mut self.report, lent, image, expected);
    }

    /// Both checks of an image that a call is given or has made, once, if it is
    /// damaged.
    pub fn check_damaged(&mut self, image: &[u8]) {
        self.check_refused(image, reference::check(image));
    }

    /// The same where the number of a call tells whether it is.
    fn check_refused(&mut self, image: &[u8], number: u32) {
        if (1..=7).contains(&number) && !self.plain.knows(image) {
            self.check(image);
        }
    }

    pub fn format(&mut self, image: &[u8], d: u32, time: u64, uuid: [u8; 16], volume_name: &[u8]) {
        self.check_damaged(image);
        let mut lent = self.lend(image);
        let name = self.lend(volume_name);
        let got = library::format(&mut lent, d, time, uuid, &name);
        let expected = reference::format(image.len(), d, time, uuid, volume_name);
        let number = number_of(&expected);
        let after = expected.unwrap_or_else(|_| image.to_vec());
        let troubles = [
            unequal(got, number),
            lent.trouble("image", &after),
            name.trouble("volume name", volume_name),
        ];
        self.report.call(Entry::Format, number, troubles);
    }

    pub fn lookup(&mut self, image: &[u8], path: &[u8]) {
        let (lent, lent_path) = (self.lend(image), self.lend(path));
        let got = library::lookup(&lent, &lent_path);
        let result = reference::lookup(image, path);
        let troubles = [
            unequal(got, found(&result)),
            lent.trouble("image", image),
            lent_path.trouble("path", path),
        ];
        self.check_refused(image, number_of(&result));
        self.report.call(Entry::Lookup, number_of(&result), troubles);
    }

    /// A read, and a reader's read at the same place.
    pub fn read(&mut self, image: &[u8], path: &[u8], offset: u64, buffer: &[u8]) {
        let result = reference::read(image, path, offset, buffer.len());
        self.fill(Entry::Read, image, path, buffer, result, |image, path, buffer| {
            library::read(image, path, offset, buffer)
        });
        self.read_next(image, path, offset, buffer);
    }

    /// A reader's read. Gives the reference's number and the place after it.
    pub fn read_next(
        &mut self,
        image: &[u8],
        path: &[u8],
        place: u64,
        buffer: &[u8],
    ) -> (u32, u64) {
        let (mut got, mut expected) = (place, place);
        let result = reference::read_next(image, path, &mut expected, buffer.len());
        let number = number_of(&result);
        self.fill(Entry::ReadNext, image, path, buffer, result, |image, path, buffer| {
            library::read_next(image, path, &mut got, buffer)
        });
        self.report.agree("the place after a read", got, expected);
        (number, expected)
    }

    pub fn read_attributes(&mut self, image: &[u8], path: &[u8], buffer: &[u8]) {
        let result = reference::read_attributes(image, path, buffer.len());
        self.fill(Entry::ReadAttributes, image, path, buffer, result, library::read_attributes);
    }

    /// A call that fills a buffer; the reference gives the bytes for its front.
    fn fill(
        &mut self,
        entry: Entry,
        image: &[u8],
        path: &[u8],
        buffer: &[u8],
        result: Result<Vec<u8>, u32>,
        call: impl FnOnce(&Lent, &Lent, &mut Lent) -> ffi::Filled,
    ) {
        let (lent, lent_path) = (self.lend(image), self.lend(path));
        let mut lent_buffer = self.lend(buffer);
        let got = call(&lent, &lent_path, &mut lent_buffer);
        let number = number_of(&result);
        let bytes = result.unwrap_or_default();
        let mut after = buffer.to_vec();
        after[..bytes.len()].copy_from_slice(&bytes);
        let troubles = [
            unequal(got, ffi::Filled { number, count: bytes.len() as u32 }),
            lent.trouble("image", image),
            lent_path.trouble("path", path),
            lent_buffer.trouble("buffer", &after),
        ];
        self.check_refused(image, number);
        self.report.call(entry, number, troubles);
    }

    /// A get. Gives the reference's number.
    pub fn get(&mut self, image: &[u8], get: &Get) -> u32 {
        let lent = self.lend(image);
        self.get_in(&lent, image, get)
    }

    /// A get from an image that is lent already.
    pub fn get_in(&mut self, lent: &Lent, image: &[u8], get: &Get) -> u32 {
        let Get { directory, serial, which, buffer } = get;
        let home = directory.as_deref().unwrap_or(ROOT);
        let lent_home = self.lend(home);
        let (lent_serial, mut lent_buffer) = (self.lend(serial), self.lend(buffer));
        let got = match directory {
            None => library::get(lent, &lent_serial, *which, &mut lent_buffer),
            Some(_) => library::get_in(lent, &lent_home, &lent_serial, *which, &mut lent_buffer),
        };
        let result = reference::get_in(image, home, serial, *which, buffer.len());
        let number = number_of(&result);
        let (revision, data) = result.map_or((0, vec![]), |r| (r.number, r.data));
        let mut after = buffer.to_vec();
        after[..data.len()].copy_from_slice(&data);
        let troubles = [
            unequal(got, ffi::Got { number, revision, length: data.len() as u32 }),
            lent.trouble("image", image),
            lent_home.trouble("directory", home),
            lent_serial.trouble("serial", serial),
            lent_buffer.trouble("buffer", &after),
        ];
        self.check_refused(image, number);
        self.report.call(get_entry(directory.is_some(), *which), number, troubles);
        number
    }

    pub fn look_in_place(&mut self, image: &[u8], path: &[u8], index: u64) {
        let (lent, lent_path) = (self.lend(image), self.lend(path));
        let got = library::look_in_place(&lent, &lent_path, index);
        let range = reference::look_in_place(image, path, index);
        let expected = ffi::Part { start: range.start as u32, length: range.len() as u32 };
        let number = number_of(&reference::lookup(image, path));
        let troubles =
            [unequal(got, expected), lent.trouble("image", image), lent_path.trouble("path", path)];
        self.check_refused(image, number);
        self.report.call(Entry::LookInPlace, number, troubles);
    }

    pub fn info(&mut self, image: &[u8], buffer: &[u8]) {
        let (lent, mut lent_buffer) = (self.lend(image), self.lend(buffer));
        let numbers = library::info(&lent, &mut lent_buffer);
        let got = Answer::Told { numbers, buffer: lent_buffer.content().to_vec() };
        let result = reference::info(image, buffer.len());
        let number = number_of(&result);
        let expected = told(buffer, VOLUME_NUMBERS, result);
        let whole = lent_buffer.content().to_vec();
        let troubles = [
            unequal(got, expected),
            lent.trouble("image", image),
            lent_buffer.trouble("labels", &whole),
        ];
        self.check_refused(image, number);
        self.report.call(Entry::Info, number, troubles);
    }

    /// Gives the reference's slot, 0 if there is none.
    pub fn entry(&mut self, image: &[u8], path: &[u8], slot: u32, buffer: &[u8]) -> u32 {
        let (lent, lent_path) = (self.lend(image), self.lend(path));
        let mut lent_buffer = self.lend(buffer);
        let numbers = library::entry(&lent, &lent_path, slot, &mut lent_buffer);
        let whole = lent_buffer.content().to_vec();
        let got = Answer::Told { numbers, buffer: whole.clone() };
        let result = reference::next_entry(image, path, slot.into(), buffer.len());
        let number = number_of(&result);
        let found = result.as_ref().map_or(0, |e| e.numbers[1]);
        let troubles = [
            unequal(got, told(buffer, ENTRY_NUMBERS, result)),
            lent.trouble("image", image),
            lent_path.trouble("path", path),
            lent_buffer.trouble("name", &whole),
        ];
        self.check_refused(image, number);
        self.report.call(Entry::Entry, number, troubles);
        found as u32
    }

    /// All entries of a directory, as a C program lists them.
    pub fn list(&mut self, image: &[u8], path: &[u8], buffer: &[u8]) {
        let mut slot = self.entry(image, path, 1, buffer);
        while slot != 0 {
            slot = self.entry(image, path, slot + 1, buffer);
        }
    }

    /// All calls that only look, for one path, its bytes as a serial number, and
    /// the path as a directory.
    pub fn look(&mut self, image: &[u8], path: &[u8], offset: u64, buffer: &[u8], index: u64) {
        self.check(image);
        self.lookup(image, path);
        self.read(image, path, offset, buffer);
        self.read_attributes(image, path, buffer);
        self.look_in_place(image, path, index);
        let serial = path.strip_prefix(b"/").unwrap_or(path).to_vec();
        for which in [Which::Latest, Which::Number(index as u32)] {
            for directory in [None, Some(path.to_vec())] {
                let (serial, buffer) = (serial.clone(), buffer.to_vec());
                self.get(image, &Get { directory, serial, which, buffer });
            }
        }
        self.info(image, buffer);
        self.entry(image, path, index as u32, buffer);
    }

    pub fn start(&mut self, journal: &[u8]) {
        let mut lent = self.lend(journal);
        let got = library::start(&mut lent);
        let expected = reference::start(journal.len());
        let number = number_of(&expected);
        let after = expected.unwrap_or_else(|_| journal.to_vec());
        let troubles = [unequal(got, number), lent.trouble("journal", &after)];
        self.report.call(Entry::Start, number, troubles);
    }

    pub fn load_table(&mut self, image: &[u8], numbers: &[u32]) {
        let (lent, mut lent_numbers) = (self.lend(image), Lent::numbers(numbers));
        let got = library::load_table(&lent, &mut lent_numbers);
        let result = reference::load_table(image, numbers.len());
        let number = number_of(&result);
        let after = result.unwrap_or_else(|_| numbers.to_vec());
        let troubles = [
            unequal(got, number),
            lent.trouble("image", image),
            lent_numbers.trouble("numbers", Lent::numbers(&after).content()),
        ];
        self.check_refused(image, number);
        self.report.call(Entry::LoadTable, number, troubles);
    }

    /// Gives the image after the store.
    pub fn store_table(&mut self, image: &[u8], numbers: &[u32]) -> Vec<u8> {
        let (mut lent, lent_numbers) = (self.lend(image), Lent::numbers(numbers));
        let got = library::store_table(&mut lent, &lent_numbers);
        let result = reference::store_table(image, numbers);
        let number = number_of(&result);
        let after = result.unwrap_or_else(|_| image.to_vec());
        let troubles = [
            unequal(got, number),
            lent.trouble("image", &after),
            lent_numbers.trouble("numbers", Lent::numbers(numbers).content()),
        ];
        self.check_damaged(&after);
        self.report.call(Entry::StoreTable, number, troubles);
        lent.content().to_vec()
    }

    /// A salvage. Gives what the library made of image and report, if both
    /// sides accept them.
    pub fn salvage(&mut self, image: &[u8], report: &[u8]) -> Option<Salvaged> {
        self.check_damaged(image);
        let (mut lent, mut lent_report) = (self.lend(image), self.lend(report));
        let got = library::salvage(&mut lent, &mut lent_report);
        let result = reference::salvage(image, report);
        let number = number_of(&result);
        let unchanged = |_| Salvaged { image: image.to_vec(), report: report.to_vec() };
        let after = result.unwrap_or_else(unchanged);
        let troubles = [
            unequal(got, number),
            lent.trouble("image", &after.image),
            lent_report.trouble("report", &after.report),
        ];
        self.report.call(Entry::Salvage, number, troubles);
        let (image, report) = (lent.content().to_vec(), lent_report.content().to_vec());
        (got == 0 && number == 0).then_some(Salvaged { image, report })
    }

    /// A salvage of a volume with directories. Gives what the library made of image
    /// and report, if both sides accept them.
    pub fn salvage_tree(&mut self, image: &[u8], report: &[u8]) -> Option<TreeSalvaged> {
        self.check_damaged(image);
        let (mut lent, mut lent_report) = (self.lend(image), self.lend(report));
        let got = library::salvage_tree(&mut lent, &mut lent_report);
        let result = reference::salvage_tree(image, report);
        let number = number_of(&result);
        let (image, report) = (image.to_vec(), report.to_vec());
        let unchanged = |_| TreeSalvaged { image, report, dropped: 0, freed: 0 };
        let after = result.unwrap_or_else(unchanged);
        let expected = ffi::Salvaged { number, dropped: after.dropped, freed: after.freed };
        let troubles = [
            unequal(got, expected),
            lent.trouble("image", &after.image),
            lent_report.trouble("report", &after.report),
        ];
        self.report.call(Entry::SalvageTree, number, troubles);
        let ffi::Salvaged { dropped, freed, .. } = got;
        let (image, report) = (lent.content().to_vec(), lent_report.content().to_vec());
        let accepted = got.number == 0 && number == 0;
        accepted.then_some(TreeSalvaged { image, report, dropped, freed })
    }

    /// A change. Gives the reference's number.
    pub fn change(&mut self, state: &State, change: &Change) -> u32 {
        let mut pair = self.lend_pair(state);
        self.change_in(&mut pair, state, change)
    }

    /// The same on an image and a journal that are lent already.
    pub fn change_in(&mut self, pair: &mut Pair, state: &State, change: &Change) -> u32 {
        let (entry, got, mut troubles) = self.make(pair, change);
        let result = reference::apply(state, change);
        let number = number_of(&result);
        let (slot, record) = result.as_ref().map_or((0, 0), |a| (a.slot, a.record));
        let after = result.as_ref().map_or(state, |a| &a.state);
        troubles.push(unequal(got, ffi::Created { number, slot, record }));
        troubles.extend(pair.troubles(after));
        self.check_refused(&state.image, number);
        self.report.call(entry, number, troubles);
        number
    }

    /// An append. Gives the reference's number.
    pub fn append(&mut self, state: &State, a: &Append) -> u32 {
        let mut pair = self.lend_pair(state);
        self.append_in(&mut pair, state, a)
    }

    pub fn append_in(&mut self, pair: &mut Pair, state: &State, a: &Append) -> u32 {
        let (got, mut troubles) = self.make_append(pair, a);
        let result = reference::append(state, a);
        let number = number_of(&result);
        let record = result.as_ref().map_or(0, |a| a.record);
        let after = result.as_ref().map_or(state, |a| &a.state);
        troubles.push(unequal(got, ffi::Changed { number, record }));
        troubles.extend(pair.troubles(after));
        self.check_refused(&state.image, number);
        self.report.call(Entry::Append, number, troubles);
        number
    }

    /// Makes an append on lent buffers: the answer, and what happened to the
    /// buffers that are only read.
    pub fn make_append(
        &mut self,
        pair: &mut Pair,
        a: &Append,
    ) -> (ffi::Changed, Vec<Option<String>>) {
        let (path, piece) = (self.lend(&a.path), self.lend(&a.piece));
        let got = pair.append(&path, &piece, a.time);
        (got, vec![path.trouble("path", &a.path), piece.trouble("piece", &a.piece)])
    }

    /// A list of writes. Gives the reference's number.
    pub fn write_list(&mut self, state: &State, list: &[u8]) -> u32 {
        let mut pair = self.lend_pair(state);
        self.write_list_in(&mut pair, state, list).number
    }

    pub fn write_list_in(&mut self, pair: &mut Pair, state: &State, list: &[u8]) -> Listed {
        let lent = self.lend(list);
        let got = pair.write_list(&lent);
        let expected = reference::write_list(state, list);
        let answer = ffi::Listed { number: expected.number, done: expected.done };
        let mut troubles = vec![unequal(got, answer), lent.trouble("list", list)];
        troubles.extend(pair.troubles(&expected.state));
        self.check_refused(&state.image, expected.number);
        self.report.call(Entry::WriteList, expected.number, troubles);
        expected
    }

    /// Undo. Gives the reference's number.
    pub fn undo(&mut self, state: &State) -> u32 {
        let mut pair = self.lend_pair(state);
        self.undo_in(&mut pair, state)
    }

    pub fn undo_in(&mut self, pair: &mut Pair, state: &State) -> u32 {
        let got = pair.undo();
        let result = reference::undo(state);
        let number = number_of(&result);
        let record = result.as_ref().map_or(0, |u| u.record);
        let after = result.as_ref().map_or(state, |u| &u.state);
        let mut troubles = vec![unequal(got, ffi::Changed { number, record })];
        troubles.extend(pair.troubles(after));
        self.check_damaged(&after.image);
        self.report.call(Entry::Undo, number, troubles);
        number
    }

    /// Undo to a mark. Gives the reference's number.
    pub fn undo_to(&mut self, state: &State, mark: u32) -> u32 {
        let mut pair = self.lend_pair(state);
        self.undo_to_in(&mut pair, state, mark)
    }

    pub fn undo_to_in(&mut self, pair: &mut Pair, state: &State, mark: u32) -> u32 {
        let got = pair.undo_to(mark);
        let result = reference::undo_to(state, mark);
        let number = number_of(&result);
        let done = result.as_ref().map_or(0, |b| b.done);
        let after = result.as_ref().map_or(state, |b| &b.state);
        let mut troubles = vec![unequal(got, ffi::Listed { number, done })];
        troubles.extend(pair.troubles(after));
        self.check_damaged(&after.image);
        self.report.call(Entry::UndoTo, number, troubles);
        number
    }

    /// An info of the journal. Gives the reference's number.
    pub fn journal_info(&mut self, state: &State) -> u32 {
        let pair = self.lend_pair(state);
        let got = pair.journal_info();
        let result = reference::journal_info(state);
        let number = number_of(&result);
        let mut troubles = vec![unequal(got, journal(&result))];
        troubles.extend(pair.troubles(state));
        self.check_refused(&state.image, number);
        self.report.call(Entry::JournalInfo, number, troubles);
        number
    }

    /// An info of the journal, and an undo to each of these marks.
    pub fn marks(&mut self, state: &State, marks: &[u32]) {
        self.journal_info(state);
        for &mark in marks {
            self.undo_to(state, mark);
        }
    }

    pub fn lend_pair(&mut self, state: &State) -> Pair {
        Pair { image: self.lend(&state.image), journal: self.lend(&state.journal) }
    }

    /// Makes a change on lent buffers: the answer, with slot 0 where the call
    /// has none and the revision of a put there, and what happened to the buffers that are only read.
    pub fn make(
        &mut self,
        pair: &mut Pair,
        change: &Change,
    ) -> (Entry, ffi::Created, Vec<Option<String>>) {
        let own_path = change.path();
        let path = self.lend(&own_path);
        let mut troubles = Vec::new();
        let (entry, got) = match change {
            Change::Create(c) => (Entry::Create, pair.create(&path, c)),
            Change::Write(w) => {
                let data = self.lend(&w.data);
                let got = pair.write(&path, w.offset, &data, w.time);
                troubles.push(data.trouble("data", &w.data));
                (Entry::Write, without_slot(got))
            }
            Change::Delete(_) => (Entry::Delete, without_slot(pair.delete(&path))),
            Change::CreateDirectory(c) => (Entry::CreateDirectory, pair.create_directory(&path, c)),
            Change::DeleteDirectory(_) => {
                (Entry::DeleteDirectory, without_slot(pair.delete_directory(&path)))
            }
            Change::SetAttributes(s) => {
                let data = self.lend(&s.data);
                let got = pair.set_attributes(&path, &data);
                troubles.push(data.trouble("data", &s.data));
                (Entry::SetAttributes, without_slot(got))
            }
            Change::ClearAttributes(_) => {
                (Entry::ClearAttributes, without_slot(pair.clear_attributes(&path)))
            }
            Change::ClearFlags(_) => (Entry::ClearFlags, without_slot(pair.clear_flags(&path))),
            Change::Shorten(s) => {
                (Entry::Shorten, without_slot(pair.shorten(&path, s.size, s.time)))
            }
            Change::Replace(r) => {
                let data = self.lend(&r.data);
                let got = pair.replace(&path, &data, r.time);
                troubles.push(data.trouble("data", &r.data));
                (Entry::Replace, without_slot(got))
            }
            Change::Move(m) => {
                let to = self.lend(&m.to);
                let got = pair.move_file(&path, &to);
                troubles.push(to.trouble("to", &m.to));
                (Entry::Move, got)
            }
            Change::Put(p) => {
                let (serial, data) = (self.lend(&p.serial), self.lend(&p.data));
                let home = self.lend(p.directory());
                let (entry, got) = match p.directory {
                    None => (Entry::Put, pair.put(&serial, &data, p.time)),
                    Some(_) => (Entry::PutIn, pair.put_in(&home, &serial, &data, p.time)),
                };
                let ffi::Put { number, revision, record } = got;
                troubles.push(home.trouble("directory", p.directory()));
                troubles.push(serial.trouble("serial", &p.serial));
                troubles.push(data.trouble("data", &p.data));
                (entry, ffi::Created { number, slot: revision, record })
            }
        };
        troubles.push(path.trouble("path", &own_path));
        (entry, got, troubles)
    }
}

/// What a get brings; the call for the root brings no directory.
#[derive(Clone, Debug)]
pub struct Get {
    pub directory: Option<Vec<u8>>,
    pub serial: Vec<u8>,
    pub which: Which,
    pub buffer: Vec<u8>,
}

/// The entry point of a get, with a directory or without.
pub fn get_entry(placed: bool, which: Which) -> Entry {
    match (placed, which) {
        (false, Which::Latest) => Entry::GetLatest,
        (false, Which::Number(_)) => Entry::Get,
        (true, Which::Latest) => Entry::GetLatestIn,
        (true, Which::Number(_)) => Entry::GetIn,
    }
}

/// What lookup answers in C.
pub fn found(result: &Result<reference::Found, u32>) -> ffi::Found {
    match result {
        Ok(f) => ffi::Found { number: 0, slot: f.slot, size: f.size, blocks: f.blocks },
        Err(number) => ffi::Found { number: *number, slot: 0, size: 0, blocks: 0 },
    }
}

/// What an info of a journal answers in C.
pub fn journal(result: &Result<reference::JournalInfo, u32>) -> ffi::Journal {
    match result {
        Ok(j) => ffi::Journal { number: 0, used: j.used, records: j.records, last: j.last },
        Err(number) => ffi::Journal { number: *number, used: 0, records: 0, last: 0 },
    }
}

fn without_slot(changed: ffi::Changed) -> ffi::Created {
    ffi::Created { number: changed.number, slot: 0, record: changed.record }
}
