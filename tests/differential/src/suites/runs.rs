//! Long runs of calls on one image and one journal, held against the
//! reference's replay after every call. Each call of the library has a small
//! stack.

use super::blank;
use crate::arguments::*;
use crate::ffi;
use crate::images::{self, build, Fill};
use crate::lent::{difference, Lent};
use crate::library::{self, Pair};
use crate::report::Entry;
use crate::rng::Rng;
use crate::tester::{found, get_entry, journal, Get, Tester};
use reference::journal::HEAD;
use reference::path::Want;
use reference::{Answer, Call, Replay, State};
use std::thread;

/// Bytes of stack that a call may need, at the deepest level too.
const STACK: usize = 256 * 1024;

/// How often a run makes which calls, out of their sum.
pub struct Mix {
    create: usize,
    write: usize,
    delete: usize,
    /// Creates of folders, and deletes.
    folder: usize,
    /// Sets of attributes, and clears of them and of flags.
    attributes: usize,
    put: usize,
    undo: usize,
    look: usize,
}

pub const MIXES: [Mix; 6] = [
    Mix { create: 3, write: 8, delete: 2, folder: 3, attributes: 3, put: 2, undo: 3, look: 4 },
    Mix { create: 2, write: 12, delete: 1, folder: 1, attributes: 1, put: 1, undo: 1, look: 2 },
    Mix { create: 4, write: 4, delete: 5, folder: 9, attributes: 2, put: 1, undo: 2, look: 2 },
    Mix { create: 3, write: 6, delete: 3, folder: 4, attributes: 4, put: 3, undo: 9, look: 1 },
    Mix { create: 3, write: 3, delete: 3, folder: 1, attributes: 12, put: 1, undo: 4, look: 5 },
    Mix { create: 1, write: 1, delete: 1, folder: 1, attributes: 1, put: 20, undo: 3, look: 9 },
];

pub fn run(rng: &mut Rng, round: u64, t: &mut Tester) {
    let n = match rng.below(6) {
        0 => rng.between(3, 8),
        1 => rng.pick(&[127, 128, 129, 140, 260]),
        _ => rng.between(9, 60),
    };
    let image = match rng.below(6) {
        0 | 1 => build(rng, n, 1, Fill::Empty),
        2 => blank::image(rng, n),
        _ => images::of(rng, n),
    };
    let length = match rng.below(5) {
        0 => rng.between(5, 3000),
        1 => rng.between(3000, 20_000),
        _ => rng.between(40_000, 150_000),
    };
    let mix = &MIXES[round as usize % MIXES.len()];
    let calls = rng.between(40, 160);
    play(rng, t, image, length, mix, calls);
}

/// A few runs on the largest images and journals.
pub fn large(rng: &mut Rng, _: u64, t: &mut Tester) {
    let n = rng.pick(&[1024, 4095, 4096, 4097, 20_000]);
    let d = rng.pick(&[1, 8, 64]);
    let fill = rng.pick(&[Fill::Some, Fill::Slots]);
    let image = build(rng, n, d, fill);
    let length = rng.pick(&[200_000, 5_000_000]);
    play(rng, t, image, length, &MIXES[0], 40);
}

/// A few runs on the largest directories on every level.
pub fn deepest(rng: &mut Rng, _: u64, t: &mut Tester) {
    let fill = rng.pick(&[Fill::Slots, Fill::Blocks, Fill::Some]);
    let image = images::deepest(rng, fill);
    play(rng, t, image, 400_000, &MIXES[2], 30);
}

/// A few runs of many calls, with many changes that stand.
pub fn long(rng: &mut Rng, _: u64, t: &mut Tester) {
    let image = build(rng, 60, 6, Fill::Some);
    play(rng, t, image, 500_000, &MIXES[0], 600);
}

/// A call of a run, or now and then a list of writes or a piece.
fn any_step(rng: &mut Rng, replay: &Replay, mix: &Mix) -> Call {
    match rng.below(10) {
        0 => Call::Append(any_append(rng, &replay.replayed().image)),
        _ => any_scripted(rng, replay, mix),
    }
}

/// A call that a script has an op for.
pub fn any_scripted(rng: &mut Rng, replay: &Replay, mix: &Mix) -> Call {
    match rng.below(24) {
        0 | 1 => Call::WriteList(any_list(rng, &replay.replayed().image)),
        2 => Call::JournalInfo,
        3 => Call::UndoTo(any_mark(rng, replay.replayed())),
        _ => any_call(rng, replay, mix),
    }
}

fn play(rng: &mut Rng, t: &mut Tester, image: Vec<u8>, length: usize, mix: &Mix, calls: usize) {
    let about = format!("n {} journal {length}", image.len() / 512);
    let journal = reference::start(length).unwrap();
    let first = State { image, journal };
    let mut replay = Replay::new(first.clone());
    let mut pair = t.lend_pair(&first);
    let blank = blank::is_blank(&first.image);
    for step in 0..calls {
        let call = any_step(rng, &replay, mix);
        t.report.about(format!("{about} call {step}: {}", brief(&call)));
        make(t, &mut pair, &mut replay, &call);
        if blank {
            t.report.agree("blank free blocks", blank::is_blank(pair.image.content()), true);
        }
    }
    t.report.about(format!("{about} undo of all that stands"));
    // In one call on a copy, then one by one.
    let mut copy = t.lend_pair(&pair.content());
    let got = on_small_stack(|| copy.undo_to(HEAD as u32));
    let all = ffi::Listed { number: 0, done: replay.standing().len() as u32 };
    t.report.agree("all changes taken back in one call", got, all);
    let back = copy.troubles(&first).into_iter().flatten().next();
    t.report.agree("the start in one call, byte for byte", back, None);
    for _ in 0..=replay.standing().len() {
        make(t, &mut pair, &mut replay, &Call::Undo);
    }
    t.report.agree("the start again", replay.replayed() == &first, true);
    let back = pair.troubles(&first).into_iter().flatten().next();
    t.report.agree("the start again, byte for byte", back, None);
}

fn any_call(rng: &mut Rng, replay: &Replay, mix: &Mix) -> Call {
    let image = &replay.replayed().image;
    let folders = mix.create + mix.write + mix.delete;
    let attributes = folders + mix.folder;
    let puts = attributes + mix.attributes;
    let undos = puts + mix.put;
    let looks = undos + mix.undo;
    let pick = rng.below(looks + mix.look);
    if pick < mix.create {
        Call::Change(any_create(rng, image))
    } else if pick < mix.create + mix.write {
        Call::Change(match rng.below(6) {
            0 => any_shorten(rng, image),
            1 | 2 => any_replace(rng, image),
            _ => any_write(rng, image),
        })
    } else if pick < folders {
        Call::Change(if rng.once_in(3) { any_move(rng, image) } else { any_delete(rng, image) })
    } else if pick < attributes {
        let made = rng.below(5) < 3;
        Call::Change(if made {
            any_create_directory(rng, image)
        } else {
            any_delete_directory(rng, image)
        })
    } else if pick < puts {
        Call::Change(match rng.below(4) {
            0 => any_clear_attributes(rng, image),
            1 => any_clear_flags(rng, image),
            _ => any_set_attributes(rng, image),
        })
    } else if pick < undos {
        Call::Change(any_put(rng, image))
    } else if pick < looks {
        Call::Undo
    } else {
        any_look(rng, image)
    }
}

fn any_look(rng: &mut Rng, image: &[u8]) -> Call {
    let path = any_path(rng, image, Want::File);
    let size = size_of(image, &path);
    match rng.below(9) {
        0 => Call::Check,
        5 | 6 => {
            let Get { directory, serial, which, buffer } = any_get(rng, image);
            Call::Get { directory, serial, which, buffer }
        }
        1 => Call::Lookup { path },
        7 => Call::Info { buffer: any_label_buffer(rng) },
        8 => {
            let path = any_listed(rng, image);
            Call::Entry { path, slot: any_slot(rng), buffer: any_label_buffer(rng) }
        }
        3 => {
            let buffer = any_attributes_buffer(rng, attribute_blocks(image, &path));
            Call::ReadAttributes { path, buffer }
        }
        2 => {
            let buffer = any_buffer(rng, size);
            Call::Read { path, offset: any_offset(rng, size), buffer }
        }
        _ => Call::LookInPlace { path, index: any_index(rng, size) },
    }
}

/// A call in few words, for the message of a failure.
fn brief(call: &Call) -> String {
    use reference::Change::*;
    match call {
        Call::Change(Create(c)) => format!("create of a path of {} bytes", c.path.len()),
        Call::Change(Write(w)) => format!("write of {} bytes at {}", w.data.len(), w.offset),
        Call::Change(Delete(d)) => format!("delete of a path of {} bytes", d.path.len()),
        Call::Change(CreateDirectory(c)) => format!("new directory of {} blocks", c.blocks),
        Call::Change(DeleteDirectory(_)) => "delete of a directory".into(),
        Call::Change(SetAttributes(s)) => format!("set of {} bytes of attributes", s.data.len()),
        Call::Change(ClearAttributes(_)) => "clear of attributes".into(),
        Call::Change(ClearFlags(_)) => "clear of flags".into(),
        Call::Change(Shorten(s)) => format!("shorten to {}", s.size),
        Call::Change(Replace(r)) => format!("replace by {} bytes", r.data.len()),
        Call::Change(Move(m)) => format!("move to a path of {} bytes", m.to.len()),
        Call::Change(Put(p)) => {
            format!("put of {} bytes in {}", p.data.len(), p.directory().escape_ascii())
        }
        Call::WriteList(list) => format!("list of {} bytes", list.len()),
        Call::Append(a) => format!("piece of {} bytes", a.piece.len()),
        Call::Undo => "undo".into(),
        Call::UndoTo(mark) => format!("undo to {mark}"),
        Call::JournalInfo => "info of the journal".into(),
        Call::Check => "check".into(),
        Call::Lookup { .. } => "lookup".into(),
        Call::Read { offset, buffer, .. } => format!("read of {} bytes at {offset}", buffer.len()),
        Call::LookInPlace { index, .. } => format!("look in place at {index}"),
        Call::Get { directory, which, .. } => {
            let home = directory.as_deref().unwrap_or_default();
            format!("get of {which:?} in {}", home.escape_ascii())
        }
        Call::ReadAttributes { buffer, .. } => format!("read attributes into {}", buffer.len()),
        Call::Info { buffer } => format!("info into {}", buffer.len()),
        Call::Entry { slot, buffer, .. } => format!("entry from {slot} into {}", buffer.len()),
    }
}

/// Makes a call on both sides; compares the answer, and image and journal
/// with all their bytes.
fn make(t: &mut Tester, pair: &mut Pair, replay: &mut Replay, call: &Call) {
    let (entry, got, mut troubles) = on_small_stack(|| call_library(t, pair, call));
    let expected = replay.call(call);
    let mut number = number_of(&expected);
    if let Call::LookInPlace { path, .. } = call {
        number = reference::lookup(&replay.replayed().image, path).err().unwrap_or(0);
    }
    if got != expected {
        troubles.push(Some(differs(&got, &expected)));
    }
    troubles.extend(pair.troubles(replay.replayed()));
    t.report.call(entry, number, troubles);
    if let Call::Check = call {
        let image = &replay.replayed().image;
        on_small_stack(|| t.plain.check(&mut t.report, &pair.image, image, number));
    }
}

/// Makes a call on a stack of its own. One that is too small ends the program.
fn on_small_stack<T: Send>(call: impl FnOnce() -> T + Send) -> T {
    thread::scope(|scope| {
        let small = thread::Builder::new().stack_size(STACK);
        small.spawn_scoped(scope, call).expect("a thread starts").join().expect("it ends")
    })
}

fn number_of(answer: &Answer) -> u32 {
    match answer {
        Answer::Changed { number, .. }
        | Answer::Listed { number, .. }
        | Answer::Backed { number, .. }
        | Answer::Got { number, .. }
        | Answer::Read { number, .. } => *number,
        Answer::Checked(number) => *number,
        Answer::Found(result) => result.as_ref().err().copied().unwrap_or(0),
        Answer::Journal(result) => result.as_ref().err().copied().unwrap_or(0),
        Answer::Part { .. } => 0,
        Answer::Told { numbers, .. } => numbers[0] as u32,
    }
}

fn differs(got: &Answer, expected: &Answer) -> String {
    if let (
        Answer::Read { buffer: g, .. } | Answer::Got { buffer: g, .. },
        Answer::Read { buffer: e, .. } | Answer::Got { buffer: e, .. },
    ) = (got, expected)
    {
        if let Some(trouble) = difference("buffer", g, e) {
            return trouble;
        }
    }
    format!("got {got:?}, expected {expected:?}")
}

fn call_library(
    t: &mut Tester,
    pair: &mut Pair,
    call: &Call,
) -> (Entry, Answer, Vec<Option<String>>) {
    match call {
        Call::Change(change) => {
            let (entry, got, troubles) = t.make(pair, change);
            let answer = Answer::Changed { number: got.number, slot: got.slot, record: got.record };
            (entry, answer, troubles)
        }
        Call::WriteList(list) => {
            let lent = t.lend(list);
            let got = pair.write_list(&lent);
            let answer = Answer::Listed { number: got.number, done: got.done };
            (Entry::WriteList, answer, vec![lent.trouble("list", list)])
        }
        Call::Append(a) => {
            let (got, troubles) = t.make_append(pair, a);
            let answer = Answer::Changed { number: got.number, slot: 0, record: got.record };
            (Entry::Append, answer, troubles)
        }
        Call::Undo => {
            let got = pair.undo();
            let answer = Answer::Changed { number: got.number, slot: 0, record: got.record };
            (Entry::Undo, answer, vec![])
        }
        Call::UndoTo(mark) => {
            let got = pair.undo_to(*mark);
            let answer = Answer::Backed { number: got.number, done: got.done };
            (Entry::UndoTo, answer, vec![])
        }
        Call::JournalInfo => {
            let (answer, zeros) = journal_answer(pair.journal_info());
            (Entry::JournalInfo, answer, vec![zeros])
        }
        look => look_with_library(&pair.image, look),
    }
}

fn look_with_library(image: &Lent, call: &Call) -> (Entry, Answer, Vec<Option<String>>) {
    match call {
        Call::Check => (Entry::Check, Answer::Checked(library::check(image)), vec![]),
        Call::Lookup { path } => {
            let lent = Lent::new(path, 3);
            let (answer, zeros) = found_answer(library::lookup(image, &lent));
            (Entry::Lookup, answer, vec![lent.trouble("path", path), zeros])
        }
        Call::Read { path, offset, buffer } => {
            let fill = |path: &Lent, into: &mut Lent| library::read(image, path, *offset, into);
            let (answer, troubles) = fill_with_library(path, buffer, fill);
            (Entry::Read, answer, troubles)
        }
        Call::ReadAttributes { path, buffer } => {
            let fill = |path: &Lent, into: &mut Lent| library::read_attributes(image, path, into);
            let (answer, troubles) = fill_with_library(path, buffer, fill);
            (Entry::ReadAttributes, answer, troubles)
        }
        Call::Get { directory, serial, which, buffer } => {
            let (lent, mut lent_buffer) = (Lent::new(serial, 5), Lent::new(buffer, 7));
            let home = directory.clone().unwrap_or_default();
            let lent_home = Lent::new(&home, 3);
            let got = match directory {
                None => library::get(image, &lent, *which, &mut lent_buffer),
                Some(_) => library::get_in(image, &lent_home, &lent, *which, &mut lent_buffer),
            };
            let after = lent_buffer.content().to_vec();
            let troubles = vec![
                lent_home.trouble("directory", &home),
                lent.trouble("serial", serial),
                lent_buffer.trouble("buffer", &after),
            ];
            let (number, revision, length) = (got.number, got.revision, got.length);
            let answer = Answer::Got { number, revision, length, buffer: after };
            (get_entry(directory.is_some(), *which), answer, troubles)
        }
        Call::LookInPlace { path, index } => {
            let lent = Lent::new(path, 8);
            let got = library::look_in_place(image, &lent, *index);
            let range = got.start as usize..got.start as usize + got.length as usize;
            let bytes = image.content().get(range.clone()).map_or(vec![], |part| part.to_vec());
            (Entry::LookInPlace, Answer::Part { range, bytes }, vec![lent.trouble("path", path)])
        }
        Call::Info { buffer } => {
            let mut lent = Lent::new(buffer, 4);
            let numbers = library::info(image, &mut lent);
            let after = lent.content().to_vec();
            let troubles = vec![lent.trouble("labels", &after)];
            (Entry::Info, Answer::Told { numbers, buffer: after }, troubles)
        }
        Call::Entry { path, slot, buffer } => {
            let (lent, mut name) = (Lent::new(path, 5), Lent::new(buffer, 2));
            let numbers = library::entry(image, &lent, *slot, &mut name);
            let after = name.content().to_vec();
            let troubles = vec![lent.trouble("path", path), name.trouble("name", &after)];
            (Entry::Entry, Answer::Told { numbers, buffer: after }, troubles)
        }
        Call::Change(_)
        | Call::WriteList(_)
        | Call::Append(_)
        | Call::Undo
        | Call::UndoTo(_)
        | Call::JournalInfo => unreachable!("no look at an image alone"),
    }
}

/// The answer of a call that fills a buffer.
fn fill_with_library(
    path: &[u8],
    buffer: &[u8],
    fill: impl FnOnce(&Lent, &mut Lent) -> ffi::Filled,
) -> (Answer, Vec<Option<String>>) {
    let (lent, mut lent_buffer) = (Lent::new(path, 5), Lent::new(buffer, 6));
    let got = fill(&lent, &mut lent_buffer);
    let after = lent_buffer.content().to_vec();
    let troubles = vec![lent.trouble("path", path), lent_buffer.trouble("buffer", &after)];
    (Answer::Read { number: got.number, count: got.count, buffer: after }, troubles)
}

/// The answer of lookup, and whether a refusal comes without zeros.
fn found_answer(got: ffi::Found) -> (Answer, Option<String>) {
    let result = if got.number == 0 {
        Ok(reference::Found { slot: got.slot, size: got.size, blocks: got.blocks })
    } else {
        Err(got.number)
    };
    let zeros = (found(&result) != got).then(|| format!("not zeros: {got:?}"));
    (Answer::Found(result), zeros)
}

/// The answer of an info of a journal, and whether a refusal comes without zeros.
fn journal_answer(got: ffi::Journal) -> (Answer, Option<String>) {
    let result = if got.number == 0 {
        Ok(reference::JournalInfo { used: got.used, records: got.records, last: got.last })
    } else {
        Err(got.number)
    };
    let zeros = (journal(&result) != got).then(|| format!("not zeros: {got:?}"));
    (Answer::Journal(result), zeros)
}
