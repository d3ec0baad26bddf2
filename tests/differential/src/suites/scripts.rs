//! Scripts: runs of calls through the program that runs a script on a fresh
//! volume, held against the reference's replay. docs/SCRIPT.md has the form.

use super::runs::{any_scripted, Mix, MIXES};
use crate::arguments::any_path;
use crate::lent::difference;
use crate::rng::Rng;
use crate::suites::lister::output_of;
use crate::tester::Tester;
use reference::layout::put_number;
use reference::overview::VOLUME_NUMBERS;
use reference::path::Want;
use reference::{Answer, Call, Change, Create, Replay, State, Which};

const IMAGE: usize = 8192;
const JOURNAL: usize = 16_384;
const ANSWERS: usize = 16_384;
const SCRIPT: usize = 65_536;

/// What the program writes first: all calls were made, the script is not of
/// the form, or its answers have no room. No rule has the last two numbers.
const DONE: u8 = 0;
const MALFORMED: u8 = b'M';
const NO_ROOM: u8 = b'R';

/// The header of an item, and the offsets of two of its fields.
const HEADER: usize = 33;
const PATH_LENGTH: usize = 25;
const DATA_LENGTH: usize = 29;

/// A script, and what the replay has answered to it.
struct Script {
    bytes: Vec<u8>,
    /// Where its items begin.
    items: Vec<usize>,
    answers: Vec<u8>,
    replay: Replay,
}

pub fn run(rng: &mut Rng, round: u64, t: &mut Tester) {
    if round == 0 {
        example(t);
    }
    let mut script = any_script(rng, &MIXES[round as usize % MIXES.len()]);
    let status = match round % 8 {
        0 => {
            spoil(rng, &mut script);
            MALFORMED
        }
        1 => fill(rng, &mut script, 0),
        2 => fill(rng, &mut script, 1),
        3 => {
            fill(rng, &mut script, 300);
            spoil(rng, &mut script);
            MALFORMED
        }
        _ => DONE,
    };
    t.report.about(format!("script of {} bytes, status {status}", script.bytes.len()));
    let expected = match status {
        DONE => outcome(DONE, script.replay.replayed(), &script.answers),
        refused => outcome(refused, &fresh(), &[]),
    };
    compare(t, &script.bytes, &expected);
}

fn compare(t: &mut Tester, script: &[u8], expected: &[u8]) {
    let program = t.scripts.clone().expect("a program was given");
    let got = output_of(&program, script).unwrap_or_default();
    t.report.agree("length of the outcome", got.len(), expected.len());
    if got.len() == expected.len() {
        t.report.agree("script", difference("outcome", &got, expected), None);
    }
}

/// The example of docs/SCRIPT.md. All that it changes, it takes back but the create.
fn example(t: &mut Tester) {
    let script = bytes_of(&[
        "05 60010207 00000000 0000000000000000 0000000000000064 00000002 00000000 2F41",
        "06 00000000 00000000 0000000000000000 0000000000000065 00000002 00000003 2F41 616263",
        "03 00000000 00000000 0000000000000001 0000000000000000 00000002 00000004 2F41 FFFFFFFF",
        "08 00000000 00000000 0000000000000000 0000000000000000 00000000 00000000",
    ]);
    let answers = bytes_of(&[
        "00000000 00000001 00000208 00000000",
        "00000000 00000000 00000814 00000000",
        "00000000 00000002 00000000 00000000 6263FFFF",
        "00000000 00000000 00000814 00000000",
    ]);
    let (path, kind, time) = (b"/A".to_vec(), 0x60, 100);
    let create = Create { path, kind, user: 1, group: 2, permissions: 7, flags: 0, time };
    let after = reference::apply(&fresh(), &Change::Create(create)).unwrap().state;
    t.report.about("the example of docs/SCRIPT.md");
    compare(t, &script, &outcome(DONE, &after, &answers));
}

/// The bytes that lines of hexadecimal digits stand for.
fn bytes_of(lines: &[&str]) -> Vec<u8> {
    let digits: String = lines.concat().split_whitespace().collect();
    let byte = |i: usize| u8::from_str_radix(&digits[i..i + 2], 16).unwrap();
    (0..digits.len()).step_by(2).map(byte).collect()
}

/// The volume and the journal that a script begins with.
fn fresh() -> State {
    let image = reference::format(IMAGE, 2, 0, [0; 16], &[0; 128]).unwrap();
    State { image, journal: reference::start(JOURNAL).unwrap() }
}

impl Script {
    fn new() -> Script {
        let replay = Replay::new(fresh());
        Script { bytes: vec![], items: vec![], answers: vec![], replay }
    }

    fn push(&mut self, rng: &mut Rng, call: &Call) {
        self.items.push(self.bytes.len());
        self.bytes.extend(item_of(rng, call));
        self.answers.extend(encoded(&self.replay.call(call)));
    }
}

/// A script with room for one long item and its answer.
fn any_script(rng: &mut Rng, mix: &Mix) -> Script {
    let mut script = Script::new();
    for _ in 0..rng.between(0, 60) {
        let call = any_scripted(rng, &script.replay, mix);
        let item = item_of(rng, &call).len();
        if script.bytes.len() + item > SCRIPT - 2 * ANSWERS
            || script.answers.len() + answer_size(&call) > ANSWERS - 16
        {
            break;
        }
        script.push(rng, &call);
    }
    script
}

/// Adds a read whose answer leaves no room, or is so many bytes too long: gives
/// the status.
fn fill(rng: &mut Rng, script: &mut Script, more: usize) -> u8 {
    let buffer = rng.bytes(ANSWERS - 16 - script.answers.len() + more);
    let path = any_path(rng, &script.replay.replayed().image, Want::File);
    script.push(rng, &Call::Read { path, offset: 0, buffer });
    if more > 0 {
        NO_ROOM
    } else {
        DONE
    }
}

/// Makes a script that is not of the form.
fn spoil(rng: &mut Rng, script: &mut Script) {
    if script.items.is_empty() {
        script.push(rng, &Call::Lookup { path: b"/A".to_vec() });
    }
    let (any, last) = (rng.pick(&script.items), script.items[script.items.len() - 1]);
    let end = script.bytes.len();
    match rng.below(5) {
        0 => script.bytes[any] = rng.pick(&[0, 29, 255]),
        1 => script.bytes.truncate(rng.between(last + 1, end - 1)),
        2 => script.bytes.extend(vec![8; rng.between(1, HEADER - 1)]),
        3 => put_number(&mut script.bytes, last + PATH_LENGTH, (end - last) as u32),
        _ => {
            // The two lengths have the right sum in 32 bits.
            put_number(&mut script.bytes, last + PATH_LENGTH, u32::MAX);
            let rest = (end - last - HEADER) as u32;
            put_number(&mut script.bytes, last + DATA_LENGTH, rest + 1);
        }
    }
}

/// What the program writes: the status, then image, journal and answers.
fn outcome(status: u8, state: &State, answers: &[u8]) -> Vec<u8> {
    let mut bytes = vec![status];
    bytes.extend(&state.image);
    bytes.extend(&state.journal);
    bytes.extend(answers);
    bytes.resize(1 + IMAGE + JOURNAL + ANSWERS, 0);
    bytes
}

fn item_of(rng: &mut Rng, call: &Call) -> Vec<u8> {
    // What an op does not use may be anything, but the lengths count.
    let mut header = rng.bytes(HEADER);
    // Directory and serial number are one name; the flags have the directory's length.
    let placed = placed_name(call);
    if let (Some(directory), Some(name)) = (directory_of(call), &placed) {
        let told = rng.pick(&[0, 0, 1, u32::MAX / 2]);
        let whole = directory.len() == name.len();
        put_number(&mut header, 5, directory.len() as u32 + if whole { told } else { 0 });
    }
    let (op, path, data): (u8, &[u8], &[u8]) = match call {
        Call::Check => (1, &[], &[]),
        Call::Lookup { path } => (2, path, &[]),
        Call::Read { path, offset, buffer } => {
            header[9..17].copy_from_slice(&offset.to_be_bytes());
            (3, path, buffer)
        }
        Call::LookInPlace { path, index } => {
            header[9..17].copy_from_slice(&index.to_be_bytes());
            (4, path, &[])
        }
        Call::Change(Change::Create(c)) => {
            put_given(&mut header, c);
            (5, &c.path, &[])
        }
        Call::Change(Change::Write(w)) => {
            header[9..17].copy_from_slice(&w.offset.to_be_bytes());
            header[17..25].copy_from_slice(&w.time.to_be_bytes());
            (6, &w.path, &w.data)
        }
        Call::Change(Change::Delete(d)) => (7, &d.path, &[]),
        Call::Undo => (8, &[], &[]),
        Call::Change(Change::CreateDirectory(c)) => {
            put_given(&mut header, &c.entry);
            put_number(&mut header, 13, c.blocks);
            (9, &c.entry.path, &[])
        }
        Call::Change(Change::DeleteDirectory(d)) => (10, &d.path, &[]),
        Call::Change(Change::SetAttributes(s)) => (11, &s.path, &s.data),
        Call::Change(Change::ClearAttributes(c)) => (12, &c.path, &[]),
        Call::ReadAttributes { path, buffer } => (13, path, buffer),
        Call::Change(Change::ClearFlags(c)) => (14, &c.path, &[]),
        Call::WriteList(list) => (15, &[], list),
        Call::Info { buffer } => (16, &[], buffer),
        Call::Entry { path, slot, buffer } => {
            header[9..17].copy_from_slice(&u64::from(*slot).to_be_bytes());
            (17, path, buffer)
        }
        Call::Change(Change::Shorten(s)) => {
            header[9..17].copy_from_slice(&s.size.to_be_bytes());
            header[17..25].copy_from_slice(&s.time.to_be_bytes());
            (24, &s.path, &[])
        }
        Call::Change(Change::Replace(r)) => {
            header[17..25].copy_from_slice(&r.time.to_be_bytes());
            (25, &r.path, &r.data)
        }
        Call::Change(Change::Move(m)) => (26, &m.path, &m.to),
        Call::Change(Change::Put(p)) => {
            header[17..25].copy_from_slice(&p.time.to_be_bytes());
            let op = if p.directory.is_some() { 21 } else { 18 };
            (op, placed.as_deref().unwrap_or(&p.serial), &p.data)
        }
        Call::Get { directory, serial, which, buffer } => {
            let op = match which {
                Which::Number(revision) => {
                    put_number(&mut header, 13, *revision);
                    19
                }
                Which::Latest => 20,
            };
            let op = if directory.is_some() { op + 3 } else { op };
            (op, placed.as_deref().unwrap_or(serial), buffer)
        }
        Call::JournalInfo => (27, &[], &[]),
        Call::UndoTo(mark) => {
            put_number(&mut header, 13, *mark);
            (28, &[], &[])
        }
        Call::Append(_) => unreachable!("a script has no op for a piece"),
    };
    header[0] = op;
    put_number(&mut header, PATH_LENGTH, path.len() as u32);
    put_number(&mut header, DATA_LENGTH, data.len() as u32);
    [&header[..], path, data].concat()
}

/// The directory that a put or a get brings.
fn directory_of(call: &Call) -> Option<&[u8]> {
    match call {
        Call::Change(Change::Put(p)) => p.directory.as_deref(),
        Call::Get { directory, .. } => directory.as_deref(),
        _ => None,
    }
}

/// The directory, and behind it the serial number.
fn placed_name(call: &Call) -> Option<Vec<u8>> {
    match call {
        Call::Change(Change::Put(p)) => Some([directory_of(call)?, &p.serial].concat()),
        Call::Get { serial, .. } => Some([directory_of(call)?, serial].concat()),
        _ => None,
    }
}

/// The fields that both creates bring.
fn put_given(header: &mut [u8], c: &Create) {
    header[1..5].copy_from_slice(&[c.kind, c.user, c.group, c.permissions]);
    header[5..9].copy_from_slice(&c.flags.to_be_bytes());
    header[17..25].copy_from_slice(&c.time.to_be_bytes());
}

fn answer_size(call: &Call) -> usize {
    match call {
        Call::Read { buffer, .. }
        | Call::ReadAttributes { buffer, .. }
        | Call::Get { buffer, .. } => 16 + buffer.len(),
        Call::LookInPlace { .. } => 528,
        Call::Info { buffer } => 32 + buffer.len(),
        Call::Entry { buffer, .. } => 64 + buffer.len(),
        _ => 16,
    }
}

fn encoded(answer: &Answer) -> Vec<u8> {
    let (numbers, payload) = match answer {
        Answer::Changed { number, slot, record } => ([*number, *slot, *record, 0], vec![]),
        Answer::Listed { number, done } | Answer::Backed { number, done } => {
            ([*number, *done, 0, 0], vec![])
        }
        Answer::Journal(Ok(j)) => ([0, j.used, j.records, j.last], vec![]),
        Answer::Journal(Err(number)) => ([*number, 0, 0, 0], vec![]),
        Answer::Checked(number) => ([*number, 0, 0, 0], vec![]),
        Answer::Found(Ok(f)) => ([0, f.slot, f.size, f.blocks], vec![]),
        Answer::Found(Err(number)) => ([*number, 0, 0, 0], vec![]),
        Answer::Read { number, count, buffer } => ([*number, *count, 0, 0], buffer.clone()),
        Answer::Got { number, revision, length, buffer } => {
            ([*number, *revision, *length, 0], buffer.clone())
        }
        Answer::Part { range, bytes } => {
            let mut part = bytes.clone();
            part.resize(512, 0);
            ([range.start as u32, range.len() as u32, 0, 0], part)
        }
        Answer::Told { numbers, buffer } => {
            let words = if numbers.len() == VOLUME_NUMBERS { volume } else { entry };
            return [words(numbers), buffer.clone()].concat();
        }
    };
    let mut all: Vec<u8> = numbers.iter().flat_map(|n| n.to_be_bytes()).collect();
    all.extend(payload);
    all
}

fn words(numbers: &[u64]) -> Vec<u8> {
    numbers.iter().flat_map(|&n| (n as u32).to_be_bytes()).collect()
}

/// The volume's numbers: eight words.
fn volume(v: &[u64]) -> Vec<u8> {
    words(&[v, &[0; 3]].concat())
}

/// An entry's numbers: sixteen words, its times as two each.
fn entry(e: &[u64]) -> Vec<u8> {
    let halves = |time: u64| [time >> 32, time & 0xFFFF_FFFF];
    let (created, modified) = (halves(e[7]), halves(e[8]));
    let places = [e[0], e[1], e[10], e[11], e[9], e[12], e[13], e[6]];
    words(&[&places[..], &created, &modified, &e[2..6]].concat())
}
