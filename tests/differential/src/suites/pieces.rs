//! Files that arrive and leave a bit at a time: appends against the reference,
//! against writes at the file's end and against one append of all bytes; reads
//! on from a place.

use crate::arguments::*;
use crate::images::{build, Fill};
use crate::lent::Lent;
use crate::library::{self, Pair};
use crate::rng::Rng;
use crate::tester::Tester;
use crate::{damage, images, journals};
use reference::layout::{free_blocks, BLOCK, MAX_DATA};
use reference::path::Want;
use reference::{Append, Change, Create, State};

pub fn run(rng: &mut Rng, _: u64, t: &mut Tester) {
    let n = images::small_n(rng);
    let image = images::of(rng, n);
    for _ in 0..4 {
        let journal = journals::any(rng, &image);
        let state = State { image: image.clone(), journal };
        let a = any_append(rng, &image);
        t.report.about(format!("n {n}, piece of {} bytes", a.piece.len()));
        as_write(t, &state, &a);
    }
    every_length(rng, t);
    one_after_the_other(rng, t, &image);
    cut_anywhere(rng, t, &image);
    full_journal(rng, t, &image);
    unready(rng, t, &image);
    read_to_the_end(rng, t, &image);
    refused_reads(rng, t, &image);
}

/// An append against the reference, and against the library's own write at the
/// file's size. Gives the number.
fn as_write(t: &mut Tester, state: &State, a: &Append) -> u32 {
    let mut pair = t.lend_pair(state);
    let number = t.append_in(&mut pair, state, a);
    let mut other = t.lend_pair(state);
    let path = t.lend(&a.path);
    let size = library::lookup(&other.image, &path).size;
    let data = t.lend(&a.piece);
    let written = other.write(&path, u64::from(size), &data, a.time);
    if a.piece.is_empty() {
        // The write of no bytes has a record, so it alone may be refused with 15.
        let as_written = if written.number == 15 { 0 } else { written.number };
        t.report.agree("number of an empty piece", number, as_written);
        t.report.agree("an empty piece does nothing", pair.content() == *state, true);
    } else {
        t.report.agree("number of the write", number, written.number);
        t.report.agree("image and journal of the write", pair.content() == other.content(), true);
    }
    number
}

/// Pieces of the lengths around each edge, where there is room for all of them.
fn every_length(rng: &mut Rng, t: &mut Tester) {
    let (image, file) = loop {
        let (n, d) = (rng.between(40, 140), rng.between(2, 6));
        let image = build(rng, n, d, Fill::Some);
        match any_file(rng, &image) {
            Some(file) if free_blocks(&image).len() >= 8 => break (image, file),
            _ => {}
        }
    };
    let to_block = BLOCK - file.size as usize % BLOCK;
    let edges = [0, 1, to_block - 1, to_block, to_block + 1, BLOCK, MAX_DATA - 1, MAX_DATA];
    for length in edges.into_iter().chain([MAX_DATA + 1, MAX_DATA + 2]) {
        t.report.about(format!("piece of {length} bytes at {}", file.size));
        let journal = journals::with_records(rng, &image, 1, 20_000);
        let a = Append { path: file.path.clone(), piece: rng.bytes(length), time: any_time(rng) };
        let number = as_write(t, &State { image: image.clone(), journal }, &a);
        t.report.agree("plan", number, if length <= MAX_DATA { 0 } else { 9 });
    }
    t.report.about("a piece after one that fills the last block");
    let state = State { image, journal: reference::start(30_000).unwrap() };
    let first = Append { path: file.path, piece: rng.bytes(to_block), time: any_time(rng) };
    let full = reference::append(&state, &first).expect("there is room").state;
    let length = rng.between(1, MAX_DATA - BLOCK);
    let number = as_write(t, &full, &Append { piece: rng.bytes(length), ..first });
    t.report.agree("plan", number, 0);
}

/// Pieces for a few files by turns, and writes and undos between: each stands
/// at the end of its file as that is then.
fn one_after_the_other(rng: &mut Rng, t: &mut Tester, image: &[u8]) {
    let spare = rng.pick(&[6000, 30_000, 100_000]);
    let mut state =
        State { image: image.to_vec(), journal: journals::with_records(rng, image, 1, spare) };
    for step in 0..8 {
        t.report.about(format!("step {step} of pieces and other calls"));
        let mut pair = t.lend_pair(&state);
        match rng.below(5) {
            0 => t.change_in(&mut pair, &state, &any_write(rng, &state.image)),
            // The record of before the first step need not be the image's own.
            1 if step > 0 && own_records(&state) > 1 => t.undo_in(&mut pair, &state),
            _ => t.append_in(&mut pair, &state, &any_append(rng, &state.image)),
        };
        state = pair.content();
    }
}

fn own_records(state: &State) -> usize {
    let n = state.image.len() / BLOCK;
    reference::journal::records(&state.journal, n).map_or(0, |records| records.len())
}

/// Bytes cut into pieces of 0 to 4,096 anywhere, some of them empty.
fn cut(rng: &mut Rng, bytes: &[u8], most: usize) -> Vec<Vec<u8>> {
    let mut pieces = Vec::new();
    let mut rest = bytes;
    while !rest.is_empty() {
        let length = match rng.below(8) {
            0 => 0,
            1 => rng.pick(&[1, BLOCK - 1, BLOCK, BLOCK + 1, MAX_DATA]),
            _ => rng.between(1, most),
        };
        let (piece, others) = rest.split_at(length.min(most).min(rest.len()));
        pieces.push(piece.to_vec());
        rest = others;
    }
    if rng.once_in(3) {
        pieces.push(vec![]);
    }
    pieces
}

/// Pieces cut anywhere leave the image of one append of all of them, and a
/// record for each that is not empty. Where there are too few blocks for all,
/// there are too few for one of them.
fn cut_anywhere(rng: &mut Rng, t: &mut Tester, image: &[u8]) {
    let file = match any_file(rng, image) {
        Some(file) => file,
        None => return,
    };
    let room = BLOCK * (free_blocks(image).len() + file.blocks as usize) - file.size as usize;
    let length = match rng.below(6) {
        0 => 0,
        1 => room,
        2 => room + rng.between(1, 600),
        _ => rng.below(room + 1),
    };
    let bytes = rng.bytes(length.min(24_000));
    let most = rng.pick(&[200, 900, MAX_DATA, MAX_DATA]).max(bytes.len() / 60);
    let pieces = cut(rng, &bytes, most);
    let time = any_time(rng);
    let records = pieces.iter().filter(|piece| !piece.is_empty()).count();
    t.report.about(format!("{} bytes in {records} pieces and empty ones", bytes.len()));

    let journal = reference::start(5 + records * (4 + 516 * 20)).unwrap();
    let mut state = State { image: image.to_vec(), journal };
    let mut pair = t.lend_pair(&state);
    for piece in pieces {
        let a = Append { path: file.path.clone(), piece, time };
        let number = t.append_in(&mut pair, &state, &a);
        if number != 0 {
            let whole = Append { path: file.path.clone(), piece: bytes, time };
            let refused = reference::append_whole(image, &whole).err();
            t.report.agree("a refusal of the whole", (number, refused), (14, Some(14)));
            return;
        }
        state = pair.content();
    }
    let whole = Append { path: file.path, piece: bytes, time };
    let expected = match whole.piece.is_empty() {
        true => image.to_vec(),
        false => reference::append_whole(image, &whole).expect("the pieces were accepted"),
    };
    t.report.agree("the image of one append", pair.image.trouble("image", &expected), None);
    t.report.agree("records of the pieces", own_records(&state), records);
}

/// A journal with just the room for a piece's record, and with less.
fn full_journal(rng: &mut Rng, t: &mut Tester, image: &[u8]) {
    let a = any_append(rng, image);
    let roomy = reference::start(journals::room_for_all(image)).unwrap();
    let record = match reference::append(&State { image: image.to_vec(), journal: roomy }, &a) {
        Ok(appended) => appended.record as usize,
        Err(_) => return,
    };
    for less in [0, 1, 4, 519].into_iter().filter(|&less| less <= record) {
        t.report.about(format!("piece of {} bytes, journal {less} short", a.piece.len()));
        let records = rng.below(3);
        let journal = journals::with_records(rng, image, records, record - less);
        let state = State { image: image.to_vec(), journal };
        let expected = if less == 0 { 0 } else { 15 };
        let number = as_write(t, &state, &a);
        t.report.agree("plan", number, expected);
        let empty = Append { piece: vec![], ..a.clone() };
        let number = as_write(t, &state, &empty);
        t.report.agree("plan for an empty piece", number, 0);
    }
}

/// Journals that are not well formed and damaged images, for pieces and for
/// empty ones.
fn unready(rng: &mut Rng, t: &mut Tester, sound: &[u8]) {
    let fault = &journals::FAULTS[rng.below(journals::FAULTS.len())];
    let journal = (fault.make)(rng, sound);
    let mut image = sound.to_vec();
    let stage = damage::any(rng, &mut image).stage;
    let good = any_append(rng, sound);
    let empty = Append { piece: vec![], ..good.clone() };
    for a in [good, empty] {
        t.report.about(format!("piece of {} bytes, journal: {}", a.piece.len(), fault.what));
        let state = State { image: sound.to_vec(), journal: journal.clone() };
        let number = as_write(t, &state, &a);
        t.report.agree("plan", number, 8);
        t.report.about(format!("piece of {} bytes, stage {stage}", a.piece.len()));
        let number = as_write(t, &State { image: image.clone(), journal: journal.clone() }, &a);
        t.report.agree("plan", number, stage);
    }
}

/// A file read from its start into buffers of one byte or more until there are
/// no more bytes.
fn read_to_the_end(rng: &mut Rng, t: &mut Tester, image: &[u8]) {
    let file = match any_file(rng, image) {
        Some(file) => file,
        None => return,
    };
    let most = (file.size as usize / 12).max(1);
    t.report.about(format!("file of {} bytes read on", file.size));
    let bytes = reference::read(image, &file.path, 0, file.size as usize).unwrap();
    let (lent, path) = (t.lend(image), t.lend(&file.path));
    let read = read_all(rng, &lent, &path, most);
    t.report.agree("the file's bytes", read == Some(bytes), true);
    // The same by single calls, each against the reference.
    let mut place = 0;
    for _ in 0..6 {
        let length = rng.between(1, 2 * most);
        place = t.read_next(image, &file.path, place, &rng.bytes(length)).1;
    }
}

/// What the library's reader gives, joined, until a count of 0. None if a call
/// is refused or the place is not where the bytes so far end.
fn read_all(rng: &mut Rng, image: &Lent, path: &Lent, most: usize) -> Option<Vec<u8>> {
    let (mut place, mut all) = (0, Vec::new());
    loop {
        let length = rng.between(1, most);
        let mut buffer = Lent::new(&vec![0xA5; length], all.len());
        let got = library::read_next(image, path, &mut place, &mut buffer);
        let count = got.count as usize;
        let stays = buffer.content().get(count..)?.iter().all(|&byte| byte == 0xA5);
        all.extend(&buffer.content()[..count]);
        if got.number != 0 || place != all.len() as u64 || !stays {
            return None;
        }
        if count == 0 {
            return Some(all);
        }
    }
}

/// A reader goes on where it was after refused reads: of a damaged image, of
/// another path, at a place past the end. What is written between, it sees.
fn refused_reads(rng: &mut Rng, t: &mut Tester, image: &[u8]) {
    let file = match any_file(rng, image) {
        Some(file) => file,
        None => return,
    };
    let size = u64::from(file.size);
    let start = rng.below(file.size as usize + 1) as u64;
    let buffer = rng.bytes(40);
    let mut damaged = image.to_vec();
    let stage = damage::any(rng, &mut damaged).stage;
    t.report.about(format!("file of {size} bytes, refused reads at {start}"));
    let after = t.read_next(&damaged, &file.path, start, &buffer);
    t.report.agree("plan", after, (stage, start));
    let after = t.read_next(image, &lost_path(rng, image, Want::File), start, &buffer);
    t.report.agree("plan", after, (10, start));
    let after = t.read_next(image, &bad_path(rng), start, &buffer);
    t.report.agree("plan", after, (9, start));
    for far in [size + 1, u64::from(u32::MAX) + 1, u64::MAX - 1, u64::MAX, far_offset(rng, size)] {
        let after = t.read_next(image, &file.path, far, &buffer);
        t.report.agree("plan", after, (12, far));
        let after = t.read_next(image, &file.path, far, &[]);
        t.report.agree("plan", after, (12, far));
    }
    let after = t.read_next(image, &file.path, size, &buffer);
    t.report.agree("plan", after, (0, size));
    let after = t.read_next(image, &file.path, start, &buffer);
    t.report.agree("plan", after, (0, start + (size - start).min(40)));

    let a = Append { path: file.path.clone(), piece: rng.bytes(30), time: 0 };
    if let Ok(longer) = reference::append_whole(image, &a) {
        let after = t.read_next(&longer, &file.path, size, &buffer);
        t.report.agree("plan", after, (0, size + 30));
        let after = t.read_next(&longer, &file.path, size + 1, &buffer);
        t.report.agree("plan", after, (0, size + 30));
    }
}

/// The bytes of the long file.
const LONG: usize = 2 * 1024 * 1024;

/// A file of 2 MB, appended in pieces and read back; then undo takes it back.
pub fn long(rng: &mut Rng, _: u64, t: &mut Tester) {
    let image = build(rng, 4400, 2, Fill::Empty);
    let (path, kind) = (b"/firmware".to_vec(), 0x60);
    let create = Create { path, kind, user: 0, group: 0, permissions: 0, flags: 0, time: 1 };
    let journal = reference::start(12_000_000).unwrap();
    let start = State { image, journal };
    let start = reference::apply(&start, &Change::Create(create.clone())).unwrap().state;
    let whole = Append { path: create.path, piece: rng.bytes(LONG), time: any_time(rng) };
    let pieces = cut(rng, &whole.piece, MAX_DATA);
    t.report.about(format!("{LONG} bytes in {} pieces", pieces.len()));
    let mut pair = t.lend_pair(&start);
    let path = t.lend(&whole.path);
    let mut accepted = 0;
    for piece in &pieces {
        let piece = t.lend(piece);
        accepted += usize::from(pair.append(&path, &piece, whole.time).number == 0);
    }
    t.report.agree("accepted", accepted, pieces.len());
    let expected = reference::append_whole(&start.image, &whole).expect("there is room");
    t.report.agree("the image of one append", pair.image.trouble("image", &expected), None);
    let read = read_all(rng, &pair.image, &path, 9000);
    t.report.agree("the file's bytes", read == Some(whole.piece), true);
    undo_all(t, &mut pair, &start, pieces.iter().filter(|piece| !piece.is_empty()).count());
}

fn undo_all(t: &mut Tester, pair: &mut Pair, start: &State, records: usize) {
    let undone = (0..records).filter(|_| pair.undo().number == 0).count();
    t.report.agree("pieces taken back", undone, records);
    let back = pair.troubles(start).into_iter().flatten().next();
    t.report.agree("image and journal before the pieces", back, None);
}
