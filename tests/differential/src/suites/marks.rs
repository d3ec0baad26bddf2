//! Infos of journals and undos to marks: against the reference, against the
//! library's own single undos, and against the moments of a run.

use crate::arguments::*;
use crate::rng::Rng;
use crate::tester::Tester;
use crate::{damage, images, journals};
use reference::journal::{used, HEAD};
use reference::{Change, State};

pub fn run(rng: &mut Rng, _: u64, t: &mut Tester) {
    let n = images::small_n(rng);
    let image = images::of(rng, n);
    t.report.about(format!("n {n}, the journal of a run"));
    own(rng, t, &image);
    t.report.about(format!("n {n}, a journal just started"));
    let length = rng.between(HEAD, 3000);
    let empty = State { image: image.clone(), journal: reference::start(length).unwrap() };
    t.marks(&empty, &numbers_around(&empty));
    t.report.about(format!("n {n}, a journal of any records"));
    foreign(rng, t, &image);
    t.report.about(format!("n {n}, a damaged image"));
    damaged(rng, t, &image);
    t.report.about(format!("n {n}, a journal that is not well formed"));
    unready(rng, t, &image);
}

/// The marks, each one below and above, the numbers below 5, within each
/// record and above the used length.
fn numbers_around(state: &State) -> Vec<u32> {
    let marks = marks_of(state);
    let end = marks[marks.len() - 1];
    let length = state.journal.len() as u32;
    let mut all = vec![0, 1, 2, 3, 4, length, length + 1, end + 520, 0x8000_0005, u32::MAX];
    for mark in marks {
        all.extend([mark - 1, mark, mark + 1, mark + 4, mark + 8]);
    }
    all
}

/// A run of changes, with image and journal of each moment.
fn moments(rng: &mut Rng, image: &[u8]) -> Vec<State> {
    let length = rng.pick(&[2000, 12_000, 60_000]);
    let mut all = vec![State { image: image.to_vec(), journal: reference::start(length).unwrap() }];
    for _ in 0..rng.between(1, 12) {
        let last = &all[all.len() - 1];
        let made: Vec<Change> = changes(rng, &last.image).into();
        if let Ok(applied) = reference::apply(last, &rng.pick(&made)) {
            all.push(applied.state);
        }
    }
    all
}

/// A journal of the image's own, as it is, and cut at its used length: every
/// mark gives its moment, and what single undos leave.
fn own(rng: &mut Rng, t: &mut Tester, image: &[u8]) {
    let all = moments(rng, image);
    let now = &all[all.len() - 1];
    t.marks(now, &numbers_around(now));
    let mut singly = t.lend_pair(now);
    for (to, moment) in all.iter().enumerate().rev() {
        let mark = used(&moment.journal) as u32;
        let mut pair = t.lend_pair(now);
        let number = t.undo_to_in(&mut pair, now, mark);
        t.report.agree("plan", number, 0);
        let done = pair.troubles(moment).into_iter().flatten().next();
        t.report.agree("the moment, byte for byte", done, None);
        t.report.agree("single undos", pair.content() == singly.content(), true);
        if to > 0 {
            t.report.agree("a single undo", singly.undo().number, 0);
        }
    }
    let mut full = now.clone();
    full.journal.truncate(used(&now.journal));
    t.marks(&full, &numbers_around(&full));
    above(t, &all);
}

/// The marks of later moments are none.
fn above(t: &mut Tester, all: &[State]) {
    let (first, last) = (&all[0], &all[all.len() - 1]);
    let later = used(&last.journal) as u32;
    let number = t.undo_to(first, later);
    t.report.agree("plan", number, if all.len() == 1 { 0 } else { 27 });
}

/// Records of any blocks and bytes: what is left need not be sound on the way,
/// nor at the end. There is one check, before the first.
fn foreign(rng: &mut Rng, t: &mut Tester, image: &[u8]) {
    for spare in [0, 1, 700] {
        let count = rng.below(7);
        let journal = journals::with_records(rng, image, count, spare);
        let state = State { image: image.to_vec(), journal };
        t.marks(&state, &numbers_around(&state));
    }
    let another = images::any(rng);
    let state = State { image: image.to_vec(), journal: journals::any(rng, &another) };
    t.marks(&state, &numbers_around(&state));
}

fn damaged(rng: &mut Rng, t: &mut Tester, image: &[u8]) {
    let count = rng.below(3);
    let journal = journals::with_records(rng, image, count, 100);
    let mut state = State { image: image.to_vec(), journal };
    let marks = [HEAD as u32, any_mark(rng, &state), no_mark(rng, &marks_of(&state))];
    let stage = damage::any(rng, &mut state.image).stage;
    t.marks(&state, &marks);
    let number = t.undo_to(&state, HEAD as u32);
    t.report.agree("plan", number, stage);
}

/// The marks are those of the records that are well formed, or would be.
fn unready(rng: &mut Rng, t: &mut Tester, image: &[u8]) {
    for fault in journals::FAULTS {
        let journal = (fault.make)(rng, image);
        let length = journal.len() as u32;
        let state = State { image: image.to_vec(), journal };
        t.report.about(format!("journal: {}", fault.what));
        t.marks(&state, &[HEAD as u32, HEAD as u32 + 520, length, u32::MAX]);
        let number = t.undo_to(&state, HEAD as u32);
        t.report.agree("plan", number, 8);
    }
}

/// Journals of more records than the library notes at a time.
pub fn long(rng: &mut Rng, round: u64, t: &mut Tester) {
    let image = images::of(rng, 12);
    let count = [1023, 1024, 1025, 2048, 2049][round as usize % 5];
    let records: Vec<Vec<u8>> = (0..count).map(|_| journals::record(rng, &image, 1)).collect();
    let spare = rng.below(2000);
    let journal = journals::of_records(rng, &records, spare);
    let state = State { image, journal };
    let marks = marks_of(&state);
    t.report.about(format!("{count} records"));
    t.report.agree("plan", marks.len(), count + 1);
    for mark in [marks[0], marks[1], rng.pick(&marks), no_mark(rng, &marks)] {
        t.undo_to(&state, mark);
    }
    t.journal_info(&state);
}
