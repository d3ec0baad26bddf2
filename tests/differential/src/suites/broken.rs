//! Damaged images and journals that are not well formed.

use crate::arguments::*;
use crate::damage::Clause;
use crate::rng::Rng;
use crate::tester::Tester;
use crate::tree::slots;
use crate::{damage, images, journals};
use reference::layout::{block_count, root_block, MAX_BLOCKS};
use reference::path::Want;
use reference::State;

/// Every call on an image, sound or not, with arguments that were made for
/// the sound image.
fn every_call(rng: &mut Rng, t: &mut Tester, sound: &[u8], image: &[u8]) {
    let path = any_path(rng, sound, Want::File);
    let size = size_of(sound, &path);
    let buffer = any_buffer(rng, size.min(2000));
    let offset = any_offset(rng, size);
    t.look(image, &path, offset, &buffer, any_index(rng, size));
    let journal = journals::any(rng, sound);
    let state = State { image: image.to_vec(), journal };
    for change in changes(rng, sound) {
        t.change(&state, &change);
    }
    t.write_list(&state, &any_list(rng, sound));
    t.append(&state, &any_append(rng, sound));
    t.undo(&state);
    t.marks(&state, &[any_mark(rng, &state)]);
    // Its own suites make most salvages.
    if rng.once_in(4) {
        t.salvage(image, &buffer);
    }
}

/// Every clause of every stage three times, one at a time.
pub fn clauses(rng: &mut Rng, _: u64, t: &mut Tester) {
    for clause in damage::clauses() {
        let mut made = 0;
        while made < 3 {
            let n = images::small_n(rng);
            made += u32::from(damaged(rng, t, clause, n));
        }
    }
}

/// The same on images of the greatest lengths, and of those where the library
/// changes from small volumes to large ones. A clause has three tries.
pub fn largest(rng: &mut Rng, round: u64, t: &mut Tester) {
    for (i, clause) in damage::clauses().enumerate() {
        let n = match (i as u64 + round) % 16 {
            0 => MAX_BLOCKS - round as usize % 2,
            _ => rng.pick(&[4095, 4096, 4097, 4225]),
        };
        let _ = (0..3).any(|_| damaged(rng, t, clause, n));
    }
}

/// Makes every call on an image damaged so; false if a random image does not
/// have what it takes.
fn damaged(rng: &mut Rng, t: &mut Tester, clause: &Clause, n: usize) -> bool {
    let sound = images::of(rng, n);
    let mut image = sound.clone();
    if (clause.make)(rng, &mut image).is_none() {
        return false;
    }
    t.report.about(format!("n {n}, stage {}: {}", clause.stage, clause.what));
    t.report.agree("plan", reference::check(&image), clause.stage);
    every_call(rng, t, &sound, &image);
    true
}

/// Two clauses at once: the lower stage must win. It is broken last, since the
/// damage of a stage needs what the stages before it say.
pub fn two_clauses(rng: &mut Rng, _: u64, t: &mut Tester) {
    let n = images::small_n(rng);
    let sound = images::of(rng, n);
    let mut image = sound.clone();
    let high = damage::any(rng, &mut image);
    for low in damage::ALL {
        let clause = &low[rng.below(low.len())];
        let mut both = image.clone();
        // Two of one stage could mend each other.
        if !damage::comes_first(clause, high) || (clause.make)(rng, &mut both).is_none() {
            continue;
        }
        t.report.about(format!("{} and {}", clause.what, high.what));
        t.report.agree("plan", reference::check(&both), clause.stage);
        every_call(rng, t, &sound, &both);
    }
}

/// Random bits and bytes, mostly where the check looks.
pub fn noise(rng: &mut Rng, _: u64, t: &mut Tester) {
    let n = if rng.once_in(30) { images::any_n(rng) } else { images::small_n(rng) };
    let sound = images::of(rng, n);
    let mut image = sound.clone();
    for _ in 0..rng.pick(&[1, 1, 1, 2, 3, 10]) {
        let at = watched_byte(rng, &sound);
        image[at] = match rng.below(3) {
            0 => image[at] ^ (1 << rng.below(8)),
            1 => rng.byte(),
            _ => rng.pick(&[0, 1, 2, 0x20, 0x2F, 0x60, 0x9F, 0xFF]),
        };
    }
    if rng.once_in(20) {
        image.truncate(rng.below(image.len()));
    }
    if rng.once_in(50) {
        let len = rng.below(6000);
        image = rng.bytes(len);
    }
    t.report.about(format!("n {n}, length {}", image.len()));
    every_call(rng, t, &sound, &image);
}

/// The offset of a byte in the header's start, the table or a directory.
fn watched_byte(rng: &mut Rng, image: &[u8]) -> usize {
    let n = block_count(image);
    match rng.below(10) {
        0 => rng.below(32),
        1..=3 => 512 + rng.below(4 * n),
        4 => 512 + rng.below(512 * (root_block(n) - 1)),
        5 => rng.below(image.len()),
        _ => rng.pick(&slots(image).concat()) + rng.below(128),
    }
}

/// Every fault of a journal, beside sound images.
pub fn journals(rng: &mut Rng, _: u64, t: &mut Tester) {
    for fault in journals::FAULTS {
        let n = images::small_n(rng);
        let image = images::of(rng, n);
        let journal = (fault.make)(rng, &image);
        let is_good = reference::journal::records(&journal, n).is_ok();
        t.report.about(format!("journal: {}", fault.what));
        t.report.agree("plan", is_good, false);
        let state = State { image, journal };
        for change in changes(rng, &state.image) {
            t.change(&state, &change);
        }
        t.write_list(&state, &any_list(rng, &state.image));
        t.append(&state, &any_append(rng, &state.image));
        t.undo(&state);
        t.marks(&state, &[any_mark(rng, &state)]);
    }
    other_image(rng, t);
    noisy_journal(rng, t);
    for _ in 0..6 {
        let len = if rng.once_in(2) { rng.below(12) } else { rng.below(5000) };
        t.report.about(format!("start of {len} bytes"));
        t.start(&rng.bytes(len));
    }
}

/// A good journal of a larger or smaller image.
fn other_image(rng: &mut Rng, t: &mut Tester) {
    for _ in 0..4 {
        let (n, other) = (images::small_n(rng), images::small_n(rng));
        let image = images::of(rng, n);
        let another = images::of(rng, other);
        let journal = journals::any(rng, &another);
        t.report.about(format!("journal of an image of {other} blocks beside {n}"));
        let state = State { image, journal };
        for change in changes(rng, &state.image) {
            t.change(&state, &change);
        }
        t.write_list(&state, &any_list(rng, &state.image));
        t.append(&state, &any_append(rng, &state.image));
        t.undo(&state);
        t.marks(&state, &[any_mark(rng, &state)]);
    }
}

/// Random bytes in the numbers of a journal.
fn noisy_journal(rng: &mut Rng, t: &mut Tester) {
    for _ in 0..8 {
        let n = images::small_n(rng);
        let image = images::of(rng, n);
        let mut journal = journals::any(rng, &image);
        let used = reference::journal::used(&journal);
        for _ in 0..rng.between(1, 2) {
            let near = [rng.below(5), 5 + rng.below(8), used - rng.between(1, 5), rng.below(used)];
            let at = rng.pick(&near);
            if at < journal.len() {
                journal[at] = rng.byte() >> rng.below(8);
            }
        }
        t.report.about("random bytes in a journal");
        let state = State { image, journal };
        for change in changes(rng, &state.image) {
            t.change(&state, &change);
        }
        t.write_list(&state, &any_list(rng, &state.image));
        t.append(&state, &any_append(rng, &state.image));
        t.undo(&state);
        t.marks(&state, &[any_mark(rng, &state)]);
    }
}
