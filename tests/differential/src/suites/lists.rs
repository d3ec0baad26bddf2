//! Lists of writes: against the reference, and against the same writes made
//! one by one by the library.

use crate::arguments::*;
use crate::images::{build, Fill};
use crate::library::Pair;
use crate::rng::Rng;
use crate::tester::Tester;
use crate::{damage, images, journals};
use reference::journal::HEAD as JOURNAL_HEAD;
use reference::layout::*;
use reference::path::Want;
use reference::worked::{item_of, list_of, with_length};
use reference::write_list::{item, writes, BAD_LIST, HEAD, MAX_LIST};
use reference::{Change, Create, State, Write};

/// Random lists on random images, with journals of any kind.
pub fn run(rng: &mut Rng, _: u64, t: &mut Tester) {
    let n = images::small_n(rng);
    let image = images::of(rng, n);
    for _ in 0..4 {
        let spare = match rng.below(4) {
            0 => rng.below(9000),
            _ => 60_000,
        };
        let count = rng.below(4);
        let journal = journals::with_records(rng, &image, count, spare);
        let state = State { image: image.clone(), journal };
        let most = rng.pick(&[1, 4, 12, 30]);
        let list = list_of(&likely_writes(rng, &image, most));
        t.report.about(format!("n {n}, list of {} bytes", list.len()));
        one_by_one(t, &state, &list);
    }
    stops(rng, t);
    unready(rng, t);
}

/// What does not depend on the round.
pub fn forms(rng: &mut Rng, _: u64, t: &mut Tester) {
    let state = three_files();
    let good = three_writes();
    every_field(t, &state, &good);
    every_length(rng, t, &state, &good);
    item_lengths(t, &state, &good);
    longest(rng, t);
    most_items(t);
}

/// Writes made for an image as each of them leaves it, so that most lists go on
/// for a while. The list of them has the form.
fn likely_writes(rng: &mut Rng, image: &[u8], most: usize) -> Vec<Write> {
    let mut image = image.to_vec();
    let mut found: Vec<Write> = Vec::new();
    let mut length = HEAD;
    for _ in 0..rng.between(0, most) {
        let tries = if rng.once_in(12) { 1 } else { 8 };
        let mut write = any_item(rng, &image);
        for _ in 1..tries {
            if reference::volume::change(&image, &Change::Write(write.clone())).is_ok() {
                break;
            }
            write = any_item(rng, &image);
        }
        length += item_of(&write).len();
        if length > MAX_LIST {
            break;
        }
        if let Ok(changed) = reference::volume::change(&image, &Change::Write(write.clone())) {
            image = changed.image;
        }
        found.push(write);
    }
    found
}

/// A list by the library, against the reference and against as many writes by
/// the library; then undo takes it back item by item. Gives number and count.
fn one_by_one(t: &mut Tester, state: &State, list: &[u8]) -> (u32, u32) {
    let mut pair = t.lend_pair(state);
    let listed = t.write_list_in(&mut pair, state, list);
    let (number, done) = (listed.number, listed.done);
    let after = pair.content();
    if let Ok(writes) = writes(list) {
        if ![1, 2, 3, 4, 5, 6, 7, 8].contains(&number) {
            let (stopped, count, made) = calls(t, state, &writes);
            t.report.agree("number and count of the writes", (stopped, count), (number, done));
            t.report.agree("image of the writes", made.image == after.image, true);
            t.report.agree("journal of the writes", made.journal == after.journal, true);
        }
    }
    undo_items(t, &mut pair, state, done);
    (number, done)
}

/// The writes by the library until the first refusal.
fn calls(t: &mut Tester, state: &State, writes: &[Write]) -> (u32, u32, State) {
    let mut pair = t.lend_pair(state);
    let mut done = 0;
    for write in writes {
        let (_, got, _) = t.make(&mut pair, &Change::Write(write.clone()));
        if got.number != 0 {
            return (got.number, done, pair.content());
        }
        done += 1;
    }
    (0, done, pair.content())
}

fn undo_items(t: &mut Tester, pair: &mut Pair, start: &State, done: u32) {
    for _ in 0..done {
        let state = pair.content();
        t.undo_in(pair, &state);
    }
    let back = pair.content();
    t.report.agree("the image before the list", back.image == start.image, true);
    if done > 0 {
        let used = reference::journal::used(&start.journal);
        let same = back.journal[..used] == start.journal[..used];
        t.report.agree("the journal before the list", same, true);
    }
}

/// A list that must be refused with 19, and leave all as it is.
fn bad_form(t: &mut Tester, state: &State, list: &[u8]) {
    let number = t.write_list(state, list);
    t.report.agree("plan", number, BAD_LIST);
}

/// A list of the form that must be answered so.
fn good_form(t: &mut Tester, state: &State, list: &[u8], expected: (u32, u32)) {
    let answer = one_by_one(t, state, list);
    t.report.agree("plan", answer, expected);
}

fn new_file(state: &State, path: &[u8]) -> State {
    let (path, kind) = (path.to_vec(), 0x60);
    let create = Create { path, kind, user: 0, group: 0, permissions: 0, flags: 0, time: 1 };
    reference::apply(state, &Change::Create(create)).expect("there is room").state
}

/// A volume of 32 blocks with "/A", "/B" and "/C", and bytes other than zero
/// past the used part of its journal.
fn three_files() -> State {
    let image = reference::worked::formatted(32, 2).unwrap();
    let journal = reference::start(40_000).unwrap();
    let start = State { image, journal };
    let mut state = [b"/A", b"/B", b"/C"].iter().fold(start, |state, path| new_file(&state, *path));
    let used = reference::journal::used(&state.journal);
    state.journal[used..].fill(0xA7);
    state
}

fn write(path: &[u8], offset: u64, data: &[u8]) -> Write {
    Write { path: path.to_vec(), offset, data: data.to_vec(), time: 0x0102_0304_0506_0708 }
}

fn three_writes() -> Vec<Write> {
    vec![write(b"/A", 0, &[b'a'; 40]), write(b"/B", 0, &[b'b'; 600]), write(b"/A", 40, b"more")]
}

/// Where the items of a list begin.
fn starts(writes: &[Write]) -> Vec<usize> {
    let mut at = HEAD;
    let next = |w: &Write| {
        let here = at;
        at += item_of(w).len();
        here
    };
    writes.iter().map(next).collect()
}

/// Every byte of the head and of the items' heads and paths, one more and one
/// less, and each of its bits.
fn every_field(t: &mut Tester, state: &State, good: &[Write]) {
    let list = list_of(good);
    let mut bytes: Vec<usize> = (0..HEAD).collect();
    for at in starts(good) {
        bytes.extend(at..at + item::PATH + 2);
    }
    for at in bytes {
        let bits = (0..8).map(|bit| list[at] ^ 1 << bit);
        for value in bits.chain([list[at].wrapping_add(1), list[at].wrapping_sub(1)]) {
            let mut spoilt = list.clone();
            spoilt[at] = value;
            t.report.about(format!("byte {at} is {value:#04x}"));
            if at < HEAD {
                bad_form(t, state, &spoilt);
            } else {
                one_by_one(t, state, &spoilt);
            }
        }
    }
    for version in (0..=255).filter(|&v| v != 1) {
        t.report.about(format!("version {version}"));
        bad_form(t, state, &[&[version], &list[1..]].concat());
    }
    for length in [0, 1, 4, 5, list.len() - 1, list.len() + 1, MAX_LIST, MAX_LIST + 1] {
        let mut spoilt = list.clone();
        put_number(&mut spoilt, 1, length as u32);
        t.report.about(format!("length of all {length} instead of {}", list.len()));
        bad_form(t, state, &spoilt);
    }
}

/// A list cut at every length, and one with a few bytes more: with the length
/// of all as it was, and as it is.
fn every_length(rng: &mut Rng, t: &mut Tester, state: &State, good: &[Write]) {
    let list = list_of(good);
    let ends = starts(good);
    for length in 0..list.len() {
        t.report.about(format!("cut at {length}"));
        bad_form(t, state, &list[..length]);
        if length < HEAD {
            continue;
        }
        let cut = with_length(list[HEAD..length].to_vec());
        match ends.iter().position(|&end| end == length) {
            Some(items) => good_form(t, state, &cut, (0, items as u32)),
            None => bad_form(t, state, &cut),
        }
    }
    for more in 1..18 {
        for bytes in [vec![0; more], vec![0xFF; more], rng.bytes(more)] {
            t.report.about(format!("{more} bytes more"));
            bad_form(t, state, &[&list[..], &bytes].concat());
            bad_form(t, state, &with_length([&list[HEAD..], &bytes].concat()));
        }
    }
    t.report.about("the list as it is");
    good_form(t, state, &list, (0, 3));
}

/// The lengths of each item and of its path.
fn item_lengths(t: &mut Tester, state: &State, good: &[Write]) {
    let list = list_of(good);
    for (i, at) in starts(good).into_iter().enumerate() {
        let (size, path) = (item_of(&good[i]).len(), good[i].path.len());
        let to_end = list.len() - at;
        let far = [size - 1, size + 1, to_end - 1, to_end + 1, 1 << 16, 1 << 31, u32::MAX as usize];
        for length in (0..18).chain(18..18 + path).chain(far).filter(|&l| l != size && l != to_end)
        {
            let mut spoilt = list.clone();
            put_number(&mut spoilt, at, length as u32);
            t.report.about(format!("item {i} of length {length} instead of {size}"));
            bad_form(t, state, &spoilt);
        }
        let room = size - item::PATH;
        for length in [room + 1, room + 2, list.len(), 0xFF00, 0xFFFF] {
            let mut spoilt = list.clone();
            let two = (length as u16).to_be_bytes();
            spoilt[at + item::PATH_LENGTH..at + item::PATH].copy_from_slice(&two);
            t.report.about(format!("item {i}: path of {length} instead of {path}"));
            bad_form(t, state, &spoilt);
        }
        // The path takes all of the item, and leaves no data.
        let mut whole = list.clone();
        let two = (room as u16).to_be_bytes();
        whole[at + item::PATH_LENGTH..at + item::PATH].copy_from_slice(&two);
        t.report.about(format!("item {i} is all path"));
        let number = if room <= 81 { 10 } else { 9 };
        good_form(t, state, &whole, (number, i as u32));
    }
    // An item that reaches to the end swallows those that follow.
    let mut one = list.clone();
    put_number(&mut one, HEAD, (list.len() - HEAD) as u32);
    t.report.about("one item instead of three");
    good_form(t, state, &one, (0, 1));
    t.report.about("no item");
    good_form(t, state, &[1, 0, 0, 0, 5], (0, 0));
    t.report.about("an item of no path and no data");
    good_form(t, state, &with_length(item_of(&write(b"", 0, b""))), (9, 0));
}

/// Lists of 65,535 and 65,536 bytes, and one byte more, with good items and with
/// a last item of too much data.
fn longest(rng: &mut Rng, t: &mut Tester) {
    let mut state = three_files();
    state.journal = journals::with_records(rng, &state.image, 2, 200_000);
    let each = item_of(&write(b"/A", 0, &[0; 4096])).len();
    let whole: Vec<Write> = (0..15).map(|_| write(b"/A", 0, &rng.bytes(4096))).collect();
    for length in [MAX_LIST - 1, MAX_LIST, MAX_LIST + 1] {
        let rest = length - HEAD - 15 * each - item::PATH - 2;
        let mut all = whole.clone();
        all.push(write(b"/A", 0, &rng.bytes(rest)));
        let list = list_of(&all);
        t.report.about(format!("list of {} bytes", list.len()));
        t.report.agree("length", list.len(), length);
        match length > MAX_LIST {
            true => bad_form(t, &state, &list),
            false => good_form(t, &state, &list, (0, 16)),
        }
        let one = list_of(&[write(b"/A", 0, &rng.bytes(length - HEAD - item::PATH - 2))]);
        match length > MAX_LIST {
            true => bad_form(t, &state, &one),
            false => good_form(t, &state, &one, (9, 0)),
        }
        let mut path = write(b"/A", 0, b"");
        path.path = [b"/", &vec![b'p'; length - HEAD - item::PATH - 1][..]].concat();
        // A path of more than 65,535 bytes has no room for its length.
        if path.path.len() <= 0xFFFF {
            let number = if length > MAX_LIST { BAD_LIST } else { 9 };
            let answer = one_by_one(t, &state, &list_of(&[path]));
            t.report.agree("plan", answer, (number, 0));
        }
    }
    for length in [2 * MAX_LIST, 1 << 20] {
        t.report.about(format!("{length} bytes"));
        bad_form(t, &state, &with_length(vec![0; length - HEAD]));
        let mut wrapped = with_length(item_of(&write(b"/A", 0, b"x")));
        wrapped.resize(length, 0);
        bad_form(t, &state, &wrapped);
    }
}

/// As many items as a list can have, each a write of no bytes.
fn most_items(t: &mut Tester) {
    let mut state = three_files();
    let each = item_of(&write(b"/A", 0, b"")).len();
    let count = (MAX_LIST - HEAD) / each;
    state.journal = reference::start(JOURNAL_HEAD + 520 * 400).unwrap();
    let list = list_of(&vec![write(b"/A", 0, b""); count]);
    t.report.about(format!("{count} items, and a journal for 400"));
    let mut pair = t.lend_pair(&state);
    let listed = t.write_list_in(&mut pair, &state, &list);
    t.report.agree("plan", (listed.number, listed.done), (15, 400));
}

/// Lists of five items that are stopped by each refusal at each place.
fn stops(rng: &mut Rng, t: &mut Tester) {
    let image = loop {
        let (n, d) = (rng.between(60, 200), rng.between(2, 5));
        let image = build(rng, n, d, Fill::Some);
        if free_blocks(&image).len() >= 30 && any_file(rng, &image).is_some() {
            break image;
        }
    };
    let path = any_file(rng, &image).expect("the image has a file").path;
    let size = size_of(&image, &path);
    let good: Vec<Write> = (0..4)
        .map(|_| {
            let length = rng.below(1200);
            Write { path: path.clone(), offset: size, data: rng.bytes(length), time: any_time(rng) }
        })
        .collect();
    for at in [0, 2, 4] {
        for number in [9, 17, 10, 12] {
            let mut all = good.clone();
            all.insert(at, stopping(rng, &image, &path, number));
            let journal = journals::with_records(rng, &image, 2, 60_000);
            let state = State { image: image.clone(), journal };
            t.report.about(format!("refusal {number} at item {at}"));
            good_form(t, &state, &list_of(&all), (number, at as u32));
        }
        full_volume(rng, t, at);
        full_journal(rng, t, &image, &good, at);
    }
}

/// A write that is refused with this number, whatever went before.
fn stopping(rng: &mut Rng, image: &[u8], path: &[u8], number: u32) -> Write {
    let mut write = Write { path: path.to_vec(), offset: 0, data: vec![1], time: 3 };
    match number {
        9 if rng.once_in(2) => {
            let length = rng.between(4097, 6000);
            write.data = rng.bytes(length);
        }
        9 => write.path = bad_path(rng),
        17 => write.path = deep_path(rng, image, Want::File),
        10 => write.path = lost_path(rng, image, Want::File),
        _ => write.offset = rng.pick(&[20_000_000, 1 << 31, u32::MAX.into()]),
    }
    write
}

/// Items that take all free blocks but some, then one that needs one more, or
/// the first does.
fn full_volume(rng: &mut Rng, t: &mut Tester, at: usize) {
    let (n, d) = (rng.between(16, 40), 2);
    let mut small = build(rng, n, d, Fill::Some);
    while any_file(rng, &small).is_none() || !(4..8).contains(&free_blocks(&small).len()) {
        small = build(rng, n, d, Fill::Some);
    }
    let file = any_file(rng, &small).expect("the image has a file");
    let end = u64::from(file.blocks) * 512;
    let free = free_blocks(&small).len();
    let whole = |offset: u64, blocks: usize| Write {
        path: file.path.clone(),
        offset,
        data: vec![7; 512 * blocks],
        time: 5,
    };
    // The file is filled to its block's end first, so that each block is a new one.
    let fill = (end - u64::from(file.size)) as usize;
    let first = Write { offset: file.size.into(), data: vec![6; fill], ..whole(0, 0) };
    let (mut all, mut offset, mut left) = (Vec::new(), end, free);
    if at > 0 {
        all.push(first);
        for _ in 1..at {
            all.push(whole(offset, 1));
            (offset, left) = (offset + 512, left - 1);
        }
        all.push(whole(offset, left + 1));
    } else {
        let data = vec![7; fill + 512 * free + 1];
        all.push(Write { offset: file.size.into(), data, ..whole(0, 0) });
    }
    while all.len() < 5 {
        all.push(whole(0, 0));
    }
    let journal = journals::with_records(rng, &small, 1, 60_000);
    t.report.about(format!("full volume at item {at}"));
    good_form(t, &State { image: small, journal }, &list_of(&all), (14, at as u32));
}

/// A journal that has room for so many records and one byte less than one more.
fn full_journal(rng: &mut Rng, t: &mut Tester, image: &[u8], good: &[Write], at: usize) {
    let mut all = good.to_vec();
    all.push(good[0].clone());
    let journal = reference::start(100_000).unwrap();
    let mut state = State { image: image.to_vec(), journal };
    let mut room = 0;
    for write in &all[..=at] {
        let applied = reference::apply(&state, &Change::Write(write.clone())).expect("accepted");
        room += applied.record as usize;
        state = applied.state;
    }
    let records = rng.below(3);
    let less = rng.pick(&[1, 1, 2, 500]);
    let journal = journals::with_records(rng, image, records, room - less);
    t.report.about(format!("full journal at item {at}"));
    let state = State { image: image.to_vec(), journal };
    good_form(t, &state, &list_of(&all), (15, at as u32));
}

/// Damaged images, journals that are not well formed and lists not of the form,
/// in every combination: the first must be given, and nothing done.
fn unready(rng: &mut Rng, t: &mut Tester) {
    let n = images::small_n(rng);
    let sound = images::of(rng, n);
    for reasons in 0..8 {
        let mut image = sound.clone();
        let mut expected = 0;
        let mut list = list_of(&likely_writes(rng, &sound, 6));
        if reasons & 4 != 0 {
            spoil(rng, &mut list);
            expected = BAD_LIST;
        }
        let mut journal = journals::with_records(rng, &sound, 2, 20_000);
        if reasons & 2 != 0 {
            let fault = &journals::FAULTS[rng.below(journals::FAULTS.len())];
            journal = (fault.make)(rng, &sound);
            expected = 8;
        }
        if reasons & 1 != 0 {
            expected = damage::any(rng, &mut image).stage;
        }
        t.report.about(format!("n {n}, not ready: {reasons:03b}"));
        let state = State { image, journal };
        let (number, done) = one_by_one(t, &state, &list);
        if reasons != 0 {
            t.report.agree("plan", (number, done), (expected, 0));
        }
    }
}

/// Makes a list that is not of the form.
fn spoil(rng: &mut Rng, list: &mut Vec<u8>) {
    match rng.below(5) {
        0 => list[0] = rng.pick(&[0, 2, 255]),
        1 => list.truncate(rng.below(list.len())),
        2 => list.push(rng.byte()),
        3 => *list = with_length([&list[HEAD..], &[0]].concat()),
        _ => {
            let bytes = rng.between(1, 17);
            *list = with_length(rng.bytes(bytes));
        }
    }
}
