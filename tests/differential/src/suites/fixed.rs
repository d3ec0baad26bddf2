//! Fixed cases: the worked numbers, and the edges of lengths.

use crate::damage::join;
use crate::images::{build, put_file, put_header, Fill};
use crate::journals;
use crate::rng::Rng;
use crate::tester::Tester;
use crate::tree::{files, in_root, root, root_chain};
use reference::journal::MAX_LENGTH;
use reference::layout::*;
use reference::worked::*;
use reference::State;

/// The worked numbers of the rules. The reference's own tests tie the
/// reference to them; here the library follows the same steps.
pub fn numbers(_: &mut Rng, _: u64, t: &mut Tester) {
    let name = [b'v'; 128];
    for (n, d) in [
        (3, 1),
        (3, 2),
        (2, 1),
        (128, 1),
        (129, 1),
        (4096, 64),
        (16, 2),
        (65_535, 64),
        (65_536, 64),
        (65_537, 64),
    ] {
        t.report.about(format!("format n {n} d {d}"));
        t.format(&vec![0xEE; 512 * n], d, 7, [3; 16], &name);
    }
    let mut state = fresh(16, 2);
    t.report.about("worked run");
    for (change, number) in [
        (create(b"/A"), 0),
        (write(b"/A", 0, &[b'x'; 513]), 0),
        (write(b"/A", 513, b"y"), 0),
        (write(b"/A", 515, b"y"), 12),
        (create(b"/A"), 11),
        (create(&in_root(&[b'n'; MAX_NAME - 1])), 0),
        (create(&in_root(&[b'n'; MAX_NAME])), 0),
        (create(&in_root(&[b'n'; MAX_NAME + 1])), 9),
        (create(b"/SN1"), 0),
        (write(b"/SN10", 0, b"z"), 10),
        (write(b"/SN1", 0, &[1; 4096]), 0),
        (write(b"/SN1", 0, &[1; 4097]), 9),
        (set_attributes(b"/A", &[b'p'; 512]), 0),
        (set_attributes(b"/A", &[b'q'; 1024]), 0),
        (set_attributes(b"/A", &[b'q'; 1025]), 9),
        (set_attributes(b"/A", &[]), 9),
        (set_attributes(b"/A", &[b'q'; 4096]), 14),
        (set_attributes(b"/A", &[b'q'; 4608]), 20),
        (clear_attributes(b"/A"), 0),
        (clear_attributes(b"/A"), 0),
        (clear_flags(b"/A"), 0),
        (clear_flags(b"/B"), 10),
        (replace(b"/SN1", b"300"), 0),
        (replace(b"/SN1", &[2; 4096]), 0),
        (replace(b"/SN1", &[2; 4097]), 9),
        (replace(b"/SN10", b""), 10),
        (replace(b"/A", &[2; 4096]), 14),
        (shorten(b"/SN1", 4097), 12),
        (shorten(b"/SN1", 513), 0),
        (shorten(b"/SN1", 512), 0),
        (shorten(b"/SN1", 1), 0),
        (shorten(b"/SN1", 1), 0),
        (shorten(b"/SN10", 0), 10),
        (move_file(b"/SN1", b"/SN1"), 11),
        (move_file(b"/SN1", b"/A"), 11),
        (move_file(b"/SN1", b"/A/B"), 10),
        (move_file(b"/SN10", b"/SN1"), 10),
        (move_file(b"/SN1", b"/SN10"), 0),
        (move_file(b"/SN10", b"/SN1"), 0),
        (replace(b"/SN1", &[]), 0),
        (replace(b"/SN1", &[]), 0),
        (set_attributes(b"/A", &[b'p'; 512]), 0),
        (delete(b"/A"), 0),
    ] {
        let got = t.change(&state, &change);
        t.report.agree("plan", got, number);
        if let Ok(applied) = reference::apply(&state, &change) {
            state = applied.state;
        }
    }
    while t.undo(&state) == 0 {
        state = reference::undo(&state).unwrap().state;
    }
}

/// Lengths at their edges.
pub fn edges(rng: &mut Rng, _: u64, t: &mut Tester) {
    for len in [0, 1, 4, 5, 6, 4095, 4_194_305, MAX_LENGTH - 1, MAX_LENGTH, MAX_LENGTH + 1] {
        t.report.about(format!("journal of {len} bytes"));
        let journal = rng.bytes(len);
        t.start(&journal);
        let image = build(rng, 20, 2, Fill::Some);
        let journal = reference::start(len).unwrap_or(journal);
        every_journaled_call(t, &State { image, journal });
    }
    longest_journals(rng, t);
    most_records(rng, t);
    largest_record(rng, t);
    widest_writes(rng, t);
    widest_set(rng, t);
    widest_delete(rng, t);
    largest_file(rng, t);
    let most = 512 * MAX_BLOCKS;
    for len in [0, 1, 511, 512, 1024, 1535, 1536, 1537, 2_097_152, most, most + 1, most + 512] {
        t.report.about(format!("image of {len} bytes"));
        let image = rng.bytes(len);
        t.format(&image, 1, 1, [9; 16], &[0; 128]);
        t.look(&image, b"/A", 0, &[7; 9], 0);
        let journal = reference::start(3000).unwrap();
        every_journaled_call(t, &State { image, journal });
    }
}

fn every_journaled_call(t: &mut Tester, state: &State) {
    let path = match reference::check(&state.image) {
        0 => files(&state.image)[0].path.clone(),
        _ => b"/A".to_vec(),
    };
    t.change(state, &create(b"/\x01new\x02"));
    t.change(state, &write(&path, 0, b"bytes"));
    t.change(state, &delete(&path));
    t.change(state, &create_directory(b"/\x01new\x02", 2));
    t.change(state, &delete_directory(b"/\x01new\x02"));
    t.change(state, &set_attributes(&path, &[9; 1024]));
    t.change(state, &clear_attributes(&path));
    t.change(state, &clear_flags(&path));
    t.change(state, &shorten(&path, 0));
    t.change(state, &replace(&path, b"bytes"));
    t.change(state, &move_file(&path, b"/moved"));
    t.undo(state);
}

/// Journals of the greatest length, filled up to some bytes before the end.
fn longest_journals(rng: &mut Rng, t: &mut Tester) {
    let image = build(rng, 40, 2, Fill::Some);
    let record = journals::record(rng, &image, 20);
    for room in [0, 519, 520, 521, 1036] {
        t.report.about(format!("longest journal, room {room}"));
        let count = (MAX_LENGTH - 5 - room) / record.len() - 1;
        let mut records = vec![record.clone(); count];
        let mut left = MAX_LENGTH - 5 - room - count * record.len();
        // Records of 520 and 1,036 bytes take up what is left, but for a few bytes.
        while left >= 520 {
            let blocks = if left >= 1036 { 2 } else { 1 };
            let last = journals::record(rng, &image[..512 * blocks], blocks);
            left -= last.len();
            records.push(last);
        }
        let journal = journals::of_records(rng, &records, left + room);
        t.report.agree("length", journal.len(), MAX_LENGTH);
        let state = State { image: image.clone(), journal };
        every_journaled_call(t, &state);
        let mut bad = state.clone();
        let end = reference::journal::used(&bad.journal);
        bad.journal[end - 516] = 1;
        every_journaled_call(t, &bad);
    }
}

/// The longest journal with as many records as it can have: all good, and one
/// of them bad.
fn most_records(rng: &mut Rng, t: &mut Tester) {
    let image = build(rng, 20, 2, Fill::Some);
    let count = (MAX_LENGTH - 5) / 520;
    let records: Vec<_> = (0..count).map(|i| journals::record_of(rng, &[i as u32 % 20])).collect();
    for bad in [None, Some(0), Some(count / 2), Some(count - 1)] {
        t.report.about(format!("{count} records, bad {bad:?}"));
        let mut records = records.clone();
        if let Some(i) = bad {
            put_number(&mut records[i], 4, 20);
        }
        let journal = journals::of_records(rng, &records, MAX_LENGTH - 5 - 520 * count);
        every_journaled_call(t, &State { image: image.clone(), journal });
    }
}

/// One record of every block of the largest image.
fn largest_record(rng: &mut Rng, t: &mut Tester) {
    let image = build(rng, MAX_BLOCKS, MAX_DIRECTORY_BLOCKS, Fill::Slots);
    let numbers: Vec<u32> = (0..MAX_BLOCKS as u32).collect();
    let record = journals::record_of(rng, &numbers);
    for wrong in [None, Some(1), Some(30_000), Some(MAX_BLOCKS - 1)] {
        t.report.about(format!("a record of all blocks, wrong {wrong:?}"));
        let mut record = record.clone();
        if let Some(i) = wrong {
            put_number(&mut record, 4 + 516 * i, i as u32 - 1);
        }
        let journal = journals::of_records(rng, &[record], 20_000);
        every_journaled_call(t, &State { image: image.clone(), journal });
    }
}

/// The largest image with a file of one byte and one that takes all blocks but
/// eight. The small file's block and the eight free ones have their entries in
/// nine table blocks.
fn nearly_full(rng: &mut Rng) -> Vec<u8> {
    let mut image = build(rng, MAX_BLOCKS, 2, Fill::Empty);
    let slots = slot_offsets(&image, root(&image));
    let mut pool = free_blocks(&image);
    rng.shuffle(&mut pool);
    let in_table = |table| pool.iter().copied().find(|&b| table_block_of(b) == table);
    let spread: Vec<usize> = (20..29).filter_map(in_table).collect();
    pool.retain(|b| !spread.contains(b));
    let size = pool.len() * BLOCK - 3;
    put_file(rng, &mut image, slots[1], b"small", 1, &mut vec![spread[4]]);
    put_file(rng, &mut image, slots[2], b"large", size, &mut pool);
    put_header(&mut image);
    image
}

/// The write that names the most blocks, from the file's last block over eight
/// more, and a write within the largest file.
fn widest_writes(rng: &mut Rng, t: &mut Tester) {
    let image = nearly_full(rng);
    let state = State { image, journal: reference::start(400_000).unwrap() };
    let data = rng.bytes(MAX_DATA);
    let near_end = u64::from(files(&state.image)[1].blocks) * 512 - MAX_DATA as u64;
    for (change, blocks) in
        [(write(b"/small", 1, &data), 1 + 1 + 9 + 9), (write(b"/large", near_end, &data), 1 + 8)]
    {
        t.report.about(format!("a write of {blocks} blocks"));
        t.change(&state, &change);
        let after = reference::apply(&state, &change).unwrap();
        t.report.agree("record", after.record, 4 + 516 * blocks);
        t.undo(&after.state);
    }
}

/// The set that names the most blocks: eight old ones and eight new ones, with
/// entries in as many table blocks. Then the clear, and a delete.
fn widest_set(rng: &mut Rng, t: &mut Tester) {
    let mut image = build(rng, MAX_BLOCKS, 2, Fill::Empty);
    let slots = slot_offsets(&image, root(&image));
    let mut pool = free_blocks(&image);
    rng.shuffle(&mut pool);
    let in_table = |table| pool.iter().copied().find(|&b| table_block_of(b) == table);
    let old: Vec<usize> = (30..38).filter_map(in_table).collect();
    let free: Vec<usize> = (20..28).filter_map(in_table).collect();
    pool.retain(|b| !old.contains(b) && !free.contains(b));
    put_file(rng, &mut image, slots[1], b"small", 0, &mut vec![]);
    link(&mut image, &old);
    put_number(&mut image, slots[1] + slot::ATTRIBUTE_BLOCK, old[0] as u32);
    put_number(&mut image, slots[1] + slot::ATTRIBUTE_SIZE, 8);
    let size = pool.len() * BLOCK;
    put_file(rng, &mut image, slots[2], b"large", size, &mut pool);
    put_header(&mut image);
    let state = State { image, journal: reference::start(100_000).unwrap() };
    for (change, blocks) in [
        (set_attributes(b"/small", &rng.bytes(4096)), 1 + 1 + 16 + 16),
        (set_attributes(b"/small", &rng.bytes(512)), 1 + 1 + 9 + 9),
        (clear_attributes(b"/small"), 1 + 1 + 8 + 8),
        (delete(b"/small"), 1 + 1 + 8 + 8),
    ] {
        t.report.about(format!("a change of {blocks} blocks"));
        t.change(&state, &change);
        let after = reference::apply(&state, &change).unwrap();
        t.report.agree("record", after.record, 4 + 516 * blocks);
        t.read_attributes(&after.state.image, b"/small", &[5; 5000]);
        t.undo(&after.state);
    }
}

/// The delete that names the most blocks, of the largest file that there can
/// be, attributes among them, with a journal that its record just fits into and
/// just does not.
fn widest_delete(rng: &mut Rng, t: &mut Tester) {
    let mut image = build(rng, MAX_BLOCKS, 1, Fill::Empty);
    let slots = slot_offsets(&image, root(&image));
    let mut pool = free_blocks(&image);
    rng.shuffle(&mut pool);
    let attributes = rng.below(9);
    let size = (pool.len() - attributes) * BLOCK;
    put_file(rng, &mut image, slots[2], b"all", size, &mut pool);
    link(&mut image, &pool);
    put_number(&mut image, slots[2] + slot::ATTRIBUTE_BLOCK, pool.first().map_or(0, |&b| b as u32));
    put_number(&mut image, slots[2] + slot::ATTRIBUTE_SIZE, attributes as u32);
    put_header(&mut image);
    // Directory block, block 0, the file's blocks, and the table blocks but for
    // the first four, whose entries are those of header, table and root.
    let record = 4 + 516 * (1 + 1 + 65_022 + 508);
    for (less, number) in [(1, 15), (0, 0)] {
        t.report.about(format!("the largest delete, {less} bytes missing"));
        let journal = reference::start(5 + record - less).unwrap();
        let state = State { image: image.clone(), journal };
        let got = t.change(&state, &delete(b"/all"));
        t.report.agree("plan", got, number);
        if let Ok(after) = reference::apply(&state, &delete(b"/all")) {
            t.report.agree("record", after.record as usize, record);
            t.undo(&after.state);
        }
    }
}

/// Looks at a file of nearly all blocks, and ends it with a block of another.
fn largest_file(rng: &mut Rng, t: &mut Tester) {
    let image = nearly_full(rng);
    let (small, large) = (&files(&image)[0], &files(&image)[1]);
    t.report.about("the largest file");
    t.look(&image, b"/large", 0, &rng.bytes(large.size as usize + 3), u64::from(large.blocks) - 1);
    for owned in [small.first as usize, root_chain(&image)[1]] {
        let mut joined = image.clone();
        join(&mut joined, large, owned);
        t.report.agree("plan", reference::check(&joined), 6);
        t.check(&joined);
    }
}
