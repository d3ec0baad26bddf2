//! Lists of writes: numbers worked out by hand from the rules.

use reference::layout::*;
use reference::worked::*;
use reference::write_list::{item, writes};
use reference::*;

fn item_at(path: &[u8], offset: u64, data: &[u8], time: u64) -> Write {
    Write { path: path.to_vec(), offset, data: data.to_vec(), time }
}

/// n = 16, d = 2, then "/A" and "/B", empty.
fn two_files() -> State {
    let one = apply(&fresh(16, 2), &create(b"/A")).unwrap().state;
    apply(&one, &create(b"/B")).unwrap().state
}

/// Two writes, of 513 bytes to "/A" and of one to "/B".
fn two_writes() -> Vec<Write> {
    vec![item_at(b"/A", 0, &[b'x'; 513], 7), item_at(b"/B", 0, b"y", 8)]
}

fn gave(listed: &Listed) -> (u32, u32) {
    (listed.number, listed.done)
}

/// What a list answers that must leave image and journal as they are.
fn refused(state: &State, list: &[u8]) -> u32 {
    let listed = write_list(state, list);
    assert!(listed.state == *state && listed.done == 0);
    listed.number
}

/// What a changed list of two writes answers: bytes put at an offset.
fn spoilt(at: usize, bytes: &[u8]) -> u32 {
    let mut list = list_of(&two_writes());
    list[at..at + bytes.len()].copy_from_slice(bytes);
    refused(&two_files(), &list)
}

#[test]
fn the_bytes_of_a_list() {
    let list = list_of(&[item_at(b"/A", 513, b"xyz", 0x0102_0304_0506_0708)]);
    let expected =
        [&[1, 0, 0, 0, 28][..], &[0, 0, 0, 23, 1, 2, 3, 4, 5, 6, 7, 8, 0, 0, 2, 1, 0, 2], b"/Axyz"];
    assert_eq!(list, expected.concat());
    assert_eq!(writes(&list).unwrap(), [item_at(b"/A", 513, b"xyz", 0x0102_0304_0506_0708)]);
}

#[test]
fn two_items_are_two_records() {
    let start = two_files();
    let listed = write_list(&start, &list_of(&two_writes()));
    assert_eq!(gave(&listed), (0, 2));
    // Two creates of 520; blocks 0, 1, 2, 4, 5; blocks 0, 1, 2, 6.
    assert_eq!(number(&listed.state.journal, 1), 5 + 1040 + 2584 + 2068);
    assert_eq!(lookup(&listed.state.image, b"/A").unwrap().size, 513);
    assert_eq!(read(&listed.state.image, b"/B", 0, 10).unwrap(), b"y");
    let back = undo(&listed.state).unwrap();
    assert_eq!(back.record, 2068);
    assert_eq!(lookup(&back.state.image, b"/B").unwrap().size, 0);
    let start_again = undo(&back.state).unwrap();
    assert!(start_again.record == 2584 && start_again.state == start);
}

#[test]
fn no_items() {
    let start = two_files();
    let listed = write_list(&start, &[1, 0, 0, 0, 5]);
    assert!(gave(&listed) == (0, 0) && listed.state == start);
}

#[test]
fn later_items_see_what_earlier_ones_did() {
    let list = list_of(&[item_at(b"/A", 0, b"abc", 1), item_at(b"/A", 3, b"def", 2)]);
    let listed = write_list(&two_files(), &list);
    assert_eq!(gave(&listed), (0, 2));
    assert_eq!(read(&listed.state.image, b"/A", 0, 10).unwrap(), b"abcdef");
}

#[test]
fn the_first_refusal_stops_it() {
    let start = two_files();
    let bad: [(Write, u32); 5] = [
        (item_at(b"A", 0, b"", 1), 9),
        (item_at(b"/A", 0, &[0; 4097], 1), 9),
        (item_at(b"/1/2/3/4/5/6/7/8/9/A", 0, b"", 1), 17),
        (item_at(b"/C", 0, b"", 1), 10),
        (item_at(b"/A", 514, b"", 1), 12),
    ];
    for (write, number) in bad {
        let good = two_writes();
        for at in 0..=2 {
            let mut all = good.clone();
            all.insert(at, write.clone());
            let listed = write_list(&start, &list_of(&all));
            assert_eq!(gave(&listed), (number, at as u32));
            let before = write_list(&start, &list_of(&good[..at]));
            assert!(gave(&before) == (0, at as u32) && before.state == listed.state);
        }
    }
}

#[test]
fn a_full_volume_and_a_full_journal() {
    let start = two_files();
    // 12 blocks are free: 8 for the first, 4 of the 8 for the second.
    let long = [item_at(b"/A", 0, &[1; 4096], 1), item_at(b"/B", 0, &[2; 4096], 2)];
    let listed = write_list(&start, &list_of(&long));
    assert_eq!(gave(&listed), (14, 1));
    assert_eq!(number(&listed.state.image, header::FREE), 4);
    let mut short = start.clone();
    short.journal.truncate(5 + 1040 + 2584 + 2067);
    let listed = write_list(&short, &list_of(&two_writes()));
    assert_eq!(gave(&listed), (15, 1));
    assert_eq!(number(&listed.state.journal, 1), 5 + 1040 + 2584);
}

#[test]
fn lists_that_are_not_of_the_form() {
    let (first, second) = (5, 5 + 18 + 2 + 513);
    assert_eq!(spoilt(0, &[0]), 19);
    assert_eq!(spoilt(0, &[2]), 19);
    assert_eq!(spoilt(1, &558u32.to_be_bytes()), 19);
    assert_eq!(spoilt(1, &560u32.to_be_bytes()), 19);
    for length in [0u32, 1, 17, 18, 19, 532, 534, 553, 555, u32::MAX] {
        assert_eq!(spoilt(first + item::LENGTH, &length.to_be_bytes()), 19);
    }
    // 554 fills the list: the second item's bytes are then data of the first.
    let mut one = list_of(&two_writes());
    put_number(&mut one, first + item::LENGTH, 554);
    assert_eq!(gave(&write_list(&two_files(), &one)), (0, 1));
    for length in (0..21u32).chain([22, u32::MAX]) {
        assert_eq!(spoilt(second + item::LENGTH, &length.to_be_bytes()), 19);
    }
    for length in [4u16, 516, u16::MAX] {
        assert_eq!(spoilt(second + item::PATH_LENGTH, &length.to_be_bytes()), 19);
    }
    let list = list_of(&two_writes());
    assert_eq!(list.len(), 559);
    for length in 0..list.len() {
        assert_eq!(refused(&two_files(), &list[..length]), 19);
    }
    assert_eq!(refused(&two_files(), &[&list[..], &[0]].concat()), 19);
    let mut more = with_length([&list[5..], &[0]].concat());
    assert_eq!(refused(&two_files(), &more), 19);
    more.truncate(list.len());
    assert_eq!(refused(&two_files(), &more), 19);
}

#[test]
fn a_path_that_fills_its_item_leaves_no_data() {
    // Nothing to write: the time alone changes.
    let listed = write_list(&two_files(), &list_of(&[item_at(b"/A", 0, b"", 5)]));
    assert_eq!(gave(&listed), (0, 1));
    assert_eq!(number(&listed.state.journal, 1), 5 + 1040 + 520);
    // A path of no bytes is of the form, and its write's 9.
    let listed = write_list(&two_files(), &list_of(&[item_at(b"", 0, b"", 5)]));
    assert_eq!(gave(&listed), (9, 0));
}

#[test]
fn the_longest_list() {
    let start = State { journal: start(1 << 20).unwrap(), ..two_files() };
    let mut all = vec![item_at(b"/A", 0, &[3; 4096], 1); 15];
    all.push(item_at(b"/A", 0, &vec![4; 65_536 - 5 - 15 * (20 + 4096) - 20], 2));
    let list = list_of(&all);
    assert_eq!((list.len(), gave(&write_list(&start, &list))), (65_536, (0, 16)));
    all[15].data.push(4);
    assert_eq!(refused(&start, &list_of(&all)), 19);
}

#[test]
fn the_order_of_refusals() {
    let start = two_files();
    let mut damaged = start.clone();
    damaged.image[header::TOTAL] ^= 1;
    damaged.journal[0] = 0;
    assert_eq!(refused(&damaged, b"no list"), 3);
    let no_journal = State { image: start.image.clone(), ..damaged };
    assert_eq!(refused(&no_journal, b"no list"), 8);
    assert_eq!(refused(&no_journal, &[1, 0, 0, 0, 5]), 8);
    // A list that is not of the form does nothing, good items before the fault too.
    let mut list = list_of(&[two_writes(), vec![item_at(b"A", 0, b"", 1)]].concat());
    assert_eq!(gave(&write_list(&start, &list)), (9, 2));
    list.pop();
    assert_eq!(refused(&start, &list), 19);
}

#[test]
fn a_run_with_a_list() {
    let mut run = Replay::new(fresh(16, 2));
    run.call(&Call::Change(create(b"/A")));
    run.call(&Call::Change(create(b"/B")));
    let list = list_of(&[two_writes(), vec![item_at(b"/C", 0, b"", 9)]].concat());
    assert_eq!(run.call(&Call::WriteList(list)), Answer::Listed { number: 10, done: 2 });
    let changes: Vec<Change> = two_writes().into_iter().map(Change::Write).collect();
    assert_eq!(run.standing()[2..], changes[..]);
    let gave = |record| Answer::Changed { number: 0, slot: 0, record };
    assert_eq!(run.call(&Call::Undo), gave(2068));
    assert_eq!(run.call(&Call::Undo), gave(2584));
    assert!(run.replayed() == &two_files());
}
