//! The rules' "Numbers to hold it against", all of them.

use reference::layout::*;
use reference::worked::*;
use reference::*;

fn used(state: &State) -> u32 {
    number(&state.journal, 1)
}

/// n = 16, d = 2, then "/A" with 513 bytes.
fn with_513_bytes() -> Applied {
    let created = apply(&fresh(16, 2), &create(b"/A")).unwrap();
    assert_eq!((created.slot, created.record), (1, 520));
    apply(&created.state, &write(b"/A", 0, &[b'x'; 513])).unwrap()
}

#[test]
fn smallest_volume() {
    let image = formatted(3, 1).unwrap();
    assert_eq!(check(&image), 0);
    assert_eq!(number(&image, header::OCCUPIED), 3);
    assert_eq!(number(&image, header::FREE), 0);
}

#[test]
fn smallest_volume_has_no_room_for_two_root_blocks() {
    assert_eq!(formatted(3, 2), Err(14));
}

#[test]
fn two_blocks_are_too_few() {
    assert_eq!(formatted(2, 1), Err(1));
    assert_eq!(check(&[0; 1024]), 1);
}

#[test]
fn table_sizes() {
    assert_eq!([128, 129, 4096, 65536].map(table_blocks), [1, 2, 32, 512]);
}

#[test]
fn sixteen_blocks() {
    let image = formatted(16, 2).unwrap();
    assert_eq!([0, 1, 2, 3].map(|b| entry(&image, b)), [1, 1, 3, 1]);
    assert_eq!(number(&image, header::FREE), 12);
    assert_eq!(slot_offsets(&image, 2).len() - 2, 6);
}

#[test]
fn create_and_write_513_bytes() {
    let written = with_513_bytes();
    let image = &written.state.image;
    assert_eq!([4, 5].map(|b| entry(image, b)), [5, 1]);
    assert_eq!(number(image, header::OCCUPIED), 6);
    assert_eq!(written.record, 2584);
    let numbers = [0, 1, 2, 3, 4].map(|i| number(&written.state.journal, 5 + 520 + 4 + 516 * i));
    assert_eq!(numbers, [0, 1, 2, 4, 5]);
    assert_eq!(used(&written.state), 3109);
    assert_eq!(read(image, b"/A", 0, 1000).unwrap(), vec![b'x'; 513]);
}

#[test]
fn one_more_byte_and_undo() {
    let before = with_513_bytes().state;
    let more = apply(&before, &write(b"/A", 513, b"y")).unwrap();
    assert_eq!(more.record, 1036);
    assert_eq!(used(&more.state), 4145);
    let undone = undo(&more.state).unwrap();
    assert_eq!(undone.record, 1036);
    assert_eq!(used(&undone.state), 3109);
    assert_eq!(undone.state, before);
    assert_eq!(apply(&before, &write(b"/A", 514, b"y")), Err(12));
    assert_eq!(apply(&before, &create(b"/A")), Err(11));
}

#[test]
fn freed_blocks_are_blank() {
    let mut before = with_513_bytes().state;
    // Blocks 3 to 5 are the root's second and the file's; 6 and the last were never used.
    before.image[6 * BLOCK..7 * BLOCK].fill(b'6');
    before.image[15 * BLOCK..].fill(b'F');
    // Behind the file's end its last block may hold anything.
    before.image[5 * BLOCK + 1..6 * BLOCK].fill(b'z');
    let gone = apply(&before, &delete(b"/A")).unwrap();
    assert_eq!((gone.slot, gone.record), (0, 2584));
    let numbers = [0, 1, 2, 3, 4].map(|i| number(&gone.state.journal, 3109 + 4 + 516 * i));
    assert_eq!(numbers, [0, 1, 2, 4, 5]);
    assert_eq!(used(&gone.state), 5693);
    let mut expected = formatted(16, 2).unwrap();
    expected[6 * BLOCK..7 * BLOCK].fill(b'6');
    expected[15 * BLOCK..].fill(b'F');
    assert_eq!(gone.state.image, expected);
    let undone = undo(&gone.state).unwrap();
    assert_eq!((undone.record, used(&undone.state)), (2584, 3109));
    assert_eq!(undone.state, before);
}

#[test]
fn freed_blocks_are_named_even_if_they_are_zero() {
    let created = apply(&fresh(16, 2), &create(b"/A")).unwrap().state;
    assert_eq!(apply(&created, &delete(b"/A")).unwrap().record, 520);
    let written = apply(&created, &write(b"/A", 0, &[0; 513])).unwrap().state;
    assert_eq!(apply(&written, &delete(b"/A")).unwrap().record, 2584);
}

#[test]
fn longest_name() {
    let state = fresh(16, 2);
    let path = |length| [b"/", &vec![b'n'; length][..]].concat();
    assert!(apply(&state, &create(&path(MAX_NAME))).is_ok());
    assert_eq!(apply(&state, &create(&path(MAX_NAME + 1))), Err(9));
}

#[test]
fn most_data() {
    let state = apply(&fresh(16, 2), &create(b"/A")).unwrap().state;
    assert!(apply(&state, &write(b"/A", 0, &[1; 4096])).is_ok());
    assert_eq!(apply(&state, &write(b"/A", 0, &[1; 4097])), Err(9));
}

#[test]
fn a_name_is_not_its_prefix() {
    let state = apply(&fresh(16, 2), &create(b"/SN1")).unwrap().state;
    assert_eq!(lookup(&state.image, b"/SN10"), Err(10));
    assert_eq!(lookup(&state.image, b"/SN"), Err(10));
    assert!(lookup(&state.image, b"/SN1").is_ok());
}

#[test]
fn listing() {
    let image = with_513_bytes().state.image;
    assert_eq!(list(&image), b"blocks 16 used 6 free 10\n1 513 2 A\n");
}

#[test]
fn listing_of_other_input() {
    assert_eq!(list(b""), b"refused 1\n");
    assert_eq!(list(&formatted(129, 1).unwrap()), b"refused 1\n");
    assert_eq!(list(&[0; 1536]), b"refused 2\n");
    let state = apply(&fresh(3, 1), &create(b"/a b\xFF~!")).unwrap().state;
    assert_eq!(list(&state.image), b"blocks 3 used 3 free 0\n1 0 0 a?b?~!\n");
}

#[test]
fn replay_of_a_run() {
    let first = fresh(16, 2);
    let mut run = Replay::new(first.clone());
    let gave = |number, slot, record| Answer::Changed { number, slot, record };
    assert_eq!(run.call(&Call::Undo), gave(16, 0, 0));
    assert_eq!(run.call(&Call::Change(create(b"/A"))), gave(0, 1, 520));
    assert_eq!(run.call(&Call::Change(create(b"/A"))), gave(11, 0, 0));
    assert_eq!(run.call(&Call::Change(write(b"/A", 0, &[b'x'; 513]))), gave(0, 0, 2584));
    assert_eq!(run.replayed(), &with_513_bytes().state);
    assert_eq!(run.call(&Call::Undo), gave(0, 0, 2584));
    assert_eq!(run.call(&Call::Undo), gave(0, 0, 520));
    assert_eq!(run.replayed(), &first);
    assert_eq!(run.call(&Call::Check), Answer::Checked(0));
}
