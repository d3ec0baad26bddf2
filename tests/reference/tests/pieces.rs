//! Files that arrive and leave a bit at a time: numbers worked out by hand from
//! the rules.

use reference::layout::*;
use reference::worked::*;
use reference::*;

/// n = 16, d = 2, then "/A", empty, made at time 8.
fn one_file() -> State {
    apply(&fresh(16, 2), &create(b"/A")).unwrap().state
}

fn number_of(result: Result<Appended, u32>) -> u32 {
    result.err().unwrap_or(0)
}

/// The modified time of "/A", which is in slot 1 of the root.
fn modified(image: &[u8]) -> u64 {
    let at = 2 * BLOCK + SLOT + slot::MODIFIED;
    u64::from_be_bytes(image[at..at + 8].try_into().unwrap())
}

#[test]
fn a_piece_is_a_write_at_the_end() {
    let start = one_file();
    let first = append(&start, &piece(b"/A", &[b'x'; 513])).unwrap();
    let written = apply(&start, &write(b"/A", 0, &[b'x'; 513])).unwrap();
    assert!(first.state == written.state && first.record == 2584);
    // Blocks 2 and 5: the file ends in its last block.
    let second = append(&first.state, &piece(b"/A", b"y")).unwrap();
    assert_eq!(second.record, 1036);
    assert_eq!(number(&second.state.journal, 1), 5 + 520 + 2584 + 1036);
    assert_eq!(lookup(&second.state.image, b"/A").unwrap().size, 514);
    assert_eq!(read(&second.state.image, b"/A", 512, 10).unwrap(), b"xy");
    assert_eq!(modified(&second.state.image), 9);
    let back = undo(&second.state).unwrap();
    assert!(back.record == 1036 && back.state == first.state);
}

#[test]
fn the_numbers_of_the_rules() {
    let first = append(&one_file(), &piece(b"/A", &[b'x'; 513])).unwrap();
    assert_eq!((first.record, number(&first.state.journal, 1)), (2584, 3109));
    let nothing = append(&first.state, &piece(b"/A", b"")).unwrap();
    assert!(nothing.record == 0 && nothing.state == first.state);
    let second = append(&nothing.state, &piece(b"/A", b"y")).unwrap();
    assert_eq!((second.record, number(&second.state.journal, 1)), (1036, 4145));
    let mut state = second.state;
    assert_eq!(lookup(&state.image, b"/A").unwrap().size, 514);
    let mut position = 0;
    for (count, place) in [(500, 500), (14, 514), (0, 514)] {
        let bytes = read_next(&state.image, b"/A", &mut position, 500).unwrap();
        assert_eq!((bytes.len(), position), (count, place));
    }
    position = 515;
    assert_eq!(read_next(&state.image, b"/A", &mut position, 500), Err(12));
    assert_eq!(position, 515);
    state.journal.truncate(4145);
    assert_eq!(number_of(append(&state, &piece(b"/A", b""))), 0);
    assert_eq!(number_of(append(&state, &piece(b"/A", b"z"))), 15);
}

#[test]
fn the_place_is_the_end_as_it_then_stands() {
    let one = append(&one_file(), &piece(b"/A", b"abc")).unwrap().state;
    let between = apply(&one, &write(b"/A", 3, b"def")).unwrap().state;
    let two = append(&between, &piece(b"/A", b"ghi")).unwrap().state;
    assert_eq!(read(&two.image, b"/A", 0, 20).unwrap(), b"abcdefghi");
    let taken_back = undo(&undo(&two).unwrap().state).unwrap().state;
    let again = append(&taken_back, &piece(b"/A", b"jkl")).unwrap().state;
    assert_eq!(read(&again.image, b"/A", 0, 20).unwrap(), b"abcjkl");
}

#[test]
fn an_empty_piece_does_nothing() {
    let start = one_file();
    let nothing = append(&start, &piece(b"/A", b"")).unwrap();
    assert!(nothing.state == start && nothing.record == 0);
    assert_eq!(modified(&nothing.state.image), 8);
    // A write of no bytes sets the time and has a record.
    let written = apply(&start, &write(b"/A", 0, b"")).unwrap();
    assert_eq!((written.record, modified(&written.state.image)), (520, 9));
}

#[test]
fn a_full_journal_concerns_pieces_that_are_not_empty() {
    let mut start = one_file();
    start.journal.truncate(525 + 2067);
    assert_eq!(number_of(append(&start, &piece(b"/A", b"x"))), 15);
    assert_eq!(number_of(append(&start, &piece(b"/A", b""))), 0);
    start.journal.truncate(525);
    assert_eq!(number_of(append(&start, &piece(b"/A", b""))), 0);
    start.journal[0] = 0;
    assert_eq!(number_of(append(&start, &piece(b"/A", b""))), 8);
    start.image[header::TOTAL] ^= 1;
    assert_eq!(number_of(append(&start, &piece(b"/A", b""))), 3);
}

#[test]
fn refusals_of_the_write() {
    let start = one_file();
    let folder = apply(&start, &create_directory(b"/D", 1)).unwrap().state;
    for bytes in [&b"x"[..], b""] {
        assert_eq!(number_of(append(&start, &piece(b"A", bytes))), 9);
        assert_eq!(number_of(append(&start, &piece(b"/1/2/3/4/5/6/7/8/9/A", bytes))), 17);
        assert_eq!(number_of(append(&start, &piece(b"/B", bytes))), 10);
        assert_eq!(number_of(append(&folder, &piece(b"/D", bytes))), 10);
    }
    assert_eq!(number_of(append(&start, &piece(b"/A", &[0; 4096]))), 0);
    assert_eq!(number_of(append(&start, &piece(b"/A", &[0; 4097]))), 9);
    // 12 blocks are free, and 4,096 bytes take 8.
    let eight = append(&start, &piece(b"/A", &[1; 4096])).unwrap().state;
    assert_eq!(number_of(append(&eight, &piece(b"/A", &[1; 2049]))), 14);
    let full = append(&eight, &piece(b"/A", &[1; 2048])).unwrap().state;
    assert_eq!(number_of(append(&full, &piece(b"/A", b"x"))), 14);
    assert_eq!(number_of(append(&full, &piece(b"/A", b""))), 0);
}

#[test]
fn pieces_cut_anywhere() {
    let start = one_file();
    let bytes: Vec<u8> = (0..6000u32).map(|i| (i % 251) as u8).collect();
    let whole = append_whole(&start.image, &piece(b"/A", &bytes)).unwrap();
    assert_eq!(check(&whole), 0);
    for length in [97, 511, 512, 513, 2000, 4096] {
        let mut state = start.clone();
        state.journal = reference::start(1 << 18).unwrap();
        for part in bytes.chunks(length) {
            state = append(&state, &piece(b"/A", part)).unwrap().state;
            state = append(&state, &piece(b"/A", b"")).unwrap().state;
        }
        assert!(state.image == whole);
        let records = journal::records(&state.journal, 16).unwrap();
        assert_eq!(records.len(), bytes.len().div_ceil(length));
    }
}

#[test]
fn a_run_with_pieces() {
    let mut run = Replay::new(fresh(16, 2));
    run.call(&Call::Change(create(b"/A")));
    let gave = |record| Answer::Changed { number: 0, slot: 0, record };
    assert_eq!(run.call(&Call::Append(piece(b"/A", &[b'x'; 513]))), gave(2584));
    assert_eq!(run.call(&Call::Append(piece(b"/A", b""))), gave(0));
    assert_eq!(run.call(&Call::Append(piece(b"/A", b"y"))), gave(1036));
    let writes = [write(b"/A", 0, &[b'x'; 513]), write(b"/A", 513, b"y")];
    assert_eq!(run.standing()[1..], writes);
    assert_eq!(run.call(&Call::Undo), gave(1036));
    assert_eq!(run.call(&Call::Undo), gave(2584));
    assert!(run.replayed() == &one_file());
}

#[test]
fn a_file_read_to_its_end() {
    let bytes: Vec<u8> = (0..1300u32).map(|i| (i % 251) as u8).collect();
    let state = append(&one_file(), &piece(b"/A", &bytes)).unwrap().state;
    for length in [1, 7, 512, 1299, 1300, 5000] {
        let (mut position, mut all) = (0, Vec::<u8>::new());
        loop {
            let part = read_next(&state.image, b"/A", &mut position, length).unwrap();
            all.extend(&part);
            assert_eq!(position, all.len() as u64);
            if part.is_empty() {
                break;
            }
        }
        assert_eq!(all, bytes);
    }
}

#[test]
fn a_refused_read_keeps_its_place() {
    let state = append(&one_file(), &piece(b"/A", b"abc")).unwrap().state;
    let mut position = 2;
    assert_eq!(read_next(&state.image, b"/B", &mut position, 9), Err(10));
    assert_eq!(read_next(&state.image[1..], b"/A", &mut position, 9), Err(1));
    assert_eq!(position, 2);
    // No bytes fit: accepted, and the place stays too.
    assert_eq!(read_next(&state.image, b"/A", &mut position, 0), Ok(vec![]));
    assert_eq!(read_next(&state.image, b"/A", &mut position, 9), Ok(b"c".to_vec()));
    assert_eq!((read_next(&state.image, b"/A", &mut position, 9), position), (Ok(vec![]), 3));
    for far in [4, 1 << 32, u64::MAX] {
        position = far;
        assert_eq!((read_next(&state.image, b"/A", &mut position, 9), position), (Err(12), far));
    }
    // The file grows, and the place is inside it again.
    position = 4;
    let more = append(&state, &piece(b"/A", b"de")).unwrap().state;
    assert_eq!(read_next(&more.image, b"/A", &mut position, 9), Ok(b"e".to_vec()));
}
