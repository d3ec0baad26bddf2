//! Settings with a past: numbers worked out by hand from the rules.

use reference::layout::*;
use reference::store::{file_of, revisions, MAX_REVISIONS};
use reference::worked::*;
use reference::*;

/// The numbers of a change: 0, revision and record length, or the refusal and zeros.
fn numbers(result: &Result<Applied, u32>) -> (u32, u32, u32) {
    match result {
        Ok(applied) => (0, applied.slot, applied.record),
        Err(number) => (*number, 0, 0),
    }
}

fn refused(state: &State, change: &Change) -> u32 {
    numbers(&apply(state, change)).0
}

fn after(state: &State, changes: &[Change]) -> State {
    changes.iter().fold(state.clone(), |state, change| apply(&state, change).unwrap().state)
}

/// The number and the data of a revision, or the refusal.
fn got(state: &State, serial: &[u8], which: Which) -> Result<(u32, Vec<u8>), u32> {
    get(&state.image, serial, which, 200).map(|revision| (revision.number, revision.data))
}

fn revision(number: u32, data: &[u8]) -> Revision {
    Revision { number, data: data.to_vec() }
}

/// A volume with the file "/SN1" of these bytes.
fn holding(bytes: &[u8]) -> State {
    let mut state = after(&fresh(40, 2), &[create(b"/SN1")]);
    for (i, part) in bytes.chunks(MAX_DATA).enumerate() {
        state = after(&state, &[write(b"/SN1", (i * MAX_DATA) as u64, part)]);
    }
    state
}

/// A file of so many revisions from a first number on, each of one byte.
fn ones(first: u32, count: u32) -> Vec<Revision> {
    (0..count).map(|i| revision(first.wrapping_add(i), &[i as u8])).collect()
}

#[test]
fn the_first_put() {
    let start = fresh(16, 2);
    let result = apply(&start, &put(b"SN1", b"abc"));
    // Blocks 0, 1, 2 and 4.
    assert_eq!(numbers(&result), (0, 1, 4 + 4 * 516));
    let state = result.unwrap().state;
    assert_eq!(check(&state.image), 0);
    let mut file = vec![1, 0, 0, 0, 13, 3, 0, 0, 0, 1];
    file.extend(b"abc");
    assert_eq!(read(&state.image, b"/SN1", 0, 512).unwrap(), file);
    assert_eq!(lookup(&state.image, b"/SN1").unwrap(), Found { slot: 1, size: 13, blocks: 1 });
    let slot = &state.image[2 * BLOCK + SLOT..2 * BLOCK + 2 * SLOT];
    assert_eq!(slot[..4], [0x60, 0, 0, 0]);
    assert_eq!((number(slot, slot::FIRST), number(slot, slot::FLAGS)), (4, 0));
    assert_eq!((number(slot, slot::CREATED + 4), number(slot, slot::MODIFIED + 4)), (9, 9));
    // One record, with the bytes from before the create.
    let journal = &state.journal;
    assert_eq!(number(journal, 1), 5 + 2068);
    let named: Vec<u32> = (0..4).map(|i| number(journal, 9 + 516 * i)).collect();
    assert_eq!(named, [0, 1, 2, 4]);
    assert_eq!(journal[9 + 2 * 516 + 4..][..512], start.image[2 * BLOCK..3 * BLOCK]);
    let back = undo(&state).unwrap();
    assert!(back.record == 2068 && back.state == start);
}

#[test]
fn a_put_is_a_create_and_a_write() {
    let (start, by) = (fresh(16, 2), |path: &[u8]| Create {
        path: path.to_vec(),
        kind: 0x60,
        user: 0,
        group: 0,
        permissions: 0,
        flags: 0,
        time: 9,
    });
    let file = file_of(&[revision(1, b"abc")], 0);
    let made = after(&start, &[Change::Create(by(b"/SN1")), write(b"/SN1", 0, &file)]);
    assert!(made.image == after(&start, &[put(b"SN1", b"abc")]).image);
    // With a file there, it is the write alone, record and all.
    let file = file_of(&[revision(1, b"abc"), revision(2, b"")], 0);
    let one = after(&made, &[write(b"/SN1", 0, &file)]);
    assert!(one == after(&made, &[put(b"SN1", b"")]));
}

#[test]
fn a_file_of_another_type_keeps_its_fields() {
    let given = Create {
        path: b"/SN1".to_vec(),
        kind: 0x9F,
        user: 4,
        group: 5,
        permissions: 6,
        flags: 0,
        time: 2,
    };
    let file = file_of(&ones(7, 1), 0);
    let state = after(&fresh(16, 2), &[Change::Create(given), write(b"/SN1", 0, &file)]);
    let state = after(&state, &[put(b"SN1", b"new")]);
    let slot = &state.image[2 * BLOCK + SLOT..];
    assert_eq!(slot[..4], [0x9F, 4, 5, 6]);
    assert_eq!((number(slot, slot::CREATED + 4), number(slot, slot::MODIFIED + 4)), (2, 9));
    assert_eq!(got(&state, b"SN1", Which::Latest), Ok((8, b"new".to_vec())));
    assert_eq!(got(&state, b"SN1", Which::Number(7)), Ok((7, vec![0])));
}

#[test]
fn sixteen_revisions_stand() {
    let mut state = fresh(16, 2);
    for i in 1..=16u8 {
        state = after(&state, &[put(b"SN1", &[i; 200])]);
    }
    assert_eq!(lookup(&state.image, b"/SN1").unwrap(), Found { slot: 1, size: 3285, blocks: 7 });
    for i in 1..=16u8 {
        assert_eq!(got(&state, b"SN1", Which::Number(i.into())), Ok((i.into(), vec![i; 200])));
    }
    let full = state.clone();
    // The directory block and all seven of the file's.
    let result = apply(&full, &put(b"SN1", b""));
    assert_eq!(numbers(&result), (0, 17, 4 + 8 * 516));
    state = result.unwrap().state;
    assert_eq!(got(&state, b"SN1", Which::Number(1)), Err(23));
    assert_eq!(got(&state, b"SN1", Which::Number(2)), Ok((2, vec![2; 200])));
    assert_eq!(got(&state, b"SN1", Which::Latest), Ok((17, vec![])));
    // The file keeps its size, with zeros after the records.
    let bytes = read(&state.image, b"/SN1", 0, 4000).unwrap();
    assert_eq!((bytes.len(), number(&bytes, 1)), (3285, 3085));
    assert!(bytes[3085..].iter().all(|&byte| byte == 0));
    assert!(undo(&state).unwrap().state == State { journal: full.journal, image: full.image });
}

/// The lines of docs/FORMAT.md, B.2.
#[test]
fn the_numbers_of_the_rules() {
    let mut state = fresh(16, 2);
    assert_eq!(numbers(&apply(&state, &put(b"SN1", b"abc"))), (0, 1, 2068));
    state = after(&state, &[put(b"SN1", b"abc")]);
    assert_eq!(numbers(&apply(&state, &put(b"SN1", b""))), (0, 2, 1036));
    state = after(&state, &[put(b"SN1", b"")]);
    assert_eq!(number(&state.journal, 1), 3109);
    assert_eq!(lookup(&state.image, b"/SN1").unwrap().size, 18);
    assert_eq!(got(&state, b"SN1", Which::Number(3)), Err(23));
    for i in 3..=16 {
        let result = apply(&state, &put(b"SN1", &[7; 200]));
        assert_eq!(numbers(&result).1, i);
        state = result.unwrap().state;
    }
    let found = Found { slot: 1, size: 2888, blocks: 6 };
    assert_eq!(lookup(&state.image, b"/SN1").unwrap(), found);
    for i in 17..=18 {
        let result = apply(&state, &put(b"SN1", b""));
        assert_eq!(numbers(&result), (0, i, 3616));
        state = result.unwrap().state;
    }
    assert_eq!(lookup(&state.image, b"/SN1").unwrap(), found);
    assert_eq!(number(&read(&state.image, b"/SN1", 0, 5).unwrap(), 1), 2885);
    assert_eq!(got(&state, b"SN1", Which::Number(2)), Err(23));
    assert_eq!(got(&state, b"SN1", Which::Number(3)), Ok((3, vec![7; 200])));
}

#[test]
fn zeros_are_taken_again() {
    let mut state = holding(&file_of(&ones(1, 1), 3000));
    assert_eq!(number(&state.image, header::FREE), 36 - 6);
    state = after(&state, &[put(b"SN1", &[8; 200])]);
    assert_eq!(lookup(&state.image, b"/SN1").unwrap().size, 3000);
    assert_eq!(number(&state.image, header::FREE), 36 - 6);
    assert_eq!(got(&state, b"SN1", Which::Latest), Ok((2, vec![8; 200])));
    // All blocks of the file are written, so all are named.
    assert_eq!(numbers(&apply(&state, &put(b"SN1", b"x"))), (0, 3, 4 + 7 * 516));
}

#[test]
fn files_not_of_the_form() {
    let good = file_of(&ones(5, 3), 40);
    assert_eq!(revisions(&good), Some(ones(5, 3)));
    assert_eq!(good[..5], [1, 0, 0, 0, 23]);
    let with = |at: usize, value: u8| {
        let mut bytes = good.clone();
        bytes[at] = value;
        bytes
    };
    let mut bad = vec![
        vec![],
        vec![1],
        vec![1, 0, 0, 0],
        vec![1, 0, 0, 0, 5],
        vec![1, 0, 0, 0, 5, 0, 0],
        vec![0; 40],
        with(0, 0),
        with(0, 2),
        good[..22].to_vec(),
        file_of(&ones(0, 1), 0),
        file_of(&ones(1, 17), 0),
        file_of(&ones(u32::MAX, 2), 0),
        file_of(&[revision(1, b"a"), revision(1, b"b")], 0),
        file_of(&[revision(1, b"a"), revision(3, b"b")], 0),
        file_of(&[revision(2, b"a"), revision(1, b"b")], 0),
        file_of(&[revision(1, &[7; 201])], 0),
    ];
    bad.extend([0, 4, 5, 10, 11, 16, 17, 22, 24, 39, 40, 41].map(|length| with(4, length)));
    bad.extend([0, 2, 12, 255].map(|length| with(5, length)));
    bad.extend((23..40).map(|at| with(at, 1)));
    for bytes in bad {
        assert_eq!(revisions(&bytes), None, "{bytes:?}");
        let state = holding(&bytes);
        assert_eq!(refused(&state, &put(b"SN1", b"x")), 24);
        assert_eq!(got(&state, b"SN1", Which::Latest), Err(24));
        assert_eq!(got(&state, b"SN1", Which::Number(9)), Err(24));
    }
    // The first two records alone, and zeros from their end on.
    let mut two = file_of(&ones(5, 2), 40);
    assert_eq!(revisions(&two), Some(ones(5, 2)));
    two[17] = 9;
    assert_eq!(revisions(&two), None);
    assert_eq!(revisions(&file_of(&ones(1, 16), 0)), Some(ones(1, MAX_REVISIONS as u32)));
}

#[test]
fn the_last_number() {
    let state = holding(&file_of(&ones(u32::MAX - 1, 1), 0));
    let result = apply(&state, &put(b"SN1", b"x"));
    assert_eq!(numbers(&result), (0, u32::MAX, 1036));
    let last = result.unwrap().state;
    assert_eq!(got(&last, b"SN1", Which::Latest), Ok((u32::MAX, b"x".to_vec())));
    assert_eq!(got(&last, b"SN1", Which::Number(0)), Err(23));
    assert_eq!(refused(&last, &put(b"SN1", b"y")), 25);
    // The journal's room is weighed after it.
    let mut full = last;
    full.journal.truncate(number(&full.journal, 1) as usize);
    assert_eq!(refused(&full, &put(b"SN1", b"y")), 25);
}

#[test]
fn what_a_call_brings() {
    let state = after(&fresh(16, 2), &[put(b"SN1", b"abc")]);
    for serial in [&b""[..], b"/SN1", b"SN 1", b"SN1\0", b"SN-1", b"\xD6", b"ABCDEFGHIJKLMNOPQ"] {
        assert_eq!(refused(&state, &put(serial, b"x")), 22);
        assert_eq!(got(&state, serial, Which::Latest), Err(22));
    }
    for serial in [&b"a"[..], b"z", b"A", b"Z", b"0", b"9", b"ABCDEFGHIJKLMNOP"] {
        assert_eq!(numbers(&apply(&state, &put(serial, b"x"))), (0, 1, 2068));
        assert_eq!(got(&state, serial, Which::Latest), Err(10));
    }
    assert_eq!(refused(&state, &put(b"SN1", &[0; 200])), 0);
    assert_eq!(refused(&state, &put(b"SN1", &[0; 201])), 22);
    let into = |length| get(&state.image, b"SN1", Which::Latest, length).map(|r| r.data.len());
    assert_eq!((into(199), into(200), into(5000)), (Err(22), Ok(3), Ok(3)));
    // Only the root counts, and names are equal when all their bytes are.
    let lower = after(&state, &[create_directory(b"/D", 1), create(b"/D/SN2"), create(b"/SN")]);
    assert_eq!(got(&lower, b"SN2", Which::Latest), Err(10));
    assert_eq!(got(&lower, b"sn1", Which::Latest), Err(10));
    assert_eq!(got(&lower, b"SN", Which::Latest), Err(24));
}

#[test]
fn the_order_of_refusals() {
    let folder = after(&fresh(16, 1), &[create_directory(b"/SN1", 1)]);
    assert_eq!(refused(&folder, &put(b"SN1", b"x")), 11);
    assert_eq!(got(&folder, b"SN1", Which::Latest), Err(10));
    // One slot is left; then none.
    let mut full = after(&folder, &[create(b"/B")]);
    assert_eq!(refused(&full, &put(b"C", b"x")), 13);
    assert_eq!(refused(&full, &put(b"SN1", b"x")), 11);
    assert_eq!(refused(&full, &put(b"B", b"x")), 24);
    // No block is left.
    let blocks = number(&full.image, header::FREE) as usize;
    for i in 0..blocks {
        full = after(&full, &[write(b"/B", 512 * i as u64, &[7; 512])]);
    }
    assert_eq!(refused(&full, &put(b"C", b"x")), 13);
    assert_eq!(refused(&full, &put(b"B", b"x")), 24);
    // A journal without room comes last, a damaged one before all of these.
    let mut short = folder.clone();
    short.journal.truncate(number(&short.journal, 1) as usize + 2067);
    assert_eq!(refused(&short, &put(b"C", b"x")), 15);
    assert_eq!(refused(&short, &put(b"SN1", b"x")), 11);
    short.journal[0] = 0;
    assert_eq!(refused(&short, &put(b"", b"x")), 8);
    short.image[header::TOTAL] ^= 1;
    assert_eq!(refused(&short, &put(b"", b"x")), 3);
    assert_eq!(got(&short, b"", Which::Latest), Err(3));
}

#[test]
fn no_free_block() {
    // Six blocks: the file of a first put takes the last.
    let start = fresh(6, 2);
    let one = after(&start, &[put(b"SN1", &[1; 200]), put(b"SN1", &[2; 200])]);
    assert_eq!(refused(&one, &put(b"SN2", b"")), 0);
    let two = after(&one, &[put(b"SN2", b"")]);
    assert_eq!(refused(&two, &put(b"SN3", b"")), 14);
    // 415 bytes and 5 + 92 are 512; one more needs a block.
    assert_eq!(refused(&two, &put(b"SN1", &[3; 92])), 0);
    assert_eq!(refused(&two, &put(b"SN1", &[3; 93])), 14);
}

#[test]
fn a_run_with_puts() {
    let mut run = Replay::new(fresh(16, 2));
    let gave = |slot, record| Answer::Changed { number: 0, slot, record };
    let ask = |which, length| {
        let (directory, serial) = (None, b"SN1".to_vec());
        Call::Get { directory, serial, which, buffer: vec![7; length] }
    };
    let mut buffer = b"abc".to_vec();
    buffer.resize(210, 7);
    assert_eq!(run.call(&Call::Change(put(b"SN1", b"abc"))), gave(1, 2068));
    assert_eq!(run.call(&Call::Change(put(b"SN1", b"d"))), gave(2, 1036));
    let one = Answer::Got { number: 0, revision: 1, length: 3, buffer };
    assert_eq!(run.call(&ask(Which::Number(1), 210)), one);
    let short = Answer::Got { number: 22, revision: 0, length: 0, buffer: vec![7; 199] };
    assert_eq!(run.call(&ask(Which::Latest, 199)), short);
    assert_eq!(run.call(&Call::Undo), gave(0, 1036));
    assert_eq!(run.call(&ask(Which::Latest, 210)), one);
    assert_eq!(run.call(&Call::Undo), gave(0, 2068));
    let none = Answer::Got { number: 10, revision: 0, length: 0, buffer: vec![7; 200] };
    assert_eq!(run.call(&ask(Which::Latest, 200)), none);
    assert!(run.replayed() == &fresh(16, 2));
}

/// The number and the data of a revision in a directory, or the refusal.
fn got_in(state: &State, directory: &[u8], serial: &[u8]) -> Result<(u32, Vec<u8>), u32> {
    get_in(&state.image, directory, serial, Which::Latest, 200).map(|r| (r.number, r.data))
}

#[test]
fn the_root_by_its_path() {
    let start = after(&fresh(16, 2), &[put(b"SN1", b"abc")]);
    for data in [&b""[..], b"def", &[7; 200]] {
        let one = after(&start, &[put(b"SN1", data), put(b"SN2", data)]);
        let other = after(&start, &[put_in(b"/", b"SN1", data), put_in(b"/", b"SN2", data)]);
        assert!(one == other);
        assert_eq!(got_in(&one, b"/", b"SN1"), got(&one, b"SN1", Which::Latest));
    }
    assert_eq!(refused(&start, &put_in(b"/", b"SN 1", b"x")), 22);
}

/// The lines of docs/FORMAT.md, section 14, for a directory.
#[test]
fn one_serial_number_in_two_directories() {
    // Block 4 is the directory's; its two slots are free.
    let start = after(&fresh(16, 2), &[create_directory(b"/west", 1), put(b"SN1", b"abc")]);
    let result = apply(&start, &put_in(b"/west", b"SN1", b"d"));
    // Blocks 0, 1, 4 and 6.
    assert_eq!(numbers(&result), (0, 1, 2068));
    let state = result.unwrap().state;
    assert_eq!(lookup(&state.image, b"/west/SN1").unwrap(), Found { slot: 1, size: 11, blocks: 1 });
    assert_eq!(state.image[4 * BLOCK + SLOT..][..4], [0x60, 0, 0, 0]);
    assert_eq!(got_in(&state, b"/west", b"SN1"), Ok((1, b"d".to_vec())));
    assert_eq!(got_in(&state, b"/", b"SN1"), Ok((1, b"abc".to_vec())));
    // Each has its own numbers.
    let more = after(&state, &[put_in(b"/west", b"SN1", b"e"), put(b"SN1", b"f")]);
    assert_eq!(got_in(&more, b"/west", b"SN1"), Ok((2, b"e".to_vec())));
    assert_eq!(got(&more, b"SN1", Which::Latest), Ok((2, b"f".to_vec())));
    let third = after(&more, &[put(b"SN1", b"g")]);
    assert_eq!(got_in(&third, b"/west", b"SN1"), Ok((2, b"e".to_vec())));
    // A second box fills the directory; a third has no slot, the root has one.
    let full = after(&third, &[put_in(b"/west", b"SN2", b"")]);
    assert_eq!(refused(&full, &put_in(b"/west", b"SN3", b"")), 13);
    assert_eq!(refused(&full, &put(b"SN3", b"")), 0);
    assert_eq!(refused(&full, &put_in(b"/west", b"SN1", b"")), 0);
    let mut back = full;
    while let Ok(undone) = undo(&back) {
        back = undone.state;
    }
    assert!(back == fresh(16, 2));
}

#[test]
fn the_directory_of_a_call() {
    let levels: Vec<Vec<u8>> = (1..=8).map(|level| b"/a".repeat(level)).collect();
    let made: Vec<Change> = levels.iter().map(|path| create_directory(path, 1)).collect();
    let state = after(&fresh(40, 2), &made);
    let state = after(&state, &[create(b"/file")]);
    for bad in [&b""[..], b"a", b"//", b"/a/", b"a/a", b"/a//a", &[b"/", &[b'x'; 81][..]].concat()]
    {
        assert_eq!(refused(&state, &put_in(bad, b"SN1", b"x")), 22, "{bad:?}");
        assert_eq!(got_in(&state, bad, b"SN1"), Err(22), "{bad:?}");
    }
    // Each of the eight levels holds settings; a ninth is one too many.
    for path in &levels {
        let one = after(&state, &[put_in(path, b"SN1", b"x")]);
        assert_eq!(got_in(&one, path, b"SN1"), Ok((1, b"x".to_vec())));
        assert_eq!(got_in(&one, b"/", b"SN1"), Err(10));
    }
    let ninth = b"/a".repeat(9);
    assert_eq!(refused(&state, &put_in(&ninth, b"SN1", b"x")), 17);
    assert_eq!(got_in(&state, &ninth, b"SN1"), Err(17));
    // 22 comes before 17, 17 before 10, and 10 before 11, 24 and 13.
    assert_eq!(refused(&state, &put_in(&ninth, b"", b"x")), 22);
    assert_eq!(refused(&state, &put_in(&b"/b".repeat(9), b"SN1", b"x")), 17);
    for lost in [&b"/b"[..], b"/file", b"/a/b", b"/file/a"] {
        assert_eq!(refused(&state, &put_in(lost, b"a", b"x")), 10);
        assert_eq!(got_in(&state, lost, b"a"), Err(10));
    }
    // `/a` holds the directory `a`: its name is taken, and there is no file of it.
    assert_eq!(refused(&state, &put_in(b"/a", b"a", b"x")), 11);
    assert_eq!(got_in(&state, b"/a", b"a"), Err(10));
    // The names of all levels may be of 80 bytes.
    let name = [b"/", &[b'n'; 80][..]].concat();
    let long: Vec<Change> = (1..=8).map(|i| create_directory(&name.repeat(i), 1)).collect();
    let deep = after(&after(&fresh(40, 2), &long), &[put_in(&name.repeat(8), &[b'S'; 16], b"x")]);
    assert_eq!(got_in(&deep, &name.repeat(8), &[b'S'; 16]), Ok((1, b"x".to_vec())));
}
