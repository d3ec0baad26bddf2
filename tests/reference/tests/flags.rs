//! System flags: what an older installer wrote there, and how it is cleared.
//! Numbers worked out by hand from the rules.

use reference::layout::*;
use reference::views::views;
use reference::worked::*;
use reference::*;

/// Where the flags of the root's first slot stand, with d = 2 and n = 16.
const FLAGS: usize = 2 * BLOCK + SLOT + slot::FLAGS;

fn after(state: &State, change: &Change) -> State {
    apply(state, change).unwrap().state
}

fn number_of(state: &State, change: &Change) -> u32 {
    apply(state, change).err().unwrap_or(0)
}

/// "/A" with 513 bytes and attributes, and the number of a port in its flags.
fn with_port() -> State {
    let steps = [create(b"/A"), write(b"/A", 0, &[b'x'; 513]), set_attributes(b"/A", &[1; 512])];
    let mut state = steps.iter().fold(fresh(16, 2), |state, step| after(&state, step));
    put_number(&mut state.image, FLAGS, 3);
    state
}

/// A create of a file and of a folder, with flags.
fn creates(path: &[u8], flags: u32) -> [Change; 2] {
    let given = |kind| Create {
        path: path.to_vec(),
        kind,
        user: 1,
        group: 2,
        permissions: 3,
        flags,
        time: 8,
    };
    let directory = CreateDirectory { entry: given(0x20), blocks: 1 };
    [Change::Create(given(0x60)), Change::CreateDirectory(directory)]
}

#[test]
fn create_wants_zero() {
    let state = fresh(16, 2);
    for change in creates(b"/A", 0) {
        let image = after(&state, &change).image;
        assert_eq!((check(&image), number(&image, FLAGS)), (0, 0));
    }
    for flags in [1, 3, 0x100, 0x8000_0000, u32::MAX] {
        for change in creates(b"/A", flags) {
            assert_eq!(number_of(&state, &change), 26);
        }
    }
}

#[test]
fn just_after_17() {
    let state = with_port();
    let deep = b"/1/2/3/4/5/6/7/8/9/A";
    for (path, number) in [(&b"A"[..], 9), (deep, 17), (b"/none/B", 26), (b"/A", 26), (b"/B", 26)] {
        for change in creates(path, 3) {
            assert_eq!(number_of(&state, &change), number, "{change:?}");
        }
    }
    // 10 and 11 without flags.
    for (path, number) in [(&b"/none/B"[..], 10), (b"/A", 11)] {
        for change in creates(path, 0) {
            assert_eq!(number_of(&state, &change), number, "{change:?}");
        }
    }
    // 26 before 13, 14 and 15: no slot, no block and no room in the journal.
    let mut full = fresh(4, 1);
    full = after(&full, &create(b"/A"));
    full = after(&full, &create(b"/B"));
    full.journal = start(5).unwrap();
    let [file, folder] = creates(b"/C", 3);
    assert_eq!((number_of(&full, &file), number_of(&full, &folder)), (26, 26));
    let [file, folder] = creates(b"/C", 0);
    assert_eq!((number_of(&full, &file), number_of(&full, &folder)), (13, 13));
}

#[test]
fn a_clear() {
    let before = with_port();
    assert_eq!(check(&before.image), 0);
    let cleared = apply(&before, &clear_flags(b"/A")).unwrap();
    // The directory block alone: 4 + 516.
    assert_eq!((cleared.slot, cleared.record), (0, 520));
    assert_eq!(number(&cleared.state.journal, 1) - number(&before.journal, 1), 520);
    let mut expected = before.image.clone();
    expected[FLAGS..FLAGS + 4].fill(0);
    assert_eq!(cleared.state.image, expected);
    assert_eq!(undo(&cleared.state).unwrap().state, before);
    // Once more, with nothing to clear, the same record.
    let again = apply(&cleared.state, &clear_flags(b"/A")).unwrap();
    assert_eq!((again.record, &again.state.image), (520, &expected));
    assert_eq!(undo(&again.state).unwrap().state, cleared.state);
}

#[test]
fn every_other_change_keeps_them() {
    let state = with_port();
    for change in [
        create(b"/B"),
        write(b"/A", 513, &[b'y'; 600]),
        create_directory(b"/D", 1),
        set_attributes(b"/A", &[2; 1024]),
        clear_attributes(b"/A"),
    ] {
        let image = after(&state, &change).image;
        assert_eq!((check(&image), number(&image, FLAGS)), (0, 3), "{change:?}");
        assert_eq!(views(&image).paths[&b"/A"[..]].flags, [0, 0, 0, 3]);
    }
    // The slot that a deleted file leaves has none.
    let gone = after(&state, &delete(b"/A"));
    assert_eq!(number(&gone.image, FLAGS), 0);
}

#[test]
fn a_clear_refused() {
    let state = after(&with_port(), &create_directory(b"/D", 1));
    let deep = b"/1/2/3/4/5/6/7/8/9/A";
    for (path, number) in
        [(&b"A"[..], 9), (&b""[..], 9), (deep, 17), (b"/B", 10), (b"/D", 10), (b"/A/B", 10)]
    {
        assert_eq!(number_of(&state, &clear_flags(path)), number);
    }
    let mut short = state.clone();
    short.journal = start(524).unwrap();
    assert_eq!(number_of(&short, &clear_flags(b"/A")), 15);
    short.journal = start(525).unwrap();
    assert_eq!(number_of(&short, &clear_flags(b"/A")), 0);
}
