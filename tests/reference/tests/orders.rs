//! Two changes in either order: every pair out of a list, on an image with room
//! and on one with little.

use reference::layout::{put_number, slot, tree};
use reference::views::{difference, is_inside, views};
use reference::worked::*;
use reference::*;
use std::collections::BTreeSet;
use std::mem::{discriminant, Discriminant};

fn after(state: &State, changes: &[Change]) -> State {
    changes.iter().fold(state.clone(), |state, change| apply(&state, change).unwrap().state)
}

/// The state after two changes, if both are accepted.
fn both(state: &State, first: &Change, second: &Change) -> Option<State> {
    let between = apply(state, first).ok()?.state;
    Some(apply(&between, second).ok()?.state)
}

/// Files and folders of every kind in two levels.
fn filled(n: usize) -> State {
    let steps = [
        create(b"/A"),
        write(b"/A", 0, &[b'a'; 600]),
        set_attributes(b"/A", &[b'p'; 512]),
        create_directory(b"/D", 2),
        create(b"/D/F"),
        write(b"/D/F", 0, &[b'f'; 700]),
        create(b"/B"),
        set_attributes(b"/D/F", &[b'q'; 1024]),
        create_directory(b"/D/E", 1),
        write(b"/B", 0, b"baud=9600"),
        create_directory(b"/G", 1),
    ];
    let mut state = after(&fresh(n, 3), &steps);
    put_flags(&mut state.image);
    state
}

/// System flags that only an older installer can have given, to every file.
fn put_flags(image: &mut [u8]) {
    for home in tree(image) {
        for entry in home.entries.iter().filter(|entry| entry.is_file()) {
            put_number(image, entry.at + slot::FLAGS, 3);
        }
    }
}

/// Changes of every kind, some of which refuse each other.
fn list() -> Vec<Change> {
    vec![
        create(b"/N"),
        create(b"/M"),
        create(b"/D/N"),
        create(b"/D/E/N"),
        create(b"/G/N"),
        write(b"/A", 0, b"300"),
        write(b"/A", 600, &[b'b'; 900]),
        write(b"/B", 9, &[b'c'; 1000]),
        write(b"/D/F", 512, &[b'd'; 600]),
        delete(b"/A"),
        delete(b"/B"),
        delete(b"/D/F"),
        create_directory(b"/H", 1),
        create_directory(b"/D/H", 2),
        create_directory(b"/G/H", 1),
        create_directory(b"/H/H", 1),
        delete_directory(b"/G"),
        delete_directory(b"/D/E"),
        delete_directory(b"/D"),
        set_attributes(b"/A", &[b'r'; 1024]),
        set_attributes(b"/B", &[b's'; 512]),
        set_attributes(b"/D/F", &[b't'; 512]),
        clear_attributes(b"/A"),
        clear_attributes(b"/B"),
        clear_attributes(b"/D/F"),
        clear_flags(b"/A"),
        clear_flags(b"/B"),
        clear_flags(b"/D/F"),
        shorten(b"/A", 30),
        shorten(b"/B", 9),
        shorten(b"/D/F", 0),
        replace(b"/A", &[b'v'; 700]),
        replace(b"/B", b"300"),
        replace(b"/D/F", b""),
        move_file(b"/A", b"/D/A"),
        move_file(b"/B", b"/M"),
        move_file(b"/D/F", b"/D/N"),
        move_file(b"/D/F", b"/D/E/F"),
        put(b"N", b"baud=300"),
        put(b"SN4471", &[b'u'; 200]),
        put(b"SN4472", b""),
    ]
}

/// Every path of one change with every path of another.
fn pairs(first: &Change, second: &Change) -> Vec<(Vec<u8>, Vec<u8>)> {
    let with = |path: Vec<u8>| second.paths().into_iter().map(move |other| (path.clone(), other));
    first.paths().into_iter().flat_map(with).collect()
}

/// Whether two changes have no path in common.
fn apart(first: &Change, second: &Change) -> bool {
    pairs(first, second).iter().all(|(path, other)| path != other)
}

/// Compares all pairs on an image. Gives the kinds of those that were accepted
/// in both orders, and how many of them left other bytes.
fn compare(state: &State) -> (BTreeSet<(usize, usize)>, usize) {
    let list = list();
    let mut kinds: Vec<Discriminant<Change>> = list.iter().map(discriminant).collect();
    kinds.dedup();
    let kind = |change: &Change| kinds.iter().position(|k| *k == discriminant(change)).unwrap();
    let (mut met, mut moved) = (BTreeSet::new(), 0);
    for first in &list {
        for second in list.iter().filter(|second| apart(first, second)) {
            let orders = (both(state, first, second), both(state, second, first));
            let (Some(one), Some(other)) = orders else { continue };
            let unlike = difference(&views(&one.image), &views(&other.image));
            assert_eq!(unlike, None, "{first:?}, {second:?}");
            for (path, other) in pairs(first, second) {
                assert!(!is_inside(&path, &other), "{first:?}, {second:?}");
            }
            met.insert((kind(first), kind(second)));
            moved += usize::from(one.image != other.image);
        }
    }
    (met, moved)
}

#[test]
fn every_pair_of_kinds() {
    let (met, moved) = compare(&filled(64));
    assert_eq!(met.len(), 144);
    // Slots and block numbers may differ, and do.
    assert!(moved > 20, "{moved}");
}

#[test]
fn with_little_room() {
    for n in 17..21 {
        let state = filled(n);
        assert_eq!(check(&state.image), 0);
        compare(&state);
    }
}

#[test]
fn the_same_path() {
    let state = filled(64);
    let (one, other) = (write(b"/B", 0, b"baud=300"), write(b"/B", 0, b"baud=1200"));
    let first = both(&state, &one, &other).unwrap();
    let second = both(&state, &other, &one).unwrap();
    assert_eq!(read(&first.image, b"/B", 0, 20).unwrap(), b"baud=1200");
    assert_eq!(read(&second.image, b"/B", 0, 20).unwrap(), b"baud=3000");
}

#[test]
fn one_path_inside_the_other() {
    let state = filled(64);
    let (outer, inner) = (create_directory(b"/H", 1), create(b"/H/N"));
    assert!(both(&state, &outer, &inner).is_some());
    assert_eq!(apply(&state, &inner).err(), Some(10));
    // Each is accepted first, and neither after the other.
    let (outer, inner) = (delete_directory(b"/G"), create(b"/G/N"));
    assert_eq!(apply(&after(&state, &[outer.clone()]), &inner).err(), Some(10));
    assert_eq!(apply(&after(&state, &[inner]), &outer).err(), Some(18));
}

#[test]
fn accepted_in_one_order_only() {
    let state = filled(17);
    let (frees, takes) = (delete(b"/A"), write(b"/B", 9, &[b'c'; 1000]));
    assert_eq!(apply(&state, &takes).err(), Some(14));
    assert!(both(&state, &frees, &takes).is_some());
}
