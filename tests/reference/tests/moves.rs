//! Move: a file goes to another path, and nothing else of it changes. Numbers
//! worked out by hand from the rules.

use reference::layout::*;
use reference::views::views;
use reference::worked::*;
use reference::*;

fn after(state: &State, changes: &[Change]) -> State {
    changes.iter().fold(state.clone(), |state, change| apply(&state, change).unwrap().state)
}

/// The root has four blocks from 2 on, `/D` one block, 6. `/A` is slot 1 with
/// bytes and attributes, `/D` slot 2, `/B` slot 3, `/C` slot 4.
fn filled() -> State {
    let steps = [
        create(b"/A"),
        create_directory(b"/D", 1),
        create(b"/B"),
        create(b"/C"),
        write(b"/A", 0, &[b'a'; 600]),
        set_attributes(b"/A", &[b'p'; 512]),
    ];
    after(&fresh(32, 4), &steps)
}

/// Makes an accepted move and gives its slot and its record. The new path shows
/// what the old one showed, and no other path another thing.
fn moved(before: &State, path: &[u8], to: &[u8]) -> (State, u32, u32) {
    let applied = apply(before, &move_file(path, to)).unwrap();
    let (mut shown, now) = (views(&before.image), views(&applied.state.image));
    let file = shown.paths.remove(path).unwrap();
    shown.paths.insert(to.to_vec(), file);
    assert_eq!(now, shown);
    assert_eq!(check(&applied.state.image), 0);
    assert_eq!(undo(&applied.state).unwrap().state, *before);
    (applied.state, applied.slot, applied.record)
}

#[test]
fn to_another_directory() {
    let before = filled();
    let (state, slot, record) = moved(&before, b"/A", b"/D/SN4471");
    assert_eq!((slot, record), (1, 1036));
    let (old, new) = (2 * BLOCK + SLOT, 6 * BLOCK + SLOT);
    assert_eq!(state.image[old..old + SLOT], [0; SLOT]);
    assert_eq!(state.image[new..new + 48], before.image[old..old + 48]);
    assert_eq!(state.image[new + 48..new + SLOT], name_field(b"SN4471"));
    // Back again, into the slot that became free.
    let (back, slot, record) = moved(&state, b"/D/SN4471", b"/A");
    assert_eq!((slot, record), (1, 1036));
    assert_eq!(back.image, before.image);
}

#[test]
fn within_a_directory() {
    let before = filled();
    // It keeps its slot where none below it is free.
    let (_, slot, record) = moved(&before, b"/A", b"/Z");
    assert_eq!((slot, record), (1, 520));
    let (_, slot, record) = moved(&before, b"/C", b"/Z");
    assert_eq!((slot, record), (4, 520));
    // A lower free slot is taken, in its own block or in another one.
    let open = after(&before, &[delete(b"/A")]);
    let (_, slot, record) = moved(&open, b"/B", b"/Z");
    assert_eq!((slot, record), (1, 520));
    let (_, slot, record) = moved(&open, b"/C", b"/Z");
    assert_eq!((slot, record), (1, 1036));
}

#[test]
fn full_directories() {
    // The root of one block has slots 1 and 2.
    let steps = [create(b"/A"), create_directory(b"/D", 1), create(b"/D/1"), create(b"/D/2")];
    let full = after(&fresh(16, 1), &steps);
    let (_, slot, record) = moved(&full, b"/A", b"/B");
    assert_eq!((slot, record), (1, 520));
    let (_, slot, record) = moved(&full, b"/D/2", b"/D/3");
    assert_eq!((slot, record), (2, 520));
    assert_eq!(apply(&full, &move_file(b"/A", b"/D/A")).err(), Some(13));
    assert_eq!(apply(&full, &move_file(b"/D/1", b"/1")).err(), Some(13));
}

#[test]
fn refused() {
    let state = filled();
    let deep: &[u8] = b"/1/2/3/4/5/6/7/8/9/A";
    let long = [b"/", &[b'n'; 81][..]].concat();
    for (path, to, number) in [
        (&b"A"[..], &b"/N"[..], 9),
        (b"/A", b"N", 9),
        (b"/A", b"/", 9),
        (b"/A", &long, 9),
        (deep, b"/N/", 9),
        (b"//", deep, 9),
        (deep, b"/N", 17),
        (b"/A", deep, 17),
        (b"/none", deep, 17),
        (b"/none", b"/N", 10),
        (b"/D", b"/N", 10),
        (b"/A/B", b"/N", 10),
        (b"/A", b"/none/N", 10),
        (b"/A", b"/B/N", 10),
        (b"/A", b"/A/N", 10),
        (b"/none", b"/B", 10),
        (b"/A", b"/A", 11),
        (b"/A", b"/B", 11),
        (b"/A", b"/D", 11),
    ] {
        let change = move_file(path, to);
        assert_eq!(apply(&state, &change).err(), Some(number), "{change:?}");
    }
}

#[test]
fn no_room_in_the_journal() {
    let State { image, .. } = filled();
    let room = |len: usize| State { image: image.clone(), journal: start(len).unwrap() };
    assert_eq!(apply(&room(5 + 1035), &move_file(b"/A", b"/D/A")).err(), Some(15));
    assert_eq!(apply(&room(5 + 1036), &move_file(b"/A", b"/D/A")).unwrap().record, 1036);
    assert_eq!(apply(&room(5 + 519), &move_file(b"/A", b"/Z")).err(), Some(15));
    assert_eq!(apply(&room(5 + 520), &move_file(b"/A", b"/Z")).unwrap().record, 520);
}

/// FORMAT.md, B.2: the rows of move, one after the other.
#[test]
fn the_rows_of_the_page() {
    let mut state = filled();
    for (path, to, expected) in [
        (&b"/A"[..], &b"/A"[..], Err(11)),
        (b"/A", b"/B", Err(11)),
        (b"/A", b"/D", Err(11)),
        (b"/A", b"/B/N", Err(10)),
        (b"/A", b"/none/N", Err(10)),
        (b"/none", b"/N", Err(10)),
        (b"/D", b"/N", Err(10)),
        (b"/A", b"/D/SN4471", Ok((1, 1036))),
        (b"/C", b"/Z", Ok((1, 1036))),
        (b"/B", b"/Y", Ok((3, 520))),
    ] {
        let applied = apply(&state, &move_file(path, to));
        let told = applied.as_ref().map(|a| (a.slot, a.record)).map_err(|&e| e);
        assert_eq!(told, expected, "{}", to.escape_ascii());
        state = applied.map_or(state, |a| a.state);
    }
}
