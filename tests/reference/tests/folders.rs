//! Folders: numbers worked out by hand from the rules.

use reference::layout::*;
use reference::worked::*;
use reference::*;

fn after(state: &State, change: &Change) -> State {
    apply(state, change).unwrap().state
}

fn number_of(state: &State, change: &Change) -> u32 {
    apply(state, change).err().unwrap_or(0)
}

/// n = 24, d = 1, then a directory of two blocks, and a file in it.
fn stage() -> State {
    let state = after(&fresh(24, 1), &create_directory(b"/stage", 2));
    after(&state, &create(b"/stage/SN4471"))
}

/// The path of `levels` directories below one another.
fn deep(levels: usize) -> Vec<u8> {
    (1..=levels).flat_map(|level| format!("/{level}").into_bytes()).collect()
}

/// Directories down to the eighth level, with a file in the last.
fn deepest() -> State {
    let mut state = fresh(24, 1);
    for level in 1..=8 {
        state = after(&state, &create_directory(&deep(level), 1));
    }
    after(&state, &create(&[&deep(8)[..], b"/file"].concat()))
}

/// The offset of a slot of the directory that starts at a block.
fn slot_at(state: &State, first: usize, slot: usize) -> usize {
    slot_offsets(&state.image, first)[slot]
}

/// What the check says of an image with some bytes put over it.
fn spoilt(state: &State, at: usize, bytes: &[u8]) -> u32 {
    let mut image = state.image.clone();
    image[at..at + bytes.len()].copy_from_slice(bytes);
    check(&image)
}

#[test]
fn a_new_directory() {
    let made = apply(&fresh(24, 1), &create_directory(b"/stage", 2)).unwrap();
    // Blocks 0 (counts), 1 (table), 2 (root), 3 and 4 (the directory).
    assert_eq!((made.slot, made.record), (1, 4 + 516 * 5));
    let image = &made.state.image;
    let numbers = [0, 1, 2, 3, 4].map(|i| number(&made.state.journal, 5 + 4 + 516 * i));
    assert_eq!(numbers, [0, 1, 2, 3, 4]);
    assert_eq!(check(image), 0);
    assert_eq!([2, 3, 4, 5].map(|b| entry(image, b)), [1, 4, 1, 0]);
    assert_eq!((number(image, header::OCCUPIED), number(image, header::FREE)), (5, 19));

    let at = 2 * BLOCK + SLOT;
    assert_eq!(&image[at..at + 4], [0x20, 1, 2, 3]);
    assert_eq!([4, 8, 12].map(|field| number(image, at + field)), [3, 0, 2]);
    assert_eq!([16, 20, 24, 28].map(|field| number(image, at + field)), [0, 8, 0, 8]);
    assert_eq!(number(image, at + slot::FLAGS), 0);
    assert_eq!(&image[at + slot::NAME..at + SLOT], name_field(b"stage"));

    let at = 3 * BLOCK;
    assert_eq!(&image[at..at + 4], [1, 0, 0, 0]);
    assert_eq!([4, 8, 12].map(|field| number(image, at + field)), [3, 2, 2]);
    assert_eq!([16, 20, 24, 28].map(|field| number(image, at + field)), [0, 8, 0, 8]);
    assert_eq!(number(image, at + slot::FLAGS), 0);
    assert_eq!(&image[at + slot::NAME..at + SLOT], name_field(b"stage"));
    assert!(image[at + SLOT..at + 7 * SLOT].iter().all(|&b| b == 0));
    assert_eq!(image[at + 7 * SLOT], slot::TYPE_END);
}

#[test]
fn a_file_in_it() {
    let state = stage();
    let written = apply(&state, &write(b"/stage/SN4471", 0, b"baud")).unwrap();
    assert_eq!(written.record, 4 + 516 * 4);
    let found = lookup(&written.state.image, b"/stage/SN4471").unwrap();
    assert_eq!((found.slot, found.size, found.blocks), (1, 4, 1));
    assert_eq!(read(&written.state.image, b"/stage/SN4471", 1, 9).unwrap(), b"aud");
    assert_eq!(look_in_place(&written.state.image, b"/stage/SN4471", 0), 5 * 512..5 * 512 + 4);
    assert_eq!(lookup(&written.state.image, b"/SN4471"), Err(10));
    assert_eq!(list(&written.state.image), b"blocks 24 used 6 free 18\n");
    assert_eq!(undo(&written.state).unwrap().state, state);
}

#[test]
fn paths() {
    let state = stage();
    for path in ["", "/", "stage", "//stage", "/stage/", "/stage//SN4471", "/stage/\0", "\\stage"] {
        assert_eq!(lookup(&state.image, path.as_bytes()), Err(9), "{path}");
        assert_eq!(number_of(&state, &create(path.as_bytes())), 9);
        assert_eq!(number_of(&state, &create_directory(path.as_bytes(), 1)), 9);
        assert_eq!(number_of(&state, &delete_directory(path.as_bytes())), 9);
    }
    for path in ["/stage", "/stag/SN4471", "/stage/SN4471/x", "/stage/SN44710", "/stage/SN447"] {
        assert_eq!(lookup(&state.image, path.as_bytes()), Err(10), "{path}");
        assert_eq!(number_of(&state, &delete(path.as_bytes())), 10);
    }
    assert_eq!(number_of(&state, &delete_directory(b"/stage/SN4471")), 10);
    assert_eq!(number_of(&state, &delete_directory(b"/missing")), 10);
    assert_eq!(number_of(&state, &create(b"/stage/SN4471/x")), 10);
    assert_eq!(number_of(&state, &create(b"/missing/x")), 10);
    assert_eq!(number_of(&state, &create(b"/stage")), 11);
    assert_eq!(number_of(&state, &create_directory(b"/stage", 1)), 11);
    assert_eq!(number_of(&state, &create_directory(b"/stage/SN4471", 1)), 11);
    assert_eq!(number_of(&state, &create(b"/SN4471")), 0);
}

#[test]
fn directory_calls_refused() {
    let state = stage();
    assert_eq!(number_of(&state, &create_directory(b"/d", 0)), 9);
    assert_eq!(number_of(&state, &create_directory(b"/d", 65)), 9);
    assert_eq!(number_of(&state, &create_directory(b"/d", 0x0100_0001)), 9);
    assert_eq!(number_of(&state, &create_directory(b"/d", 20)), 14);
    assert_eq!(number_of(&state, &create_directory(b"/d", 19)), 0);
    for kind in [0x1F, 0x60, 0, 1, 0xFF] {
        let Change::CreateDirectory(mut c) = create_directory(b"/d", 1) else { unreachable!() };
        c.entry.kind = kind;
        assert_eq!(number_of(&state, &Change::CreateDirectory(c)), 9);
    }
    assert_eq!(number_of(&state, &delete_directory(b"/stage")), 18);
    // The root has two slots for entries; one is taken.
    let full = after(&state, &create(b"/second"));
    assert_eq!(number_of(&full, &create_directory(b"/third", 20)), 13);
    let mut short = state.clone();
    short.journal = start(5 + 4 + 516 * 4 - 1).unwrap();
    assert_eq!(number_of(&short, &create_directory(b"/d", 1)), 15);
    short.journal = start(5 + 4 + 516 * 4).unwrap();
    assert_eq!(number_of(&short, &create_directory(b"/d", 1)), 0);
}

#[test]
fn a_file_of_it_deleted() {
    let written = after(&stage(), &write(b"/stage/SN4471", 0, b"baud"));
    let gone = apply(&written, &delete(b"/stage/SN4471")).unwrap();
    // Blocks 0 (counts), 1 (table), 3 (the directory's first), 5 (the file's).
    assert_eq!((gone.slot, gone.record), (0, 4 + 516 * 4));
    let at = number(&written.journal, 1) as usize;
    let numbers = [0, 1, 2, 3].map(|i| number(&gone.state.journal, at + 4 + 516 * i));
    assert_eq!(numbers, [0, 1, 3, 5]);
    assert!(gone.state.image[5 * 512..6 * 512].iter().all(|&b| b == 0));
    assert_eq!(number_of(&gone.state, &delete_directory(b"/stage")), 0);
    assert_eq!(undo(&gone.state).unwrap().state, written);
}

#[test]
fn a_directory_deleted() {
    let first = fresh(24, 1);
    let made = after(&first, &create_directory(b"/stage", 2));
    let gone = apply(&made, &delete_directory(b"/stage")).unwrap();
    // Blocks 0 (counts), 1 (table), 2 (root), 3 and 4 (the directory), which are blank again.
    assert_eq!((gone.slot, gone.record), (0, 4 + 516 * 5));
    let used = 5 + 4 + 516 * 5;
    let numbers = [0, 1, 2, 3, 4].map(|i| number(&gone.state.journal, used + 4 + 516 * i));
    assert_eq!(numbers, [0, 1, 2, 3, 4]);
    assert_eq!(gone.state.image, first.image);
    assert_eq!(check(&gone.state.image), 0);
    let back = undo(&gone.state).unwrap().state;
    assert_eq!(back, made);
    assert_eq!(undo(&back).unwrap().state, first);
}

#[test]
fn eight_levels() {
    let state = deepest();
    assert_eq!(check(&state.image), 0);
    let file = [&deep(8)[..], b"/file"].concat();
    assert!(lookup(&state.image, &file).is_ok());
    assert_eq!(number_of(&state, &create_directory(&deep(9), 1)), 17);
    assert_eq!(number_of(&state, &delete_directory(&deep(9))), 17);
    assert_eq!(lookup(&state.image, &deep(9)), Err(10));
    assert_eq!(lookup(&state.image, &deep(10)), Err(17));
    assert_eq!(number_of(&state, &create(&[&deep(9)[..], b"/x"].concat())), 17);
    // 9 comes before 17, and 17 before 10, whatever there is.
    assert_eq!(number_of(&state, &create_directory(&deep(9), 0)), 9);
    assert_eq!(number_of(&state, &write(&deep(10), 0, &[0; 4097])), 9);
    assert_eq!(lookup(&state.image, b"/a/b/c/d/e/f/g/h/i/j"), Err(17));
    assert_eq!(lookup(&state.image, b"/a/b/c/d/e/f/g/h/i"), Err(10));
}

#[test]
fn a_ninth_level() {
    let mut image = deepest().image;
    // The directories have blocks 3 to 10. A ninth, in block 11, all else right.
    let (at, child) = (10 * BLOCK + 2 * SLOT, 11);
    image.copy_within(9 * BLOCK + SLOT..9 * BLOCK + 2 * SLOT, at);
    put_number(&mut image, at + slot::FIRST, child as u32);
    image.copy_within(10 * BLOCK..11 * BLOCK, child * BLOCK);
    image[child * BLOCK + SLOT..child * BLOCK + 3 * SLOT].fill(0);
    put_number(&mut image, child * BLOCK + slot::SELF_BLOCK, child as u32);
    put_number(&mut image, child * BLOCK + slot::SELF_PARENT, 10);
    set_entry(&mut image, child, 1);
    assert_eq!(check(&image), 4);
    // Its entry is weighed before it is.
    image[at + slot::ATTRIBUTE_SIZE] = 1;
    assert_eq!(check(&image), 5);
}

#[test]
fn faults_of_a_child() {
    let state = stage();
    let child = 3 * BLOCK;
    assert_eq!(spoilt(&state, child, &[0]), 4);
    assert_eq!(spoilt(&state, child + slot::SELF_BLOCK + 3, &[4]), 4);
    assert_eq!(spoilt(&state, child + slot::SELF_PARENT + 3, &[3]), 4);
    assert_eq!(spoilt(&state, child + slot::BLOCKS + 3, &[1]), 4);
    assert_eq!(spoilt(&state, child + slot::NAME + 79, &[1]), 4);
    assert_eq!(spoilt(&state, child + slot::USER, &[1, 2, 3]), 0);
    assert_eq!(spoilt(&state, slot_at(&state, 3, 7), &[0]), 5);
    assert_eq!(spoilt(&state, slot_at(&state, 3, 1), &[0x5F]), 4);

    let entry = slot_at(&state, 2, 1);
    assert_eq!(spoilt(&state, entry, &[0x1F]), 5);
    assert_eq!(spoilt(&state, entry, &[0x5F]), 0);
    assert_eq!(spoilt(&state, entry + slot::FIRST + 3, &[1]), 4);
    assert_eq!(spoilt(&state, entry + slot::FIRST + 3, &[2]), 4);
    assert_eq!(spoilt(&state, entry + slot::FIRST, &[1]), 4);
    assert_eq!(spoilt(&state, entry + slot::SIZE + 3, &[1]), 5);
    assert_eq!(spoilt(&state, entry + slot::BLOCKS + 3, &[0]), 4);
    assert_eq!(spoilt(&state, entry + slot::BLOCKS + 3, &[3]), 4);
    assert_eq!(spoilt(&state, entry + slot::ATTRIBUTE_BLOCK, &[1]), 5);
    assert_eq!(spoilt(&state, entry + slot::NAME, b"/tage"), 5);
    assert_eq!(spoilt(&state, entry + slot::NAME, b"Stage"), 4);
    assert_eq!(spoilt(&state, slot_at(&state, 3, 1) + slot::NAME + 2, b"/"), 5);
}

#[test]
fn the_first_fault_met() {
    // A directory and a file in the root, the directory in the first slot.
    let state = after(&stage(), &create(b"/other"));
    let (mut image, child) = (state.image.clone(), 3 * BLOCK);
    // A fault of 5 in the slot after the directory, then one of 4 in the directory.
    image[slot_at(&state, 2, 2) + slot::ATTRIBUTE_SIZE] = 1;
    assert_eq!(check(&image), 5);
    image[child + slot::NAME] = b'S';
    assert_eq!(check(&image), 4);
    // The root's end slot comes before the directory.
    image[slot_at(&state, 2, 3)] = 0;
    assert_eq!(check(&image), 5);
    // Of equal names the later fails: the earlier, a directory, has its fault first.
    let mut image = state.image.clone();
    image.copy_within(
        2 * BLOCK + SLOT + slot::NAME..2 * BLOCK + 2 * SLOT,
        slot_at(&state, 2, 2) + slot::NAME,
    );
    assert_eq!(check(&image), 5);
    image[child] = 0;
    assert_eq!(check(&image), 4);
}

#[test]
fn blocks_of_two_owners() {
    let state = after(&stage(), &create_directory(b"/stage/sub", 1));
    // The directory on its parent's second block, and a file on a directory's.
    let entry = slot_at(&state, 3, 2);
    assert_eq!(spoilt(&state, entry + slot::FIRST + 3, &[4]), 4);
    let file = slot_at(&state, 3, 1);
    let mut image = state.image.clone();
    put_number(&mut image, file + slot::FIRST, 5);
    put_number(&mut image, file + slot::SIZE, 1);
    put_number(&mut image, file + slot::BLOCKS, 1);
    assert_eq!(check(&image), 6);
}

#[test]
fn a_hundred_boxes_in_one_of_nine_folders() {
    let mut state = fresh(4096, 3);
    state.journal = start(400_000).unwrap();
    for venue in 0..9 {
        state = after(&state, &create_directory(format!("/venue{venue}").as_bytes(), 26));
    }
    for serial in 0..100 {
        state = after(&state, &create(format!("/venue8/SN{serial}").as_bytes()));
    }
    assert_eq!(lookup(&state.image, b"/venue8/SN99").unwrap().slot, 100);
    assert_eq!(check(&state.image), 0);
}

#[test]
fn replay_with_directories() {
    let first = fresh(24, 1);
    let mut run = Replay::new(first.clone());
    let gave = |number, slot, record| Answer::Changed { number, slot, record };
    assert_eq!(run.call(&Call::Change(create_directory(b"/d", 1))), gave(0, 1, 2068));
    assert_eq!(run.call(&Call::Change(create(b"/d/A"))), gave(0, 1, 520));
    assert_eq!(run.call(&Call::Change(delete_directory(b"/d"))), gave(18, 0, 0));
    assert_eq!(run.call(&Call::Undo), gave(0, 0, 520));
    assert_eq!(run.call(&Call::Change(delete_directory(b"/d"))), gave(0, 0, 2068));
    assert_eq!(run.call(&Call::Undo), gave(0, 0, 2068));
    assert_eq!(run.call(&Call::Undo), gave(0, 0, 2068));
    assert_eq!(run.replayed(), &first);
}
