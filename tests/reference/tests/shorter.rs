//! Shorten and replace: a file's end comes nearer, and a file's bytes become
//! exactly the given ones. Numbers worked out by hand from the rules.

use reference::layout::*;
use reference::worked::*;
use reference::*;

/// The entry of the root's first slot, with d = 2 and n = 8.
const ENTRY: usize = 2 * BLOCK + SLOT;

fn after(state: &State, change: &Change) -> State {
    apply(state, change).unwrap().state
}

fn number_of(state: &State, change: &Change) -> u32 {
    apply(state, change).err().unwrap_or(0)
}

/// "/A" with 513 bytes in blocks 4 and 5; blocks 6 and 7 are free.
fn with_two_blocks() -> State {
    [create(b"/A"), write(b"/A", 0, &[b'x'; 513])]
        .iter()
        .fold(fresh(8, 2), |state, step| after(&state, step))
}

/// The length of the record that a change adds, after which the image is sound
/// and from which an undo leads back.
fn record(before: &State, change: &Change) -> u32 {
    let applied = apply(before, change).unwrap();
    assert_eq!(check(&applied.state.image), 0, "{change:?}");
    assert_eq!(undo(&applied.state).unwrap().state, *before, "{change:?}");
    applied.record
}

/// First block, size and size in blocks of "/A".
fn extent(image: &[u8]) -> [u32; 3] {
    [slot::FIRST, slot::SIZE, slot::BLOCKS].map(|field| number(image, ENTRY + field))
}

#[test]
fn shorten_to_every_kind_of_size() {
    let before = with_two_blocks();
    for (size, saved, fields, free) in [
        (513, 520, [4, 513, 2], vec![6, 7]),
        (512, 2068, [4, 512, 1], vec![5, 6, 7]),
        (511, 2584, [4, 511, 1], vec![5, 6, 7]),
        (1, 2584, [4, 1, 1], vec![5, 6, 7]),
        (0, 2584, [0, 0, 0], vec![4, 5, 6, 7]),
    ] {
        let change = shorten(b"/A", size);
        assert_eq!(record(&before, &change), saved, "{size}");
        let image = after(&before, &change).image;
        assert_eq!(extent(&image), fields);
        assert_eq!(free_blocks(&image), free);
        assert_eq!(read(&image, b"/A", 0, 4096).unwrap(), vec![b'x'; size as usize]);
        assert_eq!(image[ENTRY + slot::MODIFIED + 7], 9);
        let end = 4 * BLOCK + size as usize;
        assert!(image[end..].iter().all(|&byte| byte == 0), "{size}");
    }
    assert_eq!(number_of(&before, &shorten(b"/A", 514)), 12);
    assert_eq!(number_of(&before, &shorten(b"/A", 1 << 32)), 12);
}

#[test]
fn within_one_block() {
    let before = after(&with_two_blocks(), &shorten(b"/A", 300));
    assert_eq!(record(&before, &shorten(b"/A", 299)), 1036);
    assert_eq!(record(&before, &shorten(b"/A", 300)), 520);
    // What stands behind the end stays where the size does.
    let mut odd = before.clone();
    odd.image[4 * BLOCK + 400] = 7;
    let same = after(&odd, &shorten(b"/A", 300)).image;
    assert_eq!(same[4 * BLOCK + 400], 7);
    assert_eq!(after(&odd, &shorten(b"/A", 299)).image[4 * BLOCK + 400], 0);
}

#[test]
fn a_link_in_another_table_block() {
    // The chain of 129 blocks goes from 4 to 132; the link of 128 is the first of
    // the second table block.
    let mut state = fresh(200, 1);
    state = after(&state, &create(b"/A"));
    for i in 0..17 {
        let left = 129 * BLOCK - 4096 * i;
        state = after(&state, &write(b"/A", 4096 * i as u64, &vec![1; left.min(4096)]));
    }
    assert_eq!(entry(&state.image, 127), 128);
    // Kept: 4 to 127. The last kept link is in table block 1, the freed ones in 2.
    let change = shorten(b"/A", 512 * 124);
    let freed = 129 - 124;
    assert_eq!(record(&state, &change), 4 + 516 * (1 + freed + 3));
}

#[test]
fn replace_by_fewer_bytes() {
    let before = with_two_blocks();
    let change = replace(b"/A", b"300");
    assert_eq!(record(&before, &change), 2584);
    let state = after(&before, &change);
    assert_eq!(read(&state.image, b"/A", 0, 4096).unwrap(), b"300");
    assert_eq!(extent(&state.image), [4, 3, 1]);
    assert_eq!(free_blocks(&state.image), [5, 6, 7]);
    assert!(state.image[4 * BLOCK + 3..].iter().all(|&byte| byte == 0));
    // A file of one block stays where it is, and its record is short.
    assert_eq!(record(&state, &replace(b"/A", b"1200")), 1036);
    assert_eq!(record(&state, &replace(b"/A", b"60")), 1036);
    assert_eq!(extent(&after(&state, &replace(b"/A", b"1200")).image), [4, 4, 1]);
    assert_eq!(record(&state, &replace(b"/A", b"")), 2068);
    let empty = after(&state, &replace(b"/A", b""));
    assert_eq!(lookup(&empty.image, b"/A").unwrap(), Found { slot: 1, size: 0, blocks: 0 });
    assert_eq!(record(&empty, &replace(b"/A", b"")), 520);
}

#[test]
fn replace_by_more_bytes() {
    let before = with_two_blocks();
    let change = replace(b"/A", &[b'y'; 2048]);
    assert_eq!(record(&before, &change), 4 + 516 * 7);
    let all = after(&before, &change);
    assert_eq!(free_blocks(&all.image), [0; 0]);
    assert_eq!(record(&all, &replace(b"/A", &[b'z'; 2048])), 4 + 516 * 5);
    assert_eq!(record(&all, &replace(b"/A", &[b'z'; 1537])), 4 + 516 * 5);
    for (change, number) in [
        (replace(b"/A", &[b'y'; 2049]), 14),
        (replace(b"/A", &[b'y'; 4096]), 14),
        (replace(b"/A", &[b'y'; 4097]), 9),
        (replace(b"/B", &[b'y'; 4096]), 10),
        (replace(b"A", b""), 9),
        (replace(b"/1/2/3/4/5/6/7/8/9/A", b""), 17),
    ] {
        assert_eq!(number_of(&before, &change), number);
    }
}

#[test]
fn the_rest_stays() {
    let steps = [set_attributes(b"/A", &[1; 512]), create(b"/B"), write(b"/B", 0, b"other")];
    let before = steps.iter().fold(with_two_blocks(), |state, step| after(&state, step));
    for change in [replace(b"/A", b"300"), shorten(b"/A", 3), shorten(b"/A", 0)] {
        let state = after(&before, &change);
        assert_eq!(check(&state.image), 0);
        assert_eq!(read_attributes(&state.image, b"/A", 512).unwrap(), [1; 512]);
        assert_eq!(read(&state.image, b"/B", 0, 9).unwrap(), b"other");
        let rest = slot::MODIFIED + 8..SLOT;
        for part in [0..slot::FIRST, slot::CREATED..slot::MODIFIED, rest] {
            let part = ENTRY + part.start..ENTRY + part.end;
            assert_eq!(state.image[part.clone()], before.image[part]);
        }
    }
}

/// FORMAT.md, B.2: the rows of shorten and replace, one after the other.
#[test]
fn the_rows_of_the_page() {
    let mut state = with_two_blocks();
    for (change, expected) in [
        (shorten(b"/A", 514), Err(12)),
        (shorten(b"/A", 513), Ok(520)),
        (shorten(b"/A", 512), Ok(2068)),
        (shorten(b"/A", 1), Ok(1036)),
        (replace(b"/A", b"9600"), Ok(1036)),
        (replace(b"/A", b"300"), Ok(1036)),
        (replace(b"/A", &[1; 2048]), Ok(3616)),
        (replace(b"/A", &[1; 2049]), Err(14)),
        (replace(b"/A", &[1; 4097]), Err(9)),
        (replace(b"/A", b""), Ok(3616)),
        (replace(b"/A", b""), Ok(520)),
    ] {
        let applied = apply(&state, &change);
        assert_eq!(applied.as_ref().map(|a| a.record).map_err(|&e| e), expected, "{change:?}");
        state = applied.map_or(state, |a| a.state);
    }
    assert_eq!(free_blocks(&state.image), [4, 5, 6, 7]);
}
