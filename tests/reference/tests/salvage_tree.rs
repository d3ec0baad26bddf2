//! Salvage of volumes with directories: cases worked out by hand from the rules.

use reference::layout::*;
use reference::worked::*;
use reference::*;

fn after(state: &State, change: &Change) -> State {
    apply(state, change).unwrap().state
}

/// n = 24: the table is block 1, the root blocks 2 and 3.
///
/// | path | blocks | entry: block, slot | attributes |
/// |---|---|---|---|
/// | /a | 4, 5 | 2, 1 | |
/// | /a/A, 513 bytes | 6, 7 | 4, 1 | |
/// | /B, 10 bytes | 8 | 2, 2 | 9 |
/// | /c | 10 | 2, 3 | |
/// | /c/d | 11 | 10, 1 | |
/// | /c/d/E, 10 bytes | 12 | 11, 1 | |
///
/// Blocks 13 to 23 are free, and hold bytes all the same.
fn volume() -> Vec<u8> {
    let mut state = after(&fresh(24, 2), &create_directory(b"/a", 2));
    state = after(&state, &create(b"/a/A"));
    state = after(&state, &write(b"/a/A", 0, &[b'A'; 513]));
    state = after(&state, &create(b"/B"));
    state = after(&state, &write(b"/B", 0, &[b'B'; 10]));
    state = after(&state, &set_attributes(b"/B", &[b'b'; 512]));
    state = after(&state, &create_directory(b"/c", 1));
    state = after(&state, &create_directory(b"/c/d", 1));
    state = after(&state, &create(b"/c/d/E"));
    state = after(&state, &write(b"/c/d/E", 0, &[b'E'; 10]));
    let mut image = state.image;
    for b in 13..24 {
        image[b * BLOCK..(b + 1) * BLOCK].fill(b as u8);
    }
    let values: Vec<u32> = (0..14).map(|b| entry(&image, b)).collect();
    assert_eq!(values, [1, 1, 3, 1, 5, 1, 7, 1, 1, 1, 1, 1, 1, 0]);
    assert_eq!(check(&image), 0);
    image
}

/// The offset of a slot of a block.
fn at(b: usize, slot: usize) -> usize {
    b * BLOCK + slot * SLOT
}

/// What a code stands at: the slot i of block b.
fn of(b: usize, slot: usize) -> usize {
    4 * b + slot
}

/// A salvage of any image: what it gives, and the codes that are not 0. The result
/// is sound, and a second salvage changes nothing.
fn salvaged(image: &[u8]) -> (TreeSalvaged, Vec<(usize, u8)>) {
    let n = block_count(image);
    let given = vec![0xEE; 4 * n + 3];
    let after = salvage_tree(image, &given).unwrap();
    assert_eq!(after.report[4 * n..], [0xEE; 3]);
    assert_eq!(check(&after.image), 0);
    let again = salvage_tree(&after.image, &given).unwrap();
    assert_eq!(again.image, after.image);
    assert_eq!(again.report[..4 * n], vec![0; 4 * n]);
    assert_eq!((again.dropped, again.freed), (0, 0));
    let codes = after.report[..4 * n].iter().copied().enumerate();
    let codes: Vec<(usize, u8)> = codes.filter(|&(_, code)| code != 0).collect();
    assert_eq!(codes.is_empty(), after.image == image);
    (after, codes)
}

/// What a salvage of the volume leaves that was damaged so.
fn with(codes: &[(usize, u8)], counts: (u32, u32), damage: impl FnOnce(&mut Vec<u8>)) -> Vec<u8> {
    let mut image = volume();
    damage(&mut image);
    let (after, got) = salvaged(&image);
    assert_eq!(got, codes);
    assert_eq!((after.dropped, after.freed), counts);
    after.image
}

/// The paths of all files and directories of a sound image.
fn paths(image: &[u8]) -> Vec<String> {
    let all = tree(image).into_iter().flat_map(|home| {
        let path = |entry: &Entry| String::from_utf8(home.path_of(&entry.name)).unwrap();
        home.entries.iter().map(path).collect::<Vec<_>>()
    });
    all.collect()
}

fn is_blank(image: &[u8], b: usize) -> bool {
    image[b * BLOCK..(b + 1) * BLOCK].iter().all(|&byte| byte == 0)
}

fn zero_block(image: &mut [u8], b: usize) {
    image[b * BLOCK..(b + 1) * BLOCK].fill(0);
}

#[test]
fn a_sound_volume_stays() {
    assert_eq!(with(&[], (0, 0), |_| ()), volume());
    let smallest = formatted(3, 1).unwrap();
    assert_eq!(salvaged(&smallest).0.image, smallest);
}

#[test]
fn the_header_is_made_anew() {
    assert_eq!(with(&[(0, 3)], (0, 0), |i| i[..32].fill(0)), volume());
    assert_eq!(with(&[(0, 3)], (0, 0), |i| i[header::FREE + 3] ^= 1), volume());
    // Entries 0 to t, and those from n on.
    for (b, value) in [(0, 0), (1, 9), (24, 1), (127, u32::MAX)] {
        assert_eq!(with(&[(0, 3)], (0, 0), |i| set_entry(i, b, value)), volume());
    }
    // Nothing behind the header's first 32 bytes is looked at.
    let image = with(&[], (0, 0), |i| i[32..512].fill(0xAB));
    assert_eq!(image[32..512], [0xAB; 480]);
}

#[test]
fn nothing_at_all() {
    // All zero: an empty root of one block, with an end.
    let (after, codes) = salvaged(&[0; 512 * 5]);
    assert_eq!(codes, [(0, 3), (of(2, 0), 3), (of(2, 3), 3)]);
    assert_eq!((after.dropped, after.freed), (0, 0));
    assert_eq!([0, 1, 2, 3, 4].map(|b| entry(&after.image, b)), [1, 1, 1, 0, 0]);
}

#[test]
fn the_table_is_gone() {
    // Directories lie in rows. Files of one block are kept, longer ones are lost.
    let codes = [
        (0, 3),
        (of(2, 0), 3),
        (of(2, 2), 3),
        (of(4, 0), 3),
        (of(4, 1), 2),
        (of(10, 0), 3),
        (of(11, 0), 3),
        (of(11, 1), 3),
    ];
    let image = with(&codes, (1, 0), |i| zero_block(i, 1));
    assert_eq!(paths(&image), ["/a", "/B", "/c", "/c/d", "/c/d/E"]);
    assert_eq!(read_attributes(&image, b"/B", 512).unwrap(), [b'b'; 512]);
    // Blocks 6 and 7 were free by the table that was given, so they keep their bytes.
    assert_eq!(image[6 * BLOCK..7 * BLOCK], [b'A'; 512]);
}

#[test]
fn the_root_is_gone() {
    // Its first block: both directories are hung again, the file is lost.
    let codes = [(0, 3), (of(2, 0), 3), (of(2, 1), 6), (of(2, 2), 6), (of(8, 0), 5), (of(9, 0), 5)];
    let image = with(&codes, (0, 2), |i| zero_block(i, 2));
    assert_eq!(paths(&image), ["/a", "/c", "/a/A", "/c/d", "/c/d/E"]);
    assert!(is_blank(&image, 8) && is_blank(&image, 9));
    assert_eq!(read(&image, b"/a/A", 0, 999).unwrap(), [b'A'; 513]);
    // The new entry is the self entry, with the type and fields of a directory's.
    let entry = Entry::read(&image, 1, at(2, 1));
    assert_eq!((entry.kind, entry.first, entry.size, entry.blocks), (0x20, 4, 0, 2));
    assert_eq!((entry.attribute_block, entry.attribute_size), (0, 0));
    assert_eq!(image[at(2, 1) + 16..at(2, 1) + 32], image[at(4, 0) + 16..at(4, 0) + 32]);
    assert_eq!(image[at(2, 1) + 40..at(2, 2)], image[at(4, 0) + 40..at(4, 1)]);
}

#[test]
fn the_first_choice() {
    // The d-th block of the run ends, or has value 1.
    let end = [(of(5, 3), 3)];
    assert_eq!(with(&end, (0, 0), |i| i[at(5, 3)] = 0), volume());
    let own = [(of(4, 0), 3)];
    assert_eq!(with(&own, (0, 0), |i| set_entry(i, 5, 0)), volume());
    assert_eq!(with(&own, (0, 0), |i| set_entry(i, 5, 13)), volume());
    // Of the root too.
    let root = [(of(2, 0), 3)];
    assert_eq!(with(&root, (0, 0), |i| set_entry(i, 3, 13)), volume());
}

#[test]
fn the_second_choice() {
    // The chain is broken, but d blocks in a row are good and the last ends.
    for value in [0, 1, 99, 4, 13] {
        assert_eq!(with(&[(of(4, 0), 3)], (0, 0), |i| set_entry(i, 4, value)), volume());
        assert_eq!(with(&[(of(2, 0), 3)], (0, 0), |i| set_entry(i, 2, value)), volume());
    }
}

#[test]
fn the_third_choice() {
    // No end at block 5, neither by type nor by value, but both entries say 2.
    let codes = [(of(4, 0), 3), (of(5, 3), 3)];
    let image = with(&codes, (0, 0), |i| {
        i[at(5, 3)] = 0;
        set_entry(i, 5, 13);
    });
    assert_eq!(image, volume());
}

#[test]
fn the_fourth_choice() {
    // The same, and the self entry says 3: the whole run, with block 13.
    let codes = [
        (0, 3),
        (of(2, 1), 3),
        (of(4, 0), 3),
        (of(13, 0), 1),
        (of(13, 1), 1),
        (of(13, 2), 1),
        (of(13, 3), 3),
    ];
    let image = with(&codes, (3, 0), |i| {
        i[at(5, 3)] = 0;
        set_entry(i, 5, 13);
        put_number(i, at(4, 0) + slot::BLOCKS, 3);
    });
    assert_eq!([4, 5, 13].map(|b| entry(&image, b)), [5, 13, 1]);
    assert_eq!(number(&image, at(2, 1) + slot::BLOCKS), 3);
    assert_eq!(number(&image, at(4, 0) + slot::BLOCKS), 3);
    assert_eq!(paths(&image).len(), 6);
    // The end slot's other bytes stay.
    assert_eq!(image[at(13, 3)..at(13, 3) + 2], [0xFF, 13]);
}

#[test]
fn a_cut_directory() {
    // Block 5 is another's: the run has one block, and no row ends.
    let codes = [(of(2, 1), 3), (of(4, 0), 3), (of(4, 3), 3), (of(5, 0), 5), (0, 3)];
    let mut codes = codes.to_vec();
    codes.sort();
    let image = with(&codes, (0, 1), |i| {
        set_entry(i, 4, 3);
        i[at(5, 3)] = 0;
    });
    assert_eq!((entry(&image, 4), entry(&image, 5)), (1, 0));
    assert_eq!(number(&image, at(4, 0) + slot::BLOCKS), 1);
    assert_eq!(paths(&image), ["/a", "/B", "/c", "/a/A", "/c/d", "/c/d/E"]);
}

#[test]
fn each_witness() {
    let number_off = |i: &mut Vec<u8>| put_number(i, at(10, 0) + slot::SELF_BLOCK, 99);
    let name_off = |i: &mut Vec<u8>| i[at(10, 0) + slot::NAME] = b'x';
    let end_off = |i: &mut Vec<u8>| i[at(10, 3)] = 0;
    let all: [&dyn Fn(&mut Vec<u8>); 3] = [&number_off, &name_off, &end_off];
    for left in 0..3 {
        let mut codes = vec![(of(10, 0), 3), (of(10, 3), 3)];
        codes.truncate(if left == 2 { 1 } else { 2 });
        let image = with(&codes, (0, 0), |i| {
            (0..3).filter(|&k| k != left).for_each(|k| all[k](i));
        });
        assert_eq!(image, volume());
    }
    // None is left.
    let codes = [(0, 3), (of(2, 3), 2), (of(10, 0), 5), (of(11, 0), 5), (of(12, 0), 5)];
    let image = with(&codes, (1, 3), |i| all.iter().for_each(|off| off(i)));
    assert_eq!(paths(&image), ["/a", "/B", "/a/A"]);
    assert!((10..13).all(|b| is_blank(&image, b)));
    // The end is one only where the entry says.
    let image = with(&codes, (1, 3), |i| {
        number_off(i);
        name_off(i);
        put_number(i, at(2, 3) + slot::BLOCKS, 3);
    });
    assert_eq!(paths(&image), ["/a", "/B", "/a/A"]);
    // A row that comes to another directory's end has one.
    let row = [(of(10, 0), 3), (of(10, 1), 2), (of(10, 3), 1), (of(11, 0), 1)];
    with(&row, (3, 0), |i| {
        number_off(i);
        name_off(i);
        put_number(i, at(2, 3) + slot::BLOCKS, 2);
    });
    // The type of the self entry is none.
    assert_eq!(with(&[(of(10, 0), 3)], (0, 0), |i| i[at(10, 0)] = 0x77), volume());
}

#[test]
fn a_directory_elsewhere() {
    // On a file's block: no witness. On claimed blocks, or outside: nothing there.
    // The real one is hung again into the slot that was zeroed.
    for first in [12, 2, 3, 4, 5, 8, 9, 0, 1, 24, u32::MAX] {
        let image =
            with(&[(of(2, 3), 6)], (1, 0), |i| put_number(i, at(2, 3) + slot::FIRST, first));
        assert_eq!(paths(&image), paths(&volume()));
    }
    // One below: it is lost, and so is what it holds.
    let codes = [(0, 3), (of(10, 1), 2), (of(11, 0), 5), (of(12, 0), 5)];
    let image = with(&codes, (1, 2), |i| put_number(i, at(10, 1) + slot::FIRST, 10));
    assert_eq!(paths(&image), ["/a", "/B", "/c", "/a/A"]);
}

#[test]
fn stage_5() {
    // A directory's size or attributes; a type of neither; a name.
    for (field, byte) in [(slot::SIZE, 1), (slot::ATTRIBUTE_BLOCK, 9), (slot::TYPE, 0xA0)] {
        with(&[(of(2, 3), 6)], (1, 0), |i| i[at(2, 3) + field] = byte);
    }
    // The name of another: hung under its own.
    let image = with(&[(of(2, 3), 6)], (1, 0), |i| i[at(2, 3) + slot::NAME] = b'a');
    assert_eq!(paths(&image), paths(&volume()));
    // Another name that is good: the self entry gets it.
    let image = with(&[(of(10, 0), 3)], (0, 0), |i| i[at(2, 3) + slot::NAME] = b'x');
    assert_eq!(paths(&image), ["/a", "/B", "/x", "/a/A", "/x/d", "/x/d/E"]);
    // A file's name twice in one directory, and once in two.
    let copy = |i: &mut Vec<u8>, to| i.copy_within(at(4, 1)..at(4, 2), to);
    with(&[(of(4, 2), 1)], (1, 0), |i| copy(i, at(4, 2)));
    with(&[(of(11, 2), 2)], (1, 0), |i| copy(i, at(11, 2)));
}

#[test]
fn files() {
    let lost = [(0, 3), (of(2, 2), 2), (of(8, 0), 5), (of(9, 0), 5)];
    for first in [1, 2, 4, 7, 24, 99] {
        with(&lost, (1, 2), |i| put_number(i, at(2, 2) + slot::FIRST, first));
    }
    with(&[(of(2, 2), 3)], (0, 0), |i| set_entry(i, 8, 9));
    with(&[(of(2, 2), 3)], (0, 0), |i| set_entry(i, 9, 0));
    let bare = [(0, 3), (of(2, 2), 4), (of(9, 0), 5)];
    let image = with(&bare, (0, 1), |i| put_number(i, at(2, 2) + slot::ATTRIBUTE_BLOCK, 8));
    assert_eq!(read_attributes(&image, b"/B", 512).unwrap(), []);
    with(&bare, (0, 1), |i| {
        set_entry(i, 8, 0);
        put_number(i, at(2, 2) + slot::ATTRIBUTE_BLOCK, 6);
    });
}

#[test]
fn lost_directories() {
    let zero = |i: &mut Vec<u8>, slot| i[at(2, slot)..at(2, slot + 1)].fill(0);
    // Into the lowest slot that is free.
    let image = with(&[(of(2, 1), 6)], (0, 0), |i| zero(i, 1));
    assert_eq!(paths(&image), paths(&volume()));
    // Not with a name that is taken or bad, another parent, number or type, nor if free.
    let freed = [(0, 3), (of(4, 0), 5), (of(5, 0), 5), (of(6, 0), 5), (of(7, 0), 5)];
    for (place, byte) in [
        (slot::NAME, b'B'),
        (slot::NAME, 0),
        (slot::NAME, b'/'),
        (SLOT - 1, 1),
        (slot::SELF_PARENT + 3, 4),
        (slot::SELF_BLOCK + 3, 5),
        (slot::TYPE, 2),
    ] {
        let image = with(&freed, (0, 4), |i| {
            zero(i, 1);
            i[at(4, 0) + place] = byte;
        });
        assert_eq!(paths(&image), ["/B", "/c", "/c/d", "/c/d/E"]);
    }
    let image =
        with(&freed[..1].iter().chain(&freed[2..]).copied().collect::<Vec<_>>(), (0, 3), |i| {
            zero(i, 1);
            set_entry(i, 4, 0);
        });
    assert_eq!(image[at(4, 0)], 0x01);
    // Not if the root is full.
    let full = with(&freed, (0, 4), |i| {
        zero(i, 1);
        for (k, slot) in [(2, 1), (3, 0), (3, 1), (3, 2)] {
            i[at(k, slot)] = 0x60;
            i[at(k, slot) + slot::NAME] = b'0' + (4 * k + slot) as u8;
        }
    });
    assert_eq!(entries(&full, 2).len(), 6);
    // Two of one name: the first.
    let codes = [(0, 3), (of(2, 1), 6), (of(10, 0), 5), (of(11, 0), 5), (of(12, 0), 5)];
    let image = with(&codes, (0, 3), |i| {
        zero(i, 1);
        zero(i, 3);
        i[at(10, 0) + slot::NAME] = b'a';
    });
    assert_eq!(paths(&image), ["/a", "/B", "/a/A"]);
    // Choice 3 needs an entry, which a lost directory does not have.
    let codes = [
        (0, 3),
        (of(2, 1), 6),
        (of(4, 0), 3),
        (of(13, 0), 1),
        (of(13, 1), 1),
        (of(13, 2), 1),
        (of(13, 3), 3),
    ];
    with(&codes, (3, 0), |i| {
        zero(i, 1);
        i[at(5, 3)] = 0;
        set_entry(i, 5, 13);
    });
}

#[test]
fn the_ninth_level() {
    let mut state = fresh(24, 1);
    let mut path = Vec::new();
    for level in 1..=8 {
        path.extend(format!("/{level}").into_bytes());
        state = after(&state, &create_directory(&path, 1));
    }
    let mut image = state.image;
    // The eighth is block 10; a ninth, in order itself, in block 11.
    image.copy_within(at(9, 1)..at(9, 2), at(10, 1));
    image.copy_within(10 * BLOCK..10 * BLOCK + SLOT, 11 * BLOCK);
    image[at(11, 3)] = 0xFF;
    put_number(&mut image, at(10, 1) + slot::FIRST, 11);
    put_number(&mut image, at(11, 0) + slot::SELF_BLOCK, 11);
    put_number(&mut image, at(11, 0) + slot::SELF_PARENT, 10);
    set_entry(&mut image, 11, 1);
    let (after, codes) = salvaged(&image);
    assert_eq!(codes, [(of(10, 1), 2), (of(11, 0), 5)]);
    assert_eq!((after.dropped, after.freed), (1, 1));
}

#[test]
fn at_most_64_blocks() {
    let mut image = formatted(80, 1).unwrap();
    link(&mut image, &(2..72).collect::<Vec<_>>());
    for d in [0, 65, 70, u32::MAX] {
        put_number(&mut image, at(2, 0) + slot::BLOCKS, d);
        let after = salvaged(&image).0.image;
        assert_eq!(number(&after, at(2, 0) + slot::BLOCKS), 64);
        assert_eq!([64, 65, 66, 71].map(|b| entry(&after, b)), [65, 1, 0, 0]);
    }
}

#[test]
fn refused() {
    let good = volume();
    let number_of =
        |image: &[u8], len: usize| salvage_tree(image, &vec![7; len]).err().unwrap_or(0);
    for len in [0, 511, 1024, 1535, 24 * 512 - 1, 24 * 512 + 1] {
        assert_eq!(
            number_of(&good[..len.min(good.len())], 96),
            if len > good.len() { 0 } else { 1 }
        );
    }
    assert_eq!(number_of(&vec![0; 512 * 65_537], 262_148), 1);
    // Cut, and longer.
    let longer = [&good[..], &[0; 512]].concat();
    for (image, len) in [(&good[..512 * 23], 92), (&good[..512 * 3], 12), (&longer, 100)] {
        assert_eq!(number_of(image, len), 3);
        assert_eq!(number_of(image, 0), 3);
        // A header that is not whole says nothing of the length.
        for byte in [0, 11, header::TOTAL, header::TABLE_BLOCKS + 3, header::ROOT + 3] {
            let mut image = image.to_vec();
            image[byte] ^= 0x80;
            assert_eq!((number_of(&image, len), number_of(&image, len - 1)), (0, 9));
        }
    }
    for (m, refused) in [(2, 0), (3, 3), (24, 0), (65_536, 3), (65_537, 0)] {
        let mut image = good.clone();
        put_number(&mut image, header::TOTAL, m as u32);
        put_number(&mut image, header::TABLE_BLOCKS, table_blocks(m) as u32);
        put_number(&mut image, header::ROOT, root_block(m) as u32);
        assert_eq!(number_of(&image, 96), refused);
    }
    for (len, refused) in [(0, 9), (95, 9), (96, 0), (97, 0)] {
        assert_eq!(number_of(&good, len), refused);
    }
}

#[test]
fn as_the_first_salvage() {
    // A volume without directories: the same image, and the codes of the root.
    let mut state = fresh(16, 1);
    for path in [b"/A", b"/B"] {
        state = after(&state, &create(path));
        state = after(&state, &write(path, 0, &[path[1]; 600]));
    }
    for (b, value) in [(3, 3), (4, 0), (5, 4), (6, 9), (7, 1)] {
        let mut image = state.image.clone();
        set_entry(&mut image, b, value);
        let flat = salvage(&image, &[7; 4]).unwrap();
        let (tree, _) = salvaged(&image);
        assert_eq!(tree.image, flat.image);
        assert_eq!(tree.report[8..12], flat.report[..4]);
    }
}
