//! Salvage: cases worked out by hand from the rules.

use reference::layout::*;
use reference::worked::*;
use reference::*;

/// n = 16, d = 2: slots 1 to 6, the end is slot 7.
///
/// | slot | file | blocks | attributes |
/// |---|---|---|---|
/// | 1 | A, 513 bytes | 4, 5 | |
/// | 2 | B, 600 bytes | 6, 7 | 8, 9 |
/// | 3 | C, empty | | |
/// | 4 | D, 10 bytes | 10 | 11 |
///
/// Blocks 12 to 15 are free, and hold bytes all the same.
fn volume() -> Vec<u8> {
    let mut state = fresh(16, 2);
    for (path, size) in [(b"/A", 513), (b"/B", 600), (b"/C", 0), (b"/D", 10)] {
        state = apply(&state, &create(path)).unwrap().state;
        state = apply(&state, &write(path, 0, &vec![path[1]; size])).unwrap().state;
        let attributes = match path {
            b"/B" => vec![b'b'; 1024],
            b"/D" => vec![b'd'; 512],
            _ => continue,
        };
        state = apply(&state, &set_attributes(path, &attributes)).unwrap().state;
    }
    let mut image = state.image;
    for b in 12..16 {
        image[b * BLOCK..(b + 1) * BLOCK].fill(b as u8);
    }
    let values = (0..16).map(|b| entry(&image, b)).collect::<Vec<_>>();
    assert_eq!(values, [1, 1, 3, 1, 5, 1, 7, 1, 9, 1, 1, 1, 0, 0, 0, 0]);
    assert_eq!(check(&image), 0);
    image
}

/// The offset of a slot of that volume.
fn at(slot: usize) -> usize {
    2 * BLOCK + slot * SLOT
}

fn put(image: &mut [u8], at: usize, bytes: &[u8]) {
    image[at..at + bytes.len()].copy_from_slice(bytes);
}

/// The same entry with another name in another slot.
fn copy_entry(image: &mut [u8], from: usize, to: usize, name: &[u8]) {
    image.copy_within(at(from)..at(from) + SLOT, at(to));
    put(image, at(to) + slot::NAME, &name_field(name));
}

/// The image afterwards and the codes, which are what is left of a report of
/// 0xEE bytes. Whatever comes in, the result is sound and a second salvage
/// changes nothing.
fn salvaged(image: &[u8]) -> (Vec<u8>, Vec<u8>) {
    let after = salvage(image, &[0xEE; 300]).unwrap();
    assert_eq!(after.report.len(), 300);
    let d = number(image, root_block(block_count(image)) * BLOCK + slot::BLOCKS) as usize;
    let (codes, rest) = after.report.split_at(4 * d);
    assert!(rest.iter().all(|&b| b == 0xEE));
    assert_eq!(check(&after.image), 0);
    let again = salvage(&after.image, &[0xEE; 300]).unwrap();
    assert_eq!(again.image, after.image);
    assert_eq!(again.report[..4 * d], vec![0; 4 * d]);
    (after.image, codes.to_vec())
}

/// What a salvage of the volume leaves that was damaged so. Files whose code is
/// 0 have the bytes and attributes that the damaged image gives them.
fn after(codes: [u8; 8], damage: impl FnOnce(&mut Vec<u8>)) -> Vec<u8> {
    let mut damaged = volume();
    damage(&mut damaged);
    let (image, got) = salvaged(&damaged);
    assert_eq!(got, codes);
    for slot in (1..7).filter(|&slot| codes[slot] == 0 && damaged[at(slot)] != 0) {
        assert_eq!(image[at(slot)..at(slot + 1)], damaged[at(slot)..at(slot + 1)]);
        let file = Entry::read(&damaged, slot, at(slot));
        let path = [b"/", &file.name[..]].concat();
        let own = bytes_of(&damaged, &file.chain(&damaged));
        assert_eq!(read(&image, &path, 0, 9999).unwrap(), own[..file.size as usize]);
        let attributes = bytes_of(&damaged, &file.attributes(&damaged));
        assert_eq!(read_attributes(&image, &path, 9999).unwrap(), attributes);
    }
    image
}

fn bytes_of(image: &[u8], blocks: &[usize]) -> Vec<u8> {
    blocks.iter().flat_map(|&b| block(image, b)).copied().collect()
}

fn values(image: &[u8], blocks: std::ops::Range<usize>) -> Vec<u32> {
    blocks.map(|b| entry(image, b)).collect()
}

fn block(image: &[u8], b: usize) -> &[u8] {
    &image[b * BLOCK..(b + 1) * BLOCK]
}

fn is_blank(image: &[u8], b: usize) -> bool {
    block(image, b).iter().all(|&byte| byte == 0)
}

fn counts(image: &[u8]) -> (u32, u32) {
    (number(image, header::OCCUPIED), number(image, header::FREE))
}

fn number_of(image: &[u8], report: usize) -> u32 {
    salvage(image, &vec![7; report]).err().unwrap_or(0)
}

#[test]
fn a_sound_image_stays() {
    assert_eq!(salvaged(&volume()), (volume(), vec![0; 8]));
    for (n, d) in [(3, 1), (16, 2), (66, 64), (129, 1), (300, 5)] {
        let image = formatted(n, d).unwrap();
        assert_eq!(salvaged(&image), (image, vec![0; 4 * d as usize]));
    }
    // Bytes that the check does not look at stay too.
    let mut image = volume();
    put(&mut image, 32, &[9; 480]);
    put(&mut image, at(0) + 16, &[8; 112]);
    put(&mut image, at(1) + 44, &[7; 4]);
    put(&mut image, at(5) + 1, &[6; 127]);
    put(&mut image, at(7) + 1, &[5; 127]);
    assert_eq!(salvaged(&image), (image, vec![0; 8]));
}

#[test]
fn the_numbers_of_the_rules() {
    let created = apply(&fresh(16, 2), &create(b"/A")).unwrap().state;
    let right = apply(&created, &write(b"/A", 0, &[b'x'; 513])).unwrap().state.image;
    let with = |b: usize, value: u32| {
        let mut image = right.clone();
        set_entry(&mut image, b, value);
        salvaged(&image)
    };
    assert_eq!(with(5, 0), (right.clone(), vec![0, 3, 0, 0, 0, 0, 0, 0]));
    for (value, first) in [(0, b'x'), (4, 0)] {
        let (image, codes) = with(4, value);
        assert_eq!(codes, [0, 2, 0, 0, 0, 0, 0, 0]);
        assert_eq!(image[at(1)..at(2)], [0; SLOT]);
        assert_eq!((values(&image, 4..6), counts(&image)), (vec![0, 0], (4, 12)));
        assert_eq!(block(&image, 4), [first; 512]);
        assert!(is_blank(&image, 5));
    }
    let mut image = right.clone();
    image[at(7)] = 0x20;
    assert_eq!(salvaged(&image), (right.clone(), vec![0, 0, 0, 0, 0, 0, 0, 3]));
    image[at(1)] = 0x20;
    assert_eq!(number_of(&image, 8), 5);
}

#[test]
fn the_report() {
    let mut image = volume();
    image[at(3)] = 0xA0;
    let mut codes = vec![0, 0, 0, 1, 0, 0, 0, 0];
    assert_eq!(salvage(&image, &[7; 8]).unwrap().report, codes);
    codes.extend([7, 7, 7]);
    assert_eq!(salvage(&image, &[7; 11]).unwrap().report, codes);
    // The largest root has 256 slots.
    let mut image = formatted(80, 64).unwrap();
    let last = slot_offsets(&image, 2)[255];
    image[last] = 0;
    let report = salvage(&image, &[7; 257]).unwrap().report;
    assert_eq!(report[..255], [0; 255]);
    assert_eq!(report[255..], [3, 7]);
    assert_eq!(number_of(&image, 255), 9);
}

/// Slot 1 is zeros and its blocks are free and blank.
fn without_a(image: &[u8]) {
    assert_eq!(image[at(1)..at(2)], [0; SLOT]);
    assert_eq!(values(image, 4..6), [0, 0]);
    assert!(is_blank(image, 4) && is_blank(image, 5));
    assert_eq!(counts(image), (10, 6));
    assert_eq!(read(image, b"/A", 0, 9), Err(10));
}

#[test]
fn entries_that_break_stage_5() {
    for kind in [0x01, 0x02, 0x1F, 0xA0, 0xFE, 0xFF] {
        without_a(&after([0, 1, 0, 0, 0, 0, 0, 0], |image| image[at(1)] = kind));
    }
    let name = at(1) + slot::NAME;
    for (place, bytes) in [
        (name, &[0][..]),
        (name, b"/"),
        (name, b"A/B"),
        (name + 2, b"x"),
        (name + 79, b"x"),
        (at(1) + slot::SIZE, &[0, 0, 2, 0]),
        (at(1) + slot::SIZE, &[0, 0, 4, 1]),
        (at(1) + slot::SIZE, &[255; 4]),
        (at(1) + slot::BLOCKS, &[0; 4]),
        (at(1) + slot::BLOCKS, &[255; 4]),
        (at(1) + slot::FIRST, &[0; 4]),
        (at(1) + slot::ATTRIBUTE_BLOCK, &[0, 0, 0, 12]),
        (at(1) + slot::ATTRIBUTE_SIZE, &[0, 0, 0, 1]),
        (at(1) + slot::ATTRIBUTE_BLOCK, &[0, 0, 0, 12, 0, 0, 0, 9]),
        (at(1) + slot::ATTRIBUTE_BLOCK, &[0, 0, 0, 12, 1, 0, 0, 1]),
    ] {
        without_a(&after([0, 1, 0, 0, 0, 0, 0, 0], |image| put(image, place, bytes)));
    }
    // An empty file with a first block; attribute fields that do not fit one another.
    let image = after([0, 0, 0, 1, 0, 0, 0, 0], |image| image[at(3) + 7] = 12);
    assert_eq!((image[at(3)], counts(&image)), (0, (12, 4)));
    for field in [slot::ATTRIBUTE_BLOCK, slot::ATTRIBUTE_SIZE] {
        let image = after([0, 0, 0, 0, 1, 0, 0, 0], |image| image[at(4) + field + 3] = 0);
        assert_eq!((values(&image, 10..12), counts(&image)), (vec![0, 0], (10, 6)));
        assert!(is_blank(&image, 10) && is_blank(&image, 11));
    }
    // A free slot is left as it is, whatever it holds.
    let image = after([0; 8], |image| put(image, at(5) + 1, &[0xDD; 127]));
    assert_eq!(image[at(5) + 1..at(6)], [0xDD; 127]);
    // 80 bytes are a name.
    let image = after([0; 8], |image| put(image, at(3) + slot::NAME, &[b'n'; 80]));
    assert_eq!(lookup(&image, &[b"/", &[b'n'; 80][..]].concat()).unwrap().slot, 3);
}

#[test]
fn equal_names() {
    // The later one goes.
    let rename = |image: &mut Vec<u8>| put(image, at(4) + slot::NAME, b"A");
    let image = after([0, 0, 0, 0, 1, 0, 0, 0], rename);
    assert_eq!(values(&image, 10..12), [0, 0]);
    // Three of them: the first stays.
    after([0, 0, 0, 1, 1, 0, 0, 0], |image| {
        put(image, at(4) + slot::NAME, b"B");
        put(image, at(3) + slot::NAME, b"B");
    });
    // "A" is not kept for its entry or for its chain, and so the later one is.
    let image = after([0, 1, 0, 0, 0, 0, 0, 0], |image| {
        rename(image);
        put(image, at(1) + slot::BLOCKS, &[0; 4]);
    });
    assert_eq!(lookup(&image, b"/A").unwrap().slot, 4);
    let image = after([0, 2, 0, 0, 0, 0, 0, 0], |image| {
        rename(image);
        set_entry(image, 4, 16);
    });
    assert_eq!(read(&image, b"/A", 0, 100).unwrap(), [b'D'; 10]);
    // A name in a free slot, in the self entry or the end is none.
    after([0; 8], |image| {
        put(image, at(0) + slot::NAME, b"A");
        put(image, at(5) + slot::NAME, b"A");
        put(image, at(7) + slot::NAME, b"A");
    });
    // A name that only begins alike is another.
    after([0; 8], |image| put(image, at(3) + slot::NAME, b"AA"));
}

#[test]
fn chains_that_cannot_be_walked() {
    let gone = [0, 2, 0, 0, 0, 0, 0, 0];
    // The first block: of the header and table, past the end, of the root.
    for first in [1, 2, 3, 16, 17, 127, 128, 65_536, u32::MAX] {
        without_a(&after(gone, |image| put_number(image, at(1) + slot::FIRST, first)));
    }
    // The second: used and last, which is no block; itself; the root's; past the end.
    for second in [1, 4, 2, 3, 16, u32::MAX] {
        without_a(&after(gone, |image| set_entry(image, 4, second)));
    }
    // A longer file: the walk comes to the value 1.
    without_a(&after(gone, |image| {
        put_number(image, at(1) + slot::SIZE, 1025);
        put_number(image, at(1) + slot::BLOCKS, 3);
    }));
    // A loop is left after the two blocks that it has, however long the file.
    for size in [1025, 512 * 65_536, u32::MAX] {
        without_a(&after(gone, |image| {
            set_entry(image, 5, 4);
            put_number(image, at(1) + slot::SIZE, size);
            put_number(image, at(1) + slot::BLOCKS, size.div_ceil(512));
        }));
    }
    // A file that goes takes its attributes with it. The value 0 is no block either.
    let image = after([0, 0, 2, 0, 0, 0, 0, 0], |image| set_entry(image, 6, 0));
    assert_eq!(values(&image, 6..10), [0; 4]);
    // Block 6 had the entry 0 and so was free before: it keeps its bytes.
    assert_eq!(block(&image, 6), [b'B'; 512]);
    assert!((7..10).all(|b| is_blank(&image, b)));
    assert_eq!(counts(&image), (8, 8));
}

#[test]
fn blocks_that_an_earlier_file_claims() {
    // On A's chain, on its last block, on its first; then with A's end for its own.
    for (first, size) in [(4, 513), (5, 9), (4, 9)] {
        after([0, 0, 0, 0, 0, 2, 0, 0], |image| {
            copy_entry(image, 1, 5, b"E");
            put_number(image, at(5) + slot::FIRST, first);
            put_number(image, at(5) + slot::SIZE, size);
            put_number(image, at(5) + slot::BLOCKS, size.div_ceil(512));
        });
    }
    let image = after([0, 0, 2, 0, 0, 0, 0, 0], |image| set_entry(image, 6, 5));
    assert_eq!(values(&image, 4..12), [5, 1, 0, 0, 0, 0, 1, 1]);
    // On an earlier file's attributes.
    after([0, 0, 0, 0, 2, 0, 0, 0], |image| put_number(image, at(4) + slot::FIRST, 8));
    // The earlier one is not kept: the later one has the blocks, with their end.
    let image = after([0, 1, 0, 0, 0, 0, 0, 0], |image| {
        copy_entry(image, 1, 5, b"E");
        image[at(1)] = 0xFF;
    });
    assert_eq!(read(&image, b"/E", 0, 1000).unwrap(), [b'A'; 513]);
    let image = after([0, 2, 0, 0, 0, 0, 0, 0], |image| {
        copy_entry(image, 1, 5, b"E");
        put_number(image, at(1) + slot::SIZE, 1025);
        put_number(image, at(1) + slot::BLOCKS, 3);
    });
    assert_eq!(read(&image, b"/E", 0, 1000).unwrap(), [b'A'; 513]);
    assert_eq!(values(&image, 4..6), [5, 1]);
}

#[test]
fn last_values() {
    let right = [0, 3, 0, 0, 0, 0, 0, 0];
    // 0 too: the block is claimed all the same, and keeps its bytes.
    for last in [0, 2, 3, 4, 5, 6, 12, 16, 0x0100_0001, u32::MAX] {
        let image = after(right, |image| set_entry(image, 5, last));
        assert_eq!(image, volume());
    }
    // A chain that goes on: what is behind the file's end is freed.
    let image = after(right, |image| {
        link(image, &[4, 5, 12, 13]);
        set_entry(image, 14, 1);
    });
    assert_eq!(values(&image, 4..16), [5, 1, 7, 1, 9, 1, 1, 1, 0, 0, 0, 0]);
    assert!((12..15).all(|b| is_blank(&image, b)));
    assert_eq!(block(&image, 15), [15; 512]);
    assert_eq!(counts(&image), (12, 4));
    // A shorter file.
    let image = after(right, |image| {
        put_number(image, at(1) + slot::SIZE, 512);
        put_number(image, at(1) + slot::BLOCKS, 1);
    });
    assert_eq!((values(&image, 4..6), is_blank(&image, 5)), (vec![1, 0], true));
    assert_eq!(read(&image, b"/A", 0, 1000).unwrap(), [b'A'; 512]);
    // The last block had the entry 0, and no other file.
    let image = after(right, |image| {
        set_entry(image, 4, 15);
        put_number(image, at(1) + slot::SIZE, 1024);
    });
    assert_eq!((entry(&image, 4), entry(&image, 15), entry(&image, 5)), (15, 1, 0));
    assert_eq!(read(&image, b"/A", 512, 1000).unwrap(), [15; 512]);
    assert!(is_blank(&image, 5));
    // Attributes.
    for last in [0, 8, 9, 7, 12, 16, u32::MAX] {
        let image = after([0, 0, 3, 0, 0, 0, 0, 0], |image| set_entry(image, 9, last));
        assert_eq!(image, volume());
    }
    // Both chains of a file.
    let image = after([0, 0, 3, 0, 0, 0, 0, 0], |image| {
        set_entry(image, 7, 0);
        set_entry(image, 9, 0);
    });
    assert_eq!(image, volume());
    // The value of a later file is read after the earlier one has set it: D's is 1 again.
    let image = after([0, 3, 0, 0, 2, 0, 0, 0], |image| {
        put_number(image, at(1) + slot::FIRST, 10);
        put_number(image, at(1) + slot::SIZE, 9);
        put_number(image, at(1) + slot::BLOCKS, 1);
        set_entry(image, 10, 11);
    });
    assert_eq!(values(&image, 4..12), [0, 0, 7, 1, 9, 1, 1, 0]);
}

#[test]
fn attributes_that_cannot_be_walked() {
    let cleared = [0, 0, 4, 0, 0, 0, 0, 0];
    // Of the table, past the end, of the root, of the file itself, of an earlier one.
    for first in [1, 2, 3, 16, 65_536, u32::MAX, 6, 7, 4, 5] {
        let image = after(cleared, |image| put_number(image, at(2) + slot::ATTRIBUTE_BLOCK, first));
        let mut expected = volume();
        expected[at(2) + 32..at(2) + 40].fill(0);
        set_entry(&mut expected, 8, 0);
        set_entry(&mut expected, 9, 0);
        expected[8 * BLOCK..10 * BLOCK].fill(0);
        put_number(&mut expected, header::OCCUPIED, 10);
        put_number(&mut expected, header::FREE, 6);
        assert_eq!(image, expected);
        assert_eq!(read(&image, b"/B", 0, 1000).unwrap(), [b'B'; 600]);
        assert_eq!(read_attributes(&image, b"/B", 1000).unwrap(), []);
    }
    // The second block of them.
    for second in [1, 8, 6, 2, 16, u32::MAX] {
        let image = after(cleared, |image| set_entry(image, 8, second));
        assert_eq!(values(&image, 6..10), [7, 1, 0, 0]);
        assert!(is_blank(&image, 8) && is_blank(&image, 9));
    }
    // Block 8 was free before.
    let image = after(cleared, |image| set_entry(image, 8, 0));
    assert_eq!(block(&image, 8), [b'b'; 512]);
    assert!(is_blank(&image, 9));
    // Eight blocks in a loop of two.
    after(cleared, |image| {
        set_entry(image, 9, 8);
        put_number(image, at(2) + slot::ATTRIBUTE_SIZE, 8);
    });
    // Of a file without blocks.
    let image = after([0, 0, 0, 4, 0, 0, 0, 0], |image| {
        put_number(image, at(3) + slot::ATTRIBUTE_BLOCK, 2);
        put_number(image, at(3) + slot::ATTRIBUTE_SIZE, 1);
    });
    assert_eq!(image, volume());
    // What they had is not claimed: a later file may have it.
    let image = after([0, 0, 4, 0, 3, 0, 0, 0], |image| {
        set_entry(image, 9, 7);
        put_number(image, at(2) + slot::ATTRIBUTE_SIZE, 3);
        put_number(image, at(4) + slot::ATTRIBUTE_BLOCK, 8);
    });
    assert_eq!(number(&image, at(4) + slot::ATTRIBUTE_BLOCK), 8);
    assert_eq!(values(&image, 8..12), [1, 0, 1, 0]);
}

#[test]
fn code_4_stands_over_code_3() {
    let image = after([0, 0, 4, 0, 0, 0, 0, 0], |image| {
        set_entry(image, 7, 12);
        set_entry(image, 8, 6);
    });
    assert_eq!(values(&image, 6..10), [7, 1, 0, 0]);
    assert_eq!(number(&image, at(2) + slot::ATTRIBUTE_BLOCK), 0);
    assert_eq!(read(&image, b"/B", 0, 1000).unwrap(), [b'B'; 600]);
    // The file goes on into its attributes: its own last value is 3, they are right.
    let image = after([0, 0, 3, 0, 0, 0, 0, 0], |image| set_entry(image, 7, 8));
    assert_eq!(image, volume());
}

#[test]
fn the_end_slot() {
    for kind in [0x00, 0x01, 0x20, 0x5F, 0x60, 0xFE] {
        // Also the type of a directory is no 5 there.
        let image = after([0, 0, 0, 0, 0, 0, 0, 3], |image| image[at(7)] = kind);
        assert_eq!(image, volume());
    }
    let image = after([0, 0, 0, 0, 0, 0, 0, 3], |image| put(image, at(7), &[0x60; 128]));
    assert_eq!((image[at(7)], &image[at(7) + 1..at(8)]), (0xFF, &[0x60; 127][..]));
}

#[test]
fn the_rest_of_the_table_and_the_counts() {
    // None of it has a code.
    for b in [0, 1] {
        for value in [0, 2, 0x0100_0001, u32::MAX] {
            assert_eq!(after([0; 8], |image| set_entry(image, b, value)), volume());
        }
    }
    for b in [16, 100, 127] {
        assert_eq!(after([0; 8], |image| set_entry(image, b, 1)), volume());
    }
    for field in [header::OCCUPIED, header::FREE] {
        assert_eq!(after([0; 8], |image| put_number(image, field, 99)), volume());
    }
    // A block that nobody has: its entry goes, and it becomes blank; others that are free stay.
    for value in [1, 12, 4, u32::MAX] {
        let image = after([0; 8], |image| set_entry(image, 13, value));
        let mut expected = volume();
        expected[13 * BLOCK..14 * BLOCK].fill(0);
        assert_eq!(image, expected);
    }
}

#[test]
fn several_table_blocks() {
    // n = 300: t = 3, the root is block 4, the table has entries up to 383.
    let mut image = formatted(300, 1).unwrap();
    let file = 4 * BLOCK + SLOT;
    image[file] = 0x60;
    image[file + slot::NAME] = b'A';
    put_number(&mut image, file + slot::FIRST, 5);
    put_number(&mut image, file + slot::SIZE, 4 * 512);
    put_number(&mut image, file + slot::BLOCKS, 4);
    link(&mut image, &[5, 128, 299, 127]);
    image[299 * BLOCK] = b'x';
    put_number(&mut image, header::OCCUPIED, 9);
    put_number(&mut image, header::FREE, 291);
    assert_eq!(salvaged(&image), (image.clone(), vec![0; 4]));
    let right = image.clone();
    for (b, value) in [(0, 0), (3, 0), (300, 1), (383, u32::MAX)] {
        set_entry(&mut image, b, value);
    }
    set_entry(&mut image, 127, 300);
    assert_eq!(salvaged(&image), (right.clone(), vec![0, 3, 0, 0]));
    // A block outside: the number of the padding's first entry, which has a value.
    set_entry(&mut image, 299, 300);
    set_entry(&mut image, 300, 1);
    let (image, codes) = salvaged(&image);
    assert_eq!(codes, [0, 2, 0, 0]);
    assert_eq!(image, formatted(300, 1).unwrap());
}

#[test]
fn refused() {
    let good = volume();
    let spoilt = |place: usize, bytes: &[u8]| {
        let mut image = good.clone();
        put(&mut image, place, bytes);
        image
    };
    assert_eq!(number_of(&[], 8), 1);
    assert_eq!(number_of(&good[..1024], 8), 1);
    assert_eq!(number_of(&good[..good.len() - 1], 8), 1);
    assert_eq!(number_of(&vec![0; 512 * 65_537], 8), 1);
    assert_eq!(number_of(&spoilt(0, b"b"), 8), 2);
    assert_eq!(number_of(&spoilt(11, &[1]), 8), 2);
    for field in [header::TOTAL, header::TABLE_BLOCKS, header::ROOT] {
        assert_eq!(number_of(&spoilt(field + 3, &[200]), 8), 3);
    }
    // The root's stage 4.
    for (place, bytes) in [
        (at(0), &[0][..]),
        (at(0) + 7, &[3]),
        (at(0) + 11, &[3]),
        (at(0) + 15, &[1]),
        (at(0) + 15, &[3]),
        (at(0) + 12, &[0; 4]),
        (at(0) + 15, &[65]),
        (BLOCK + 4 * 2, &[0, 0, 0, 1]),
        (BLOCK + 4 * 3, &[0, 0, 0, 0]),
        (BLOCK + 4 * 3, &[0, 0, 0, 2]),
    ] {
        assert_eq!(number_of(&spoilt(place, bytes), 8), 4);
    }
    // A directory in a slot from 1 to 4d - 2, whatever else it is.
    for kind in [0x20, 0x3A, 0x5F] {
        for slot in 1..7 {
            assert_eq!(number_of(&spoilt(at(slot), &[kind]), 8), 5);
        }
        assert_eq!(number_of(&spoilt(at(7), &[kind]), 8), 0);
    }
    for kind in [0x1F, 0x60] {
        assert_eq!(number_of(&spoilt(at(1), &[kind]), 8), 0);
    }
    // A sound volume with a folder.
    let folder = apply(&fresh(16, 2), &create_directory(b"/d", 1)).unwrap().state.image;
    assert_eq!((check(&folder), number_of(&folder, 8)), (0, 5));
    for (report, expected) in [(0, 9), (1, 9), (7, 9), (8, 0), (9, 0), (256, 0)] {
        assert_eq!(number_of(&good, report), expected);
    }
}

#[test]
fn the_first_refusal_is_given() {
    // Each fault is put over those after it.
    let mut image = volume();
    assert_eq!(number_of(&image, 7), 9);
    image[at(6)] = 0x20;
    assert_eq!(number_of(&image, 7), 5);
    image[at(0)] = 0x02;
    assert_eq!(number_of(&image, 7), 4);
    image[header::TOTAL] = 1;
    assert_eq!(number_of(&image, 7), 3);
    image[header::VERSION] = 1;
    assert_eq!(number_of(&image, 7), 2);
    image.pop();
    assert_eq!(number_of(&image, 7), 1);
    // What salvage can put right is no reason to refuse.
    let mut image = volume();
    image[at(7)] = 0;
    image[at(1)] = 0x01;
    set_entry(&mut image, 6, 99);
    put_number(&mut image, header::FREE, 99);
    assert_eq!((check(&image), number_of(&image, 8), number_of(&image, 7)), (5, 0, 9));
}

#[test]
fn everything_at_once() {
    let damage = |image: &mut Vec<u8>| {
        image[at(1)] = 0x01;
        set_entry(image, 7, 0);
        set_entry(image, 9, 8);
        put_number(image, at(2) + slot::ATTRIBUTE_SIZE, 3);
        put_number(image, at(4) + slot::FIRST, 6);
        copy_entry(image, 3, 5, b"C");
        copy_entry(image, 1, 6, b"F");
        image[at(6)] = 0x61;
        set_entry(image, 5, 12);
        image[at(7)] = 0x60;
        set_entry(image, 0, 0);
        set_entry(image, 1, 9);
        set_entry(image, 13, 1);
        set_entry(image, 20, 1);
        put_number(image, header::OCCUPIED, 0);
    };
    let image = after([0, 1, 4, 0, 2, 1, 3, 3], damage);
    // B without attributes, C, and F, which has A's blocks.
    assert_eq!(list(&image), b"blocks 16 used 8 free 8\n2 600 2 B\n3 0 0 C\n6 513 2 F\n");
    assert_eq!(values(&image, 0..16), [1, 1, 3, 1, 5, 1, 7, 1, 0, 0, 0, 0, 0, 0, 0, 0]);
    assert_eq!(read(&image, b"/F", 0, 1000).unwrap(), [b'A'; 513]);
    assert!([8, 9, 10, 11, 13].into_iter().all(|b| is_blank(&image, b)));
    for b in [12, 14, 15] {
        assert_eq!(block(&image, b), [b as u8; 512]);
    }
}
