//! Attributes: numbers worked out by hand from the rules.

use reference::layout::*;
use reference::worked::*;
use reference::*;

fn after(state: &State, change: &Change) -> State {
    apply(state, change).unwrap().state
}

fn number_of(state: &State, change: &Change) -> u32 {
    apply(state, change).err().unwrap_or(0)
}

fn used(state: &State) -> u32 {
    number(&state.journal, 1)
}

/// The blocks that the last record names, if it is of this length.
fn named(state: &State, record: u32) -> Vec<u32> {
    let at = (used(state) - record) as usize;
    assert_eq!(number(&state.journal, at), record);
    (0..record as usize / 516).map(|i| number(&state.journal, at + 4 + 516 * i)).collect()
}

/// The two attribute fields of the root's first slot.
fn fields(image: &[u8]) -> (u32, u32) {
    let at = 2 * BLOCK + SLOT;
    (number(image, at + slot::ATTRIBUTE_BLOCK), number(image, at + slot::ATTRIBUTE_SIZE))
}

/// n = 16, d = 2, then "/A" with 513 bytes in blocks 4 and 5.
fn with_513_bytes() -> State {
    let created = after(&fresh(16, 2), &create(b"/A"));
    after(&created, &write(b"/A", 0, &[b'x'; 513]))
}

/// The same with 512 bytes of attributes, in block 6.
fn with_attributes() -> State {
    after(&with_513_bytes(), &set_attributes(b"/A", &[b'p'; 512]))
}

/// What the check says of an image with some bytes put over it.
fn spoilt(image: &[u8], at: usize, bytes: &[u8]) -> u32 {
    let mut image = image.to_vec();
    image[at..at + bytes.len()].copy_from_slice(bytes);
    check(&image)
}

#[test]
fn a_set_of_512_bytes() {
    let before = with_513_bytes();
    let set = apply(&before, &set_attributes(b"/A", &[b'p'; 512])).unwrap();
    let image = &set.state.image;
    // Blocks 0 (counts), 1 (table), 2 (root), 6 (the attributes).
    assert_eq!((set.slot, set.record, used(&set.state)), (0, 2068, 5177));
    assert_eq!(named(&set.state, 2068), [0, 1, 2, 6]);
    assert_eq!(check(image), 0);
    assert_eq!([4, 5, 6, 7].map(|b| entry(image, b)), [5, 1, 1, 0]);
    assert_eq!((number(image, header::OCCUPIED), number(image, header::FREE)), (7, 9));
    assert_eq!(fields(image), (6, 1));
    assert_eq!(image[6 * BLOCK..7 * BLOCK], [b'p'; 512]);
    // Nothing else of the slot changes, and the file neither.
    let at = 2 * BLOCK + SLOT;
    assert_eq!(image[at..at + 32], before.image[at..at + 32]);
    assert_eq!(image[at + 40..at + 128], before.image[at + 40..at + 128]);
    assert_eq!(read(image, b"/A", 0, 1000).unwrap(), vec![b'x'; 513]);
    assert_eq!(list(image), b"blocks 16 used 7 free 9\n1 513 2 A\n");
    assert_eq!(undo(&set.state).unwrap().state, before);
}

#[test]
fn a_set_over_a_set() {
    // Block 6 counts as free: the two blocks are 6 and 7.
    let before = with_attributes();
    let data = [[b'q'; 512], [b'r'; 512]].concat();
    let set = apply(&before, &set_attributes(b"/A", &data)).unwrap();
    assert_eq!((set.record, used(&set.state)), (2584, 7761));
    assert_eq!(named(&set.state, 2584), [0, 1, 2, 6, 7]);
    let image = &set.state.image;
    assert_eq!([6, 7].map(|b| entry(image, b)), [7, 1]);
    assert_eq!((fields(image), number(image, header::OCCUPIED)), ((6, 2), 8));
    assert_eq!(image[6 * BLOCK..8 * BLOCK], data);
    // Back to one block: 7 is freed, and blank.
    let short = apply(&set.state, &set_attributes(b"/A", &[b's'; 512])).unwrap();
    assert_eq!((short.record, fields(&short.state.image)), (2584, (6, 1)));
    assert_eq!(named(&short.state, 2584), [0, 1, 2, 6, 7]);
    assert_eq!(short.state.image[7 * BLOCK..8 * BLOCK], [0; 512]);
    assert_eq!(undo(&short.state).unwrap().state, set.state);
}

#[test]
fn lowest_blocks_first() {
    // "/B" takes block 7 and "/A" is deleted: 4, 5 and 6 are free.
    let state = after(&with_attributes(), &create(b"/B"));
    let state = after(&state, &write(b"/B", 0, b"b"));
    let state = after(&state, &set_attributes(b"/B", &[b'o'; 512]));
    assert_eq!(entry(&state.image, 8), 1);
    let state = after(&state, &delete(b"/A"));
    let set = apply(&state, &set_attributes(b"/B", &[b'n'; 2048])).unwrap();
    // The old chain is block 8, the new one 4, 5, 6 and 8.
    assert_eq!(named(&set.state, 4 + 516 * 7), [0, 1, 2, 4, 5, 6, 8]);
    assert_eq!([4, 5, 6, 8].map(|b| entry(&set.state.image, b)), [5, 6, 8, 1]);
    assert_eq!(read_attributes(&set.state.image, b"/B", 4096).unwrap(), vec![b'n'; 2048]);
}

#[test]
fn reads() {
    let data: Vec<u8> = (0..1024).map(|i| (i / 4) as u8).collect();
    let state = after(&with_513_bytes(), &set_attributes(b"/A", &data));
    for (len, count) in
        [(0, 0), (1, 0), (511, 0), (512, 512), (513, 512), (1023, 512), (1024, 1024), (5000, 1024)]
    {
        assert_eq!(read_attributes(&state.image, b"/A", len).unwrap(), data[..count]);
    }
    assert_eq!(read_attributes(&with_513_bytes().image, b"/A", 600).unwrap(), []);
    assert_eq!(read_attributes(&state.image, b"A", 600), Err(9));
    assert_eq!(read_attributes(&state.image, b"/a/b/c/d/e/f/g/h/i/j", 600), Err(17));
    assert_eq!(read_attributes(&state.image, b"/B", 600), Err(10));
    assert_eq!(read_attributes(&[0; 1536], b"/A", 600), Err(2));
}

#[test]
fn a_clear() {
    let first = with_513_bytes();
    let before = with_attributes();
    let cleared = apply(&before, &clear_attributes(b"/A")).unwrap();
    assert_eq!((cleared.slot, cleared.record, used(&cleared.state)), (0, 2068, 7245));
    assert_eq!(named(&cleared.state, 2068), [0, 1, 2, 6]);
    // Block 6 is blank, as it was before the set.
    assert_eq!(cleared.state.image, first.image);
    assert_eq!(undo(&cleared.state).unwrap().state, before);
    // With none set it is a change all the same, of the directory block.
    let again = apply(&cleared.state, &clear_attributes(b"/A")).unwrap();
    assert_eq!((again.record, named(&again.state, 520)), (520, vec![2]));
    assert_eq!(again.state.image, cleared.state.image);
}

#[test]
fn a_delete_frees_both_chains() {
    let before = with_attributes();
    let gone = apply(&before, &delete(b"/A")).unwrap();
    assert_eq!(gone.record, 3100);
    assert_eq!(named(&gone.state, 3100), [0, 1, 2, 4, 5, 6]);
    assert_eq!(gone.state.image, formatted(16, 2).unwrap());
    assert_eq!(undo(&gone.state).unwrap().state, before);
    // An empty file with attributes has blocks to free as well.
    let empty = after(&fresh(16, 2), &create(b"/A"));
    let empty = after(&empty, &set_attributes(b"/A", &[1; 512]));
    assert_eq!(number_of(&empty, &write(b"/A", 1, b"y")), 12);
    let gone = apply(&empty, &delete(b"/A")).unwrap();
    assert_eq!((gone.record, named(&gone.state, 2068)), (2068, vec![0, 1, 2, 4]));
    assert_eq!(gone.state.image, formatted(16, 2).unwrap());
}

#[test]
fn tables_of_both_chains() {
    // n = 300 has table blocks 1 to 3. The old chain lies in the third, the new one in
    // the second, the directory's entry in the first: all but the first are named.
    let mut image = formatted(300, 1).unwrap();
    let at = 4 * BLOCK + SLOT;
    image[at] = 0x60;
    image[at + slot::NAME] = b'A';
    put_number(&mut image, at + slot::ATTRIBUTE_BLOCK, 299);
    put_number(&mut image, at + slot::ATTRIBUTE_SIZE, 1);
    set_entry(&mut image, 299, 1);
    // A second file takes all blocks up to 199.
    let second = at + SLOT;
    image[second] = 0x60;
    image[second + slot::NAME] = b'B';
    put_number(&mut image, second + slot::FIRST, 5);
    put_number(&mut image, second + slot::SIZE, 195 * 512);
    put_number(&mut image, second + slot::BLOCKS, 195);
    link(&mut image, &(5..200).collect::<Vec<_>>());
    put_number(&mut image, header::OCCUPIED, 5 + 195 + 1);
    put_number(&mut image, header::FREE, 300 - 201);
    assert_eq!(check(&image), 0);
    let state = State { image, journal: start(65_536).unwrap() };
    let set = apply(&state, &set_attributes(b"/A", &[7; 1024])).unwrap();
    assert_eq!(named(&set.state, 4 + 516 * 7), [0, 2, 3, 4, 200, 201, 299]);
    assert_eq!(set.state.image[299 * BLOCK..], [0; 512]);
    let cleared = apply(&state, &clear_attributes(b"/A")).unwrap();
    assert_eq!(named(&cleared.state, 2068), [0, 3, 4, 299]);
}

#[test]
fn refused() {
    let state = with_attributes();
    let sized = |len: usize| set_attributes(b"/A", &vec![1; len]);
    for len in [0, 1, 511, 513, 4095, 4097, 4096 + 513] {
        assert_eq!(number_of(&state, &sized(len)), 9, "{len}");
    }
    for blocks in [9, 10, 100] {
        assert_eq!(number_of(&state, &sized(512 * blocks)), 20);
    }
    assert_eq!(number_of(&state, &sized(4096)), 0);
    // 9 before 20, 20 before 17, 17 before 10.
    let deep = b"/a/b/c/d/e/f/g/h/i/j";
    assert_eq!(number_of(&state, &set_attributes(b"A", &[1; 4608])), 9);
    assert_eq!(number_of(&state, &set_attributes(deep, &[1; 4608])), 20);
    assert_eq!(number_of(&state, &set_attributes(b"/B", &[1; 4608])), 20);
    assert_eq!(number_of(&state, &set_attributes(deep, &[1; 512])), 17);
    assert_eq!(number_of(&state, &set_attributes(b"/B", &[1; 512])), 10);
    assert_eq!(number_of(&state, &clear_attributes(b"A")), 9);
    assert_eq!(number_of(&state, &clear_attributes(deep)), 17);
    assert_eq!(number_of(&state, &clear_attributes(b"/B")), 10);
    let folder = after(&state, &create_directory(b"/d", 1));
    assert_eq!(number_of(&folder, &set_attributes(b"/d", &[1; 512])), 10);
    assert_eq!(number_of(&folder, &clear_attributes(b"/d")), 10);
    assert_eq!(read_attributes(&folder.image, b"/d", 512), Err(10));
}

#[test]
fn the_old_blocks_count_as_free() {
    // n = 10, d = 2: blocks 4 to 9 are for data; all six are used.
    let state = after(&fresh(10, 2), &create(b"/A"));
    let state = after(&state, &write(b"/A", 0, &[2; 3 * 512]));
    let full = after(&state, &set_attributes(b"/A", &[1; 3 * 512]));
    assert_eq!(number(&full.image, header::FREE), 0);
    assert_eq!(number_of(&full, &set_attributes(b"/A", &[3; 4 * 512])), 14);
    assert_eq!(number_of(&full, &set_attributes(b"/A", &[3; 3 * 512])), 0);
    assert_eq!(number_of(&full, &write(b"/A", 1536, b"y")), 14);
    // Blocks 0, 1, 2, 7, 8 and 9: the journal has room for them, or a byte less.
    let mut short = full.clone();
    short.journal = start(5 + 4 + 516 * 6).unwrap();
    assert_eq!(number_of(&short, &set_attributes(b"/A", &[3; 3 * 512])), 0);
    short.journal.pop();
    assert_eq!(number_of(&short, &set_attributes(b"/A", &[3; 3 * 512])), 15);
    assert_eq!(number_of(&short, &set_attributes(b"/A", &[3; 4 * 512])), 14);
}

#[test]
fn stage_5() {
    let (none, some) = (with_513_bytes().image, with_attributes().image);
    let at = 2 * BLOCK + SLOT;
    let (block, size) = (at + slot::ATTRIBUTE_BLOCK, at + slot::ATTRIBUTE_SIZE);
    assert_eq!(spoilt(&none, block + 3, &[6]), 5);
    assert_eq!(spoilt(&none, size + 3, &[1]), 5);
    assert_eq!(spoilt(&some, block, &[0; 4]), 5);
    assert_eq!(spoilt(&some, size, &[0; 4]), 5);
    assert_eq!(spoilt(&some, size + 3, &[9]), 5);
    assert_eq!(spoilt(&some, size, &[1, 0, 0, 1]), 5);
    // 1 to 8 is right for stage 5, and the chain is wrong for stage 6.
    assert_eq!(spoilt(&some, size + 3, &[8]), 6);
    assert_eq!(spoilt(&some, size + 3, &[2]), 6);
    // Nine linked blocks.
    let mut nine = some.clone();
    link(&mut nine, &(6..15).collect::<Vec<_>>());
    put_number(&mut nine, header::OCCUPIED, 15);
    put_number(&mut nine, header::FREE, 1);
    put_number(&mut nine, size, 9);
    assert_eq!(check(&nine), 5);
    put_number(&mut nine, size, 8);
    set_entry(&mut nine, 13, 1);
    set_entry(&mut nine, 14, 0);
    assert_eq!(check(&nine), 7);
    // A folder has none.
    let folder = after(&fresh(16, 2), &create_directory(b"/d", 1)).image;
    let mut folder =
        after(&State { image: folder, journal: start(65_536).unwrap() }, &create(b"/A")).image;
    put_number(&mut folder, block, 5);
    put_number(&mut folder, size, 1);
    set_entry(&mut folder, 5, 1);
    assert_eq!(check(&folder), 5);
}

#[test]
fn stage_6() {
    let image = with_attributes().image;
    let block = 2 * BLOCK + SLOT + slot::ATTRIBUTE_BLOCK;
    let table = |b: usize| BLOCK + 4 * b;
    // Of no block, of the table, of the file itself, of the root, of nobody, out of range.
    for b in [1, 2, 3, 4, 5, 7, 15, 16, 200] {
        assert_eq!(spoilt(&image, block + 3, &[b]), 6, "{b}");
    }
    assert_eq!(spoilt(&image, table(6) + 3, &[0]), 6);
    assert_eq!(spoilt(&image, table(6) + 3, &[6]), 6);
    assert_eq!(spoilt(&image, table(6) + 3, &[7]), 6);
    // The data chain goes on into the attributes.
    assert_eq!(spoilt(&image, table(5) + 3, &[6]), 6);
    // The fields are gone, and the block is not free.
    assert_eq!(spoilt(&image, block, &[0; 8]), 6);
}

#[test]
fn one_change_after_the_other() {
    let mut state = with_513_bytes();
    let (one, two) = (set_attributes(b"/A", &[1; 512]), set_attributes(b"/A", &[2; 1024]));
    let clear = clear_attributes(b"/A");
    for (change, record, used_after) in [
        (&one, 2068, 5177),
        (&two, 2584, 7761),
        (&one, 2584, 10_345),
        (&clear, 2068, 12_413),
        (&clear, 520, 12_933),
        (&one, 2068, 15_001),
        (&delete(b"/A"), 3100, 18_101),
    ] {
        let applied = apply(&state, change).unwrap();
        assert_eq!((applied.record, used(&applied.state)), (record, used_after));
        state = applied.state;
    }
    assert_eq!(state.image, formatted(16, 2).unwrap());
    for record in [3100, 2068, 520, 2068, 2584, 2584, 2068] {
        let undone = undo(&state).unwrap();
        assert_eq!(undone.record, record);
        state = undone.state;
    }
    assert_eq!(state, with_513_bytes());
}

#[test]
fn replay_with_attributes() {
    let mut run = Replay::new(with_513_bytes());
    run = Replay::new(State { journal: start(65_536).unwrap(), ..run.replayed().clone() });
    let first = run.replayed().clone();
    let gave = |number, slot, record| Answer::Changed { number, slot, record };
    let read = |count, buffer: &[u8]| Answer::Read { number: 0, count, buffer: buffer.to_vec() };
    let look = Call::ReadAttributes { path: b"/A".to_vec(), buffer: vec![9; 600] };
    assert_eq!(run.call(&look), read(0, &[9; 600]));
    assert_eq!(run.call(&Call::Change(set_attributes(b"/A", &[1; 512]))), gave(0, 0, 2068));
    assert_eq!(run.call(&look), read(512, &[&[1; 512][..], &[9; 88]].concat()));
    assert_eq!(run.call(&Call::Change(set_attributes(b"/A", &[1; 513]))), gave(9, 0, 0));
    assert_eq!(run.call(&Call::Change(set_attributes(b"/A", &[1; 4608]))), gave(20, 0, 0));
    assert_eq!(run.call(&Call::Change(clear_attributes(b"/A"))), gave(0, 0, 2068));
    assert_eq!(run.call(&look), read(0, &[9; 600]));
    assert_eq!(run.call(&Call::Undo), gave(0, 0, 2068));
    assert_eq!(run.call(&Call::Undo), gave(0, 0, 2068));
    assert_eq!(run.call(&Call::Undo), gave(16, 0, 0));
    assert_eq!(run.replayed(), &first);
}
