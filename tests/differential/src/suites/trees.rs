//! Folders: every number of levels, and faults of directories, of which the
//! first that is met gives the number.

use crate::images::{self, build_tree, good_name, put_folder, put_header, Fill, Folders};
use crate::rng::Rng;
use crate::tester::Tester;
use reference::layout::*;
use reference::worked::*;
use reference::{Change, State};

/// Folders below one another, with a file in each, made and taken away again.
pub fn levels(rng: &mut Rng, round: u64, t: &mut Tester) {
    let depth = 1 + round as usize % MAX_LEVELS;
    t.report.about(format!("{depth} levels"));
    let first = fresh(40, 1);
    let mut state = first.clone();
    let mut paths: Vec<Vec<u8>> = Vec::new();
    for level in 0..depth {
        let above = if level == 0 { &[][..] } else { &paths[level - 1][..] };
        paths.push([above, b"/", &good_name(rng)].concat());
        make(t, &mut state, &create_directory(&paths[level], rng.between(1, 2) as u32), 0);
        make(t, &mut state, &create(&file_in(&paths[level])), 0);
        make(t, &mut state, &write(&file_in(&paths[level]), 0, &[level as u8; 9]), 0);
        make(t, &mut state, &set_attributes(&file_in(&paths[level]), &[level as u8; 512]), 0);
    }
    for (level, path) in paths.iter().enumerate() {
        // In a call for a directory the file's name counts as one.
        let deepest = level + 1 == MAX_LEVELS;
        t.look(&state.image, &file_in(path), 0, &[0; 12], 0);
        t.look(&state.image, path, 0, &[0; 12], 0);
        make(t, &mut state, &create(path), 11);
        make(t, &mut state, &create_directory(&file_in(path), 1), if deepest { 17 } else { 11 });
        make(t, &mut state, &write(path, 0, b"no file"), 10);
        make(t, &mut state, &delete(path), 10);
        make(t, &mut state, &set_attributes(path, &[1; 512]), 10);
        make(t, &mut state, &clear_attributes(path), 10);
        make(t, &mut state, &clear_flags(path), 10);
        make(t, &mut state, &shorten(path, 0), 10);
        make(t, &mut state, &replace(path, b"no file"), 10);
        make(t, &mut state, &move_file(path, b"/no file"), 10);
        make(t, &mut state, &delete_directory(&file_in(path)), if deepest { 17 } else { 10 });
        make(t, &mut state, &delete_directory(path), 18);
    }
    past_the_last(t, &mut state, &paths[depth - 1], depth);
    for path in paths.iter().rev() {
        make(t, &mut state, &delete(&file_in(path)), 0);
        make(t, &mut state, &delete_directory(path), 0);
    }
    while t.undo(&state) == 0 {
        state = reference::undo(&state).unwrap().state;
    }
    t.report.agree("the start again", state == first, true);
}

fn file_in(path: &[u8]) -> Vec<u8> {
    [path, b"/file"].concat()
}

/// Makes a change on both sides; the number must be as planned.
fn make(t: &mut Tester, state: &mut State, change: &Change, planned: u32) {
    let number = t.change(state, change);
    t.report.agree("plan", number, planned);
    if let Ok(applied) = reference::apply(state, change) {
        *state = applied.state;
    }
}

/// Paths that go on behind the last folder: too deep after eight of them.
fn past_the_last(t: &mut Tester, state: &mut State, last: &[u8], depth: usize) {
    for more in 1..=4 {
        let path = [last, &b"/x".repeat(more)].concat();
        let (directories, too_deep) = (depth + more, |count| count > MAX_LEVELS);
        let file = if too_deep(directories - 1) { 17 } else { 10 };
        let folder = if too_deep(directories) { 17 } else { 10 };
        t.lookup(&state.image, &path);
        make(t, state, &write(&path, 0, b"z"), file);
        make(t, state, &delete(&path), file);
        make(t, state, &set_attributes(&path, &[1; 512]), file);
        make(t, state, &set_attributes(&path, &[1; 4608]), 20);
        make(t, state, &clear_attributes(&path), file);
        make(t, state, &clear_flags(&path), file);
        make(t, state, &shorten(&path, 0), file);
        make(t, state, &replace(&path, b"z"), file);
        make(t, state, &move_file(&path, b"/z"), file);
        make(t, state, &delete_directory(&path), folder);
        if more > 1 {
            make(t, state, &create(&path), file);
            make(t, state, &create_directory(&path, 1), folder);
        }
    }
    if depth == MAX_LEVELS {
        make(t, state, &create_directory(&[last, b"/x"].concat(), 1), 17);
        ninth_level(t, state, last);
    }
}

/// An image with a folder too deep, all else right: 4. Its entry comes first.
fn ninth_level(t: &mut Tester, state: &State, last: &[u8]) {
    let mut image = state.image.clone();
    let home = tree(&image).into_iter().find(|home| home.path == last).unwrap();
    let slots = slot_offsets(&image, home.first);
    let free = free_blocks(&image)[0];
    put_folder(&mut Rng::new(9), &mut image, slots[2], home.first, b"ninth", &[free]);
    put_header(&mut image);
    t.report.agree("plan", reference::check(&image), 4);
    t.look(&image, &file_in(last), 0, &[0; 12], 0);
    image[slots[2] + slot::ATTRIBUTE_SIZE] = 1;
    t.report.agree("plan", reference::check(&image), 5);
    t.check(&image);
}

/// A place where the check can meet a fault of a directory.
#[derive(Clone, Copy)]
enum Point {
    /// Stage 4 of the directory that starts at this block.
    Head(usize),
    /// The end slot at this offset.
    End(usize),
    /// A slot at this offset, and an earlier one in use in the same directory.
    Slot(usize, Option<usize>),
}

/// All points in the order in which the check comes to them.
fn points(image: &[u8], first: usize) -> Vec<Point> {
    let slots = slot_offsets(image, first);
    let end = slots.len() - 1;
    let mut points = vec![Point::Head(first), Point::End(slots[end])];
    let mut earlier = None;
    for &at in &slots[1..end] {
        points.push(Point::Slot(at, earlier));
        if is_directory_type(image[at]) {
            points.extend(self::points(image, number(image, at + slot::FIRST) as usize));
        }
        if image[at] != slot::TYPE_FREE {
            earlier = Some(at);
        }
    }
    points
}

/// Puts a fault at a point, and nowhere else; gives its stage.
fn spoil(rng: &mut Rng, sound: &[u8], image: &mut [u8], point: Point) -> u32 {
    match point {
        Point::Head(first) => {
            spoil_head(rng, sound, image, first);
            4
        }
        Point::End(at) => {
            image[at] = rng.pick(&[0x00, 0x01, 0x20, 0x60, 0xFE]);
            5
        }
        Point::Slot(at, earlier) => {
            spoil_slot(rng, sound, image, at, earlier);
            5
        }
    }
}

fn spoil_head(rng: &mut Rng, sound: &[u8], image: &mut [u8], first: usize) {
    let at = first * BLOCK;
    let is_root = first == root_block(block_count(sound));
    match rng.below(6) {
        0 => image[at] = rng.pick(&[0x00, 0x20, 0xFF]),
        1 => image[at + slot::SELF_BLOCK + rng.below(4)] ^= 1 << rng.below(8),
        2 => image[at + slot::SELF_PARENT + rng.below(4)] ^= 1 << rng.below(8),
        3 => image[at + slot::BLOCKS + 3] = 0,
        4 if !is_root => image[at + slot::NAME + rng.below(NAME_FIELD)] ^= 1 << rng.below(8),
        _ => set_entry(image, *directory_chain(sound, first).last().unwrap(), 0),
    }
}

fn spoil_slot(rng: &mut Rng, sound: &[u8], image: &mut [u8], at: usize, earlier: Option<usize>) {
    let name = at + slot::NAME;
    match (sound[at], rng.below(6), earlier) {
        (slot::TYPE_FREE, _, _) | (_, 0, _) => image[at] = rng.pick(&[0x01, 0x1F, 0xA0, 0xFF]),
        (_, 1, _) => image[name] = 0,
        (_, 2, _) => image[name] = b'/',
        (_, 3 | 4, Some(other)) => {
            image[name..at + SLOT].copy_from_slice(&sound[other + slot::NAME..other + SLOT]);
        }
        _ => spoil_attributes(rng, image, at),
    }
}

/// Fields that no file and no folder may have.
fn spoil_attributes(rng: &mut Rng, image: &mut [u8], at: usize) {
    let (block, size) = (at + slot::ATTRIBUTE_BLOCK, at + slot::ATTRIBUTE_SIZE);
    match (number(image, size), rng.below(3)) {
        (0, 0) => image[block + rng.below(4)] = rng.nonzero_byte(),
        (0, 1) => image[size + rng.below(4)] = rng.nonzero_byte(),
        (_, 0) => put_number(image, block, 0),
        (_, 1) => put_number(image, size, 0),
        _ => put_number(image, size, rng.pick(&[9, 256, 0x0100_0001, u32::MAX])),
    }
}

/// Several faults at once, in every order of 4 and 5: the first that is met
/// gives the number, whatever comes in stages 6 and 7.
pub fn faults(rng: &mut Rng, _: u64, t: &mut Tester) {
    let (n, d) = (rng.between(24, 140), rng.between(1, 3));
    let fill = rng.pick(&[Fill::Some, Fill::Some, Fill::Slots, Fill::Blocks]);
    let folders = rng.pick(&[Folders::Few, Folders::Many, Folders::Many, Folders::Deep]);
    let sound = build_tree(rng, n, d, fill, folders);
    let all = points(&sound, root_block(n));
    for _ in 0..16 {
        let mut chosen: Vec<usize> = (0..rng.between(2, 4)).map(|_| any_point(rng, &all)).collect();
        chosen.sort_unstable();
        chosen.dedup();
        let mut image = sound.clone();
        let stages: Vec<u32> =
            chosen.iter().map(|&i| spoil(rng, &sound, &mut image, all[i])).collect();
        if rng.once_in(3) {
            image[header::FREE] ^= 1;
        }
        t.report.about(format!("n {n}, faults {stages:?} of {} points", all.len()));
        t.report.agree("plan", reference::check(&image), stages[0]);
        t.check(&image);
    }
    images_with_random_faults(rng, t, &sound, &all);
}

/// The index of a point: half of the time the head of a directory.
fn any_point(rng: &mut Rng, all: &[Point]) -> usize {
    let is_head = |&i: &usize| matches!(all[i], Point::Head(_));
    let heads: Vec<usize> = (0..all.len()).filter(is_head).collect();
    if rng.once_in(2) {
        rng.pick(&heads)
    } else {
        rng.below(all.len())
    }
}

/// Random bytes in the slots and entries of the tree.
fn images_with_random_faults(rng: &mut Rng, t: &mut Tester, sound: &[u8], all: &[Point]) {
    for _ in 0..8 {
        let mut image = sound.to_vec();
        for _ in 0..rng.between(1, 3) {
            let at = match all[rng.below(all.len())] {
                Point::Head(first) => first * BLOCK + rng.pick(&[0, 7, 11, 15, 48, 127]),
                Point::End(at) => at,
                Point::Slot(at, _) => at + rng.pick(&[0, 0, 6, 7, 11, 15, 35, 39, 48, 127]),
            };
            image[at] = match rng.below(3) {
                0 => rng.pick(&[0, 1, 2, 3, 0x20, 0x2F, 0x5F, 0x60, 0xFF]),
                1 => image[at] ^ (1 << rng.below(8)),
                _ => rng.below(16) as u8,
            };
        }
        t.report.about("random bytes in the slots of a tree");
        t.check(&image);
    }
    let path = images::good_name(rng);
    t.lookup(sound, &[b"/", &path[..]].concat());
}
