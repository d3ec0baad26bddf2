//! Volumes of several table blocks, some of them with no free entry: writes,
//! replaces, folders, sets of attributes and puts take the lowest free blocks that
//! are left. Then all is undone.

use crate::images::{self, Fill};
use crate::journals;
use crate::rng::Rng;
use crate::tester::Tester;
use crate::tree::root;
use reference::layout::*;
use reference::worked::{create_directory, delete, put, replace, set_attributes, shorten, write};
use reference::{Change, State};

const NAMES: [&[u8]; 3] = [b"holds all", b"has two", b"is new"];
const PATHS: [&[u8]; 3] = [b"/holds all", b"/has two", b"/is new"];

pub fn run(rng: &mut Rng, _: u64, t: &mut Tester) {
    let n = 128 * rng.between(1, 6) + rng.pick(&[0, 1, 2, 127, 128]);
    let image = image(rng, n);
    let journal = reference::start(journals::room_for_all(&image) + 200_000).unwrap();
    let first = State { image, journal };
    let mut state = first.clone();
    let mut pair = t.lend_pair(&state);
    let mut standing = 0;
    for step in 0..12 {
        t.report.about(format!("n {n}, {} free, step {step}", free_blocks(&state.image).len()));
        let change = any_change(rng, &state.image);
        t.change_in(&mut pair, &state, &change);
        if let Ok(applied) = reference::apply(&state, &change) {
            state = applied.state;
            standing += 1;
        }
    }
    t.report.about(format!("n {n}, undo of all that stands"));
    for _ in 0..standing {
        t.undo_in(&mut pair, &state);
        state = reference::undo(&state).expect("a change stands").state;
    }
    let back = pair.troubles(&first).into_iter().flatten().next();
    t.report.agree("the start again, byte for byte", back, None);
}

/// Free blocks of some table blocks only, few or all of each, the others in the
/// chains of two files.
fn image(rng: &mut Rng, n: usize) -> Vec<u8> {
    let mut image = images::build(rng, n, 4, Fill::Empty);
    let mut free = vec![false; n];
    for i in 0..table_blocks(n) {
        let most = if rng.once_in(2) { rng.between(0, 12) } else { 0 };
        for _ in 0..most {
            free[(128 * i + rng.below(128)).min(n - 1)] = true;
        }
        let all = rng.once_in(12);
        (128 * i..n.min(128 * i + 128)).for_each(|b| free[b] |= all);
    }
    let mut held: Vec<usize> = free_blocks(&image).into_iter().filter(|&b| !free[b]).collect();
    rng.shuffle(&mut held);
    let slots = slot_offsets(&image, root(&image));
    let sizes = [BLOCK * held.len().saturating_sub(2 + rng.below(7)), BLOCK, 0];
    for (i, &size) in sizes.iter().enumerate() {
        let size = size.min(BLOCK * held.len());
        images::put_file(rng, &mut image, slots[1 + i], NAMES[i], size, &mut held);
    }
    images::put_attributes(rng, &mut image, slots[2], &mut held);
    images::put_header(&mut image);
    image
}

fn any_change(rng: &mut Rng, image: &[u8]) -> Change {
    let path = rng.pick(&PATHS);
    let size = crate::arguments::size_of(image, path);
    let len = rng.pick(&[1, 512, 513, 4096, 4096]);
    match rng.below(13) {
        0 => delete(path),
        9 => shorten(path, rng.below(size as usize + 2) as u64),
        10 => replace(path, &rng.bytes(len)),
        11 => replace(path, &rng.bytes((size as usize).min(4096))),
        12 => replace(path, &rng.bytes(((size as usize).min(4096) + len).min(4096))),
        8 => put(b"SN4471", &vec![7; rng.below(201)]),
        1 => create_directory(
            format!("/folder {}", rng.below(3)).as_bytes(),
            rng.between(1, 9) as u32,
        ),
        2..=4 => set_attributes(path, &vec![7; BLOCK * rng.between(1, MAX_ATTRIBUTE_BLOCKS)]),
        _ => write(path, size, &rng.bytes(len)),
    }
}
