//! Freed blocks are blank. What a file, a folder or attributes held is looked
//! for in the library's image, at every place, before a change that frees it and
//! after it.

use crate::arguments::changes;
use crate::images::{self, Fill};
use crate::journals;
use crate::library::Pair;
use crate::rng::Rng;
use crate::tester::Tester;
use crate::tree::{files, folders, Item};
use reference::layout::*;
use reference::worked::{
    clear_attributes, create, delete, delete_directory, replace, set_attributes, shorten, write,
};
use reference::{Change, State};
use std::collections::HashSet;

/// Bytes of a piece that is looked for.
const PIECE: usize = 16;

pub fn run(rng: &mut Rng, _: u64, t: &mut Tester) {
    let n = images::small_n(rng);
    let mut image = images::of(rng, n);
    put_in_free_blocks(rng, &mut image);
    for _ in 0..4 {
        if let Some((path, image)) = a_marked_file(rng, &image) {
            t.report.about(format!("n {n}, delete of a file"));
            blanked(t, image, &delete(&path));
        }
        if let Some((path, image, size)) = a_marked_end(rng, &image) {
            t.report.about(format!("n {n}, a file cut to {size} bytes"));
            let change = match rng.below(2) {
                0 if size <= MAX_DATA => replace(&path, &rng.bytes(size)),
                _ => shorten(&path, size as u64),
            };
            blanked(t, image, &change);
        }
        if let Some((path, image)) = a_marked_folder(rng, &image) {
            t.report.about(format!("n {n}, delete of a folder"));
            blanked(t, image, &delete_directory(&path));
        }
        if let Some((path, image, blocks)) = marked_attributes(rng, &image) {
            t.report.about(format!("n {n}, attributes of {blocks} blocks"));
            let count = rng.between(1, blocks);
            let change = match rng.below(3) {
                0 => clear_attributes(&path),
                _ => set_attributes(&path, &rng.bytes(BLOCK * count)),
            };
            blanked(t, image, &change);
        }
    }
    written(rng, t, image);
}

/// Random bytes in all blocks that are free.
fn put_in_free_blocks(rng: &mut Rng, image: &mut [u8]) {
    for b in free_blocks(image) {
        image[b * BLOCK..(b + 1) * BLOCK].copy_from_slice(&rng.bytes(BLOCK));
    }
}

fn any(rng: &mut Rng, items: Vec<Item>) -> Option<Item> {
    (!items.is_empty()).then(|| rng.pick(&items))
}

/// An image and its secret: pieces of bytes that must be left nowhere.
struct Marked {
    image: Vec<u8>,
    secret: HashSet<[u8; PIECE]>,
}

/// Puts random bytes at some places, which are the secret.
fn mark(rng: &mut Rng, image: &[u8], places: &[std::ops::Range<usize>]) -> Marked {
    let (mut image, mut secret) = (image.to_vec(), HashSet::new());
    for place in places {
        let bytes = rng.bytes(place.len());
        secret.extend(pieces(&bytes));
        image[place.clone()].copy_from_slice(&bytes);
    }
    Marked { image, secret }
}

fn pieces(bytes: &[u8]) -> impl Iterator<Item = [u8; PIECE]> + '_ {
    bytes.windows(PIECE).map(|piece| piece.try_into().unwrap())
}

/// All bytes of some blocks.
fn places(blocks: &[usize]) -> Vec<std::ops::Range<usize>> {
    blocks.iter().map(|&b| b * BLOCK..(b + 1) * BLOCK).collect()
}

/// A file with blocks: all their bytes are secret, also those behind its end
/// and those of its attributes.
fn a_marked_file(rng: &mut Rng, image: &[u8]) -> Option<(Vec<u8>, Marked)> {
    let with_blocks = |file: &Item| file.blocks + file.attribute_size > 0;
    let file = any(rng, files(image).into_iter().filter(with_blocks).collect())?;
    let blocks = [file.chain(image), file.attributes(image)].concat();
    Some((file.path.clone(), mark(rng, image, &places(&blocks))))
}

/// A file with bytes, and a size below its own: what its blocks hold from there on
/// is secret, also behind its end.
fn a_marked_end(rng: &mut Rng, image: &[u8]) -> Option<(Vec<u8>, Marked, usize)> {
    let file = any(rng, files(image).into_iter().filter(|file| file.size > 0).collect())?;
    let size = match rng.below(4) {
        0 => BLOCK * (rng.below(file.size as usize) / BLOCK),
        _ => rng.below(file.size as usize),
    };
    let mut places = places(&file.chain(image)[size / BLOCK..]);
    places[0].start += size % BLOCK;
    Some((file.path.clone(), mark(rng, image, &places), size))
}

/// A file's attributes, and how many blocks they have.
fn marked_attributes(rng: &mut Rng, image: &[u8]) -> Option<(Vec<u8>, Marked, usize)> {
    let with_attributes = |file: &Item| file.attribute_size > 0;
    let file = any(rng, files(image).into_iter().filter(with_attributes).collect())?;
    let blocks = file.attributes(image);
    Some((file.path.clone(), mark(rng, image, &places(&blocks)), blocks.len()))
}

/// A folder that is made empty: what its slots hold behind their types is secret.
fn a_marked_folder(rng: &mut Rng, image: &[u8]) -> Option<(Vec<u8>, Marked)> {
    let is_empty = |folder: &Item| entries(image, folder.first as usize).is_empty();
    let folder = any(rng, folders(image).into_iter().filter(is_empty).collect())?;
    let slots = slot_offsets(image, folder.first as usize);
    let places: Vec<_> = slots[1..].iter().map(|at| at + 1..at + SLOT).collect();
    Some((folder.path.clone(), mark(rng, image, &places)))
}

/// How many pieces of the secret the image holds.
fn found(image: &[u8], secret: &HashSet<[u8; PIECE]>) -> usize {
    pieces(image).filter(|piece| secret.contains(piece)).count()
}

/// Makes a change that frees the secret's blocks, and looks for it; undo brings
/// all of it back.
fn blanked(t: &mut Tester, marked: Marked, change: &Change) {
    let Marked { image, secret } = marked;
    let journal = reference::start(journals::room_for_all(&image)).unwrap();
    let before = State { image, journal };
    let mut pair = t.lend_pair(&before);
    let number = t.change_in(&mut pair, &before, change);
    t.report.agree("plan", number, 0);
    gone(t, &pair, &before.image, &secret);
    let after =
        State { image: pair.image.content().to_vec(), journal: pair.journal.content().to_vec() };
    t.undo_in(&mut pair, &after);
    let back = pair.troubles(&before).into_iter().flatten().next();
    t.report.agree("as before the change", back, None);
}

/// The secret was there and is gone; what was free has its bytes still.
fn gone(t: &mut Tester, pair: &Pair, before: &[u8], secret: &HashSet<[u8; PIECE]>) {
    let after = pair.image.content();
    t.report.agree("pieces before", found(before, secret) >= secret.len(), true);
    t.report.agree("pieces left", found(after, secret), 0);
    for b in free_blocks(after) {
        let block = b * BLOCK..(b + 1) * BLOCK;
        let expected = if entry(before, b) == 0 { &before[block.clone()] } else { &[0; BLOCK][..] };
        if after[block] != *expected {
            t.report.agree("a free block", b, usize::MAX);
        }
    }
}

/// A file made, written, given attributes and deleted by the library itself,
/// other changes between.
fn written(rng: &mut Rng, t: &mut Tester, image: Vec<u8>) {
    let (path, len) = (b"/\x01secret", rng.between(PIECE, MAX_DATA));
    let data = rng.bytes(len);
    let blocks = rng.between(1, MAX_ATTRIBUTE_BLOCKS);
    let attributes = rng.bytes(BLOCK * blocks);
    let journal = reference::start(4 * journals::room_for_all(&image) + 60_000).unwrap();
    let mut state = State { image, journal };
    let mut pair = t.lend_pair(&state);
    let mut steps = vec![create(path), write(path, 0, &data), set_attributes(path, &attributes)];
    steps.extend(changes(rng, &state.image));
    steps.push(delete(path));
    t.report.about("a file written and deleted, other changes between");
    for step in &steps {
        t.change_in(&mut pair, &state, step);
        if let Ok(applied) = reference::apply(&state, step) {
            state = applied.state;
        }
    }
    let secret: HashSet<_> = pieces(&data).chain(pieces(&attributes)).collect();
    t.report.agree("pieces left", found(pair.image.content(), &secret), 0);
}

/// Whether all free blocks of an image are zeros.
pub fn is_blank(image: &[u8]) -> bool {
    free_blocks(image).iter().all(|&b| image[b * BLOCK..(b + 1) * BLOCK] == [0; BLOCK])
}

/// An image whose free blocks are zeros, for runs that must leave them so.
pub fn image(rng: &mut Rng, n: usize) -> Vec<u8> {
    let fill = rng.pick(&[Fill::Empty, Fill::Some, Fill::Slots]);
    let most = (n - table_blocks(n) - 1).min(4);
    let d = rng.between(1, most);
    let mut image = images::build(rng, n, d, fill);
    for b in free_blocks(&image) {
        image[b * BLOCK..(b + 1) * BLOCK].fill(0);
    }
    image
}
