//! Volumes as a rental company has them: 900 boxes in nine directories, each
//! box with a file of its settings, and what came of them by some changes.

use crate::images::{put_directory, put_header};
use crate::rng::Rng;
use reference::layout::*;
use reference::store::{file_of, Revision};
use reference::{Change, Create, CreateDirectory, Delete, Put, State};
use std::collections::BTreeMap;

const VENUES: usize = 9;
const VENUE_BLOCKS: usize = 26;
const BOXES: usize = 900;
const ROOT_BLOCKS: usize = 6;

/// Files by their paths.
pub type Files = BTreeMap<Vec<u8>, Vec<u8>>;

/// A volume after each of its last changes, and after a further one: boxes deleted
/// and a directory made over their blocks.
pub struct History {
    pub images: Vec<Vec<u8>>,
    pub reorganized: Vec<u8>,
    /// From 0 to 1, where a place of the volume is wanted that is spread evenly over
    /// the volumes.
    pub place: f64,
}

/// How many changes a history has.
pub const CHANGES: usize = 60;

impl History {
    pub fn new(rng: &mut Rng, n: usize) -> History {
        let mut images = vec![volume(rng, n)];
        for _ in 0..CHANGES {
            let last = images.last().expect("there is one").clone();
            let change = revised(rng);
            images.push(changed(last, &change));
        }
        let mut reorganized = images[CHANGES].clone();
        for change in reorganization(rng) {
            reorganized = changed(reorganized, &change);
        }
        History { images, reorganized, place: 0.0 }
    }

    pub fn last(&self) -> &[u8] {
        &self.images[CHANGES]
    }
}

/// The image after a change, if it is accepted.
fn changed(image: Vec<u8>, change: &Change) -> Vec<u8> {
    let journal = reference::start(70_000).expect("a journal");
    let state = State { image, journal };
    match reference::apply(&state, change) {
        Ok(applied) => applied.state.image,
        Err(_) => state.image,
    }
}

fn serial(number: usize) -> Vec<u8> {
    format!("SN{number:04}").into_bytes()
}

fn venue(number: usize) -> Vec<u8> {
    format!("/venue{number}").into_bytes()
}

fn settings(rng: &mut Rng) -> Vec<u8> {
    let length = rng.between(8, 46);
    rng.bytes(length)
}

/// A box gets other settings; now and then one is deleted.
fn revised(rng: &mut Rng) -> Change {
    let number = rng.below(BOXES);
    let (directory, serial) = (venue(number % VENUES), serial(number));
    if rng.once_in(40) {
        return Change::Delete(Delete { path: [&directory[..], b"/", &serial].concat() });
    }
    Change::Put(Put { directory: Some(directory), serial, data: settings(rng), time: 9 })
}

/// Some boxes leave, and a directory is made where their blocks were, with boxes of
/// its own.
fn reorganization(rng: &mut Rng) -> Vec<Change> {
    let mut changes = Vec::new();
    for _ in 0..rng.between(4, 8) {
        let number = rng.below(BOXES);
        let path = [&venue(number % VENUES)[..], b"/", &serial(number)].concat();
        changes.push(Change::Delete(Delete { path }));
    }
    let path = b"/tour".to_vec();
    let (kind, user, group, permissions, flags, time) = (0x20, 0, 0, 0, 0, 9);
    let entry = Create { path: path.clone(), kind, user, group, permissions, flags, time };
    changes.push(Change::CreateDirectory(CreateDirectory { entry, blocks: 3 }));
    for k in 0..3 {
        let (directory, serial) = (Some(path.clone()), serial(BOXES + k));
        changes.push(Change::Put(Put { directory, serial, data: settings(rng), time: 9 }));
    }
    changes
}

/// The files of a sound image.
pub fn files(image: &[u8]) -> Files {
    let mut files = Files::new();
    for home in tree(image) {
        for file in home.entries.iter().filter(|entry| entry.is_file()) {
            let blocks = file.chain(image).into_iter();
            let mut bytes: Vec<u8> =
                blocks.flat_map(|b| &image[b * BLOCK..(b + 1) * BLOCK]).copied().collect();
            bytes.truncate(file.size as usize);
            files.insert(home.path_of(&file.name), bytes);
        }
    }
    files
}

/// What a file will be when the volume is done: its place and its bytes so far.
struct Growing {
    at: usize,
    name: Vec<u8>,
    revisions: Vec<Revision>,
    blocks: Vec<usize>,
    attributes: Vec<usize>,
}

/// A sound volume of n blocks. Blocks are taken in the order of a life: directories
/// first, then boxes one by one as they come and are revised, each 1 to 16 times.
pub fn volume(rng: &mut Rng, n: usize) -> Vec<u8> {
    let mut image = vec![0; n * BLOCK];
    let root = root_block(n);
    for b in 0..root {
        set_entry(&mut image, b, 1);
    }
    let mut free = root..n;
    let mut take = |count: usize| free.by_ref().take(count).collect::<Vec<usize>>();
    put_directory(&mut image, &take(ROOT_BLOCKS), root);
    let mut slots = Vec::new();
    for v in 0..VENUES {
        let at = slot_offsets(&image, root)[v + 1];
        let blocks = take(VENUE_BLOCKS);
        put_child(&mut image, at, root, &venue(v)[1..], &blocks);
        let own = slot_offsets(&image, blocks[0]);
        slots.push((blocks[0], own[1..own.len() - 1].to_vec().into_iter()));
    }

    let mut order: Vec<usize> =
        (0..BOXES).flat_map(|number| vec![number; rng.between(1, 16)]).collect();
    // A number behind the boxes is a directory in a venue.
    order.extend(BOXES..BOXES + VENUES);
    rng.shuffle(&mut order);
    let mut boxes: BTreeMap<usize, Growing> = BTreeMap::new();
    for number in order {
        let (home, left) = &mut slots[number % VENUES];
        if number >= BOXES {
            let (at, home) = (left.next().expect("a slot is left"), *home);
            put_store_room(rng, &mut image, at, home, &mut take);
            continue;
        }
        let file = boxes.entry(number).or_insert_with(|| {
            let at = left.next().expect("a slot is left");
            let (revisions, blocks, attributes) = (vec![], vec![], vec![]);
            Growing { at, name: serial(number), revisions, blocks, attributes }
        });
        let number = file.revisions.len() as u32 + 1;
        file.revisions.push(Revision { number, data: settings(rng) });
        let size = file_of(&file.revisions, 0).len();
        file.blocks.extend(take(size.div_ceil(BLOCK) - file.blocks.len()));
        if file.attributes.is_empty() && rng.once_in(200) {
            file.attributes = take(rng.between(1, 2));
        }
    }
    for file in boxes.values() {
        let bytes = file_of(&file.revisions, 0);
        put_file(&mut image, file.at, &file.name, &bytes, &file.blocks);
        put_attributes(rng, &mut image, file.at, &file.attributes);
    }
    put_header(&mut image);
    assert_eq!(reference::check(&image), 0, "the volume is sound");
    image
}

/// A directory of one block in a venue, with two larger files.
fn put_store_room(
    rng: &mut Rng,
    image: &mut [u8],
    at: usize,
    home: usize,
    take: &mut impl FnMut(usize) -> Vec<usize>,
) {
    let blocks = take(1);
    put_child(image, at, home, b"store", &blocks);
    for (slot, name) in [(1, b"plan"), (2, b"list")] {
        let length = rng.between(1, 5 * BLOCK);
        let chain = take(length.div_ceil(BLOCK));
        put_file(image, blocks[0] * BLOCK + slot * SLOT, name, &rng.bytes(length), &chain);
    }
}

fn put_child(image: &mut [u8], at: usize, parent: usize, name: &[u8], blocks: &[usize]) {
    put_directory(image, blocks, parent);
    image[at + slot::TYPE] = 0x20;
    put_number(image, at + slot::FIRST, blocks[0] as u32);
    put_number(image, at + slot::BLOCKS, blocks.len() as u32);
    let field = name_field(name);
    image[at + slot::NAME..at + SLOT].copy_from_slice(&field);
    let own = blocks[0] * BLOCK;
    image[own + slot::NAME..own + SLOT].copy_from_slice(&field);
}

fn put_file(image: &mut [u8], at: usize, name: &[u8], bytes: &[u8], blocks: &[usize]) {
    link(image, blocks);
    image[at + slot::TYPE] = 0x60;
    put_number(image, at + slot::FIRST, blocks[0] as u32);
    put_number(image, at + slot::SIZE, bytes.len() as u32);
    put_number(image, at + slot::BLOCKS, blocks.len() as u32);
    image[at + slot::NAME..at + SLOT].copy_from_slice(&name_field(name));
    for (&b, part) in blocks.iter().zip(bytes.chunks(BLOCK)) {
        image[b * BLOCK..b * BLOCK + part.len()].copy_from_slice(part);
    }
}

fn put_attributes(rng: &mut Rng, image: &mut [u8], at: usize, blocks: &[usize]) {
    let Some(&first) = blocks.first() else {
        return;
    };
    link(image, blocks);
    put_number(image, at + slot::ATTRIBUTE_BLOCK, first as u32);
    put_number(image, at + slot::ATTRIBUTE_SIZE, blocks.len() as u32);
    for &b in blocks {
        image[b * BLOCK..(b + 1) * BLOCK].copy_from_slice(&rng.bytes(BLOCK));
    }
}
