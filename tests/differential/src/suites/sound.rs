//! Format, and every call on random sound images with random journals.

use crate::arguments::*;
use crate::rng::Rng;
use crate::tester::Tester;
use crate::tree::{files, folders};
use crate::{images, journals};
use reference::layout::{free_blocks, BLOCK, MAX_ATTRIBUTE_BLOCKS};
use reference::path::Want;
use reference::{Change, SetAttributes, State, Write};

pub fn format(rng: &mut Rng, _: u64, t: &mut Tester) {
    let n = match rng.below(6) {
        0 => rng.below(4),
        1 => rng.between(4090, 4100),
        _ => images::any_n(rng),
    };
    let odd = if rng.once_in(6) { rng.below(512) } else { 0 };
    let room = n.saturating_sub(n.div_ceil(128) + 1);
    let any = rng.next() as u32;
    let d = match rng.below(6) {
        0 => rng.pick(&[0, 1, 64, 65, u32::MAX, 0x0100_0001, any]),
        1 => room as u32,
        2 => room as u32 + 1,
        _ => rng.between(1, 64) as u32,
    };
    let name_len = if rng.once_in(6) { rng.pick(&[0, 1, 127, 129, 256]) } else { 128 };
    let image = rng.bytes(512 * n + odd);
    let uuid: [u8; 16] = rng.bytes(16).try_into().unwrap();
    let name = rng.bytes(name_len);
    let time = any_time(rng);
    t.report.about(format!("n {n} odd {odd} d {d} name {name_len}"));
    t.format(&image, d, time, uuid, &name);
    if let Ok(image) = reference::format(image.len(), d, time, uuid, &name) {
        t.check(&image);
    }
}

pub fn calls(rng: &mut Rng, _: u64, t: &mut Tester) {
    let image = images::any(rng);
    let n = image.len() / 512;
    let (files, folders) = (files(&image).len(), folders(&image).len());
    t.report.about(format!("n {n}, {files} files, {folders} folders"));
    let many = if n > 1000 { 2 } else { 8 };
    for _ in 0..many {
        look_once(rng, t, &image);
    }
    if n <= 300 {
        look_at_all(rng, t, &image);
    }
    for _ in 0..many {
        let state = State { image: image.clone(), journal: journals::any(rng, &image) };
        for change in changes(rng, &image) {
            t.change(&state, &change);
        }
        t.write_list(&state, &any_list(rng, &image));
        t.append(&state, &any_append(rng, &image));
        t.undo(&state);
    }
    exact_room(rng, t, &image);
}

fn look_once(rng: &mut Rng, t: &mut Tester, image: &[u8]) {
    let want = if rng.once_in(8) { Want::Directory } else { Want::File };
    let path = any_path(rng, image, want);
    let size = size_of(image, &path);
    let offset = any_offset(rng, size);
    let buffer = any_buffer(rng, size);
    let index = any_index(rng, size);
    t.look(image, &path, offset, &buffer, index);
    t.get(image, &any_get(rng, image));
    let blocks = attribute_blocks(image, &path);
    t.read_attributes(image, &path, &any_attributes_buffer(rng, blocks));
    t.info(image, &any_label_buffer(rng));
    t.entry(image, &any_listed(rng, image), any_slot(rng), &any_label_buffer(rng));
}

/// Every file from end to end, and a directory.
fn look_at_all(rng: &mut Rng, t: &mut Tester, image: &[u8]) {
    t.list(image, &any_listed(rng, image), &any_label_buffer(rng));
    let mut files = files(image);
    rng.shuffle(&mut files);
    for file in files.iter().take(12) {
        t.lookup(image, &file.path);
        t.read(image, &file.path, 0, &rng.bytes(file.size as usize + 5));
        for index in 0..u64::from(file.blocks + 1).min(10) {
            t.look_in_place(image, &file.path, index);
        }
        let blocks = file.attribute_size as usize;
        for room in [blocks, blocks + 1, blocks.saturating_sub(1)] {
            let more = rng.pick(&[0, 1, 511]);
            t.read_attributes(image, &file.path, &rng.bytes(BLOCK * room + more));
        }
    }
}

/// Journals that a record just fits into, and just does not.
fn exact_room(rng: &mut Rng, t: &mut Tester, image: &[u8]) {
    let room = journals::room_for_all(image);
    for change in changes(rng, image) {
        let roomy = State { image: image.to_vec(), journal: reference::start(room).unwrap() };
        if let Ok(applied) = reference::apply(&roomy, &change) {
            for less in [0, 1, 4] {
                let journal = journals::with_records(rng, image, 1, applied.record as usize - less);
                let number = t.change(&State { image: image.to_vec(), journal }, &change);
                t.report.agree("plan", number, if less == 0 { 0 } else { 15 });
            }
        }
    }
    exact_blocks(rng, t, image);
}

/// Writes and sets of attributes that need just all free blocks, and one more.
fn exact_blocks(rng: &mut Rng, t: &mut Tester, image: &[u8]) {
    let free = free_blocks(image).len();
    let file = match any_file(rng, image) {
        Some(file) if free <= 7 => file,
        _ => return,
    };
    let end = (file.blocks as usize + free) * 512;
    let state = State { image: image.to_vec(), journal: reference::start(40_000).unwrap() };
    for (more, expected) in [(0, 0), (1, 14)] {
        let data = rng.bytes(end + more - file.size as usize);
        if data.len() <= 4096 {
            let path = file.path.clone();
            let write = Write { path, offset: u64::from(file.size), data, time: any_time(rng) };
            let number = t.change(&state, &Change::Write(write));
            t.report.agree("plan", number, expected);
        }
        // The old attributes' blocks count as free.
        let blocks = free + file.attribute_size as usize + more;
        if (1..=MAX_ATTRIBUTE_BLOCKS).contains(&blocks) {
            let (path, data) = (file.path.clone(), whole_blocks(rng, blocks));
            let set = SetAttributes { path, data };
            let number = t.change(&state, &Change::SetAttributes(set));
            t.report.agree("plan", number, expected);
        }
    }
}
