//! Several reasons to refuse at once: the first in their order must be given.
//! Every combination of reasons of every call is made, and what is expected
//! comes from the plan as well as from the reference.

use crate::arguments::*;
use crate::images::{self, build, build_tree, Fill, Folders};
use crate::rng::Rng;
use crate::tester::Tester;
use crate::tree::{folders, items, Item};
use crate::{damage, journals};
use reference::layout::*;
use reference::path::Want;
use reference::{
    Append, Change, ClearAttributes, ClearFlags, Delete, DeleteDirectory, Move, Replace,
    SetAttributes, Shorten, State, Write,
};

pub fn all(rng: &mut Rng, _: u64, t: &mut Tester) {
    format(rng, t);
    looks(rng, t);
    creates(rng, t);
    writes(rng, t);
    appends(rng, t);
    deletes(rng, t);
    directory_creates(rng, t);
    directory_deletes(rng, t);
    sets(rng, t);
    clears(rng, t);
    shortens(rng, t);
    replaces(rng, t);
    moves(rng, t);
    undos(rng, t);
    marks(rng, t);
    salvages(rng, t);
}

/// All subsets of the reasons, each in the order of refusals.
fn subsets(reasons: &[u32]) -> Vec<Vec<u32>> {
    (0..1u32 << reasons.len())
        .map(|mask| {
            let chosen = reasons.iter().enumerate().filter(|(i, _)| mask >> i & 1 == 1);
            chosen.map(|(_, &reason)| reason).collect()
        })
        .collect()
}

/// The reason 1 stands for a damaged image here, of whatever stage.
fn lowest(reasons: &[u32], stage: u32) -> u32 {
    match reasons.first() {
        None => 0,
        Some(1) => stage,
        Some(&number) => number,
    }
}

/// Damages the image if that is a reason; gives the stage.
fn maybe_damage(rng: &mut Rng, reasons: &[u32], image: &mut Vec<u8>) -> u32 {
    if reasons.contains(&1) {
        damage::any(rng, image).stage
    } else {
        0
    }
}

/// A journal with room for any record, or for none, well formed or not.
fn journal_for(rng: &mut Rng, reasons: &[u32], image: &[u8], records: usize) -> Vec<u8> {
    let spare = if reasons.contains(&15) { rng.below(520) } else { journals::room_for_all(image) };
    let mut journal = journals::with_records(rng, image, records, spare);
    if reasons.contains(&8) {
        if rng.once_in(2) {
            journal[0] = 0;
        } else {
            put_number(&mut journal, 1, rng.below(5) as u32);
        }
    }
    journal
}

/// An image with at least one file, and a free slot in the root and free
/// blocks unless the reasons 13 and 14 are among those given.
fn image_for(rng: &mut Rng, reasons: &[u32]) -> Vec<u8> {
    let n = rng.between(40, 140);
    let d = rng.between(2, 6);
    if reasons.contains(&14) {
        return build(rng, n, d, Fill::Blocks);
    }
    let fill = if reasons.contains(&13) { Fill::Slots } else { Fill::Some };
    loop {
        let image = build(rng, n, d, fill);
        let open = has_room(&image, &tree(&image)[0]);
        if free_blocks(&image).len() >= 9 && (fill == Fill::Slots || open) {
            return image;
        }
    }
}

/// Whether a directory has a free slot.
fn has_room(image: &[u8], home: &Directory) -> bool {
    home.entries.len() + 2 < slot_offsets(image, home.first).len()
}

/// A path for a call that wants something that is there.
fn path_for(rng: &mut Rng, reasons: &[u32], image: &[u8], want: Want, bad: bool) -> Vec<u8> {
    if bad {
        bad_path(rng)
    } else if reasons.contains(&17) {
        deep_path(rng, image, want)
    } else if reasons.contains(&10) {
        lost_path(rng, image, want)
    } else {
        let file = any_file(rng, image).expect("the image has a file");
        if want == Want::File {
            file.path
        } else {
            any_folder(rng, image).unwrap().path
        }
    }
}

/// A path for something new, in a directory with a free slot if there is one.
fn new_path(rng: &mut Rng, reasons: &[u32], image: &[u8], want: Want, bad: bool) -> Vec<u8> {
    if bad {
        return bad_path(rng);
    } else if reasons.contains(&17) {
        return deep_path(rng, image, want);
    } else if reasons.contains(&10) {
        return through_nothing_or_file(rng, image, want);
    } else if reasons.contains(&11) {
        let shallow = |item: &Item| want == Want::File || item.level < MAX_LEVELS;
        let items: Vec<Item> = items(image).into_iter().filter(shallow).collect();
        return rng.pick(&items).path;
    }
    let mut homes = tree(image);
    homes.retain(|home| want == Want::File || home.level < MAX_LEVELS);
    homes.retain(|home| reasons.contains(&13) || has_room(image, home));
    let home = rng.pick(&homes);
    home.path_of(&missing_name(rng, image, &home))
}

/// A good path to a place in no directory.
fn through_nothing_or_file(rng: &mut Rng, image: &[u8], want: Want) -> Vec<u8> {
    let file = any_file(rng, image).expect("the image has a file");
    let fits = want == Want::File || file.level + 1 < MAX_LEVELS;
    if rng.once_in(2) && file.level < MAX_LEVELS && fits {
        return [&file.path[..], b"/", &images::good_name(rng)].concat();
    }
    loop {
        let path = through_nothing(rng, image);
        let names = path.iter().filter(|&&b| b == b'/').count();
        if want == Want::File || names <= MAX_LEVELS {
            return path;
        }
    }
}

fn compare(t: &mut Tester, state: &State, change: &Change, expected: u32) {
    let number = t.change(state, change);
    t.report.agree("plan", number, expected);
}

fn format(rng: &mut Rng, t: &mut Tester) {
    for reasons in subsets(&[1, 9, 14]) {
        t.report.about(format!("format, reasons {reasons:?}"));
        let n = rng.between(5, 30);
        let room = n - table_blocks(n) - 1;
        let len = 512 * n + if reasons.contains(&1) { rng.between(1, 511) } else { 0 };
        let d = if reasons.contains(&14) { room + 1 } else { room };
        let (d, name_len) = match (reasons.contains(&9), rng.below(3)) {
            (false, _) => (d, 128),
            (true, 0) => (65, 128),
            (true, _) => (d, rng.pick(&[0, 127, 129])),
        };
        let (image, name) = (rng.bytes(len), rng.bytes(name_len));
        let result = reference::format(len, d as u32, 5, [1; 16], &name);
        t.report.agree("plan", result.err().unwrap_or(0), lowest(&reasons, 1));
        t.format(&image, d as u32, 5, [1; 16], &name);
    }
}

fn looks(rng: &mut Rng, t: &mut Tester) {
    for reasons in subsets(&[1, 9, 17, 10, 12]) {
        t.report.about(format!("look up and read, reasons {reasons:?}"));
        let sound = image_for(rng, &[]);
        let path = path_for(rng, &reasons, &sound, Want::File, reasons.contains(&9));
        let size = size_of(&sound, &path);
        let offset = if reasons.contains(&12) { far_offset(rng, size) } else { size };
        let mut image = sound.clone();
        let stage = maybe_damage(rng, &reasons, &mut image);
        let number = reference::read(&image, &path, offset, 10).err().unwrap_or(0);
        t.report.agree("plan", number, lowest(&reasons, stage));
        let buffer = if rng.once_in(3) { vec![] } else { any_buffer(rng, size) };
        t.look(&image, &path, offset, &buffer, any_index(rng, size));
    }
}

fn creates(rng: &mut Rng, t: &mut Tester) {
    for reasons in subsets(&[1, 8, 9, 17, 26, 10, 11, 13, 15]) {
        t.report.about(format!("create, reasons {reasons:?}"));
        let mut image = image_for(rng, &reasons);
        let journal = journal_for(rng, &reasons, &image, 1);
        // With 9 it is the path or the type that is bad.
        let bad_path = reasons.contains(&9) && rng.once_in(2);
        let bad_type = reasons.contains(&9) && !bad_path;
        let path = new_path(rng, &reasons, &image, Want::File, bad_path);
        let kind = if bad_type { bad_kind(rng, Want::File) } else { good_kind(rng, Want::File) };
        let flags = flags_for(rng, &reasons);
        let change = create(rng, path, kind, flags);
        let stage = maybe_damage(rng, &reasons, &mut image);
        compare(t, &State { image, journal }, &change, lowest(&reasons, stage));
    }
}

fn flags_for(rng: &mut Rng, reasons: &[u32]) -> u32 {
    if reasons.contains(&26) {
        bad_flags(rng)
    } else {
        0
    }
}

fn directory_creates(rng: &mut Rng, t: &mut Tester) {
    for reasons in subsets(&[1, 8, 9, 17, 26, 10, 11, 13, 14, 15]) {
        t.report.about(format!("create of a directory, reasons {reasons:?}"));
        let mut image = small_image_for(rng, &reasons);
        let journal = journal_for(rng, &reasons, &image, 1);
        let what = if reasons.contains(&9) { rng.between(1, 3) } else { 0 };
        let path = new_path(rng, &reasons, &image, Want::Directory, what == 1);
        let kind = match what {
            2 => bad_kind(rng, Want::Directory),
            _ => good_kind(rng, Want::Directory),
        };
        let free = free_blocks(&image).len();
        let blocks = match (what, reasons.contains(&14)) {
            (3, _) => bad_blocks(rng),
            (_, true) => rng.between(free + 1, MAX_DIRECTORY_BLOCKS) as u32,
            _ => rng.between(1, 9) as u32,
        };
        let flags = flags_for(rng, &reasons);
        let change = create_directory(rng, path, kind, flags, blocks);
        let stage = maybe_damage(rng, &reasons, &mut image);
        compare(t, &State { image, journal }, &change, lowest(&reasons, stage));
    }
}

/// An image with fewer free blocks than a directory may have.
fn small_image_for(rng: &mut Rng, reasons: &[u32]) -> Vec<u8> {
    let fill = if reasons.contains(&13) { Fill::Slots } else { Fill::Some };
    loop {
        let (n, d) = (rng.between(40, 60), rng.between(2, 6));
        let image = build(rng, n, d, fill);
        let open = has_room(&image, &tree(&image)[0]);
        let shallow = |item: &Item| item.level < MAX_LEVELS;
        let enough = reasons.contains(&14) || free_blocks(&image).len() >= 9;
        if enough && (fill == Fill::Slots || open) && items(&image).iter().any(shallow) {
            return image;
        }
    }
}

fn directory_deletes(rng: &mut Rng, t: &mut Tester) {
    for reasons in subsets(&[1, 8, 9, 17, 10, 18, 15]) {
        t.report.about(format!("delete of a directory, reasons {reasons:?}"));
        let (mut image, empty, full) = image_with_folders(rng);
        let journal = journal_for(rng, &reasons, &image, 1);
        let path = match (reasons.iter().any(|r| [9, 17, 10].contains(r)), reasons.contains(&18)) {
            (true, _) => path_for(rng, &reasons, &image, Want::Directory, reasons.contains(&9)),
            (_, true) => full.path,
            _ => empty.path,
        };
        let change = Change::DeleteDirectory(DeleteDirectory { path });
        let stage = maybe_damage(rng, &reasons, &mut image);
        compare(t, &State { image, journal }, &change, lowest(&reasons, stage));
    }
}

/// An image with files, and a folder that is empty and one that is not.
fn image_with_folders(rng: &mut Rng) -> (Vec<u8>, Item, Item) {
    loop {
        let (n, d) = (rng.between(40, 140), rng.between(2, 6));
        let kind = rng.pick(&[Folders::Few, Folders::Many, Folders::Deep]);
        let image = build_tree(rng, n, d, Fill::Some, kind);
        let is_empty = |folder: &Item| entries(&image, folder.first as usize).is_empty();
        let (empty, full): (Vec<Item>, Vec<Item>) = folders(&image).into_iter().partition(is_empty);
        if !empty.is_empty() && !full.is_empty() {
            let (empty, full) = (rng.pick(&empty), rng.pick(&full));
            return (image, empty, full);
        }
    }
}

fn writes(rng: &mut Rng, t: &mut Tester) {
    for reasons in subsets(&[1, 8, 9, 17, 10, 12, 14, 15]) {
        t.report.about(format!("write, reasons {reasons:?}"));
        let mut image = image_for(rng, &reasons);
        let journal = journal_for(rng, &reasons, &image, 2);
        let big = reasons.contains(&9) && rng.once_in(2);
        let bad = reasons.contains(&9) && !big;
        let path = path_for(rng, &reasons, &image, Want::File, bad);
        let size = size_of(&image, &path);
        let offset = if reasons.contains(&12) { far_offset(rng, size) } else { size };
        let length = match (big, reasons.contains(&14)) {
            (true, _) => rng.between(4097, 5000),
            (_, true) => rng.between(512, 4096),
            _ => rng.below(4097),
        };
        let data = rng.bytes(length);
        let change = Change::Write(Write { path, offset, data, time: any_time(rng) });
        let stage = maybe_damage(rng, &reasons, &mut image);
        compare(t, &State { image, journal }, &change, lowest(&reasons, stage));
    }
}

/// Pieces, and an empty one in each place. That one takes no block and has no
/// record, so 14 and 15 are no reason to refuse it.
fn appends(rng: &mut Rng, t: &mut Tester) {
    for reasons in subsets(&[1, 8, 9, 17, 10, 14, 15]) {
        t.report.about(format!("append, reasons {reasons:?}"));
        let mut image = image_for(rng, &reasons);
        let journal = journal_for(rng, &reasons, &image, 2);
        let big = reasons.contains(&9) && rng.once_in(2);
        let bad = reasons.contains(&9) && !big;
        let path = path_for(rng, &reasons, &image, Want::File, bad);
        let length = match (big, reasons.contains(&14)) {
            (true, _) => rng.between(4097, 5000),
            (_, true) => rng.between(512, 4096),
            _ => rng.between(1, 4096),
        };
        let whole = Append { path, piece: rng.bytes(length), time: any_time(rng) };
        let stage = maybe_damage(rng, &reasons, &mut image);
        let state = State { image, journal };
        let number = t.append(&state, &whole);
        t.report.agree("plan", number, lowest(&reasons, stage));
        let concern = |&reason: &u32| ![14, 15].contains(&reason) && (reason != 9 || bad);
        let left: Vec<u32> = reasons.iter().copied().filter(concern).collect();
        t.report.about(format!("append of an empty piece, reasons {reasons:?}"));
        let number = t.append(&state, &Append { piece: vec![], ..whole });
        t.report.agree("plan", number, lowest(&left, stage));
    }
}

fn deletes(rng: &mut Rng, t: &mut Tester) {
    for reasons in subsets(&[1, 8, 9, 17, 10, 15]) {
        t.report.about(format!("delete, reasons {reasons:?}"));
        let mut image = image_for(rng, &reasons);
        let journal = journal_for(rng, &reasons, &image, 1);
        let path = path_for(rng, &reasons, &image, Want::File, reasons.contains(&9));
        let change = Change::Delete(Delete { path });
        let stage = maybe_damage(rng, &reasons, &mut image);
        compare(t, &State { image, journal }, &change, lowest(&reasons, stage));
    }
}

fn sets(rng: &mut Rng, t: &mut Tester) {
    for reasons in subsets(&[1, 8, 9, 20, 17, 10, 14, 15]) {
        t.report.about(format!("set of attributes, reasons {reasons:?}"));
        let (mut image, path, data) = set_for(rng, &reasons);
        let journal = journal_for(rng, &reasons, &image, 1);
        let change = Change::SetAttributes(SetAttributes { path, data });
        let stage = maybe_damage(rng, &reasons, &mut image);
        compare(t, &State { image, journal }, &change, lowest(&reasons, stage));
    }
}

fn shortens(rng: &mut Rng, t: &mut Tester) {
    for reasons in subsets(&[1, 8, 9, 17, 10, 12, 15]) {
        t.report.about(format!("shorten, reasons {reasons:?}"));
        let mut image = image_for(rng, &reasons);
        let journal = journal_for(rng, &reasons, &image, 1);
        let path = path_for(rng, &reasons, &image, Want::File, reasons.contains(&9));
        let size = size_of(&image, &path);
        let far = reasons.contains(&12);
        let to = if far { far_offset(rng, size) } else { rng.below(size as usize + 1) as u64 };
        let change = Change::Shorten(Shorten { path, size: to, time: any_time(rng) });
        let stage = maybe_damage(rng, &reasons, &mut image);
        compare(t, &State { image, journal }, &change, lowest(&reasons, stage));
    }
}

fn replaces(rng: &mut Rng, t: &mut Tester) {
    for reasons in subsets(&[1, 8, 9, 17, 10, 14, 15]) {
        t.report.about(format!("replace, reasons {reasons:?}"));
        let (mut image, path, data) = replace_for(rng, &reasons);
        let journal = journal_for(rng, &reasons, &image, 1);
        let change = Change::Replace(Replace { path, data, time: any_time(rng) });
        let stage = maybe_damage(rng, &reasons, &mut image);
        compare(t, &State { image, journal }, &change, lowest(&reasons, stage));
    }
}

/// An image, and the path and the data of a replace. With 14 the free blocks and
/// those of the file are fewer than needed.
fn replace_for(rng: &mut Rng, reasons: &[u32]) -> (Vec<u8>, Vec<u8>, Vec<u8>) {
    let big = reasons.contains(&9) && rng.once_in(2);
    let bad_path = reasons.contains(&9) && !big;
    loop {
        let image = image_for(rng, reasons);
        let path = path_for(rng, reasons, &image, Want::File, bad_path);
        let own = (size_of(&image, &path) as usize).div_ceil(BLOCK);
        let most = free_blocks(&image).len() + own;
        let length = match (big, reasons.contains(&14)) {
            (true, _) => rng.between(4097, 5000),
            (_, true) if most >= 8 => continue,
            (_, true) => rng.between(BLOCK * most + 1, 4096),
            _ => rng.below(4097),
        };
        return (image, path, rng.bytes(length));
    }
}

fn moves(rng: &mut Rng, t: &mut Tester) {
    for reasons in subsets(&[1, 8, 9, 17, 10, 11, 13, 15]) {
        t.report.about(format!("move, reasons {reasons:?}"));
        let (mut image, path, to) = move_for(rng, &reasons);
        let journal = journal_for(rng, &reasons, &image, 1);
        let change = Change::Move(Move { path, to });
        let stage = maybe_damage(rng, &reasons, &mut image);
        compare(t, &State { image, journal }, &change, lowest(&reasons, stage));
    }
}

/// An image, and the two paths of a move. A bad path, too many directories and
/// what leads nowhere are in the first path or in the second.
fn move_for(rng: &mut Rng, reasons: &[u32]) -> (Vec<u8>, Vec<u8>, Vec<u8>) {
    let bad = reasons.contains(&9);
    let first = rng.once_in(2);
    loop {
        let image = image_for(rng, reasons);
        let good = any_file(rng, &image).expect("the image has a file").path;
        let path = if first { path_for(rng, reasons, &image, Want::File, bad) } else { good };
        let lost = !first && reasons.iter().any(|reason| [9, 17, 10].contains(reason));
        let to = match (lost, reasons.contains(&11)) {
            (true, _) if bad => Some(bad_path(rng)),
            (true, _) if reasons.contains(&17) => Some(deep_path(rng, &image, Want::File)),
            (true, _) => Some(through_nothing_or_file(rng, &image, Want::File)),
            (_, true) if !reasons.contains(&10) && rng.once_in(3) => Some(path.clone()),
            (_, true) => Some(rng.pick(&items(&image)).path),
            _ => open_path(rng, reasons, &image, &path),
        };
        if let Some(to) = to {
            return (image, path, to);
        }
    }
}

/// A new path in a directory that a file can be moved to; with 13, in a full one
/// that is not its own. There may be none.
fn open_path(rng: &mut Rng, reasons: &[u32], image: &[u8], path: &[u8]) -> Option<Vec<u8>> {
    let full = reasons.contains(&13);
    let mut homes = tree(image);
    homes.retain(|home| {
        let own = home.entries.iter().any(|entry| home.path_of(&entry.name) == path);
        (own || has_room(image, home)) != full
    });
    if homes.is_empty() {
        return None;
    }
    let home = rng.pick(&homes);
    Some(home.path_of(&missing_name(rng, image, &home)))
}

/// An image, and the path and the data of a set. With 14 the free blocks and
/// those of the old attributes are fewer than may be needed.
fn set_for(rng: &mut Rng, reasons: &[u32]) -> (Vec<u8>, Vec<u8>, Vec<u8>) {
    let bad_data = reasons.contains(&9) && rng.once_in(2);
    let bad_path = reasons.contains(&9) && !bad_data;
    loop {
        let image = image_for(rng, reasons);
        let path = path_for(rng, reasons, &image, Want::File, bad_path);
        let most = free_blocks(&image).len() + attribute_blocks(&image, &path);
        let count = match (reasons.contains(&20), reasons.contains(&14)) {
            (true, _) => rng.pick(&[9, 10, 16, 129, 256]),
            (_, true) if most >= MAX_ATTRIBUTE_BLOCKS => continue,
            (_, true) => rng.between(most + 1, MAX_ATTRIBUTE_BLOCKS),
            _ => rng.between(1, MAX_ATTRIBUTE_BLOCKS),
        };
        let mut data = whole_blocks(rng, count);
        match (bad_data, reasons.contains(&20)) {
            (true, true) => data.truncate(BLOCK * count - rng.between(1, BLOCK - 1)),
            (true, false) => data = bad_attributes(rng),
            _ => {}
        }
        return (image, path, data);
    }
}

fn clears(rng: &mut Rng, t: &mut Tester) {
    for (reasons, flags) in
        subsets(&[1, 8, 9, 17, 10, 15]).into_iter().flat_map(|r| [(r.clone(), false), (r, true)])
    {
        let what = if flags { "flags" } else { "attributes" };
        t.report.about(format!("clear of {what}, reasons {reasons:?}"));
        let mut image = image_for(rng, &reasons);
        let journal = journal_for(rng, &reasons, &image, 1);
        let path = path_for(rng, &reasons, &image, Want::File, reasons.contains(&9));
        let change = if flags {
            Change::ClearFlags(ClearFlags { path })
        } else {
            Change::ClearAttributes(ClearAttributes { path })
        };
        let stage = maybe_damage(rng, &reasons, &mut image);
        compare(t, &State { image, journal }, &change, lowest(&reasons, stage));
    }
}

fn undos(rng: &mut Rng, t: &mut Tester) {
    for reasons in subsets(&[1, 8, 16]) {
        t.report.about(format!("undo, reasons {reasons:?}"));
        let n = images::small_n(rng);
        let mut image = images::of(rng, n);
        let records = if reasons.contains(&16) { 0 } else { 2 };
        let journal = journal_for(rng, &reasons, &image, records);
        let stage = maybe_damage(rng, &reasons, &mut image);
        let number = t.undo(&State { image, journal });
        t.report.agree("plan", number, lowest(&reasons, stage));
    }
}

fn marks(rng: &mut Rng, t: &mut Tester) {
    for reasons in subsets(&[1, 8, 27]) {
        t.report.about(format!("undo to a mark, reasons {reasons:?}"));
        let n = images::small_n(rng);
        let mut image = images::of(rng, n);
        let records = rng.below(4);
        let mut journal = journals::with_records(rng, &image, records, 1000);
        let state = State { image: image.clone(), journal: journal.clone() };
        let good = marks_of(&state);
        let mark = if reasons.contains(&27) { no_mark(rng, &good) } else { rng.pick(&good) };
        if reasons.contains(&8) {
            journal[0] = rng.pick(&[0, 2, 255]);
        }
        let stage = maybe_damage(rng, &reasons, &mut image);
        let state = State { image, journal };
        let number = t.undo_to(&state, mark);
        t.report.agree("plan", number, lowest(&reasons, stage));
        let told: Vec<u32> = reasons.into_iter().filter(|&reason| reason != 27).collect();
        let number = t.journal_info(&state);
        t.report.agree("plan", number, lowest(&told, stage));
    }
}

/// The reason 1 is damage of stages 1 to 4 here; of the later ones salvage has
/// to put right what there is.
fn salvages(rng: &mut Rng, t: &mut Tester) {
    for reasons in subsets(&[1, 5, 9]) {
        t.report.about(format!("salvage, reasons {reasons:?}"));
        let n = images::small_n(rng);
        let mut image = images::flat(rng, n);
        let slots = slot_offsets(&image, root_block(n));
        image[header::FREE] ^= rng.byte();
        image[slots[slots.len() - 1]] = rng.byte();
        if reasons.contains(&5) {
            image[slots[rng.between(1, slots.len() - 2)]] = rng.between(0x20, 0x5F) as u8;
        }
        let short = reasons.contains(&9);
        let len = if short { rng.below(slots.len()) } else { rng.between(slots.len(), 300) };
        let stage = if reasons.contains(&1) { damage_root(rng, &mut image) } else { 0 };
        let report = rng.bytes(len);
        t.salvage(&image, &report);
        let number = reference::salvage(&image, &report).err().unwrap_or(0);
        t.report.agree("plan", number, lowest(&reasons, stage));
    }
}

/// Damage of stages 1 to 4 that concerns no folder; gives the stage.
fn damage_root(rng: &mut Rng, image: &mut Vec<u8>) -> u32 {
    let all: Vec<_> = damage::of_root().collect();
    loop {
        let clause = all[rng.below(all.len())];
        if (clause.make)(rng, image).is_some() {
            return clause.stage;
        }
    }
}
