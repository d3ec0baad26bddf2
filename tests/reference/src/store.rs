//! Settings with a past: one file for each serial number in a directory, which
//! holds the last revisions.

use crate::check::sound;
use crate::layout::{block_count, number, root_block, MAX_LEVELS};
use crate::path::{named, parts, walk};
use crate::volume::{content, create, write_at_most, Changed, Create, Write};
use crate::Refusal;

pub const BAD_SETTINGS: Refusal = 22;
pub const NO_REVISION: Refusal = 23;
pub const BAD_FORM: Refusal = 24;
pub const NUMBERS_USED_UP: Refusal = 25;

pub const MAX_SERIAL: usize = 16;
pub const MAX_SETTINGS: usize = 200;
pub const MAX_REVISIONS: usize = 16;
pub const VERSION: u8 = 1;
/// Version byte and length.
pub const HEAD: usize = 5;
/// Data length and revision number.
pub const RECORD_HEAD: usize = 5;
/// The type of a file that a put makes.
pub const KIND: u8 = 0x60;

/// The directory of the calls that bring none.
pub const ROOT: &[u8] = b"/";

/// What a put brings; the call for the root brings no directory.
#[derive(Clone, Debug, PartialEq, Eq)]
pub struct Put {
    pub directory: Option<Vec<u8>>,
    pub serial: Vec<u8>,
    pub data: Vec<u8>,
    pub time: u64,
}

/// The revision that a get asks for.
#[derive(Clone, Copy, Debug, PartialEq, Eq)]
pub enum Which {
    Latest,
    Number(u32),
}

#[derive(Clone, Debug, PartialEq, Eq)]
pub struct Revision {
    pub number: u32,
    pub data: Vec<u8>,
}

impl Put {
    pub fn directory(&self) -> &[u8] {
        self.directory.as_deref().unwrap_or(ROOT)
    }
}

/// The path of the file of a serial number in a directory.
pub fn path_of(directory: &[u8], serial: &[u8]) -> Vec<u8> {
    let front = if directory == ROOT { b"" } else { directory };
    [front, b"/", serial].concat()
}

/// The revisions of a file, oldest first, if it is of the form.
pub fn revisions(file: &[u8]) -> Option<Vec<Revision>> {
    let length = number(file.get(..HEAD)?, 1) as usize;
    let zeros = file.get(length..)?.iter().all(|&byte| byte == 0);
    let all = records(file.get(HEAD..length)?)?;
    let many = (1..=MAX_REVISIONS).contains(&all.len());
    let first = all.first().map_or(0, |revision| u64::from(revision.number));
    let rise = (first..).zip(&all).all(|(x, revision)| x == u64::from(revision.number));
    (file[0] == VERSION && many && first >= 1 && rise && zeros).then_some(all)
}

/// The records that fill these bytes exactly.
fn records(bytes: &[u8]) -> Option<Vec<Revision>> {
    let mut found = Vec::new();
    let mut rest = bytes;
    while !rest.is_empty() {
        let length = usize::from(rest[0]);
        let record = rest.get(..RECORD_HEAD + length).filter(|_| length <= MAX_SETTINGS)?;
        let data = record[RECORD_HEAD..].to_vec();
        found.push(Revision { number: number(record, 1), data });
        rest = &rest[record.len()..];
    }
    Some(found)
}

/// The file of these revisions, with zeros up to `size` if it is shorter.
pub fn file_of(revisions: &[Revision], size: usize) -> Vec<u8> {
    let mut records = Vec::new();
    for revision in revisions {
        records.push(revision.data.len() as u8);
        records.extend(revision.number.to_be_bytes());
        records.extend(&revision.data);
    }
    let length = HEAD + records.len();
    let mut file = vec![VERSION];
    file.extend((length as u32).to_be_bytes());
    file.extend(records);
    file.resize(length.max(size), 0);
    file
}

fn good_serial(serial: &[u8]) -> bool {
    (1..=MAX_SERIAL).contains(&serial.len()) && serial.iter().all(u8::is_ascii_alphanumeric)
}

/// The names from the root to a directory, none for the root itself. Weighs 22:
/// the directory, the serial number, and the length of what else the call brings;
/// and then 17: more than 8 directories.
fn levels<'a>(
    directory: &'a [u8],
    serial: &[u8],
    length_good: bool,
) -> Result<Vec<&'a [u8]>, Refusal> {
    let names = if directory == ROOT { Some(vec![]) } else { parts(directory) };
    let good = good_serial(serial) && length_good;
    let names = names.filter(|_| good).ok_or(BAD_SETTINGS)?;
    if names.len() > MAX_LEVELS {
        return Err(17);
    }
    Ok(names)
}

/// The first block of the directory of these names, or 10.
fn home(image: &[u8], names: &[&[u8]]) -> Result<usize, Refusal> {
    walk(image, root_block(block_count(image)), names)
}

/// The bytes of the file of a serial number, if the directory has it.
fn stored(image: &[u8], home: usize, serial: &[u8]) -> Option<Vec<u8>> {
    let entry = named(image, home, serial)?;
    entry.is_file().then(|| content(image, &entry))
}

/// A put on a sound image; weighs 22, 17, 10, 11, 24, 25, 13, 14. Its blocks are
/// those that the write of the whole file names.
pub(crate) fn put(image: &[u8], p: &Put) -> Result<Changed, Refusal> {
    let names = levels(p.directory(), &p.serial, p.data.len() <= MAX_SETTINGS)?;
    let home = home(image, &names)?;
    let path = path_of(p.directory(), &p.serial);
    let (opened, mut all, size) = match stored(image, home, &p.serial) {
        Some(file) => (image.to_vec(), revisions(&file).ok_or(BAD_FORM)?, file.len()),
        None => (create(image, &first(&path, p.time))?.image, vec![], 0),
    };
    let latest = all.last().map_or(0, |revision| revision.number);
    let number = latest.checked_add(1).ok_or(NUMBERS_USED_UP)?;
    if all.len() == MAX_REVISIONS {
        all.remove(0);
    }
    all.push(Revision { number, data: p.data.clone() });
    let write = Write { path, offset: 0, data: file_of(&all, size), time: p.time };
    let written = write_at_most(&opened, &write, usize::MAX)?;
    Ok(Changed { slot: number, ..written })
}

/// What makes the file of a first put.
fn first(path: &[u8], time: u64) -> Create {
    let path = path.to_vec();
    Create { path, kind: KIND, user: 0, group: 0, permissions: 0, flags: 0, time }
}

/// A get from the root.
pub fn get(
    image: &[u8],
    serial: &[u8],
    which: Which,
    buffer_len: usize,
) -> Result<Revision, Refusal> {
    get_in(image, ROOT, serial, which, buffer_len)
}

/// The revision whose data a get puts at the front of a buffer of `buffer_len`
/// bytes; weighs 1 to 7, 22, 17, 10, 24, 23.
pub fn get_in(
    image: &[u8],
    directory: &[u8],
    serial: &[u8],
    which: Which,
    buffer_len: usize,
) -> Result<Revision, Refusal> {
    sound(image)?;
    let names = levels(directory, serial, buffer_len >= MAX_SETTINGS)?;
    let file = stored(image, home(image, &names)?, serial).ok_or(10u32)?;
    let mut all = revisions(&file).ok_or(BAD_FORM)?;
    match which {
        Which::Latest => all.pop(),
        Which::Number(x) => all.into_iter().find(|revision| revision.number == x),
    }
    .ok_or(NO_REVISION)
}
