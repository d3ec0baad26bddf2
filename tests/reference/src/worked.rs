//! The volumes and changes of the rules' worked numbers, for the tests of
//! this crate and for those that hold another implementation against it.

use crate::{
    format, start, Append, Change, ClearAttributes, ClearFlags, Create, CreateDirectory, Delete,
    DeleteDirectory, Move, Put, Refusal, Replace, SetAttributes, Shorten, State, Write,
};

/// A volume of `n` blocks, `d` of them for the root.
pub fn formatted(n: usize, d: u32) -> Result<Vec<u8>, Refusal> {
    format(512 * n, d, 7, [3; 16], &[b'v'; 128])
}

/// Such a volume, and a journal just started with room for all that follows.
pub fn fresh(n: usize, d: u32) -> State {
    State { image: formatted(n, d).unwrap(), journal: start(131_072).unwrap() }
}

fn given(path: &[u8], kind: u8) -> Create {
    let path = path.to_vec();
    Create { path, kind, user: 1, group: 2, permissions: 3, flags: 0, time: 8 }
}

pub fn create(path: &[u8]) -> Change {
    Change::Create(given(path, 0x60))
}

pub fn write(path: &[u8], offset: u64, data: &[u8]) -> Change {
    Change::Write(Write { path: path.to_vec(), offset, data: data.to_vec(), time: 9 })
}

pub fn piece(path: &[u8], bytes: &[u8]) -> Append {
    Append { path: path.to_vec(), piece: bytes.to_vec(), time: 9 }
}

/// The list of these writes; an offset has 32 bits here, and a path's length 16.
pub fn list_of(writes: &[Write]) -> Vec<u8> {
    with_length(writes.iter().flat_map(item_of).collect())
}

/// The item of a write.
pub fn item_of(w: &Write) -> Vec<u8> {
    let mut item = ((18 + w.path.len() + w.data.len()) as u32).to_be_bytes().to_vec();
    item.extend(w.time.to_be_bytes());
    item.extend((w.offset as u32).to_be_bytes());
    item.extend((w.path.len() as u16).to_be_bytes());
    item.extend(&w.path);
    item.extend(&w.data);
    item
}

/// A list with these items, whatever they are.
pub fn with_length(items: Vec<u8>) -> Vec<u8> {
    let length = (5 + items.len()) as u32;
    [&[1], &length.to_be_bytes()[..], &items].concat()
}

pub fn delete(path: &[u8]) -> Change {
    Change::Delete(Delete { path: path.to_vec() })
}

pub fn create_directory(path: &[u8], blocks: u32) -> Change {
    Change::CreateDirectory(CreateDirectory { entry: given(path, 0x20), blocks })
}

pub fn delete_directory(path: &[u8]) -> Change {
    Change::DeleteDirectory(DeleteDirectory { path: path.to_vec() })
}

pub fn set_attributes(path: &[u8], data: &[u8]) -> Change {
    Change::SetAttributes(SetAttributes { path: path.to_vec(), data: data.to_vec() })
}

pub fn clear_attributes(path: &[u8]) -> Change {
    Change::ClearAttributes(ClearAttributes { path: path.to_vec() })
}

pub fn clear_flags(path: &[u8]) -> Change {
    Change::ClearFlags(ClearFlags { path: path.to_vec() })
}

pub fn shorten(path: &[u8], size: u64) -> Change {
    Change::Shorten(Shorten { path: path.to_vec(), size, time: 9 })
}

pub fn replace(path: &[u8], data: &[u8]) -> Change {
    Change::Replace(Replace { path: path.to_vec(), data: data.to_vec(), time: 9 })
}

pub fn move_file(path: &[u8], to: &[u8]) -> Change {
    Change::Move(Move { path: path.to_vec(), to: to.to_vec() })
}

pub fn put(serial: &[u8], data: &[u8]) -> Change {
    put_of(None, serial, data)
}

pub fn put_in(directory: &[u8], serial: &[u8], data: &[u8]) -> Change {
    put_of(Some(directory.to_vec()), serial, data)
}

fn put_of(directory: Option<Vec<u8>>, serial: &[u8], data: &[u8]) -> Change {
    Change::Put(Put { directory, serial: serial.to_vec(), data: data.to_vec(), time: 9 })
}
