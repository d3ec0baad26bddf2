//! What an image shows by its paths, wherever it lies in it.

use crate::layout::*;
use crate::volume::{bytes_of, content};
use std::collections::BTreeMap;

/// A file or a folder as its path shows it: no slot, no block number.
#[derive(Clone, Debug, PartialEq, Eq)]
pub struct View {
    /// Type, user, group, permissions.
    pub kind: Vec<u8>,
    pub created: Vec<u8>,
    pub modified: Vec<u8>,
    pub flags: Vec<u8>,
    /// The blocks of a folder; 0 of a file.
    pub folder_blocks: u32,
    pub bytes: Vec<u8>,
    pub attributes: Vec<u8>,
}

/// All that a sound image shows: what each path leads to, and the free count.
#[derive(Clone, Debug, PartialEq, Eq)]
pub struct Views {
    pub paths: BTreeMap<Vec<u8>, View>,
    pub free: u32,
}

pub fn views(image: &[u8]) -> Views {
    let paths = tree(image).into_iter().flat_map(|home| {
        let shown = |entry: &Entry| (home.path_of(&entry.name), view(image, entry));
        home.entries.iter().map(shown).collect::<Vec<_>>()
    });
    Views { paths: paths.collect(), free: number(image, header::FREE) }
}

fn view(image: &[u8], entry: &Entry) -> View {
    let field = |at: usize, len: usize| image[entry.at + at..entry.at + at + len].to_vec();
    let (folder_blocks, bytes) =
        if entry.is_file() { (0, content(image, entry)) } else { (entry.blocks, vec![]) };
    View {
        kind: field(slot::TYPE, 4),
        created: field(slot::CREATED, 8),
        modified: field(slot::MODIFIED, 8),
        flags: field(slot::FLAGS, 4),
        folder_blocks,
        bytes,
        attributes: bytes_of(image, &entry.attributes(image)),
    }
}

/// The first path that two images show differently, or their free counts, in words.
pub fn difference(one: &Views, other: &Views) -> Option<String> {
    let paths = one.paths.keys().chain(other.paths.keys());
    let mut unlike = paths.filter(|&path| one.paths.get(path) != other.paths.get(path));
    if let Some(path) = unlike.next() {
        return Some(format!("{} is not the same", path.escape_ascii()));
    }
    (one.free != other.free).then(|| format!("{} free and {} free", one.free, other.free))
}

/// Whether a path is another one or lies below it.
pub fn is_inside(path: &[u8], other: &[u8]) -> bool {
    let below = path.get(other.len()).is_none_or(|&b| b == b'/');
    path.starts_with(other) && below
}
