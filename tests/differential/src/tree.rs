//! The files and folders of an image with their paths. Only for images that
//! pass stages 4 and 5.

use reference::layout::*;
use std::ops::Deref;

/// A file or a folder. Its entry's fields are its own.
#[derive(Clone, Debug)]
pub struct Item {
    pub path: Vec<u8>,
    /// The directory that holds it: how many levels below the root, and its first block.
    pub level: usize,
    pub home: usize,
    entry: Entry,
}

impl Deref for Item {
    type Target = Entry;

    fn deref(&self) -> &Entry {
        &self.entry
    }
}

/// All files and folders, each folder before what it holds.
pub fn items(image: &[u8]) -> Vec<Item> {
    let items = tree(image).into_iter().flat_map(|home| {
        let item = |entry: &Entry| Item {
            path: home.path_of(&entry.name),
            level: home.level,
            home: home.first,
            entry: entry.clone(),
        };
        home.entries.iter().map(item).collect::<Vec<_>>()
    });
    items.collect()
}

pub fn files(image: &[u8]) -> Vec<Item> {
    items(image).into_iter().filter(|item| item.is_file()).collect()
}

pub fn folders(image: &[u8]) -> Vec<Item> {
    items(image).into_iter().filter(|item| item.is_directory()).collect()
}

pub fn root(image: &[u8]) -> usize {
    root_block(block_count(image))
}

pub fn root_chain(image: &[u8]) -> Vec<usize> {
    directory_chain(image, root(image))
}

/// Where the self entry, the slots for entries and the end slot of each
/// directory lie, the root's first.
pub fn slots(image: &[u8]) -> Vec<Vec<usize>> {
    tree(image).iter().map(|home| slot_offsets(image, home.first)).collect()
}

/// The path of a name in the root.
pub fn in_root(name: &[u8]) -> Vec<u8> {
    [b"/", name].concat()
}
