//! Blocks and numbers: where everything lies in an image.

pub const BLOCK: usize = 512;
pub const MIN_BLOCKS: usize = 3;
pub const MAX_BLOCKS: usize = 65536;
pub const MAX_DIRECTORY_BLOCKS: usize = 64;
pub const MAX_LEVELS: usize = 8;
pub const ENTRIES_PER_TABLE_BLOCK: usize = 128;
pub const SLOTS_PER_BLOCK: usize = 4;
pub const SLOT: usize = 128;
pub const MAX_NAME: usize = 80;
pub const NAME_FIELD: usize = 80;
pub const MAX_DATA: usize = 4096;
pub const MAX_ATTRIBUTE_BLOCKS: usize = 8;

/// Offsets in the header, block 0.
pub mod header {
    pub const SIGNATURE: usize = 0;
    pub const VERSION: usize = 8;
    pub const TOTAL: usize = 12;
    pub const TABLE_BLOCKS: usize = 16;
    pub const OCCUPIED: usize = 20;
    pub const FREE: usize = 24;
    pub const ROOT: usize = 28;
    pub const UUID: usize = 112;
    pub const VOLUME_NAME: usize = 128;
    pub const VOLUME_NAME_SIZE: usize = 128;

    pub const SIGNATURE_BYTES: &[u8] = b"BulgeFS!";
    pub const VERSION_BYTES: &[u8] = &[0, 1, 0, 0];
}

/// Offsets in a directory slot. The entry of a child directory has its first
/// block and its size in blocks where a file has them.
pub mod slot {
    pub const TYPE: usize = 0;
    pub const USER: usize = 1;
    pub const GROUP: usize = 2;
    pub const PERMISSIONS: usize = 3;
    pub const FIRST: usize = 4;
    pub const SIZE: usize = 8;
    pub const BLOCKS: usize = 12;
    pub const CREATED: usize = 16;
    pub const MODIFIED: usize = 24;
    pub const ATTRIBUTE_BLOCK: usize = 32;
    pub const ATTRIBUTE_SIZE: usize = 36;
    pub const FLAGS: usize = 40;
    pub const NAME: usize = 48;

    // The self entry has these two where a file has first block and size.
    pub const SELF_BLOCK: usize = 4;
    pub const SELF_PARENT: usize = 8;

    pub const TYPE_FREE: u8 = 0x00;
    pub const TYPE_SELF: u8 = 0x01;
    pub const TYPE_END: u8 = 0xFF;
}

/// A type that a file may have.
pub fn is_file_type(kind: u8) -> bool {
    (0x60..=0x9F).contains(&kind)
}

/// A type that a child directory may have.
pub fn is_directory_type(kind: u8) -> bool {
    (0x20..=0x5F).contains(&kind)
}

/// The big-endian 32-bit number at an offset.
pub fn number(bytes: &[u8], at: usize) -> u32 {
    u32::from_be_bytes(bytes[at..at + 4].try_into().unwrap())
}

pub fn put_number(bytes: &mut [u8], at: usize, value: u32) {
    bytes[at..at + 4].copy_from_slice(&value.to_be_bytes());
}

pub fn put_time(bytes: &mut [u8], at: usize, value: u64) {
    bytes[at..at + 8].copy_from_slice(&value.to_be_bytes());
}

/// The number of blocks in an image.
pub fn block_count(image: &[u8]) -> usize {
    image.len() / BLOCK
}

/// The number of table blocks of an image of `n` blocks.
pub fn table_blocks(n: usize) -> usize {
    n.div_ceil(ENTRIES_PER_TABLE_BLOCK)
}

/// The block where the root directory of an image of `n` blocks starts.
pub fn root_block(n: usize) -> usize {
    table_blocks(n) + 1
}

/// The table block that holds entry `b`.
pub fn table_block_of(b: usize) -> usize {
    1 + b / ENTRIES_PER_TABLE_BLOCK
}

/// Table entry `b`: 0 free, 1 used and last, 2 or more the next block.
pub fn entry(image: &[u8], b: usize) -> u32 {
    number(image, BLOCK + 4 * b)
}

pub fn set_entry(image: &mut [u8], b: usize, value: u32) {
    put_number(image, BLOCK + 4 * b, value);
}

/// The `count` blocks that the table gives from `first` on, if all of them
/// lie above the table and below n. A chain of more than n blocks would have
/// to repeat one, and is none.
pub fn chain(image: &[u8], first: u32, count: usize) -> Option<Vec<usize>> {
    let n = block_count(image);
    if count > n {
        return None;
    }
    let mut blocks = Vec::new();
    let mut next = first;
    for _ in 0..count {
        let b = next as usize;
        if b <= table_blocks(n) || b >= n {
            return None;
        }
        blocks.push(b);
        next = entry(image, b);
    }
    Some(blocks)
}

/// Links the blocks in the given order and ends the chain.
pub fn link(image: &mut [u8], blocks: &[usize]) {
    for (i, &b) in blocks.iter().enumerate() {
        let value = blocks.get(i + 1).map_or(1, |&next| next as u32);
        set_entry(image, b, value);
    }
}

/// All bytes of a name field for a name: zeros after it.
pub fn name_field(name: &[u8]) -> [u8; NAME_FIELD] {
    let mut field = [0; NAME_FIELD];
    field[..name.len()].copy_from_slice(name);
    field
}

/// A name is 1 to 80 bytes, none of them zero or `/`.
pub fn is_good_name(name: &[u8]) -> bool {
    (1..=MAX_NAME).contains(&name.len()) && !name.contains(&0) && !name.contains(&b'/')
}

/// The name in a name field: the bytes before its first zero.
pub fn stored_name(field: &[u8]) -> &[u8] {
    let length = field.iter().position(|&b| b == 0).unwrap_or(field.len());
    &field[..length]
}

/// The blocks of the directory that starts at `first`, as many as its self
/// entry says. Only for a directory that passes stage 4.
pub fn directory_chain(image: &[u8], first: usize) -> Vec<usize> {
    let d = number(image, first * BLOCK + slot::BLOCKS) as usize;
    chain(image, first as u32, d).expect("the directory's chain was checked")
}

/// The offset in the image of every slot of the directory, in order.
pub fn slot_offsets(image: &[u8], first: usize) -> Vec<usize> {
    directory_chain(image, first)
        .iter()
        .flat_map(|&b| (0..SLOTS_PER_BLOCK).map(move |i| b * BLOCK + i * SLOT))
        .collect()
}

/// A file or a child directory as its slot tells it.
#[derive(Clone, Debug, PartialEq, Eq)]
pub struct Entry {
    pub slot: usize,
    /// Offset of the slot in the image.
    pub at: usize,
    pub kind: u8,
    pub name: Vec<u8>,
    pub first: u32,
    pub size: u32,
    pub blocks: u32,
    pub attribute_block: u32,
    /// In blocks.
    pub attribute_size: u32,
}

impl Entry {
    pub fn read(image: &[u8], slot: usize, at: usize) -> Entry {
        Entry {
            slot,
            at,
            kind: image[at + slot::TYPE],
            name: stored_name(&image[at + slot::NAME..at + SLOT]).to_vec(),
            first: number(image, at + slot::FIRST),
            size: number(image, at + slot::SIZE),
            blocks: number(image, at + slot::BLOCKS),
            attribute_block: number(image, at + slot::ATTRIBUTE_BLOCK),
            attribute_size: number(image, at + slot::ATTRIBUTE_SIZE),
        }
    }

    pub fn is_file(&self) -> bool {
        is_file_type(self.kind)
    }

    pub fn is_directory(&self) -> bool {
        is_directory_type(self.kind)
    }

    /// The blocks of the file or directory, in chain order. Only for a sound
    /// image.
    pub fn chain(&self, image: &[u8]) -> Vec<usize> {
        chain(image, self.first, self.blocks as usize).expect("the chain was checked")
    }

    /// The blocks of a file's attributes, likewise.
    pub fn attributes(&self, image: &[u8]) -> Vec<usize> {
        let count = self.attribute_size as usize;
        chain(image, self.attribute_block, count).expect("the chain was checked")
    }
}

/// The files and child directories of the directory that starts at `first`,
/// slots ascending. Only for a directory that passes stage 4.
pub fn entries(image: &[u8], first: usize) -> Vec<Entry> {
    let offsets = slot_offsets(image, first);
    (1..offsets.len() - 1)
        .map(|i| Entry::read(image, i, offsets[i]))
        .filter(|entry| entry.is_file() || entry.is_directory())
        .collect()
}

/// A directory of the tree.
#[derive(Clone, Debug, PartialEq, Eq)]
pub struct Directory {
    /// The names on the way from the root, each after a `/`; the root's is empty.
    pub path: Vec<u8>,
    /// How many levels it lies below the root.
    pub level: usize,
    pub first: usize,
    pub entries: Vec<Entry>,
}

impl Directory {
    /// The path of a name in this directory.
    pub fn path_of(&self, name: &[u8]) -> Vec<u8> {
        [&self.path, &b"/"[..], name].concat()
    }
}

/// All directories, the root first, each before those below it. Only for an
/// image that passes stages 4 and 5.
pub fn tree(image: &[u8]) -> Vec<Directory> {
    below(image, vec![], 0, root_block(block_count(image)))
}

fn below(image: &[u8], path: Vec<u8>, level: usize, first: usize) -> Vec<Directory> {
    let entries = entries(image, first);
    let directory = Directory { path, level, first, entries };
    let mut all = vec![directory.clone()];
    for child in directory.entries.iter().filter(|entry| entry.is_directory()) {
        let path = directory.path_of(&child.name);
        all.extend(below(image, path, level + 1, child.first as usize));
    }
    all
}

/// The blocks whose table entry is 0, ascending.
pub fn free_blocks(image: &[u8]) -> Vec<usize> {
    (0..block_count(image)).filter(|&b| entry(image, b) == 0).collect()
}
