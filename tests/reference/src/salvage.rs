//! Salvage: makes a sound volume of what is left of a broken one.

use crate::check::{right_entry, sound_root};
use crate::layout::*;
use crate::volume::{blank, put_attributes, recount};
use crate::Refusal;
use std::collections::BTreeSet;

/// What became of a slot.
pub mod code {
    /// Nothing changed.
    pub const KEPT: u8 = 0;
    /// The entry broke stage 5 and is gone.
    pub const BAD_ENTRY: u8 = 1;
    /// The entry's chain could not be walked, and the entry is gone.
    pub const BAD_CHAIN: u8 = 2;
    /// A last value, or the type of the end slot, was put right.
    pub const PUT_RIGHT: u8 = 3;
    /// The file is kept without its attributes.
    pub const BAD_ATTRIBUTES: u8 = 4;
}

/// What an accepted salvage gives.
#[derive(Clone, Debug, PartialEq, Eq)]
pub struct Salvaged {
    pub image: Vec<u8>,
    /// One code for each slot of the root, then the report's own bytes.
    pub report: Vec<u8>,
}

/// A volume on its way: the image as it stands, the blocks that the root and
/// the kept files claim, and the names that are kept.
struct Progress {
    image: Vec<u8>,
    claimed: BTreeSet<usize>,
    names: BTreeSet<Vec<u8>>,
}

/// Weighs 1 to 4 (of the root alone), 5 for a directory in the root, 9 for a
/// report that is too short.
pub fn salvage(image: &[u8], report: &[u8]) -> Result<Salvaged, Refusal> {
    let root = sound_root(image)?;
    let slots = slot_offsets(image, root[0]);
    let end = slots.len() - 1;
    if slots[1..end].iter().any(|&at| is_directory_type(image[at + slot::TYPE])) {
        return Err(5);
    }
    if report.len() < slots.len() {
        return Err(9);
    }

    let mut p = Progress {
        image: image.to_vec(),
        claimed: root.into_iter().collect(),
        names: BTreeSet::new(),
    };
    let mut report = report.to_vec();
    report[0] = code::KEPT;
    for i in 1..end {
        report[i] = p.slot(i, slots[i]);
    }
    report[end] = p.end_slot(slots[end]);
    p.table();
    recount(&mut p.image);
    Ok(Salvaged { image: p.image, report })
}

impl Progress {
    /// A slot between the first and the last; gives its code.
    fn slot(&mut self, slot: usize, at: usize) -> u8 {
        let file = Entry::read(&self.image, slot, at);
        if file.kind == slot::TYPE_FREE {
            return code::KEPT;
        }
        if !right_entry(&self.image, &file) || self.names.contains(&file.name) {
            return self.zeroed(at, code::BAD_ENTRY);
        }
        let Some(data) = self.walk(file.first, file.blocks) else {
            return self.zeroed(at, code::BAD_CHAIN);
        };
        self.names.insert(file.name.clone());
        let data_code = self.claim(&data);
        match self.walk(file.attribute_block, file.attribute_size) {
            Some(attributes) => data_code.max(self.claim(&attributes)),
            None => {
                put_attributes(&mut self.image, &file, 0, 0);
                code::BAD_ATTRIBUTES
            }
        }
    }

    fn zeroed(&mut self, at: usize, code: u8) -> u8 {
        self.image[at..at + SLOT].fill(0);
        code
    }

    /// The `count` blocks from `first` on, unless the walk meets a number that
    /// is no block above the table, a block again, or one that is claimed. The
    /// value behind the last block is not met.
    fn walk(&self, first: u32, count: u32) -> Option<Vec<usize>> {
        let n = block_count(&self.image);
        let mut blocks = Vec::new();
        let mut met = BTreeSet::new();
        let mut next = first;
        for _ in 0..count {
            let b = next as usize;
            let inside = table_blocks(n) < b && b < n;
            if !inside || self.claimed.contains(&b) || !met.insert(b) {
                return None;
            }
            blocks.push(b);
            next = entry(&self.image, b);
        }
        Some(blocks)
    }

    /// Claims the blocks of a chain and ends it.
    fn claim(&mut self, blocks: &[usize]) -> u8 {
        self.claimed.extend(blocks);
        match blocks.last() {
            Some(&last) if entry(&self.image, last) != 1 => {
                set_entry(&mut self.image, last, 1);
                code::PUT_RIGHT
            }
            _ => code::KEPT,
        }
    }

    fn end_slot(&mut self, at: usize) -> u8 {
        if self.image[at + slot::TYPE] == slot::TYPE_END {
            return code::KEPT;
        }
        self.image[at + slot::TYPE] = slot::TYPE_END;
        code::PUT_RIGHT
    }

    /// Entries 0 to t are 1. Those of blocks that nobody claims, and those from
    /// n on, are 0; a block that was not free before becomes blank.
    fn table(&mut self) {
        let n = block_count(&self.image);
        let t = table_blocks(n);
        for b in 0..=t {
            set_entry(&mut self.image, b, 1);
        }
        for b in t + 1..t * ENTRIES_PER_TABLE_BLOCK {
            if self.claimed.contains(&b) {
                continue;
            }
            if b < n && entry(&self.image, b) != 0 {
                blank(&mut self.image, &[b]);
            }
            set_entry(&mut self.image, b, 0);
        }
    }
}
