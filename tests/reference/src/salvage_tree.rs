//! Salvage of a volume with directories: makes a sound volume of any image of
//! a right length, and keeps what is whole.

use crate::check::{length, right_entry};
use crate::layout::*;
use crate::salvage::code;
use crate::volume::{blank, put_attributes};
use crate::Refusal;
use std::collections::BTreeSet;

/// Codes that the salvage of a volume without directories does not have.
pub mod tree_code {
    /// The block was in use, and is freed.
    pub const FREED: u8 = 5;
    /// A lost directory was hung into this slot of the root.
    pub const HUNG: u8 = 6;
}

/// What an accepted salvage gives.
#[derive(Clone, Debug, PartialEq, Eq)]
pub struct TreeSalvaged {
    pub image: Vec<u8>,
    /// Byte 4b + i is the code of slot i of block b; behind 4n the report's own bytes.
    pub report: Vec<u8>,
    /// How many entries were zeroed.
    pub dropped: u32,
    /// How many blocks were freed.
    pub freed: u32,
}

/// Weighs 1 for the length, 3 for the whole header of a volume of another length,
/// 9 for a report that is too short.
pub fn salvage_tree(image: &[u8], report: &[u8]) -> Result<TreeSalvaged, Refusal> {
    if !length(image) {
        return Err(1);
    }
    if of_another_length(image) {
        return Err(3);
    }
    let n = block_count(image);
    if report.len() < SLOTS_PER_BLOCK * n {
        return Err(9);
    }

    let mut p = Progress {
        image: image.to_vec(),
        codes: vec![code::KEPT; SLOTS_PER_BLOCK * n],
        claimed: vec![false; n],
    };
    let root = p.root();
    p.slots(&root, 0);
    p.lost_directories(&root);
    p.rest();

    let count = |wanted: fn(usize, u8, &[u8]) -> bool| {
        p.codes.iter().enumerate().filter(|&(i, &code)| wanted(i, code, image)).count() as u32
    };
    let dropped = count(|slot, code, image| match code {
        code::BAD_ENTRY | code::BAD_CHAIN => true,
        tree_code::HUNG => image[SLOT * slot + slot::TYPE] != slot::TYPE_FREE,
        _ => false,
    });
    let freed = count(|_, code, _| code == tree_code::FREED);
    let mut after = report.to_vec();
    after[..p.codes.len()].copy_from_slice(&p.codes);
    Ok(TreeSalvaged { image: p.image, report: after, dropped, freed })
}

/// Whether the header is whole, of a volume of another length.
fn of_another_length(image: &[u8]) -> bool {
    let m = number(image, header::TOTAL) as usize;
    image[header::SIGNATURE..].starts_with(header::SIGNATURE_BYTES)
        && image[header::VERSION..].starts_with(header::VERSION_BYTES)
        && m != block_count(image)
        && (MIN_BLOCKS..=MAX_BLOCKS).contains(&m)
        && number(image, header::TABLE_BLOCKS) as usize == table_blocks(m)
        && number(image, header::ROOT) as usize == root_block(m)
}

/// A volume on its way: the image as it stands, the codes, and which blocks are
/// claimed.
struct Progress {
    image: Vec<u8>,
    codes: Vec<u8>,
    claimed: Vec<bool>,
}

impl Progress {
    fn n(&self) -> usize {
        block_count(&self.image)
    }

    /// Above the table, below n, not claimed, and not among those met before.
    fn good(&self, b: usize, met: &[usize]) -> bool {
        table_blocks(self.n()) < b && b < self.n() && !self.claimed[b] && !met.contains(&b)
    }

    /// The type of the block's last slot is that of an end.
    fn ends(&self, b: usize) -> bool {
        self.image[b * BLOCK + 3 * SLOT + slot::TYPE] == slot::TYPE_END
    }

    /// The good blocks from `b` on as the table links them, 64 at most.
    fn run(&self, b: usize) -> Vec<usize> {
        let mut run = Vec::new();
        let mut next = b;
        while run.len() < MAX_DIRECTORY_BLOCKS && self.good(next, &run) {
            run.push(next);
            next = entry(&self.image, next) as usize;
        }
        run
    }

    /// The blocks of a directory that begins at `b` and is said to have `d`. `sure`
    /// is set for a child whose entry and self entry both say so.
    fn directory_blocks(&self, b: usize, d: u32, sure: bool) -> Vec<usize> {
        let d = d as usize;
        let run = self.run(b);
        let in_run = (1..=run.len()).contains(&d);
        if in_run && (self.ends(run[d - 1]) || entry(&self.image, run[d - 1]) == 1) {
            return run[..d].to_vec();
        }
        if (1..=MAX_DIRECTORY_BLOCKS).contains(&d) {
            let row: Vec<usize> = (b..b + d).collect();
            if row.iter().all(|&b| self.good(b, &[])) && self.ends(row[d - 1]) {
                return row;
            }
        }
        if in_run && sure {
            return run[..d].to_vec();
        }
        run
    }

    /// Step 1: the root's blocks, put right.
    fn root(&mut self) -> Vec<usize> {
        let first = root_block(self.n());
        let d = number(&self.image, first * BLOCK + slot::BLOCKS);
        let blocks = self.directory_blocks(first, d, false);
        self.put_right(&blocks, first, None);
        blocks
    }

    /// Puts a directory right: its chain, its self entry and the type of its end
    /// slot. `name` are all 80 bytes of a child's name.
    fn put_right(&mut self, blocks: &[usize], parent: usize, name: Option<&[u8]>) {
        for &b in blocks {
            self.claimed[b] = true;
        }
        let before = self.form(blocks);
        link(&mut self.image, blocks);
        let at = blocks[0] * BLOCK;
        self.image[at + slot::TYPE] = slot::TYPE_SELF;
        put_number(&mut self.image, at + slot::SELF_BLOCK, blocks[0] as u32);
        put_number(&mut self.image, at + slot::SELF_PARENT, parent as u32);
        put_number(&mut self.image, at + slot::BLOCKS, blocks.len() as u32);
        if let Some(name) = name {
            self.image[at + slot::NAME..at + SLOT].copy_from_slice(name);
        }
        if self.form(blocks) != before {
            self.codes[at / SLOT] = code::PUT_RIGHT;
        }
        let end = blocks[blocks.len() - 1] * BLOCK + 3 * SLOT;
        if self.image[end + slot::TYPE] != slot::TYPE_END {
            self.image[end + slot::TYPE] = slot::TYPE_END;
            self.codes[end / SLOT] = code::PUT_RIGHT;
        }
    }

    /// The values of a directory's blocks, and its self entry.
    fn form(&self, blocks: &[usize]) -> (Vec<u32>, Vec<u8>) {
        let at = blocks[0] * BLOCK;
        let values = blocks.iter().map(|&b| entry(&self.image, b)).collect();
        (values, self.image[at..at + SLOT].to_vec())
    }

    /// Step 2: the slots of a directory that lies `level` levels below the root.
    fn slots(&mut self, blocks: &[usize], level: usize) {
        let offsets = slot_offsets(&self.image, blocks[0]);
        let mut names = BTreeSet::new();
        for i in 1..offsets.len() - 1 {
            let entry = Entry::read(&self.image, i, offsets[i]);
            if entry.kind == slot::TYPE_FREE {
                continue;
            }
            let kept = if !right_entry(&self.image, &entry) || names.contains(&entry.name) {
                self.zero(&entry, code::BAD_ENTRY)
            } else if entry.is_file() {
                self.file(&entry)
            } else {
                self.directory(&entry, blocks[0], level + 1)
            };
            if kept {
                names.insert(entry.name);
            }
        }
    }

    /// Zeroes an entry. It is not kept.
    fn zero(&mut self, entry: &Entry, code: u8) -> bool {
        self.image[entry.at..entry.at + SLOT].fill(0);
        self.codes[entry.at / SLOT] = code;
        false
    }

    /// A file's entry that meets stage 5. Gives whether it is kept.
    fn file(&mut self, file: &Entry) -> bool {
        let Some(data) = self.walk(file.first, file.blocks) else {
            return self.zero(file, code::BAD_CHAIN);
        };
        let data_code = self.claim(&data);
        let code = match self.walk(file.attribute_block, file.attribute_size) {
            Some(attributes) => data_code.max(self.claim(&attributes)),
            None => {
                put_attributes(&mut self.image, file, 0, 0);
                code::BAD_ATTRIBUTES
            }
        };
        self.codes[file.at / SLOT] = code;
        true
    }

    /// The `count` blocks from `first` on, unless one of them is not good. The
    /// value of the last is not looked at.
    fn walk(&self, first: u32, count: u32) -> Option<Vec<usize>> {
        let mut blocks = Vec::new();
        let mut met = BTreeSet::new();
        let mut next = first as usize;
        for _ in 0..count {
            if !self.good(next, &[]) || !met.insert(next) {
                return None;
            }
            blocks.push(next);
            next = entry(&self.image, next) as usize;
        }
        Some(blocks)
    }

    /// Claims the blocks of a chain and ends it.
    fn claim(&mut self, blocks: &[usize]) -> u8 {
        for &b in blocks {
            self.claimed[b] = true;
        }
        match blocks.last() {
            Some(&last) if entry(&self.image, last) != 1 => {
                set_entry(&mut self.image, last, 1);
                code::PUT_RIGHT
            }
            _ => code::KEPT,
        }
    }

    /// A directory's entry that meets stage 5, and all below it. Gives whether it
    /// is kept.
    fn directory(&mut self, child: &Entry, parent: usize, level: usize) -> bool {
        let first = child.first as usize;
        let own_d =
            self.good(first, &[]).then(|| number(&self.image, first * BLOCK + slot::BLOCKS));
        let blocks = self.directory_blocks(first, child.blocks, own_d == Some(child.blocks));
        if level > MAX_LEVELS || blocks.is_empty() || !self.witness(child, &blocks) {
            return self.zero(child, code::BAD_CHAIN);
        }
        if child.blocks as usize != blocks.len() {
            put_number(&mut self.image, child.at + slot::BLOCKS, blocks.len() as u32);
            self.codes[child.at / SLOT] = code::PUT_RIGHT;
        }
        self.adopt(child.at, &blocks, parent, level);
        true
    }

    /// Whether anything beside the entry says that there is a directory: its own
    /// number, its own name, or an end where the entry says.
    fn witness(&self, child: &Entry, blocks: &[usize]) -> bool {
        let own = blocks[0] * BLOCK;
        let name = |at: usize| &self.image[at + slot::NAME..at + SLOT];
        number(&self.image, own + slot::SELF_BLOCK) as usize == blocks[0]
            || name(own) == name(child.at)
            || (blocks.len() == child.blocks as usize && self.ends(blocks[blocks.len() - 1]))
    }

    /// Puts the child whose entry lies at `at` right, then its slots.
    fn adopt(&mut self, at: usize, blocks: &[usize], parent: usize, level: usize) {
        let name = self.image[at + slot::NAME..at + SLOT].to_vec();
        self.put_right(blocks, parent, Some(&name));
        self.slots(blocks, level);
    }

    /// Step 3: directories of the root that have lost their entries.
    fn lost_directories(&mut self, root: &[usize]) {
        for b in root[0] + 1..self.n() {
            if self.lost(b, root[0]) {
                self.hang(b, root[0]);
            }
        }
    }

    /// Whether block b is in use, claimed by none, and says that it is the first
    /// of a directory of the root whose name is good.
    fn lost(&self, b: usize, root: usize) -> bool {
        let at = b * BLOCK;
        let field = &self.image[at + slot::NAME..at + SLOT];
        let name = stored_name(field);
        !self.claimed[b]
            && entry(&self.image, b) != 0
            && self.image[at + slot::TYPE] == slot::TYPE_SELF
            && number(&self.image, at + slot::SELF_BLOCK) as usize == b
            && number(&self.image, at + slot::SELF_PARENT) as usize == root
            && is_good_name(name)
            && field[name.len()..].iter().all(|&byte| byte == 0)
    }

    /// Hangs a lost directory into the root, if its name is new and a slot is free.
    fn hang(&mut self, b: usize, root: usize) {
        let name = stored_name(&self.image[b * BLOCK + slot::NAME..b * BLOCK + SLOT]);
        if entries(&self.image, root).iter().any(|entry| entry.name == name) {
            return;
        }
        let offsets = slot_offsets(&self.image, root);
        let places = &offsets[1..offsets.len() - 1];
        let free = |&&at: &&usize| self.image[at + slot::TYPE] == slot::TYPE_FREE;
        let Some(&at) = places.iter().find(free) else {
            return;
        };
        let d = number(&self.image, b * BLOCK + slot::BLOCKS);
        let blocks = self.directory_blocks(b, d, false);
        self.image.copy_within(b * BLOCK..b * BLOCK + SLOT, at);
        self.image[at + slot::TYPE] = 0x20;
        put_number(&mut self.image, at + slot::SIZE, 0);
        put_number(&mut self.image, at + slot::BLOCKS, blocks.len() as u32);
        put_number(&mut self.image, at + slot::ATTRIBUTE_BLOCK, 0);
        put_number(&mut self.image, at + slot::ATTRIBUTE_SIZE, 0);
        self.codes[at / SLOT] = tree_code::HUNG;
        self.adopt(at, &blocks, root, 1);
    }

    /// Step 4: the rest of the table, blocks that nobody claims, and the header.
    fn rest(&mut self) {
        let n = self.n();
        let t = table_blocks(n);
        let before = self.image.clone();
        for b in 0..=t {
            set_entry(&mut self.image, b, 1);
        }
        for b in n..t * ENTRIES_PER_TABLE_BLOCK {
            set_entry(&mut self.image, b, 0);
        }
        let elsewhere = self.image != before;
        for b in t + 1..n {
            if !self.claimed[b] && entry(&self.image, b) != 0 {
                set_entry(&mut self.image, b, 0);
                blank(&mut self.image, &[b]);
                self.codes[SLOTS_PER_BLOCK * b] = tree_code::FREED;
            }
        }
        let old = self.image[..32].to_vec();
        put_header(&mut self.image);
        if elsewhere || self.image[..32] != old {
            self.codes[0] = code::PUT_RIGHT;
        }
    }
}

/// Header bytes 0 to 31 for the length of the image and its table.
fn put_header(image: &mut [u8]) {
    let n = block_count(image);
    let free = free_blocks(image).len();
    image[header::SIGNATURE..][..8].copy_from_slice(header::SIGNATURE_BYTES);
    image[header::VERSION..][..4].copy_from_slice(header::VERSION_BYTES);
    put_number(image, header::TOTAL, n as u32);
    put_number(image, header::TABLE_BLOCKS, table_blocks(n) as u32);
    put_number(image, header::OCCUPIED, (n - free) as u32);
    put_number(image, header::FREE, free as u32);
    put_number(image, header::ROOT, root_block(n) as u32);
}
