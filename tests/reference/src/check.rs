//! The check, in stages. Every stage may rely on those before it.

use crate::layout::*;
use crate::Refusal;
use std::collections::BTreeSet;

/// The first stage that is not met, or 0 for a sound image.
pub fn check(image: &[u8]) -> u32 {
    sound(image).err().unwrap_or(0)
}

/// Refuses an image that is not sound.
pub fn sound(image: &[u8]) -> Result<(), Refusal> {
    header(image)?;
    directories(image)?;
    require(chains(image), 6)?;
    require(counts(image), 7)
}

/// Stages 1 to 3.
fn header(image: &[u8]) -> Result<(), Refusal> {
    require(length(image), 1)?;
    require(signature(image), 2)?;
    require(geometry(image), 3)
}

/// Stages 1 to 3, and stage 4 of the root alone. Gives the root's blocks.
pub fn sound_root(image: &[u8]) -> Result<Vec<usize>, Refusal> {
    header(image)?;
    directory_blocks(image, &expected_root(image))
}

fn require(met: bool, number: Refusal) -> Result<(), Refusal> {
    if met {
        Ok(())
    } else {
        Err(number)
    }
}

/// Stage 1.
pub fn length(image: &[u8]) -> bool {
    image.len() == BLOCK * block_count(image)
        && (MIN_BLOCKS..=MAX_BLOCKS).contains(&block_count(image))
}

/// Stage 2.
fn signature(image: &[u8]) -> bool {
    image[header::SIGNATURE..].starts_with(header::SIGNATURE_BYTES)
        && image[header::VERSION..].starts_with(header::VERSION_BYTES)
}

/// Stage 3.
fn geometry(image: &[u8]) -> bool {
    let n = block_count(image);
    number(image, header::TOTAL) as usize == n
        && number(image, header::TABLE_BLOCKS) as usize == table_blocks(n)
        && number(image, header::ROOT) as usize == root_block(n)
}

/// Stages 4 and 5 of the whole tree: the first fault met gives the number.
fn directories(image: &[u8]) -> Result<(), Refusal> {
    directory(image, &expected_root(image), 0, &mut BTreeSet::new())
}

/// What a directory must say of itself: of a child its entry has it, of the root
/// the rules.
struct Expected<'a> {
    first: u32,
    parent: u32,
    d: u32,
    /// All bytes of the name field. The root's is not looked at.
    name: Option<&'a [u8]>,
}

fn expected_root(image: &[u8]) -> Expected<'static> {
    let root = root_block(block_count(image)) as u32;
    let d = number(image, root as usize * BLOCK + slot::BLOCKS);
    Expected { first: root, parent: root, d, name: None }
}

/// A directory `level` levels below the root: stage 4, the end slot, then each
/// slot with all that is below it. `met` are the blocks of directories so far.
fn directory(
    image: &[u8],
    expected: &Expected,
    level: usize,
    met: &mut BTreeSet<usize>,
) -> Result<(), Refusal> {
    require(level <= MAX_LEVELS, 4)?;
    let blocks = directory_blocks(image, expected)?;
    require(blocks.into_iter().all(|b| met.insert(b)), 4)?;

    let offsets = slot_offsets(image, expected.first as usize);
    let end = offsets.len() - 1;
    require(image[offsets[end] + slot::TYPE] == slot::TYPE_END, 5)?;
    let mut names = BTreeSet::new();
    for slot in 1..end {
        let entry = Entry::read(image, slot, offsets[slot]);
        if entry.kind == slot::TYPE_FREE {
            continue;
        }
        require(right_entry(image, &entry) && names.insert(entry.name.clone()), 5)?;
        if entry.is_directory() {
            let name = &image[entry.at + slot::NAME..entry.at + SLOT];
            let (first, parent, d) = (entry.first, expected.first, entry.blocks);
            directory(image, &Expected { first, parent, d, name: Some(name) }, level + 1, met)?;
        }
    }
    Ok(())
}

/// The blocks of a directory whose chain and self entry meet stage 4.
fn directory_blocks(image: &[u8], expected: &Expected) -> Result<Vec<usize>, Refusal> {
    let blocks = right_chain(image, expected.first, expected.d).ok_or(4u32)?;
    require(right_self_entry(image, expected), 4)?;
    Ok(blocks)
}

/// The chain of a directory: d different blocks, 1 to 64, the last with value 1.
fn right_chain(image: &[u8], first: u32, d: u32) -> Option<Vec<usize>> {
    let blocks = chain(image, first, d as usize)?;
    let right = (1..=MAX_DIRECTORY_BLOCKS).contains(&blocks.len())
        && all_different(&blocks)
        && ends(image, &blocks);
    right.then_some(blocks)
}

fn right_self_entry(image: &[u8], expected: &Expected) -> bool {
    let at = expected.first as usize * BLOCK;
    image[at + slot::TYPE] == slot::TYPE_SELF
        && number(image, at + slot::SELF_BLOCK) == expected.first
        && number(image, at + slot::SELF_PARENT) == expected.parent
        && number(image, at + slot::BLOCKS) == expected.d
        && expected.name.is_none_or(|name| image[at + slot::NAME..at + SLOT] == *name)
}

/// The clauses of stage 5 for one slot in use, but for names equal to others.
pub fn right_entry(image: &[u8], entry: &Entry) -> bool {
    let field = &image[entry.at + slot::NAME..entry.at + SLOT];
    let name = is_good_name(&entry.name) && field[entry.name.len()..].iter().all(|&b| b == 0);
    let sizes = if entry.is_directory() {
        entry.size == 0
    } else {
        entry.blocks == entry.size.div_ceil(BLOCK as u32) && (entry.first == 0) == (entry.size == 0)
    };
    (entry.is_file() || entry.is_directory()) && name && right_attributes(entry) && sizes
}

/// Both attribute fields are 0, or, of a file, the block is not and the size is
/// 1 to 8.
fn right_attributes(entry: &Entry) -> bool {
    let size = entry.attribute_size as usize;
    match entry.attribute_block {
        0 => size == 0,
        _ => entry.is_file() && (1..=MAX_ATTRIBUTE_BLOCKS).contains(&size),
    }
}

/// Stage 6.
fn chains(image: &[u8]) -> bool {
    let n = block_count(image);
    let t = table_blocks(n);
    let mut owned = Vec::new();
    for directory in tree(image) {
        owned.extend(directory_chain(image, directory.first));
        for file in directory.entries.iter().filter(|entry| entry.is_file()) {
            let data = (file.first, file.blocks);
            let attributes = (file.attribute_block, file.attribute_size);
            for (first, count) in [data, attributes] {
                match chain(image, first, count as usize) {
                    Some(blocks) if ends(image, &blocks) => owned.extend(blocks),
                    _ => return false,
                }
            }
        }
    }
    let in_chains: BTreeSet<usize> = owned.iter().copied().collect();
    let entries_in_table = t * ENTRIES_PER_TABLE_BLOCK;
    all_different(&owned)
        && (0..=t).all(|b| entry(image, b) == 1)
        && (t + 1..n).all(|b| in_chains.contains(&b) || entry(image, b) == 0)
        && (n..entries_in_table).all(|b| entry(image, b) == 0)
}

/// Stage 7.
fn counts(image: &[u8]) -> bool {
    let n = block_count(image);
    let free = free_blocks(image).len();
    number(image, header::OCCUPIED) as usize == n - free
        && number(image, header::FREE) as usize == free
}

/// The last block's entry is 1. An empty chain has no last block.
fn ends(image: &[u8], blocks: &[usize]) -> bool {
    match blocks.last() {
        None => true,
        Some(&last) => entry(image, last) == 1,
    }
}

fn all_different(blocks: &[usize]) -> bool {
    blocks.iter().collect::<BTreeSet<_>>().len() == blocks.len()
}
