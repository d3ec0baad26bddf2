//! The chain table as numbers, one for each block.

use crate::check::check;
use crate::layout::{block_count, number, put_number, BLOCK};
use crate::Refusal;

pub const BAD_TABLE_LENGTH: Refusal = 21;

fn accepted(image: &[u8], count: usize) -> Result<usize, Refusal> {
    match check(image) {
        0 if count == block_count(image) => Ok(count),
        0 => Err(BAD_TABLE_LENGTH),
        refused => Err(refused),
    }
}

/// The entries below n, into as many numbers.
pub fn load_table(image: &[u8], count: usize) -> Result<Vec<u32>, Refusal> {
    let n = accepted(image, count)?;
    Ok((0..n).map(|b| number(image, BLOCK + 4 * b)).collect())
}

/// The image with these entries below n; everything else stays.
pub fn store_table(image: &[u8], entries: &[u32]) -> Result<Vec<u8>, Refusal> {
    let n = accepted(image, entries.len())?;
    let mut after = image.to_vec();
    for b in 0..n {
        put_number(&mut after, BLOCK + 4 * b, entries[b]);
    }
    Ok(after)
}
