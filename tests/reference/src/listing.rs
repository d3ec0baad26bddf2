//! What the lister writes for the bytes on its standard input.

use crate::check;
use crate::layout::{block_count, entries, header, number, root_block};

pub const MAX_INPUT: usize = 65_536;

/// The listing of an image, with the files of the root alone, or the line that names the refusal.
pub fn list(input: &[u8]) -> Vec<u8> {
    let refusal = if input.len() > MAX_INPUT { 1 } else { check(input) };
    if refusal != 0 {
        return format!("refused {refusal}\n").into_bytes();
    }
    let mut text = format!(
        "blocks {} used {} free {}\n",
        number(input, header::TOTAL),
        number(input, header::OCCUPIED),
        number(input, header::FREE)
    )
    .into_bytes();
    let root = entries(input, root_block(block_count(input)));
    for file in root.iter().filter(|entry| entry.is_file()) {
        text.extend(format!("{} {} {} ", file.slot, file.size, file.blocks).into_bytes());
        text.extend(file.name.iter().map(|&b| if (0x21..=0x7E).contains(&b) { b } else { b'?' }));
        text.push(b'\n');
    }
    text
}
