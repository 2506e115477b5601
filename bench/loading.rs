//! Parts, loaded into memory.

use crate::places::{Content, Part};
use crate::staging::Source;

/// Writes what a part holds, and zeros behind it.
fn load<S: Source + ?Sized>(memory: &mut [u8], source: &S, part: &Part) {
    let range = part.range();
    let (start, end) = (range.start as usize, range.end as usize);
    let count = match &part.content {
        Content::Own(bytes) => {
            memory[start..start + bytes.len()].copy_from_slice(bytes);
            bytes.len()
        }
        Content::File { file, offset, count } => {
            source.load(memory, start, *file, *offset as usize, *count as usize);
            *count as usize
        }
    };
    memory[start + count..end].fill(0);
}

pub fn load_parts<S: Source + ?Sized>(memory: &mut [u8], source: &S, parts: &[Part]) {
    for part in parts {
        load(memory, source, part);
    }
}
