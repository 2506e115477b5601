//! `own BYTES`: bytes that a value owns, and the vector that it gives back.

use crate::pieces::digits;
use crate::row::{Answered, Row, say};
use bootcore::proved::bl_mem::Bytes;

/// Copies the bytes into the heap: what is seen of the copy, and what the vector has that it is taken back to, and wrapped again.
pub fn answer(row: &mut Row<'_>) -> Answered {
    let bytes = Bytes::copy(row.heap, row.bytes)?;
    say!(row, "length {:x} empty {}; [{}]", bytes.len(), bytes.is_empty(), digits(bytes.as_slice()));
    say!(row, "; [{}]", digits(Bytes::from(bytes.into_vec()).as_slice()));
    Ok(())
}
