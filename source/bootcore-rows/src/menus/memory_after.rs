//! What memory holds after a boot, in the pool and outside it.

use crate::calls::memory::read;
use crate::row::Answered;
use bootcore::proved::bl_mem::PhysMem;
use std::ops::Range;

/// What memory reads as at first.
pub const FILL: u8 = 0xa5;

/// The most bytes of memory that are all looked at.
const MAX_LOOKED_AT: u64 = 0x400_0000;

/// Whether each byte of a range of memory is this one or lies in a part.
fn is_but_in<M: PhysMem>(memory: &M, parts: &[Range<u64>], range: Range<u64>, wanted: u8) -> Answered<bool> {
    let bytes = read(memory, range.start, range.end.saturating_sub(range.start))?;
    let is_in_part = |address| parts.iter().any(|part| part.contains(&address));
    Ok(bytes.iter().zip(range.start..).all(|(byte, address)| *byte == wanted || is_in_part(address)))
}

/// Whether the pool outside the parts is zero.
pub fn pool_text<M: PhysMem>(memory: &M, pool: &Range<u64>, parts: &[Range<u64>]) -> Answered<&'static str> {
    let is_clear = pool.is_empty() || is_but_in(memory, parts, pool.clone(), 0)?;
    Ok(if is_clear { "pool clear" } else { "pool dirty" })
}

/// Whether memory outside the pool and the parts is as it was, if it is small.
pub fn outside_text<M: PhysMem>(memory: &M, pool: &Range<u64>, parts: &[Range<u64>]) -> Answered<&'static str> {
    let size = memory.size();
    if size > MAX_LOOKED_AT {
        return Ok("outside not looked at");
    }
    // an empty pool may lie anywhere
    let pool = if pool.is_empty() { size..size } else { pool.clone() };
    let is_kept = is_but_in(memory, parts, 0..pool.start, FILL)? && is_but_in(memory, parts, pool.end..size, FILL)?;
    Ok(if is_kept { "outside kept" } else { "outside changed" })
}
