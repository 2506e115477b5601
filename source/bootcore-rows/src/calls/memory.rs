//! `memory size=SIZE fill=BYTE STEP; STEP ..`, `sparse ..` and `slice_memory base=ADDRESS ..`: one step after the other on new
//! memory in one block, on memory that keeps only the frames which have room, or on a slice from a base address on.

use crate::pieces::pieces;
use crate::row::{Answered, Row, Stop, require, say};
use crate::words::{numbers_if_any, range, ranges};
use bootcore::proved::bl_mem::{Flat, PhysMem, SliceMemory, Sparse};
use std::ops::Range;

/// Gives room to ranges, which must go forward and lie in memory.
fn reserve<M: PhysMem>(memory: &mut M, ranges: &[Range<u64>]) -> Answered {
    require(ranges.iter().all(|range| range.start <= range.end && range.end <= memory.size()))?;
    Ok(memory.reserve(ranges)?)
}

/// Gives room to so many bytes from an address on.
fn give_room<M: PhysMem>(memory: &mut M, at: u64, count: u64) -> Answered {
    let end = at.checked_add(count).ok_or(Stop::BadRow)?;
    reserve(memory, std::slice::from_ref(&(at..end)))
}

/// Gives room to the pool, as a call asks. An empty one needs none, wherever it is.
pub fn give_pool<M: PhysMem>(memory: &mut M, pool: &Range<u64>) -> Answered {
    if pool.start >= pool.end { Ok(()) } else { reserve(memory, std::slice::from_ref(pool)) }
}

fn require_within<M: PhysMem>(memory: &M, at: u64, count: u64) -> Answered {
    require(at.checked_add(count).is_some_and(|end| end <= memory.size()))
}

/// Reads bytes, which must lie in memory.
pub fn read<M: PhysMem>(memory: &M, at: u64, count: u64) -> Answered<Vec<u8>> {
    require_within(memory, at, count)?;
    let mut bytes = vec![0; count as usize];
    memory.read(at, &mut bytes);
    Ok(bytes)
}

/// Makes a step of this name.
pub fn step<M: PhysMem>(row: &mut Row<'_>, memory: &mut M, name: &str) -> Answered {
    match name {
        "size" => {
            say!(row, "{:x}", memory.size());
            return Ok(());
        }
        "read" => {
            let bytes = read(memory, row.number()?, row.number()?)?;
            say!(row, "{}", pieces(&bytes));
            return Ok(());
        }
        "lend" => {
            let (at, count) = (row.number()?, row.number()?);
            require_within(memory, at, count)?;
            say!(row, "{}", memory.lend(at, count as usize).map_or("nothing".to_owned(), pieces));
            return Ok(());
        }
        "write" => {
            let places = numbers_if_any(row.word())?;
            let part = row.session.bytes(row.rest())?;
            for at in places {
                give_room(memory, at, part.len() as u64)?;
                memory.write(at, &part);
            }
        }
        "copy" => {
            let (from, to, count) = (row.number()?, row.number()?, row.number()?);
            give_room(memory, to, count)?;
            require(count <= 4096)?;
            require_within(memory, from, count)?;
            memory.copy(from, to, count as usize);
        }
        "zero" => {
            let range = range(row.word())?;
            reserve(memory, std::slice::from_ref(&range))?;
            memory.zero(range);
        }
        "reserve" => reserve(memory, &ranges(row.rest())?)?,
        _ => return Err(Stop::BadRow),
    }
    say!(row, "ok");
    Ok(())
}

fn steps<M: PhysMem>(row: &mut Row<'_>, memory: &mut M) -> Answered {
    row.steps(|row| {
        let name = row.word();
        step(row, memory, name)
    })
}

/// Makes the steps on memory in one block.
pub fn answer_flat(row: &mut Row<'_>) -> Answered {
    let mut memory = Flat::new(row.heap, row.number_field("size")?, row.number_field("fill")?)?;
    steps(row, &mut memory)
}

/// Makes the steps on memory that keeps only some frames.
pub fn answer_sparse(row: &mut Row<'_>) -> Answered {
    let mut memory = Sparse::new(row.heap, row.number_field("size")?, row.number_field("fill")?)?;
    steps(row, &mut memory)
}

/// Makes the steps on memory in a slice of so many bytes, and tells what the slice holds then.
pub fn answer_slice(row: &mut Row<'_>) -> Answered {
    let base = row.number_field("base")?;
    let size = row.number_field("size")?;
    let mut held = vec![row.number_field("fill")?; size];
    steps(row, &mut SliceMemory::from_base(base, &mut held))?;
    say!(row, "; slice {}", pieces(&held));
    Ok(())
}
