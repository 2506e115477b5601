//! `image limit=N step=N fill=VV ENTRY of KERNEL` and `images limits=A..B step=N fill=VV ENTRY of KERNEL`, on the last machine:
//! into a sink in memory, or into one of each limit. `image_of fill=VV ENTRY of KERNEL`: what memory holds.

use crate::calls::read_image::say_image;
use crate::entries::{LoadedEntry, loaded_entry};
use crate::pieces::pieces;
use crate::refusing::Refusing;
use crate::row::{Answered, Row, require, say};
use crate::sweep::joined_hexadecimal;
use crate::words::range;
use bootcore::proved::bl_image::{Image, MemSink, Sink, write_image};
use bootcore::shim::alloc::Allocator;

/// A limit above the length of each image of a row.
const AMPLE: u64 = 0x10_0000;

/// An empty sink of this limit and step, over a heap.
pub fn sink_over<A: Allocator>(heap: A, limit: u64, step: u64) -> Answered<MemSink<A>> {
    require(step != 0)?;
    Ok(MemSink::new(heap, limit as usize, step as usize)?)
}

/// Writes the image to a sink in memory of this limit and step. How it ended, the faults of the sink, and how often it asked for
/// memory.
fn written<'h>(heap: &'h Refusing, loaded: &LoadedEntry<'h>, limit: u64, step: u64) -> Answered<(String, MemSink<&'h Refusing>)> {
    let mut sink = sink_over(heap, limit, step)?;
    let before = heap.asked();
    let end = match write_image(&loaded.handoff, &loaded.memory, &mut sink) {
        Ok(()) => "ok".to_owned(),
        Err(fault) => format!("fault {}", fault.number()),
    };
    Ok((format!("{end}, faults {:x}, asked {:x}", sink.faults(), heap.asked() - before), sink))
}

/// Prepares the entry, loads it and writes its image, all over the heap.
pub fn answer(row: &mut Row<'_>) -> Answered {
    let (limit, step) = (row.number_field("limit")?, row.number_field("step")?);
    let (end, sink) = written(row.heap, &loaded_entry(row)?, limit, step)?;
    say!(row, "{end}, {}", pieces(sink.contents()));
    Ok(())
}

/// The same for sinks of each limit: whether each took the first bytes, as many as it has room for.
pub fn answer_each(row: &mut Row<'_>) -> Answered {
    let limits = range(row.field("limits")?)?;
    let step = row.number_field("step")?;
    let loaded = loaded_entry(row)?;
    let (_, whole) = written(row.heap, &loaded, AMPLE, AMPLE)?;
    let answers = limits.map(|limit| {
        let (end, sink) = written(row.heap, &loaded, limit, step)?;
        let first = &whole.contents()[..whole.contents().len().min(limit as usize)];
        let taken = if sink.contents() == first { "its first bytes" } else { "other bytes" };
        Ok((limit, format!("{end}, {taken}")))
    });
    let answers = answers.collect::<Answered<Vec<_>>>()?;
    say!(row, "{}", joined_hexadecimal(&answers));
    Ok(())
}

/// Prepares the entry, loads it and makes its image, all over the heap.
pub fn answer_held(row: &mut Row<'_>) -> Answered {
    let loaded = loaded_entry(row)?;
    let image = Image::of(row.heap, &loaded.handoff, &loaded.memory)?;
    say_image(row, &image);
    Ok(())
}
