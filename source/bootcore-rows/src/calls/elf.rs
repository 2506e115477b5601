//! `elf BYTES`: an executable's segments and entry.

use crate::entries::fault;
use crate::row::{Answered, Row, say};
use bootcore::proved::bl_elf::read_elf;
use bootcore::proved::bl_mem::{Segment, SliceView};

/// A segment as `OFFSET,ADDRESS,FILESZ,MEMSZ`.
pub fn segment_text(segment: &Segment) -> String {
    format!("{:x},{:x},{:x},{:x}", segment.offset, segment.address, segment.filesz, segment.memsz)
}

/// Reads the executable over the heap.
pub fn answer(row: &mut Row<'_>) -> Answered {
    let elf = read_elf(row.heap, &SliceView::new(row.bytes)).map_err(|why| fault("fault ", why))?;
    let segments: Vec<_> = elf.segments().iter().map(segment_text).collect();
    say!(row, "{}", if segments.is_empty() { "none".to_owned() } else { segments.join(";") });
    let entry = elf.entry().map_err(|why| fault(" entry fault ", why))?;
    say!(row, " entry {entry:x}");
    Ok(())
}
