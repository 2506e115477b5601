//! `header BYTES`, `header screen of BYTES`: what a kernel's Multiboot2 header says, where there is no screen or one.

use crate::calls::elf::segment_text;
use crate::entries::fault;
use crate::row::{Answered, Row, Stop, say};
use bootcore::proved::bl_mb2head::{find_header, find_header_for};
use bootcore::proved::bl_mem::SliceView;

/// Finds the header. The call takes no memory.
pub fn answer(row: &mut Row<'_>) -> Answered {
    let view = SliceView::new(row.bytes);
    let found = match row.word() {
        "" => find_header(&view),
        "screen" => find_header_for(&view, true),
        _ => return Err(Stop::BadRow),
    };
    let header = found.map_err(|why| fault("fault ", why))?;
    say!(row, "at {:x}", header.place);
    if let Some(segment) = &header.segment {
        say!(row, " segment {}", segment_text(segment));
    }
    if let Some(entry) = header.entry {
        say!(row, " entry {entry:x}");
    }
    if let Some(relocation) = &header.relocation {
        say!(row, " move {:x}..{:x}", relocation.min_addr, relocation.max_addr);
        say!(row, " align {:x} preference {:x}", relocation.align, relocation.preference);
    }
    Ok(())
}
