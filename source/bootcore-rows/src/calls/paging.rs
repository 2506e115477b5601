//! The descriptors and the page tables of the 64-bit entry.
//!
//! - `gdt64`: the descriptors.
//! - `page_tables base=N frame=N bytes=A..B`: the bytes of a frame from A up to B, written over a frame of other bytes.
//! - `translate base=N at=ADDRESS,.. of BYTES`: where each address leads by these tables.

use crate::pieces::{digits, pieces};
use crate::row::{Answered, Row, Stop, require, say};
use crate::words::{numbers_if_any, range};
use bootcore::proved::bl_params::{gdt64, page_tables, translate};

/// The descriptors.
pub fn answer_gdt64(row: &mut Row<'_>) -> Answered {
    say!(row, "{}", digits(&gdt64()));
    Ok(())
}

/// Writes a frame.
pub fn answer_tables(row: &mut Row<'_>) -> Answered {
    let base: u64 = row.number_field("base")?;
    let frame = row.number_field("frame")?;
    let range = range(row.field("bytes")?)?;
    require(base % 4096 == 0 && base <= 0xffff_a000 && frame < 6)?;
    let mut out = [0xa5; 4096];
    page_tables(base, frame, &mut out);
    let bytes = out.get(range.start as usize..range.end as usize).ok_or(Stop::BadRow)?;
    say!(row, "{}", pieces(bytes));
    Ok(())
}

/// Translates addresses.
pub fn answer_translate(row: &mut Row<'_>) -> Answered {
    let base = row.number_field("base")?;
    let addresses = numbers_if_any(row.field("at")?)?;
    let places = addresses.iter().map(|address| match translate(row.bytes, base, *address) {
        Some(to) => format!("{to:x}"),
        None => "none".to_owned(),
    });
    let places: Vec<_> = places.collect();
    say!(row, "{}", places.join("; "));
    Ok(())
}
