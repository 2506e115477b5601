//! `machine size=SIZE pool=START..END region=BASE+LENGTH:KIND ..`: the machine that later rows are about.
//!
//! A region may stand there several times: `BASE+LENGTH:KIND*COUNT`, or each a step after the last: `..*COUNT/STEP`. Beside
//! regions stand the words of what firmware tells.

use crate::calls::firmware;
use crate::refusing::Refusing;
use crate::row::{Answered, Row, Stop, say};
use crate::session::Session;
use crate::words::{cut, cut_or, field, first_word, number, range};
use bootcore::proved::bl_map::{Kind, Machine, MapFault, Region};

/// The region that `BASE+LENGTH:KIND` is.
fn region_of(word: &str) -> Answered<Region> {
    let (base, rest) = cut(word, "+")?;
    let (length, kind) = cut(rest, ":")?;
    Ok(Region { base: number(base)?, length: number(length)?, kind: Kind::from_name(kind).ok_or(Stop::BadRow)? })
}

/// A region as `BASE+LENGTH:KIND`.
pub fn region_text(region: &Region) -> String {
    format!("{:x}+{:x}:{}", region.base, region.length, region.kind.name())
}

/// Appends a region, or as many as stand after a `*`.
fn add_regions(regions: &mut Vec<Region>, word: &str) -> Answered {
    let (word, repeats) = cut_or(word, '*', "1");
    let (count, step) = cut_or(repeats, '/', "0");
    let (count, step) = (number::<u64>(count)?, number(step)?);
    let mut next = region_of(word)?;
    for _ in 0..count {
        regions.push(next);
        next.base = next.base.wrapping_add(step);
    }
    Ok(())
}

/// The machine that these words are, over a heap.
pub fn read<'h>(session: &Session, words: &str, heap: &'h Refusing) -> Answered<Result<Machine<&'h Refusing>, MapFault>> {
    let (size, words) = first_word(words);
    let (pool, words) = first_word(words);
    let size = number(field(size, "size")?)?;
    let pool = range(field(pool, "pool")?)?;
    let mut regions = Vec::new();
    let mut told = None;
    for word in words.split_whitespace() {
        match cut(word, "=")? {
            ("region", value) => add_regions(&mut regions, value)?,
            (name, value) => firmware::add(session, told.get_or_insert_with(firmware::nothing), name, value)?,
        }
    }
    Ok(match told {
        Some(told) => Machine::with_firmware(heap, size, &regions, pool, &told.lend()),
        None => Machine::new(heap, size, &regions, pool),
    })
}

/// Makes the machine over the heap.
pub fn answer(row: &mut Row<'_>) -> Answered {
    match read(row.session, row.rest(), row.heap)? {
        Ok(_) => say!(row, "ok"),
        Err(fault) => say!(row, "{fault}"),
    }
    Ok(())
}
