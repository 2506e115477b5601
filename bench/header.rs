//! A reader of Multiboot2 headers in plain Rust, with the checks of the proved one in the same order.

use crate::elf::Segment;
use crate::words::{u16_at, u32_at};

const MAGIC: u32 = 0xE852_50D6;
const SEARCHED: u64 = 32768;

#[derive(Clone, Copy, Debug, PartialEq, Eq)]
pub enum HeadFault {
    NoHeader,
    HeaderCut,
    BadArchitecture,
    BadTag(u64),
    UnsupportedTag(u16),
    UnsupportedRequest(u32),
    NoConsole,
}

#[derive(Clone, Copy, Debug, PartialEq, Eq)]
pub struct Relocation {
    pub min_addr: u32,
    pub max_addr: u32,
    pub align: u32,
    pub preference: u32,
}

#[derive(Clone, Copy, Debug, PartialEq, Eq)]
pub struct Header {
    pub place: u64,
    pub segment: Option<Segment>,
    pub entry: Option<u64>,
    pub relocation: Option<Relocation>,
}

struct Tag {
    kind: u16,
    flags: u16,
    size: u32,
}

fn is_header_at(file: &[u8], at: u64) -> bool {
    let words = [0, 4, 8, 12].map(|i| u32_at(file, at + i));
    words[0] == MAGIC
        && words
            .iter()
            .fold(0, |sum: u32, word| sum.wrapping_add(*word))
            == 0
}

fn find_place(file: &[u8]) -> Option<u64> {
    let end = SEARCHED.min(file.len() as u64);
    (0..end)
        .step_by(8)
        .take_while(|at| at + 16 <= end)
        .find(|at| is_header_at(file, *at))
}

fn can_be_given(kind: u32) -> bool {
    (1..=21).contains(&kind) && kind != 9
}

fn first_unknown_request(file: &[u8], at: u64, count: u64) -> Option<u32> {
    (0..count)
        .map(|i| u32_at(file, at + 4 * i))
        .find(|kind| !can_be_given(*kind))
}

fn read_tag(file: &[u8], at: u64, end: u64) -> Result<Tag, HeadFault> {
    if at + 8 > end {
        return Err(HeadFault::BadTag(at));
    }
    let tag = Tag {
        kind: u16_at(file, at),
        flags: u16_at(file, at + 2),
        size: u32_at(file, at + 4),
    };
    let least = match tag.kind {
        2 | 10 => 24,
        3 | 4 => 12,
        _ => 8,
    };
    let is_bad_end = tag.kind == 0 && tag.size != 8;
    if at + tag.size as u64 > end || tag.size < least || is_bad_end {
        return Err(HeadFault::BadTag(at));
    }
    Ok(tag)
}

fn check_support(file: &[u8], at: u64, tag: &Tag) -> Result<(), HeadFault> {
    if tag.flags & 1 != 0 {
        return Ok(());
    }
    if tag.kind > 10 {
        return Err(HeadFault::UnsupportedTag(tag.kind));
    }
    if tag.kind == 1 {
        let count = (tag.size as u64 - 8) / 4;
        if let Some(kind) = first_unknown_request(file, at + 8, count) {
            return Err(HeadFault::UnsupportedRequest(kind));
        }
    }
    if tag.kind == 4 && u32_at(file, at + 8) & 1 != 0 {
        return Err(HeadFault::NoConsole);
    }
    Ok(())
}

/// What the address tag at `at` asks to be loaded of a file whose header stands at `place`.
fn segment_of(file: &[u8], place: u64, at: u64) -> Option<Segment> {
    let [header_addr, load_addr, load_end_addr, bss_end_addr] =
        [8, 12, 16, 20].map(|i| u32_at(file, at + i) as u64);
    let size = file.len() as u64;
    let (offset, address) = if load_addr == u32::MAX as u64 {
        (0, header_addr.checked_sub(place)?)
    } else {
        (
            place.checked_sub(header_addr.checked_sub(load_addr)?)?,
            load_addr,
        )
    };
    let filesz = if load_end_addr == 0 {
        size - offset
    } else {
        load_end_addr.checked_sub(address)?
    };
    let memsz = if bss_end_addr == 0 {
        filesz
    } else {
        bss_end_addr.checked_sub(address)?
    };
    let is_sound = offset + filesz <= size && filesz <= memsz;
    is_sound.then_some(Segment {
        offset,
        address,
        filesz,
        memsz,
    })
}

fn relocation_of(file: &[u8], at: u64) -> Relocation {
    Relocation {
        min_addr: u32_at(file, at + 8),
        max_addr: u32_at(file, at + 12),
        align: u32_at(file, at + 16),
        preference: u32_at(file, at + 20),
    }
}

/// What the header of a kernel file says.
pub fn find_header(file: &[u8]) -> Result<Header, HeadFault> {
    let place = find_place(file).ok_or(HeadFault::NoHeader)?;
    let header_length = u32_at(file, place + 8) as u64;
    let end = place + header_length;
    if header_length < 24 || end > SEARCHED || end > file.len() as u64 {
        return Err(HeadFault::HeaderCut);
    }
    if u32_at(file, place + 4) != 0 {
        return Err(HeadFault::BadArchitecture);
    }
    let (mut address, mut entry, mut relocation) = (None, None, None);
    let mut at = place + 16;
    loop {
        let tag = read_tag(file, at, end)?;
        check_support(file, at, &tag)?;
        match tag.kind {
            0 => break,
            2 => address = Some(at),
            3 => entry = Some(u32_at(file, at + 8) as u64),
            10 => relocation = Some(relocation_of(file, at)),
            _ => {}
        }
        at = (at + tag.size as u64).next_multiple_of(8);
    }
    // Only the last address tag counts, so it is judged after all tags.
    let segment = match address {
        Some(at) => Some(segment_of(file, place, at).ok_or(HeadFault::BadTag(at))?),
        None => None,
    };
    Ok(Header {
        place,
        segment,
        entry,
        relocation,
    })
}
