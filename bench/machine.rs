//! A machine: its size, its memory map, its pool.

use std::ops::Range;

pub const FRAME: usize = 4096;

const ADDRESS_END: u64 = 0xFFFF_F000;
const USABLE: u32 = 1;

pub struct Region {
    pub base: u64,
    pub length: u64,
    pub kind: u32,
}

/// The regions are ascending, apart, and none adjoins one of its kind.
pub struct Machine {
    pub size: u64,
    pub fill: u8,
    pub pool: Range<u64>,
    pub regions: Vec<Region>,
}

impl Machine {
    /// The end of the memory that may be usable.
    pub fn end(&self) -> u64 {
        self.size.min(ADDRESS_END)
    }

    pub fn is_usable(&self, range: &Range<u64>) -> bool {
        FRAME as u64 <= range.start
            && range.end <= self.end()
            && self.regions.iter().any(|region| {
                region.kind == USABLE
                    && region.base <= range.start
                    && range.end <= region.base + region.length
            })
    }

    /// The KiB from `base` to the end of the usable region that holds it.
    pub fn kib_from(&self, base: u64, most: u64) -> u32 {
        let end = self.regions.iter().find_map(|region| {
            let end = region.base + region.length;
            (region.kind == USABLE && region.base <= base && base < end).then_some(end)
        });
        end.map_or(0, |end| ((end - base) / 1024).min(most) as u32)
    }
}
