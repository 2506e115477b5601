//! Where the parts of an entry come to lie.

use crate::machine::{Machine, FRAME};
use std::ops::Range;

pub const KERNEL: u32 = 1;
pub const MODULE: u32 = 2;
pub const INFORMATION: u32 = 3;
pub const BOOT_PARAMS: u32 = 4;
pub const COMMAND_LINE: u32 = 5;
pub const GDT: u32 = 6;
pub const INITRD: u32 = 7;

pub const MOST: u64 = 1 << 32;

/// What a part holds before its zeros: bytes of its own, or a place in one of the entry's files.
pub enum Content {
    Own(Vec<u8>),
    File { file: usize, offset: u64, count: u64 },
}

pub struct Part {
    pub role: u32,
    pub index: u32,
    pub address: u64,
    pub length: u64,
    pub content: Content,
}

impl Part {
    pub fn range(&self) -> Range<u64> {
        self.address..self.address + self.length
    }

    /// The part's bytes.
    pub fn of<'a>(&self, memory: &'a [u8]) -> &'a [u8] {
        &memory[self.address as usize..(self.address + self.length) as usize]
    }
}

/// The places that are taken so far.
pub struct Places<'a> {
    machine: &'a Machine,
    taken: Vec<Range<u64>>,
}

impl<'a> Places<'a> {
    pub fn new(machine: &'a Machine) -> Places<'a> {
        Places {
            machine,
            taken: Vec::new(),
        }
    }

    fn take(&mut self, range: Range<u64>) -> u64 {
        let address = range.start;
        self.taken.push(range);
        address
    }

    fn is_free(&self, range: &Range<u64>) -> bool {
        let meets = |taken: &Range<u64>| taken.start < range.end && range.start < taken.end;
        self.machine.is_usable(range) && !self.taken.iter().any(meets)
    }

    pub fn fixed(&mut self, range: Range<u64>) -> Result<u64, String> {
        if !self.is_free(&range) {
            return Err(format!("{range:x?} is not usable memory"));
        }
        Ok(self.take(range))
    }

    /// The lowest free place is the first multiple behind `low`, behind the start of a region or behind a taken range.
    pub fn lowest(&mut self, length: u64, align: u64, limits: Range<u64>) -> Result<u64, String> {
        let starts = self.machine.regions.iter().map(|region| region.base);
        let starts = starts.chain(self.taken.iter().map(|taken| taken.end));
        let found = starts
            .chain([limits.start, FRAME as u64])
            .filter_map(|start| start.max(limits.start).checked_next_multiple_of(align))
            .map(|at| at..at.saturating_add(length))
            .filter(|range| range.end <= limits.end && self.is_free(range))
            .min_by_key(|range| range.start);
        Ok(self.take(found.ok_or("no room for a part")?))
    }

    /// The highest free place is the last multiple that ends before `high`, the end of a region or a taken range.
    pub fn highest(&mut self, length: u64, align: u64, limits: Range<u64>) -> Result<u64, String> {
        let ends = self.machine.regions.iter();
        let ends = ends.map(|region| (region.base + region.length).min(self.machine.end()));
        let ends = ends.chain(self.taken.iter().map(|taken| taken.start));
        let found = ends
            .chain([limits.end])
            .filter_map(|end| end.min(limits.end).checked_sub(length))
            .map(|start| start / align * align)
            .map(|at| at..at + length)
            .filter(|range| range.start >= limits.start && self.is_free(range))
            .max_by_key(|range| range.start);
        Ok(self.take(found.ok_or("no room for a part")?))
    }
}

/// Refuses a pool whose frames that meet no part are too few for the files.
pub fn check_room(machine: &Machine, parts: &[Part], files: &[Vec<u8>]) -> Result<(), String> {
    let (frame, pool) = (FRAME as u64, &machine.pool);
    let mut is_met = vec![false; ((pool.end - pool.start) / frame) as usize];
    for part in parts {
        let start = part.range().start.clamp(pool.start, pool.end) - pool.start;
        let end = part.range().end.clamp(pool.start, pool.end) - pool.start;
        if start < end {
            is_met[(start / frame) as usize..end.div_ceil(frame) as usize].fill(true);
        }
    }
    let open = is_met.iter().filter(|met| !**met).count();
    if open < files.iter().map(|file| file.len().div_ceil(FRAME)).sum() {
        return Err("the pool has too few frames".into());
    }
    Ok(())
}
