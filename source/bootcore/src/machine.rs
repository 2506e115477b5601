//! The machine that is booted.

use alloc::vec::Vec;

use crate::MAX_REGIONS;
use crate::firmware::Firmware;
use crate::proved::bl_map::MAX_REGION_END;

/// Kinds of memory: the numbers of an e820 entry. Where regions overlap, the greatest counts.
#[derive(Clone, Copy, Debug, PartialEq, Eq, PartialOrd, Ord, Hash)]
#[repr(u32)]
#[non_exhaustive]
pub enum Kind {
    /// Parts may lie here.
    Usable = 1,
    /// Not to be used.
    Reserved = 2,
    /// Tables of ACPI, which a kernel may use once it has read them.
    Acpi = 3,
    /// Memory of ACPI that is kept over sleep.
    Nvs = 4,
    /// Memory with faults.
    Unusable = 5,
}

impl Kind {
    /// The kind of a number of an e820 entry, if there is one.
    pub fn from_number(number: u32) -> Option<Kind> {
        [Kind::Usable, Kind::Reserved, Kind::Acpi, Kind::Nvs, Kind::Unusable].into_iter().find(|kind| kind.number() == number)
    }

    /// Its number in an e820 entry.
    pub fn number(self) -> u32 {
        self as u32
    }
}

/// A region of a machine's memory.
#[derive(Clone, Copy, Debug, PartialEq, Eq, Hash)]
#[non_exhaustive]
pub struct Region {
    /// Its first address.
    pub base: u64,
    /// Its bytes; it ends at 2^52 at most.
    pub length: u64,
    /// What it is.
    pub kind: Kind,
}

impl Region {
    /// A region of this kind.
    pub fn new(base: u64, length: u64, kind: Kind) -> Region {
        Region { base, length, kind }
    }
}

/// A machine: where its memory ends, its memory map, and the pool of a boot.
///
/// ```
/// use bootcore::{Kind, Machine};
///
/// let guest = Machine::new(512 << 20)
///     .region(0, 0x9F000, Kind::Usable)
///     .region(1 << 20, 511 << 20, Kind::Usable)
///     .region(4 << 30, 2 << 30, Kind::Usable); // memory above 4 GiB
/// assert_eq!(guest.regions.len(), 3);
/// ```
#[derive(Clone, Debug, PartialEq, Eq, Hash)]
#[non_exhaustive]
pub struct Machine {
    /// Where its memory below 4 GiB ends, above which no part lies: a multiple of 4096 from 1 MiB
    /// to 4 GiB.
    pub size: u64,
    /// Its memory map, in any order; at most [`MAX_REGIONS`](crate::MAX_REGIONS). What lies in no
    /// region is not used, and the kernel is not told of it.
    pub regions: Vec<Region>,
    /// Where a boot or a session keeps what it has read of files: usable whole frames of 4096
    /// bytes, as many as the files of one entry have together. A load or a plan needs none.
    pub pool_base: u64,
    /// The bytes of the pool.
    pub pool_length: u64,
    /// What firmware tells beside memory.
    pub firmware: Firmware,
}

impl Machine {
    /// A machine of this size without regions and without a pool.
    pub fn new(size: u64) -> Machine {
        Machine { size, regions: Vec::new(), pool_base: 0, pool_length: 0, firmware: Firmware::default() }
    }

    /// With a region more.
    pub fn region(mut self, base: u64, length: u64, kind: Kind) -> Machine {
        self.regions.push(Region::new(base, length, kind));
        self
    }

    /// With this pool.
    pub fn pool(mut self, base: u64, length: u64) -> Machine {
        (self.pool_base, self.pool_length) = (base, length);
        self
    }

    /// With what firmware tells.
    pub fn firmware(mut self, firmware: Firmware) -> Machine {
        self.firmware = firmware;
        self
    }

    /// The index of the first region that no machine may have: that of
    /// [`Misuse::BadRegion`](crate::Misuse::BadRegion), so that there is none where regions are
    /// too many.
    pub fn bad_region(&self) -> Option<usize> {
        let ends_high = |region: &Region| region.base > MAX_REGION_END || region.length > MAX_REGION_END - region.base;
        let bad = self.regions.iter().position(ends_high);
        bad.filter(|_| self.regions.len() <= MAX_REGIONS)
    }
}
