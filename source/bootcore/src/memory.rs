//! Memory of the machine that is booted, where the program has it.

use core::fmt;
use core::ops::Range;

use crate::error::{Error, Misuse};
use crate::proved::bl_map::Machine;
use crate::proved::bl_mem::{PhysMem, SliceMemory};
use crate::shim::alloc::{AllocError, Global};

/// Memory of the machine that is booted, into which a program loads by copies. A slice has it
/// ([`Memory`]), and several slices have (`[Memory]`); a program's own may be a mapping that a
/// guest's processors share.
///
/// Nothing that is written is read back: others may write to it meanwhile, and change what the
/// kernel finds there, but not what is told of it. [`boot`](crate::boot()) and
/// [`Session`](crate::Session) do read files back from the pool, so they take a slice.
///
/// ```
/// use bootcore::{Error, GuestMemory};
/// use core::ops::Range;
/// use core::sync::atomic::{AtomicU8, Ordering};
///
/// /// Memory from address 0 on, which other threads have too.
/// struct Shared<'m>(&'m [AtomicU8]);
///
/// impl GuestMemory for Shared<'_> {
///     fn holds(&self, range: Range<u64>) -> bool {
///         range.end <= self.0.len() as u64
///     }
///
///     fn write(&mut self, address: u64, bytes: &[u8]) -> Result<(), Error> {
///         let cells = self.0.get(address as usize..).filter(|cells| cells.len() >= bytes.len());
///         let cells = cells.ok_or(Error::Outside)?.iter();
///         cells.zip(bytes).for_each(|(cell, byte)| cell.store(*byte, Ordering::Relaxed));
///         Ok(())
///     }
/// }
/// ```
pub trait GuestMemory {
    /// Whether each address of a range is there. One that is, is there until the call ends.
    fn holds(&self, range: Range<u64>) -> bool;

    /// Writes bytes from an address on. A call writes only where [`holds`](GuestMemory::holds) said
    /// yes; it ends with the error that is answered nevertheless, and what it wrote before stays.
    fn write(&mut self, address: u64, bytes: &[u8]) -> Result<(), Error>;

    /// Clears a range.
    fn clear(&mut self, range: Range<u64>) -> Result<(), Error> {
        const ZEROS: [u8; 4096] = [0; 4096];
        let mut at = range.start;
        while at < range.end {
            let count = (range.end - at).min(ZEROS.len() as u64);
            self.write(at, &ZEROS[..count as usize])?;
            at += count;
        }
        Ok(())
    }
}

/// Memory of the machine that is booted in a slice: the bytes from an address on.
///
/// ```
/// let mut guest = vec![0; 1 << 20];
/// let memory = bootcore::Memory::new(0, &mut guest);
/// assert_eq!(memory.length(), 1 << 20);
/// assert_eq!(format!("{:?}", memory), "Memory { address: 0x0, length: 0x100000 }");
/// ```
pub struct Memory<'m> {
    address: u64,
    bytes: &'m mut [u8],
}

impl<'m> Memory<'m> {
    /// The bytes from an address of the machine on.
    pub fn new(address: u64, bytes: &'m mut [u8]) -> Memory<'m> {
        Memory { address, bytes }
    }

    /// The machine's address of the first byte.
    pub fn address(&self) -> u64 {
        self.address
    }

    /// How many bytes there are.
    pub fn length(&self) -> usize {
        self.bytes.len()
    }

    /// The bytes.
    pub fn bytes(&self) -> &[u8] {
        self.bytes
    }

    /// As the core takes it, if it may boot the machine there: it ends at the machine's size, and
    /// the pool lies in it.
    pub(crate) fn booting(&mut self, machine: &Machine<Global>) -> Result<SliceMemory<'_>, Misuse> {
        let base = self.base_below(machine.size())?;
        let pool = machine.pool();
        if pool.start < pool.end && pool.start < self.address {
            return Err(Misuse::LowPool);
        }
        Ok(SliceMemory::from_base(base, self.bytes))
    }

    /// The first address, if memory ends at this size.
    pub(crate) fn base_below(&self, size: u64) -> Result<u32, Misuse> {
        match u32::try_from(self.address) {
            Ok(base) if u64::from(base) + self.bytes.len() as u64 == size => Ok(base),
            _ => Err(Misuse::BadMemory),
        }
    }

    /// Where an address stands in the slice, and how many bytes there are from there on, at least
    /// one.
    fn find(&self, address: u64) -> Option<(usize, usize)> {
        let at = address.checked_sub(self.address).filter(|at| *at < self.bytes.len() as u64)? as usize;
        Some((at, self.bytes.len() - at))
    }

    /// The bytes of a range.
    fn range(&mut self, range: Range<u64>) -> Result<&mut [u8], Error> {
        let length = range.end.saturating_sub(range.start);
        let at = range.start.checked_sub(self.address).ok_or(Error::Outside)?;
        let bytes = usize::try_from(at).ok().and_then(|at| self.bytes.get_mut(at..)).ok_or(Error::Outside)?;
        usize::try_from(length).ok().and_then(|length| bytes.get_mut(..length)).ok_or(Error::Outside)
    }
}

impl fmt::Debug for Memory<'_> {
    fn fmt(&self, to: &mut fmt::Formatter<'_>) -> fmt::Result {
        to.debug_struct("Memory")
            .field("address", &format_args!("{:#x}", self.address))
            .field("length", &format_args!("{:#x}", self.bytes.len()))
            .finish()
    }
}

/// The end of bytes from an address on.
fn end_of(address: u64, bytes: &[u8]) -> Result<u64, Error> {
    address.checked_add(bytes.len() as u64).ok_or(Error::Outside)
}

impl GuestMemory for Memory<'_> {
    fn holds(&self, range: Range<u64>) -> bool {
        let end = u128::from(self.address) + self.bytes.len() as u128;
        range.start >= range.end || (self.address <= range.start && u128::from(range.end) <= end)
    }

    fn write(&mut self, address: u64, bytes: &[u8]) -> Result<(), Error> {
        self.range(address..end_of(address, bytes)?)?.copy_from_slice(bytes);
        Ok(())
    }

    fn clear(&mut self, range: Range<u64>) -> Result<(), Error> {
        self.range(range)?.fill(0);
        Ok(())
    }
}

/// The piece that has an address, where it stands there, and how many bytes there are from there
/// on. It is looked for beside the last one first, so that many pieces cost no more than few.
fn find_piece(pieces: &[Memory<'_>], last: usize, address: u64) -> Option<(usize, usize, usize)> {
    let beside = [last.wrapping_add(1), last.wrapping_sub(1)];
    let near = beside.into_iter().find_map(|piece| Some((piece, pieces.get(piece)?.find(address)?)));
    let found = near.or_else(|| pieces.iter().enumerate().find_map(|(piece, memory)| Some((piece, memory.find(address)?))));
    found.map(|(piece, (at, count))| (piece, at, count))
}

/// Memory in pieces in any order, which don't overlap: of an address that is in two, one is
/// written.
impl GuestMemory for [Memory<'_>] {
    fn holds(&self, range: Range<u64>) -> bool {
        let (mut at, mut last) = (range.start, 0);
        while at < range.end {
            match find_piece(self, last, at) {
                Some((piece, _, count)) => (at, last) = (at.saturating_add(count as u64), piece),
                None => return false,
            }
        }
        true
    }

    fn write(&mut self, address: u64, bytes: &[u8]) -> Result<(), Error> {
        let (mut at, mut last, mut rest) = (address, 0, bytes);
        while !rest.is_empty() {
            let (piece, offset, count) = find_piece(self, last, at).ok_or(Error::Outside)?;
            let (now, behind) = rest.split_at(count.min(rest.len()));
            self[piece].bytes[offset..][..now.len()].copy_from_slice(now);
            (at, last, rest) = (at.saturating_add(now.len() as u64), piece, behind);
        }
        Ok(())
    }
}

/// Memory in so many pieces, as of a slice of them.
impl<const COUNT: usize> GuestMemory for [Memory<'_>; COUNT] {
    fn holds(&self, range: Range<u64>) -> bool {
        self.as_slice().holds(range)
    }

    fn write(&mut self, address: u64, bytes: &[u8]) -> Result<(), Error> {
        self.as_mut_slice().write(address, bytes)
    }
}

/// A guest's memory as the core takes it to load in it: of this size, with room at each address
/// that it holds, and never read.
pub(crate) struct Loaded<'g, G: ?Sized> {
    guest: &'g mut G,
    size: u64,
    end: Result<(), Error>,
}

impl<'g, G: GuestMemory + ?Sized> Loaded<'g, G> {
    pub(crate) fn new(guest: &'g mut G, size: u64) -> Loaded<'g, G> {
        Loaded { guest, size, end: Ok(()) }
    }

    /// The first error of a write.
    pub(crate) fn end(self) -> Result<(), Error> {
        self.end
    }
}

impl<G: GuestMemory + ?Sized> PhysMem for Loaded<'_, G> {
    fn size(&self) -> u64 {
        self.size
    }

    /// The core reads memory where files lie in it, and here none does.
    fn read(&self, _at: u64, out: &mut [u8]) {
        out.fill(0);
    }

    fn reserve(&mut self, ranges: &[Range<u64>]) -> Result<(), AllocError> {
        if ranges.iter().all(|range| self.guest.holds(range.clone())) { Ok(()) } else { Err(AllocError) }
    }

    fn write(&mut self, at: u64, part: &[u8]) {
        if self.end.is_ok() {
            self.end = self.guest.write(at, part);
        }
    }

    fn zero(&mut self, range: Range<u64>) {
        if self.end.is_ok() {
            self.end = self.guest.clear(range);
        }
    }
}
