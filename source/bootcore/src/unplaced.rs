//! Which part of an entry finds no place.

use core::fmt;

use crate::entry::Entry;
use crate::error::Error;
use crate::handoff::Role;
use crate::machine::Machine;
use crate::numbers::numbered;
use crate::{given, told};

numbered! {
    /// How the address of a part is chosen.
    Choice {
        /// Its own address alone.
        Fixed = 1,
        /// The least permitted one.
        Lowest = 2,
        /// The greatest permitted one.
        Highest = 3,
        /// Its own address if it is permitted, else the least permitted one.
        Preferred = 4,
    }
}

/// A part that finds no place. What its choice says nothing of is 0.
#[derive(Clone, Copy, Debug, PartialEq, Eq, Hash)]
#[non_exhaustive]
pub struct Unplaced {
    /// What it is.
    pub role: Role,
    /// Its index among the parts of its role.
    pub index: u32,
    /// Its bytes; `u64::MAX` if they are more than 4 GiB.
    pub length: u64,
    /// What its address is a multiple of.
    pub alignment: u64,
    /// The least address that it may have.
    pub low: u64,
    /// Where it ends at most.
    pub high: u64,
    /// Its own address, if it has one.
    pub address: u64,
    /// How its address is chosen.
    pub choice: Choice,
}

impl fmt::Display for Unplaced {
    fn fmt(&self, to: &mut fmt::Formatter<'_>) -> fmt::Result {
        write!(to, "{:?} {} finds no place: ", self.role, self.index)?;
        match self.length {
            u64::MAX => to.write_str("more than 4 GiB")?,
            length => write!(to, "{:#x} bytes", length)?,
        }
        match self.choice {
            Choice::Fixed => return write!(to, " at {:#x}", self.address),
            Choice::Preferred => write!(to, " at {:#x}, or", self.address)?,
            _ => {}
        }
        write!(to, " at a multiple of {:#x} from {:#x} to {:#x}", self.alignment, self.low, self.high)
    }
}

/// Tells of which part the refusals [`NotUsable`](crate::Refusal::NotUsable) and
/// [`NoRoom`](crate::Refusal::NoRoom) speak: the first of an entry's parts that finds no place;
/// nothing if each has one. It reads the kernel's bytes and the other files' lengths. An entry that
/// is refused before its parts are placed is an error.
///
/// ```no_run
/// use bootcore::{prepare, unplaced, Entry, File, Kind, Linux, Machine};
///
/// # fn main() -> Result<(), Box<dyn std::error::Error>> {
/// let kernel = std::fs::read("vmlinuz")?;
/// let machine = Machine::new(16 << 20).region(0, 16 << 20, Kind::Usable);
/// let entry = Entry::from(Linux::new64(&kernel).initrd(File::Length(64 << 20)));
/// if let Err(why) = prepare(&machine, &entry) {
///     println!("{}", why); // refused 20 NoRoom: ..
///     if let Some(part) = unplaced(&machine, &entry)? {
///         println!("{}", part); // Initrd 0 finds no place: 0x4000000 bytes at a multiple of ..
///     }
/// }
/// # Ok(())
/// # }
/// ```
pub fn unplaced(machine: &Machine, entry: &Entry<'_>) -> Result<Option<Unplaced>, Error> {
    let row = given::ByLengths::of(machine, entry)?.unplaced()?;
    Ok(row.as_ref().map(told::unplaced_told))
}
