//! One entry, whose files are in memory.

use crate::entry::Entry;
use crate::error::{Error, Misuse};
use crate::handoff::Handoff;
use crate::machine::Machine;
use crate::memory::{GuestMemory, Loaded};
use crate::proved::bl_load as core_load;
use crate::proved::bl_mem::Views;
use crate::{given, told};

/// Loads one entry into memory, and tells how its kernel is entered. There is no menu and no pool.
///
/// `memory` has the last byte below the machine's size, else it is [`Misuse::BadMemory`], and each
/// part, else it is [`Error::Outside`]. After an error all of it is as before, but where a write
/// fails of memory that said that it is there.
///
/// ```
/// use bootcore::{load, Entry, Error, Kind, Linux, Machine, Memory, Refusal};
///
/// let machine = Machine::new(1 << 20).region(0, 0x9F000, Kind::Usable);
/// let mut guest = vec![0; 1 << 20];
/// let entry = Entry::from(Linux::new(b"no kernel").line("quiet"));
/// let end = load(&mut Memory::new(0, &mut guest), &machine, &entry);
/// assert_eq!(end.unwrap_err(), Error::Refused(Refusal::NotBzImage));
/// ```
pub fn load<G: GuestMemory + ?Sized>(memory: &mut G, machine: &Machine, entry: &Entry<'_>) -> Result<Handoff, Error> {
    let whole = given::Whole::of(machine, entry, |machine| {
        let size = machine.size();
        if memory.holds(size - 1..size) { Ok(()) } else { Err(Misuse::BadMemory) }
    })?;
    let plan = whole.plan()?;
    // before anything is written: the core asks for room, and what is told needs memory
    if !plan.ranges().iter().all(|range| memory.holds(range.clone())) {
        return Err(Error::Outside);
    }
    let handoff = told::handoff_of_plan(&plan)?;
    let mut loaded = Loaded::new(memory, whole.machine.size());
    core_load::load(&mut loaded, plan, &Views { views: &whole.views });
    loaded.end().map(|()| handoff)
}

/// Tells what [`load`] would hand over, or why it would not, from the kernel's bytes and the other
/// files' lengths.
pub fn prepare(machine: &Machine, entry: &Entry<'_>) -> Result<Handoff, Error> {
    told::handoff_of_plan(&given::ByLengths::of(machine, entry)?.plan()?)
}
