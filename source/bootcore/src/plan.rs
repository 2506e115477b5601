//! What goes where: for a program that reads files straight to their places.

use alloc::vec::Vec;
use core::fmt;
use core::ops::Range;

use crate::entry::Entry;
use crate::error::{Error, Misuse};
use crate::handoff::{Handoff, Place, Registers};
use crate::lists::{copy, list};
use crate::machine::Machine;
use crate::memory::GuestMemory;
use crate::proved::bl_load::{Step as CoreStep, StepSource};
use crate::shim::alloc::Global;
use crate::{given, told};

/// Where the bytes of a step come from.
#[derive(Clone, Copy, PartialEq, Eq, Hash)]
#[non_exhaustive]
pub enum Source<'p> {
    /// The bytes of a file from an offset on.
    File {
        /// 0 is the kernel, k module k - 1, or 1 the initial ramdisk.
        file: usize,
        /// The offset.
        offset: u64,
    },
    /// The plan's own bytes: boot information, boot parameters, tables.
    Own(&'p [u8]),
    /// Zeros. They may be left out where memory is known to be zero, as a fresh mapping is, and
    /// nowhere else.
    Zeros,
}

impl fmt::Debug for Source<'_> {
    fn fmt(&self, to: &mut fmt::Formatter<'_>) -> fmt::Result {
        match self {
            Source::File { file, offset } => to.debug_struct("File").field("file", file).field("offset", offset).finish(),
            Source::Own(bytes) => write!(to, "Own({} bytes)", bytes.len()),
            Source::Zeros => to.write_str("Zeros"),
        }
    }
}

/// Bytes that go to an address: at least 1.
#[derive(Clone, Copy, Debug, PartialEq, Eq, Hash)]
#[non_exhaustive]
pub struct Step<'p> {
    /// Where they go.
    pub address: u64,
    /// How many there are.
    pub length: u64,
    /// Where they come from.
    pub source: Source<'p>,
}

impl<'p> Step<'p> {
    fn range(&self) -> Range<u64> {
        self.address..self.address + self.length
    }

    /// Its bytes, if they are not zeros.
    fn bytes(&self, files: &[&'p [u8]]) -> Result<Option<&'p [u8]>, Misuse> {
        match self.source {
            Source::File { file, offset } => {
                let bytes = files.get(file).and_then(|file| file.get(offset as usize..)?.get(..self.length as usize));
                bytes.map(Some).ok_or(Misuse::BadFile)
            }
            Source::Own(bytes) => Ok(Some(bytes)),
            Source::Zeros => Ok(None),
        }
    }
}

/// What [`load`](crate::load()) would do, as steps. Whoever carries out all of them, in any order,
/// has loaded the entry.
///
/// ```no_run
/// use bootcore::{Entry, File, Kind, Linux, Machine, Plan, Source};
///
/// # fn main() -> Result<(), Box<dyn std::error::Error>> {
/// let kernel = std::fs::read("vmlinuz")?;
/// let initrd = std::fs::metadata("initrd.img")?.len();
/// let machine = Machine::new(512 << 20)
///     .region(0, 0x9F000, Kind::Usable)
///     .region(1 << 20, 511 << 20, Kind::Usable);
/// let linux = Linux::new64(&kernel).line("console=ttyS0");
/// let entry = Entry::from(linux.initrd(File::Length(initrd)));
/// let plan = Plan::new(&machine, &entry)?;
/// for step in &plan {
///     match step.source {
///         Source::File { file, offset } => println!("{:x}: file {file}, {offset}", step.address),
///         Source::Own(bytes) => println!("{:x}: {} bytes", step.address, bytes.len()),
///         Source::Zeros => println!("{:x}: {} zeros", step.address, step.length),
///         other => return Err(format!("no bytes of {:?}", other).into()),
///     }
/// }
/// println!("entered at {:x}", plan.registers().rip);
/// # Ok(())
/// # }
/// ```
#[derive(Clone, PartialEq, Eq)]
pub struct Plan {
    pub(crate) handoff: Handoff,
    pub(crate) steps: Vec<Kept>,
    pub(crate) own: Vec<u8>,
}

/// A step as a plan keeps it.
#[derive(Clone, Copy, Debug, PartialEq, Eq)]
pub(crate) struct Kept {
    pub(crate) address: u64,
    pub(crate) length: u64,
    pub(crate) source: KeptSource,
}

/// A source as a plan keeps it: what is the plan's own begins at an offset.
#[derive(Clone, Copy, Debug, PartialEq, Eq)]
pub(crate) enum KeptSource {
    File { file: usize, offset: u64 },
    Own { offset: usize },
    Zeros,
}

impl Plan {
    /// The plan of an entry on a machine, from the kernel's bytes and the other files' lengths: of
    /// these files no byte is read. Equal machines, entries, kernels and lengths have equal plans.
    pub fn new(machine: &Machine, entry: &Entry<'_>) -> Result<Plan, Error> {
        let plan = given::ByLengths::of(machine, entry)?.plan()?;
        let told = plan.steps(Global)?;
        let step = |step: &CoreStep| Kept {
            address: step.address,
            length: step.length,
            source: match step.source {
                StepSource::File { file, offset } => KeptSource::File { file, offset },
                StepSource::Own { offset } => KeptSource::Own { offset },
                StepSource::Zeros => KeptSource::Zeros,
            },
        };
        Ok(Plan {
            handoff: told::handoff_of_plan(&plan)?,
            steps: list(told.steps.iter().map(step))?,
            own: copy(told.own.as_slice())?,
        })
    }

    /// The steps by ascending address; none meets another, and together they are exactly the parts.
    pub fn steps(&self) -> Steps<'_> {
        Steps { steps: self.steps.iter(), own: &self.own }
    }

    /// The plan's own bytes, of which steps are [`Source::Own`].
    pub fn own(&self) -> &[u8] {
        &self.own
    }

    /// What the kernel is handed.
    pub fn handoff(&self) -> &Handoff {
        &self.handoff
    }

    /// The parts, by ascending address.
    pub fn places(&self) -> &[Place] {
        &self.handoff.places
    }

    /// The registers as the kernel begins.
    pub fn registers(&self) -> &Registers {
        &self.handoff.registers
    }

    /// Carries out the steps from files in memory, into memory that need not have more than the
    /// steps. `files` are the kernel, then the modules or the initial ramdisk, of at least the
    /// lengths that were planned for. After an error nothing is written, but where a write fails of
    /// memory that said that it is there.
    pub fn carry_out<G: GuestMemory + ?Sized>(&self, files: &[&[u8]], memory: &mut G) -> Result<(), Error> {
        for step in self {
            step.bytes(files)?;
        }
        if !self.steps().all(|step| memory.holds(step.range())) {
            return Err(Error::Outside);
        }
        for step in self {
            match step.bytes(files)? {
                Some(bytes) => memory.write(step.address, bytes)?,
                None => memory.clear(step.range())?,
            }
        }
        Ok(())
    }
}

impl fmt::Debug for Plan {
    fn fmt(&self, to: &mut fmt::Formatter<'_>) -> fmt::Result {
        to.debug_struct("Plan").field("handoff", &self.handoff).field("steps", &self.steps()).finish_non_exhaustive()
    }
}

impl<'p> IntoIterator for &'p Plan {
    type Item = Step<'p>;
    type IntoIter = Steps<'p>;

    fn into_iter(self) -> Steps<'p> {
        self.steps()
    }
}

/// The steps of a [`Plan`].
#[derive(Clone)]
pub struct Steps<'p> {
    steps: core::slice::Iter<'p, Kept>,
    own: &'p [u8],
}

impl<'p> Iterator for Steps<'p> {
    type Item = Step<'p>;

    fn next(&mut self) -> Option<Step<'p>> {
        let step = self.steps.next()?;
        let source = match step.source {
            KeptSource::File { file, offset } => Source::File { file, offset },
            KeptSource::Own { offset } => Source::Own(&self.own[offset..][..step.length as usize]),
            KeptSource::Zeros => Source::Zeros,
        };
        Some(Step { address: step.address, length: step.length, source })
    }

    fn size_hint(&self) -> (usize, Option<usize>) {
        self.steps.size_hint()
    }
}

impl fmt::Debug for Steps<'_> {
    fn fmt(&self, to: &mut fmt::Formatter<'_>) -> fmt::Result {
        to.debug_list().entries(self.clone()).finish()
    }
}

impl ExactSizeIterator for Steps<'_> {}
