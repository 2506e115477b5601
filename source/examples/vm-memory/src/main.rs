//! Loads a Linux kernel and its initial ramdisk into vm-memory's guest memory, of two regions with
//! a hole for devices between them, and prints how the kernel is entered. It does so step by step,
//! reading each file straight to its places, and then, into other memory, by one call.
//!     bootcore-in-vm-memory KERNEL INITRD

use std::fs::{self, File};
use std::io::{Seek, SeekFrom};
use std::ops::Range;

use bootcore::{Entry, GuestMemory, Kind, Linux, Machine, Plan, Source, load};
use vm_memory::{Bytes, GuestAddress, GuestMemory as _, GuestMemoryMmap, GuestMemoryRegion};

type Result<T> = std::result::Result<T, Box<dyn std::error::Error>>;

const LOW: usize = 256 << 20;
const HIGH: u64 = 4 << 30;

/// A guest's memory, which its processors may share: it is written by copies.
struct Guest<'m>(&'m GuestMemoryMmap);

impl GuestMemory for Guest<'_> {
    fn holds(&self, range: Range<u64>) -> bool {
        let length = range.end.saturating_sub(range.start) as usize;
        self.0.check_range(GuestAddress(range.start), length)
    }

    fn write(&mut self, address: u64, bytes: &[u8]) -> std::result::Result<(), bootcore::Error> {
        let written = self.0.write_slice(bytes, GuestAddress(address));
        written.map_err(|_| bootcore::Error::Outside)
    }
}

/// The machine of a guest: each region of its memory, without the hole below 1 MiB.
fn machine_of(memory: &GuestMemoryMmap) -> Machine {
    let regions = || memory.iter().map(|region| (region.start_addr().0, region.len()));
    let ends = regions().map(|(start, length)| start + length);
    let machine = Machine::new(ends.filter(|end| *end <= HIGH).max().unwrap_or(0));
    let with = |machine: Machine, (start, length)| machine.region(start, length, Kind::Usable);
    regions().fold(machine, with).region(0xA0000, 0x60000, Kind::Reserved)
}

/// Carries out a plan. The memory is fresh, so that zeros are left out.
fn carry_out(plan: &Plan, memory: &GuestMemoryMmap, kernel: &[u8], files: &mut [File]) -> Result<()> {
    for step in plan {
        let (address, length) = (GuestAddress(step.address), step.length as usize);
        match step.source {
            Source::Own(bytes) => memory.write_slice(bytes, address)?,
            Source::File { file: 0, offset } => memory.write_slice(&kernel[offset as usize..][..length], address)?,
            Source::File { file, offset } => {
                let file = &mut files[file - 1];
                file.seek(SeekFrom::Start(offset))?;
                memory.read_exact_from(address, file, length)?;
            }
            Source::Zeros => {}
            other => return Err(format!("no bytes of {other:?}").into()),
        }
    }
    Ok(())
}

fn main() -> Result<()> {
    let names: Vec<String> = std::env::args().skip(1).collect();
    let [kernel, initrd] = names.as_slice() else {
        return Err("bootcore-in-vm-memory KERNEL INITRD".into());
    };
    let kernel = fs::read(kernel)?;
    let (initrd_bytes, initrd) = (fs::read(initrd)?, File::open(initrd)?);
    let ranges = [(GuestAddress(0), LOW), (GuestAddress(HIGH), LOW)];
    let (memory, other) = (GuestMemoryMmap::<()>::from_ranges(&ranges)?, GuestMemoryMmap::from_ranges(&ranges)?);
    let machine = machine_of(&memory);
    let linux = Linux::new64(&kernel).line("console=ttyS0");
    let length = bootcore::File::Length(initrd.metadata()?.len());
    let plan = Plan::new(&machine, &Entry::from(linux.clone().initrd(length)))?;
    carry_out(&plan, &memory, &kernel, &mut [initrd])?;

    let entry = Entry::from(linux.initrd(&initrd_bytes));
    let handoff = load(&mut Guest(&other), &machine, &entry)?;
    assert_eq!(&handoff, plan.handoff());
    let registers = &handoff.registers;
    println!("entered at {:x}, boot parameters at {:x}", registers.rip, registers.rsi);
    for place in &handoff.places {
        let mut bytes = [vec![0; place.length as usize], vec![1; place.length as usize]];
        memory.read_slice(&mut bytes[0], GuestAddress(place.address))?;
        other.read_slice(&mut bytes[1], GuestAddress(place.address))?;
        assert!(bytes[0] == bytes[1]);
        let first = &bytes[0][..4];
        println!("{:?} at {:x}, {} bytes: {first:x?}", place.role, place.address, place.length);
    }
    Ok(())
}
