//! Memory of a guest that is no slice: frames with holes between them, several slices, cells that
//! other threads have too.

mod common;

use std::collections::BTreeMap;
use std::ops::Range;
use std::sync::atomic::{AtomicBool, AtomicU8, Ordering};

use bootcore::*;
use common::*;

#[derive(Clone, PartialEq)]
struct Frames(BTreeMap<u64, Vec<u8>>);

impl GuestMemory for Frames {
    fn holds(&self, range: Range<u64>) -> bool {
        range.is_empty() || (range.start / 4096..=(range.end - 1) / 4096).all(|frame| self.0.contains_key(&frame))
    }

    fn write(&mut self, address: u64, bytes: &[u8]) -> Result<(), Error> {
        for (byte, at) in bytes.iter().zip(address..) {
            self.0.get_mut(&(at / 4096)).ok_or(Error::Outside)?[at as usize % 4096] = *byte;
        }
        Ok(())
    }
}

fn frames(numbers: impl Iterator<Item = u64>) -> Frames {
    Frames(numbers.map(|frame| (frame, vec![0xA5; 4096])).collect())
}

/// The frames of the parts: information, kernel, module; and the machine's last one.
const NEEDED: [u64; 4] = [1, 0x100, 0x101, 0x3FF];

fn entry(kernel: &[u8]) -> Entry<'_> {
    Multiboot2::new(kernel).line("k").module(b"hello", "m").into()
}

/// What a load into one slice hands over, and what memory is then.
fn loaded() -> (Handoff, Vec<u8>) {
    let (kernel, mut memory) = (multiboot2_kernel(), memory());
    let handoff = load(&mut Memory::new(0, &mut memory), &machine(), &entry(&kernel)).unwrap();
    (handoff, memory)
}

#[test]
fn frames_with_holes() {
    let (kernel, machine, (handoff, wanted)) = (multiboot2_kernel(), machine(), loaded());
    let entry = entry(&kernel);
    let mut by_load = frames(NEEDED.into_iter());
    let mut by_plan = by_load.clone();
    assert_eq!(load(&mut by_load, &machine, &entry), Ok(handoff));
    assert!(by_load.0.iter().all(|(frame, bytes)| wanted[*frame as usize * 4096..][..4096] == bytes[..]));
    let plan = Plan::new(&machine, &entry).unwrap();
    let chosen: &mut dyn GuestMemory = &mut by_plan; // as where it is known at run time
    plan.carry_out(&[&kernel, b"hello"], chosen).unwrap();
    assert!(by_plan == by_load);
}

#[test]
fn where_a_part_is_not_there_nothing_is_written() {
    let (kernel, machine) = (multiboot2_kernel(), machine());
    let entry = entry(&kernel);
    let plan = Plan::new(&machine, &entry).unwrap();
    for missing in [1, 0x100, 0x101] {
        let before = frames((0..0x400).filter(|frame| *frame != missing));
        let mut guest = before.clone();
        assert_eq!(load(&mut guest, &machine, &entry), Err(Error::Outside));
        assert_eq!(plan.carry_out(&[&kernel, b"hello"], &mut guest), Err(Error::Outside));
        assert!(guest == before);
    }
}

#[test]
fn memory_reaches_to_the_machines_size() {
    let (kernel, machine) = (multiboot2_kernel(), machine());
    let mut guest = frames(0..0x3FF);
    assert_eq!(load(&mut guest, &machine, &entry(&kernel)), Err(Error::Misuse(Misuse::BadMemory)));
}

#[test]
fn several_slices() {
    let (kernel, machine, (handoff, wanted)) = (multiboot2_kernel(), machine(), loaded());
    let plan = Plan::new(&machine, &entry(&kernel)).unwrap();
    for length in [0x10, 0x1000, 0x100020, SIZE] {
        for is_reversed in [false, true] {
            for by_plan in [false, true] {
                let mut guest = memory();
                let pieces = guest.chunks_mut(length).enumerate();
                let mut pieces: Vec<_> = pieces.map(|(i, piece)| Memory::new((i * length) as u64, piece)).collect();
                if is_reversed {
                    pieces.reverse();
                }
                if by_plan {
                    plan.carry_out(&[&kernel, b"hello"], pieces.as_mut_slice()).unwrap();
                } else {
                    assert_eq!(load(pieces.as_mut_slice(), &machine, &entry(&kernel)).as_ref(), Ok(&handoff));
                }
                assert!(guest == wanted, "pieces of {length:#x} bytes");
            }
        }
    }
}

/// A frame too few in each piece's place, and what lies behind its end is of no other.
#[test]
fn slices_with_a_hole() {
    let (kernel, machine) = (multiboot2_kernel(), machine());
    let mut guest = memory();
    let (low, high) = guest.split_at_mut(0x101000);
    let mut pieces = [Memory::new(0x102000, &mut high[0x1000..]), Memory::new(0, low)];
    assert_eq!(load(&mut pieces, &machine, &entry(&kernel)), Err(Error::Outside));
    assert!(guest.iter().all(|byte| *byte == 0xA5));
}

/// One that says that it has all, and has nothing.
struct Liar;

impl GuestMemory for Liar {
    fn holds(&self, _: Range<u64>) -> bool {
        true
    }

    fn write(&mut self, _: u64, _: &[u8]) -> Result<(), Error> {
        Err(Error::Outside)
    }
}

#[test]
fn a_failed_write_is_told() {
    let (kernel, machine) = (linux64_kernel(), machine());
    let entry = Entry::from(Linux::new64(&kernel).initrd(b"hello"));
    assert_eq!(load(&mut Liar, &machine, &entry), Err(Error::Outside));
    let plan = Plan::new(&machine, &entry).unwrap();
    assert_eq!(plan.carry_out(&[&kernel, b"hello"], &mut Liar), Err(Error::Outside));
}

/// One whose first write fails, and no later one.
struct FailsOnce(u32);

impl GuestMemory for FailsOnce {
    fn holds(&self, _: Range<u64>) -> bool {
        true
    }

    fn write(&mut self, _: u64, _: &[u8]) -> Result<(), Error> {
        self.0 += 1;
        if self.0 == 1 { Err(Error::Misuse(Misuse::Other(7))) } else { Ok(()) }
    }
}

/// The call ends by the memory's own error, and writes no more.
#[test]
fn the_first_error_is_told() {
    let (kernel, machine) = (linux64_kernel(), machine());
    let (entry, own) = (Entry::from(Linux::new64(&kernel)), Error::Misuse(Misuse::Other(7)));
    let (mut by_load, mut by_plan) = (FailsOnce(0), FailsOnce(0));
    assert_eq!(load(&mut by_load, &machine, &entry), Err(own.clone()));
    let plan = Plan::new(&machine, &entry).unwrap();
    assert_eq!(plan.carry_out(&[&kernel], &mut by_plan), Err(own));
    assert_eq!((by_load.0, by_plan.0), (1, 1));
}

/// Cells that other threads have too.
struct Shared<'m>(&'m [AtomicU8]);

impl GuestMemory for Shared<'_> {
    fn holds(&self, range: Range<u64>) -> bool {
        range.end <= self.0.len() as u64
    }

    fn write(&mut self, address: u64, bytes: &[u8]) -> Result<(), Error> {
        let cells = self.0.get(address as usize..).ok_or(Error::Outside)?;
        cells.iter().zip(bytes).for_each(|(cell, byte)| cell.store(*byte, Ordering::Relaxed));
        Ok(())
    }
}

/// What is written is not read back: the handoff and the other parts are the same, whatever another
/// thread writes meanwhile.
#[test]
fn others_may_write_to_it() {
    let (kernel, machine, (handoff, wanted)) = (multiboot2_kernel(), machine(), loaded());
    let cells: Vec<AtomicU8> = memory().into_iter().map(AtomicU8::new).collect();
    let ends = AtomicBool::new(false);
    std::thread::scope(|scope| {
        scope.spawn(|| {
            while !ends.load(Ordering::Relaxed) {
                cells[0x1000..0x2000].iter().for_each(|cell| cell.store(7, Ordering::Relaxed));
            }
        });
        for _ in 0..20 {
            assert_eq!(load(&mut Shared(&cells), &machine, &entry(&kernel)).as_ref(), Ok(&handoff));
        }
        ends.store(true, Ordering::Relaxed);
    });
    assert!(cells[0x2000..].iter().zip(&wanted[0x2000..]).all(|(cell, byte)| cell.load(Ordering::Relaxed) == *byte));
}
