//! Which part finds no place, by the table of docs/BOOT-RULES.md.

mod common;

use bootcore::*;
use common::*;

fn part(machine: &Machine, entry: Entry<'_>, refusal: Refusal) -> Unplaced {
    assert_eq!(prepare(machine, &entry), Err(refusal.into()));
    unplaced(machine, &entry).unwrap().unwrap()
}

#[test]
fn a_module_that_is_too_long() {
    let (kernel, machine) = (multiboot2_kernel(), machine());
    let with = |length| Multiboot2::new(&kernel).module(b"first", "").module(File::Length(length), "").into();
    let found = part(&machine, with(SIZE as u64 - 4095), Refusal::NoRoom);
    assert_eq!((found.role, found.index, found.length), (Role::Module, 1, SIZE as u64));
    assert_eq!((found.choice, found.alignment, found.low, found.high), (Choice::Lowest, 4096, 1 << 20, 1 << 32));
    assert_eq!(
        found.to_string(),
        "Module 1 finds no place: 0x400000 bytes at a multiple of 0x1000 from 0x100000 to \
         0x100000000"
    );
    let longer = part(&machine, with(u64::MAX), Refusal::NoRoom);
    assert_eq!((longer.role, longer.index, longer.length), (Role::Module, 1, u64::MAX));
    assert_eq!(unplaced(&machine, &with(5)), Ok(None));
}

#[test]
fn a_kernel_where_memory_is_reserved() {
    let kernel = multiboot2_kernel();
    let found = part(&machine().region(0x100000, 1, Kind::Reserved), Multiboot2::new(&kernel).into(), Refusal::NotUsable);
    assert_eq!((found.role, found.index, found.length), (Role::Kernel, 0, 80));
    assert_eq!((found.choice, found.address), (Choice::Fixed, 0x100000));
    assert_eq!((found.alignment, found.low, found.high), (0, 0, 0));
    assert_eq!(found.to_string(), "Kernel 0 finds no place: 0x50 bytes at 0x100000");
}

#[test]
fn a_ramdisk_that_is_too_long() {
    let (kernel, machine) = (linux64_kernel(), machine());
    let found = part(&machine, Linux::new64(&kernel).initrd(File::Length(SIZE as u64)).into(), Refusal::NoRoom);
    assert_eq!((found.role, found.index, found.length), (Role::Initrd, 0, SIZE as u64));
    assert_eq!((found.choice, found.alignment, found.low), (Choice::Highest, 4096, 4096));
}

#[test]
fn what_is_refused_before_has_none() {
    let refused = Err(Error::Refused(Refusal::NotBzImage));
    assert_eq!(unplaced(&machine(), &Linux::new(b"none").into()), refused);
    let small = Err(Error::Misuse(Misuse::BadSize));
    assert_eq!(unplaced(&of_size(4096), &Linux::new(b"none").into()), small);
}
