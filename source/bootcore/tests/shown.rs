//! What is shown for a programmer says of memory and files where they lie and how long they are,
//! and none of their bytes.

mod common;

use bootcore::*;
use common::*;

#[test]
fn no_bytes_are_shown() {
    let file = vec![0xA5; 5000];
    let entry = Entry::from(Linux::new64(&file).initrd(&file));
    let shown = format!("{:?}", entry);
    assert!(shown.contains("Bytes(5000 bytes)"), "{}", shown);
    assert!(!shown.contains("165"), "{}", shown);
    let shown = format!("{:?}", Entry::from(Multiboot2::new(File::Length(7)).module(&file, "m").module(File::Unreadable, "")));
    assert!(shown.contains("Length(7)") && shown.contains("Bytes(5000 bytes)") && shown.contains("Unreadable"), "{}", shown);

    let mut guest = memory();
    let memory = Memory::new(0x1000, &mut guest);
    assert_eq!(format!("{:?}", memory), "Memory { address: 0x1000, length: 0x400000 }");
    let session = Session::new(memory, &machine(), &Menu::new().entry(entry)).unwrap();
    assert_eq!(format!("{:?}", session), "Session { memory: Memory { address: 0x1000, length: 0x400000 }, .. }");
}

#[test]
fn of_a_plan_its_own_bytes_are_not_shown() {
    let kernel = linux64_kernel();
    let plan = Plan::new(&machine(), &Linux::new64(&kernel).line("k").into()).unwrap();
    let own = plan.own().len();
    assert!(own > 4096);
    let shown = format!("{:?}", plan);
    assert!(shown.starts_with("Plan { handoff: Handoff { ") && shown.contains("Zeros") && shown.contains("Own("), "{}", shown);
    assert!(shown.len() < own, "{}", shown);
    assert!(shown.contains(&format!("{:?}", plan.steps())));
}
