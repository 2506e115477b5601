//! A client in Rust: the records of bootcore.h that it needs, written out. It does what client.cc does.

use std::ffi::c_void;

#[repr(C)]
struct Bytes {
    bytes: *const c_void,
    length: usize,
}

#[repr(C)]
struct Region {
    base: u64,
    length: u64,
    kind: u32,
    reserved: u32,
}

#[repr(C)]
struct Machine {
    size: u64,
    pool_base: u64,
    pool_length: u64,
    regions: *const Region,
    region_count: usize,
    firmware: *const c_void, // null: it tells nothing
    reserved: [u64; 3],
}

#[repr(C)]
struct Module {
    file: Bytes,
    line: Bytes,
    reserved: [u64; 2],
}

#[repr(C)]
struct Entry {
    protocol: u32,
    reserved32: u32,
    kernel: Bytes,
    line: Bytes,
    initrd: Bytes,
    rsdp_old: Bytes,
    rsdp_new: Bytes,
    modules: *const Module,
    module_count: usize,
    reserved: [u64; 4],
}

#[repr(C)]
struct Memory {
    address: u64,
    bytes: *mut c_void,
    length: usize,
    reserved: u64,
}

#[repr(C)]
#[derive(Clone, Copy, Default)]
struct Registers {
    bits: u64,
    rip: u64,
    rax_to_r15: [u64; 16],
    rflags: u64,
    cr0: u64,
    cr3: u64,
    cr4: u64,
    efer: u64,
    cs_to_ss: [u64; 6],
    gdt_base: u64,
    gdt_limit: u64,
    a20: u64,
    reserved: [u64; 4],
}

#[repr(C)]
#[derive(Clone, Copy, Default)]
struct Place {
    role: u32,
    index: u32,
    address: u64,
    length: u64,
    reserved: u64,
}

#[repr(C)]
#[derive(Clone, Copy, Default)]
struct Handoff {
    entry: u32,
    protocol: u32,
    place_count: u32,
    reserved: u32,
    registers: Registers,
}

#[repr(C)]
struct Outcome {
    places: *mut Place,
    place_room: usize,
    refusals: *mut c_void,
    refusal_room: usize,
    handoff: Handoff,
    refusal_count: usize,
    reserved: [u64; 4],
}

#[repr(C)]
#[derive(Clone, Copy, Default)]
struct Segment {
    base: u64,
    limit: u32,
    selector: u16,
    kind: u8,
    flags: [u8; 7],
    reserved: u16,
}

#[repr(C)]
struct Session {
    kept: *mut c_void,
}

extern "C" {
    fn bootcore_version() -> u32;
    fn bootcore_load(memory: *const Memory, machine: *const Machine, entry: *const Entry, outcome: *mut Outcome) -> u32;
    fn bootcore_segments(registers: *const Registers, segments: *mut Segment);
    fn bootcore_session_outcome(session: *const Session, outcome: *mut Outcome) -> u32;
    fn bootcore_session_free(session: *mut Session);
}

const SIZE: usize = 0x200000;
const KERNEL: [u32; 16] = [
    0xE85250D6, 0, 64, 0u32.wrapping_sub(0xE85250D6).wrapping_sub(64), 2, 24, 0x100000, 0x100000, 0, 0x102000, 3, 12, 0x100000, 0, 0, 8,
];

fn of<T>(things: &[T]) -> Bytes {
    Bytes { bytes: things.as_ptr().cast(), length: std::mem::size_of_val(things) }
}

fn main() {
    let mut bytes = vec![0xA5u8; SIZE];
    let mut places = vec![Place::default(); 256];
    let regions = [Region { base: 0, length: SIZE as u64, kind: 1, reserved: 0 }];
    let memory = Memory { address: 0, bytes: bytes.as_mut_ptr().cast(), length: SIZE, reserved: 0 };
    let machine = Machine {
        size: SIZE as u64,
        pool_base: 0,
        pool_length: 0,
        regions: regions.as_ptr(),
        region_count: 1,
        firmware: std::ptr::null(),
        reserved: [0; 3],
    };
    let modules = [Module { file: of(b"hello"), line: of(b"m"), reserved: [0; 2] }];
    let entry = Entry {
        protocol: 1,
        reserved32: 0,
        kernel: of(&KERNEL),
        line: of(b"line"),
        initrd: of::<u8>(&[]),
        rsdp_old: of::<u8>(&[]),
        rsdp_new: of::<u8>(&[]),
        modules: modules.as_ptr(),
        module_count: 1,
        reserved: [0; 4],
    };
    let mut outcome = Outcome {
        places: places.as_mut_ptr(),
        place_room: places.len(),
        refusals: std::ptr::null_mut(),
        refusal_room: 0,
        handoff: Handoff::default(),
        refusal_count: 0,
        reserved: [0; 4],
    };
    let mut segments = [Segment::default(); 6];
    let mut session = Session { kept: std::ptr::null_mut() };
    // each pointer points to as many elements as are told, and none of what is written is read elsewhere meanwhile
    unsafe {
        println!("version {}", bootcore_version());
        println!("load {}", bootcore_load(&memory, &machine, &entry, &mut outcome));
        bootcore_segments(&outcome.handoff.registers, segments.as_mut_ptr());
    }
    println!("ip {:x}, cs {:x} of type {}", outcome.handoff.registers.rip, segments[0].selector, segments[0].kind);
    for place in &places[..outcome.handoff.place_count as usize] {
        println!("part {} at {:x}, {} bytes", place.role, place.address, place.length);
    }
    unsafe {
        println!("outcome {}", bootcore_session_outcome(&session, &mut outcome));
        bootcore_session_free(&mut session);
    }
}
