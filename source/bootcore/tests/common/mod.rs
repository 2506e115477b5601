//! The machines and kernels of the first two examples, and the kernel of the second for the 64-bit
//! entry.
#![allow(dead_code)] // no test uses all

use bootcore::{Color, Kind, Machine, Screen};

const FIRST: &str = include_str!("../data/first.toml");
const SECOND: &str = include_str!("../data/second.toml");

/// 4 MiB.
pub const SIZE: usize = 0x400000;
/// Where the pool begins, which ends with memory.
pub const POOL: usize = 0x300000;

/// Digits by two; backslashes and ends of lines between them do not count.
pub fn bytes_of(digits: &str) -> Vec<u8> {
    let digits: Vec<u8> = digits.bytes().filter(u8::is_ascii_hexdigit).collect();
    let byte = |pair: &[u8]| u8::from_str_radix(std::str::from_utf8(pair).unwrap(), 16).unwrap();
    digits.chunks(2).map(byte).collect()
}

/// The bytes of the first file of a description.
fn first_file(description: &str) -> Vec<u8> {
    let value = description.split("hex = ").nth(1).unwrap();
    let quotes = if value.starts_with("\"\"\"") { "\"\"\"" } else { "\"" };
    bytes_of(value.split(quotes).nth(1).unwrap())
}

/// A screen of 1024 times 768 pixels, of 32 bits each.
pub fn screen(base: u64) -> Screen {
    let color = |position| Color::new(position, 8);
    Screen::new(base).size(1024, 768).pitch(4096).colors(color(16), color(8), color(0))
}

/// The machine of both examples.
pub fn machine() -> Machine {
    Machine::new(SIZE as u64)
        .region(0, 0x9F000, Kind::Usable)
        .region(0xF0000, 0x10000, Kind::Reserved)
        .region(0x100000, 0x300000, Kind::Usable)
        .pool(POOL as u64, (SIZE - POOL) as u64)
}

/// The same of another size.
pub fn of_size(size: u64) -> Machine {
    let mut machine = machine();
    machine.size = size;
    machine
}

/// Its memory before a boot.
pub fn memory() -> Vec<u8> {
    vec![0xA5; SIZE]
}

pub fn multiboot2_kernel() -> Vec<u8> {
    first_file(FIRST)
}

pub fn linux_kernel() -> Vec<u8> {
    first_file(SECOND)
}

/// The same bzImage with bit 0 of xloadflags, and 0x200 bytes more for the 64-bit entry to lie in.
pub fn linux64_kernel() -> Vec<u8> {
    let mut kernel = linux_kernel();
    kernel[0x236] = 1;
    kernel.resize(kernel.len() + 0x200, 0);
    kernel
}
