//! Reads an image of a Linux entry and says what its kernel sees, as `bootcore walk` does, in plain Rust: each field is
//! judged as it comes, each part is read to a vector that grows with what came, and the initial ramdisk is copied once.
//!
//!   plain_walker IMAGE

use std::env;
use std::fs::File;
use std::io;
use std::process::ExitCode;

#[path = "image_reader.rs"]
mod image_reader;

use image_reader::{Image, bad, ended, read_image};

impl Image {
    /// The bytes from an address to the end of its part.
    fn rest(&self, address: u64) -> io::Result<&[u8]> {
        let after = self.parts.partition_point(|part| part.address <= address);
        let part = after.checked_sub(1).map(|k| &self.parts[k]).ok_or_else(|| bad("outside"))?;
        part.bytes.get((address - part.address) as usize..).ok_or_else(|| bad("outside"))
    }

    fn range(&self, address: u64, length: u64) -> io::Result<&[u8]> {
        self.rest(address)?.get(..length as usize).ok_or_else(|| bad("outside"))
    }
}

fn word(bytes: &[u8], at: usize) -> u64 {
    u32::from_le_bytes(bytes[at..at + 4].try_into().unwrap()) as u64
}

fn long(bytes: &[u8], at: usize) -> u64 {
    u64::from_le_bytes(bytes[at..at + 8].try_into().unwrap())
}

fn walk(image: &Image) -> io::Result<String> {
    let registers = &image.registers;
    let params = image.range(registers[5], 4096)?;
    let line = image.rest(word(params, 0x228))?;
    let end = line.iter().position(|byte| *byte == 0).ok_or_else(|| bad("line"))?;
    let line: Vec<u8> = line[..end].to_vec();
    let (at, size) = (word(params, 0x218), word(params, 0x21C));
    let initrd = if size > 0 { image.range(at, size)?.to_vec() } else { Vec::new() };
    let mut said = format!("protocol linux\nentry {:08x}\nline {}", registers[0], line.len());
    if !line.is_empty() {
        said.push(' ');
        line.iter().for_each(|byte| said.push_str(&format!("{byte:02x}")));
    }
    said.push('\n');
    for part in image.parts.iter().filter(|part| part.role == 1) {
        said.push_str(&format!("kernel {:08x} {}\n", part.address, part.bytes.len()));
    }
    if !initrd.is_empty() {
        said.push_str(&format!("initrd {at:08x} {}\n", initrd.len()));
    }
    for k in 0..params[0x1E8] as usize {
        let at = 0x2D0 + 20 * k;
        let (base, length) = (long(params, at), long(params, at + 8));
        said.push_str(&format!("map {base:016x} {:016x} {}\n", base + length, word(params, at + 16)));
    }
    Ok(said)
}

fn run() -> io::Result<()> {
    let path = env::args().nth(1).ok_or_else(|| bad("no image"))?;
    print!("{}", walk(&read_image(&mut File::open(path)?)?)?);
    Ok(())
}

fn main() -> ExitCode {
    ended(run())
}
