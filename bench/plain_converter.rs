//! Reads an image of version 2 and writes it again, as `bootcore convert` does, in plain Rust.
//!
//!   plain_converter IMAGE NEW

#[path = "image_reader.rs"]
mod image_reader;

use image_reader::{Image, bad, ended, read_image};
use std::env;
use std::fs::File;
use std::io::{self, Write};
use std::process::ExitCode;

/// What stands before the parts' bytes.
fn front(image: &Image) -> Vec<u8> {
    let mut out = b"BLIMAGE\0".to_vec();
    out.extend_from_slice(&2u32.to_le_bytes());
    out.extend_from_slice(&image.protocol.to_le_bytes());
    for register in &image.registers {
        out.extend_from_slice(&register.to_le_bytes());
    }
    out.extend_from_slice(&(image.parts.len() as u64).to_le_bytes());
    for part in &image.parts {
        out.extend_from_slice(&part.role.to_le_bytes());
        out.extend_from_slice(&part.index.to_le_bytes());
        out.extend_from_slice(&part.address.to_le_bytes());
        out.extend_from_slice(&(part.bytes.len() as u64).to_le_bytes());
    }
    out
}

fn run() -> io::Result<()> {
    let mut words = env::args().skip(1);
    let (Some(path), Some(new)) = (words.next(), words.next()) else {
        return Err(bad("no image, or no new one"));
    };
    let image = read_image(&mut File::open(path)?)?;
    let mut out = File::create(new)?;
    out.write_all(&front(&image))?;
    for part in &image.parts {
        out.write_all(&part.bytes)?;
    }
    Ok(())
}

fn main() -> ExitCode {
    ended(run())
}
