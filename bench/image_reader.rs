//! An image of version 2, read in plain Rust: each field is judged as it comes, and each part is read to a vector that
//! grows with what came.

// each of the programs that read an image leaves some of it alone
#![allow(dead_code)]

use std::io::{self, ErrorKind, Read};
use std::process::ExitCode;

const STEP: usize = 1 << 16;

pub struct Part {
    pub role: u32,
    pub index: u32,
    pub address: u64,
    pub bytes: Vec<u8>,
}

pub struct Image {
    pub protocol: u32,
    pub registers: [u64; 31],
    pub parts: Vec<Part>,
}

pub fn bad(what: &str) -> io::Error {
    io::Error::new(ErrorKind::InvalidData, what.to_string())
}

/// The status of a program that ended so; an error is said.
pub fn ended(result: io::Result<()>) -> ExitCode {
    match result {
        Ok(()) => ExitCode::SUCCESS,
        Err(error) => {
            eprintln!("{error}");
            ExitCode::FAILURE
        }
    }
}

fn u32_of(source: &mut impl Read) -> io::Result<u32> {
    let mut bytes = [0; 4];
    source.read_exact(&mut bytes)?;
    Ok(u32::from_le_bytes(bytes))
}

fn u64_of(source: &mut impl Read) -> io::Result<u64> {
    let mut bytes = [0; 8];
    source.read_exact(&mut bytes)?;
    Ok(u64::from_le_bytes(bytes))
}

/// So many bytes; memory follows what came.
fn part_of(source: &mut impl Read, length: u64) -> io::Result<Vec<u8>> {
    let mut bytes = Vec::new();
    let mut buffer = vec![0; STEP];
    let mut left = length;
    while left > 0 {
        let next = left.min(STEP as u64) as usize;
        source.read_exact(&mut buffer[..next])?;
        bytes.extend_from_slice(&buffer[..next]);
        left -= next as u64;
    }
    Ok(bytes)
}

pub fn read_image(source: &mut impl Read) -> io::Result<Image> {
    let mut magic = [0; 8];
    source.read_exact(&mut magic)?;
    if &magic != b"BLIMAGE\0" || u32_of(source)? != 2 {
        return Err(bad("magic or version"));
    }
    let protocol = u32_of(source)?;
    if !(1..=2).contains(&protocol) {
        return Err(bad("protocol"));
    }
    let mut registers = [0; 31];
    for (k, register) in registers.iter_mut().enumerate() {
        *register = u64_of(source)?;
        // R8 to R15, CR3, CR4 and EFER are not given
        let is_given = !(9..17).contains(&k) && !(19..22).contains(&k);
        if *register >= if is_given { 1 << 32 } else { 1 } {
            return Err(bad("register"));
        }
    }
    let count = u32_of(source)?;
    if count > 256 || u32_of(source)? != 0 {
        return Err(bad("header"));
    }
    let mut records = Vec::new();
    let mut end = 0;
    for _ in 0..count {
        let role = u32_of(source)?;
        let index = u32_of(source)?;
        let (address, length) = (u64_of(source)?, u64_of(source)?);
        if !(1..=7).contains(&role) || length == 0 || address < end || address + length > 1 << 32 {
            return Err(bad("record"));
        }
        end = address + length;
        records.push((role, index, address, length));
    }
    let mut parts = Vec::new();
    for (role, index, address, length) in records {
        parts.push(Part { role, index, address, bytes: part_of(source, length)? });
    }
    match source.read(&mut [0])? {
        0 => Ok(Image { protocol, registers, parts }),
        _ => Err(bad("length")),
    }
}
