//! The parts of a Multiboot2 entry, and how its kernel is entered.

use crate::elf::{read_elf, Segment};
use crate::header::find_header;
use crate::image::State;
use crate::information::information;
use crate::machine::{Machine, FRAME};
use crate::places::{Content, Part, Places, INFORMATION, KERNEL, MODULE, MOST};
use crate::words::holds;
use std::ops::Range;

const PROTOCOL: u32 = 1;
const BOOTLOADER_MAGIC: u32 = 0x36D7_6289;
const LEAST_MODULE: u64 = 0x10_0000;

/// What a kernel asks to be loaded, and its entry.
fn read_kernel(file: &[u8]) -> Result<(Vec<Segment>, u64), String> {
    let header = find_header(file).map_err(|fault| format!("{fault:?}"))?;
    if header.relocation.is_some() {
        return Err("a kernel that may be moved".into());
    }
    let (segments, entry) = match header.segment {
        Some(segment) => (vec![segment], header.entry),
        None => {
            let elf = read_elf(file).map_err(|fault| format!("{fault:?}"))?;
            (elf.segments, header.entry.or(elf.entry))
        }
    };
    let entry = entry.ok_or("no entry")?;
    if !segments.iter().any(|s| holds(s.address, s.memsz, entry)) {
        return Err("the entry lies outside".into());
    }
    Ok((segments, entry))
}

/// The segments where they are linked.
fn place_kernel(places: &mut Places<'_>, segments: &[Segment]) -> Result<Vec<Part>, String> {
    let mut parts = Vec::new();
    for (i, segment) in segments.iter().enumerate() {
        parts.push(Part {
            role: KERNEL,
            index: i as u32,
            address: places.fixed(segment.address..segment.address + segment.memsz)?,
            length: segment.memsz,
            content: Content::File {
                file: 0,
                offset: segment.offset,
                count: segment.filesz,
            },
        });
    }
    Ok(parts)
}

/// Each module in the least free frames from 1 MiB on.
fn place_modules(places: &mut Places<'_>, modules: &[Vec<u8>]) -> Result<Vec<Part>, String> {
    let mut parts = Vec::new();
    for (i, module) in modules.iter().enumerate() {
        let length = module.len().max(1).next_multiple_of(FRAME) as u64;
        parts.push(Part {
            role: MODULE,
            index: i as u32,
            address: places.lowest(length, FRAME as u64, LEAST_MODULE..MOST)?,
            length,
            content: Content::File {
                file: 1 + i,
                offset: 0,
                count: module.len() as u64,
            },
        });
    }
    Ok(parts)
}

/// The kernel's segments, the modules, and the information in the least free frames of all.
pub fn parts_of(
    machine: &Machine,
    line: &str,
    files: &[Vec<u8>],
) -> Result<(Vec<Part>, State), String> {
    let (segments, entry) = read_kernel(&files[0])?;
    let mut places = Places::new(machine);
    let mut parts = place_kernel(&mut places, &segments)?;
    let modules = place_modules(&mut places, &files[1..])?;
    let of_file = |(part, file): (&Part, &Vec<u8>)| part.address..part.address + file.len() as u64;
    let ranges: Vec<Range<u64>> = modules.iter().zip(&files[1..]).map(of_file).collect();
    parts.extend(modules);

    let info = information(machine, line, &ranges);
    let length = info.len().next_multiple_of(FRAME) as u64;
    let address = places.lowest(length, FRAME as u64, FRAME as u64..MOST)?;
    parts.push(Part {
        role: INFORMATION,
        index: 0,
        address,
        length,
        content: Content::Own(info),
    });
    let state = State {
        protocol: PROTOCOL,
        eip: entry as u32,
        eax: BOOTLOADER_MAGIC,
        ebx: address as u32,
        ..State::default()
    };
    Ok((parts, state))
}
