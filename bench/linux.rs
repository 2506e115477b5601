//! The parts of a Linux entry, and how its kernel is entered.

use crate::image::State;
use crate::machine::{Machine, Region, FRAME};
use crate::places::{
    Content, Part, Places, BOOT_PARAMS, COMMAND_LINE, GDT, INITRD, KERNEL, MOST,
};
use crate::setup::{read_setup, Setup, HEADER_START};
use std::ops::Range;

const PROTOCOL: u32 = 2;
const HIGH_START: u64 = 0x10_0000;
const LINE_END: u64 = 0xA_0000;
const MAX_RUNS: usize = 128;
const FRAME_SIZE: u64 = FRAME as u64;
const DESCRIPTORS: [u64; 4] = [0, 0, 0x00CF_9A00_0000_FFFF, 0x00CF_9200_0000_FFFF];

/// Where the kernel lies: from `pref_address` on if it may be moved, else at 1 MiB.
fn place_kernel(places: &mut Places<'_>, setup: &Setup) -> Result<Range<u64>, String> {
    let (payload, init) = (setup.payload_size, setup.init_size as u64);
    if !setup.is_relocatable {
        let end = (HIGH_START + payload).max(setup.pref_address + init);
        places.fixed(HIGH_START..end)?;
        return Ok(HIGH_START..end);
    }
    let length = payload.max(init);
    let low = setup.pref_address.max(HIGH_START);
    let at = places.lowest(length, setup.kernel_alignment as u64, low..MOST)?;
    Ok(at..at + length)
}

/// A part of one frame, in the least free one below `end`.
fn frame_part(places: &mut Places<'_>, role: u32, end: u64) -> Result<Part, String> {
    Ok(Part {
        role,
        index: 0,
        address: places.lowest(FRAME_SIZE, FRAME_SIZE, FRAME_SIZE..end)?,
        length: FRAME_SIZE,
        content: Content::Own(Vec::new()),
    })
}

/// The initial ramdisk in the highest free frames that `initrd_addr_max` allows.
fn place_initrd(places: &mut Places<'_>, setup: &Setup, size: u64) -> Result<Part, String> {
    let length = size.next_multiple_of(FRAME_SIZE);
    let end = setup.initrd_addr_max as u64 + 1;
    Ok(Part {
        role: INITRD,
        index: 0,
        address: places.highest(length, FRAME_SIZE, FRAME_SIZE..end)?,
        length,
        content: Content::File {
            file: 1,
            offset: 0,
            count: size,
        },
    })
}

/// The header, with what a loader writes over it, and the memory map.
fn boot_params(setup: &Setup, words: [(usize, u64); 4], regions: &[Region]) -> Vec<u8> {
    let mut out = vec![0; FRAME];
    let header = &setup.header[..setup.header_size];
    out[HEADER_START..HEADER_START + header.len()].copy_from_slice(header);
    out[0x1FA..0x1FC].fill(0xFF);
    out[0x210] = 0xFF;
    for (at, word) in words {
        out[at..at + 4].copy_from_slice(&(word as u32).to_le_bytes());
    }
    out[0x250..0x258].fill(0);
    out[0x1E8] = regions.len() as u8;
    for (i, region) in regions.iter().enumerate() {
        let at = 0x2D0 + 20 * i;
        out[at..at + 8].copy_from_slice(&region.base.to_le_bytes());
        out[at + 8..at + 16].copy_from_slice(&region.length.to_le_bytes());
        out[at + 16..at + 20].copy_from_slice(&region.kind.to_le_bytes());
    }
    out
}

fn read_kernel(machine: &Machine, line: &str, file: &[u8]) -> Result<Setup, String> {
    let setup = read_setup(file).map_err(|fault| format!("{fault:?}"))?;
    if line.len() > setup.cmdline_size as usize || machine.regions.len() > MAX_RUNS {
        return Err("the line or the memory map is too long".into());
    }
    Ok(setup)
}

/// The kernel, boot parameters, line, descriptors, and the initial ramdisk if there is one that is not empty.
pub fn parts_of(
    machine: &Machine,
    line: &str,
    files: &[Vec<u8>],
) -> Result<(Vec<Part>, State), String> {
    let setup = read_kernel(machine, line, &files[0])?;
    let mut places = Places::new(machine);
    let kernel = place_kernel(&mut places, &setup)?;
    let mut params = frame_part(&mut places, BOOT_PARAMS, MOST)?;
    let mut command_line = frame_part(&mut places, COMMAND_LINE, LINE_END)?;
    let mut gdt = frame_part(&mut places, GDT, MOST)?;
    let initrd = match files.get(1).map_or(0, Vec::len) as u64 {
        0 => None,
        size => Some((place_initrd(&mut places, &setup, size)?, size)),
    };
    let (address, size) = initrd.as_ref().map_or((0, 0), |(part, size)| (part.address, *size));
    let words = [
        (0x214, kernel.start),
        (0x218, address),
        (0x21C, size),
        (0x228, command_line.address),
    ];
    let state = State {
        protocol: PROTOCOL,
        eip: kernel.start as u32,
        esi: params.address as u32,
        gdt: [gdt.address as u32, 31],
        ..State::default()
    };
    params.content = Content::Own(boot_params(&setup, words, &machine.regions));
    command_line.content = Content::Own(line.as_bytes().to_vec());
    gdt.content = Content::Own(DESCRIPTORS.map(u64::to_le_bytes).concat());
    let kernel = Part {
        role: KERNEL,
        index: 0,
        address: kernel.start,
        length: kernel.end - kernel.start,
        content: Content::File {
            file: 0,
            offset: setup.payload_offset,
            count: setup.payload_size,
        },
    };
    let mut parts = vec![kernel, params, command_line, gdt];
    parts.extend(initrd.map(|(part, _)| part));
    Ok((parts, state))
}
