//! The Multiboot2 boot information.

use crate::machine::{Machine, Region};
use std::ops::Range;

const LOADER: &[u8] = b"bootcore\0";

/// Appends a tag, with zeros up to the next multiple of 8.
fn put_tag(out: &mut Vec<u8>, kind: u32, body: &[u8]) {
    out.extend_from_slice(&kind.to_le_bytes());
    out.extend_from_slice(&(body.len() as u32 + 8).to_le_bytes());
    out.extend_from_slice(body);
    out.resize(out.len().next_multiple_of(8), 0);
}

fn memory_map(regions: &[Region]) -> Vec<u8> {
    let mut body = [24u32, 0].map(u32::to_le_bytes).concat();
    for region in regions {
        body.extend_from_slice(&region.base.to_le_bytes());
        body.extend_from_slice(&region.length.to_le_bytes());
        body.extend_from_slice(&region.kind.to_le_bytes());
        body.extend_from_slice(&0u32.to_le_bytes());
    }
    body
}

/// A module has no line.
fn module(range: &Range<u64>) -> Vec<u8> {
    let mut body = [range.start as u32, range.end as u32]
        .map(u32::to_le_bytes)
        .concat();
    body.push(0);
    body
}

/// Modules are told by where their files begin and end.
pub fn information(machine: &Machine, line: &str, modules: &[Range<u64>]) -> Vec<u8> {
    let lower = machine.kib_from(0, 640);
    let upper = machine.kib_from(0x10_0000, u32::MAX as u64);
    let mut out = vec![0; 8];
    put_tag(&mut out, 1, &[line.as_bytes(), &[0]].concat());
    put_tag(&mut out, 2, LOADER);
    for range in modules {
        put_tag(&mut out, 3, &module(range));
    }
    put_tag(&mut out, 4, &[lower, upper].map(u32::to_le_bytes).concat());
    put_tag(&mut out, 6, &memory_map(&machine.regions));
    put_tag(&mut out, 0, &[]);
    let total_size = out.len() as u32;
    out[..4].copy_from_slice(&total_size.to_le_bytes());
    out
}
