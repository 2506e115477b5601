//! The boot of a Linux kernel and an initial ramdisk in 512 MiB of memory by way of a pool, in plain Rust, as often as is told:
//! the yardstick of `bootcore_boot`.
//!
//!     plain_boot own|memory KERNEL INITRD ROUNDS
//!
//! With `own` each boot takes its pool from the allocator. With `memory` the pool lies in the memory that is booted, as those of
//! `plain pool` and `bootcore_boot` do, so that after the first boot no page is new.
#![allow(dead_code)]

mod image;
mod linux;
mod loading;
mod machine;
mod places;
mod setup;
mod staging;
mod words;

use loading::load_parts;
use machine::{Machine, Region};
use places::{check_room, INITRD};
use staging::{Staged, StagedApart};
use std::{env, fs};

const SIZE: usize = 0x2000_0000;
const POOL: usize = 0x240_0000;
const POOL_END: usize = 0x1000_0000;

fn machine() -> Machine {
    let usable = |base, length| Region { base, length, kind: 1 };
    Machine {
        size: SIZE as u64,
        fill: 0,
        pool: POOL as u64..POOL_END as u64,
        regions: vec![usable(0, 0x9F000), usable(0x10_0000, SIZE as u64 - 0x10_0000)],
    }
}

fn main() {
    let words: Vec<String> = env::args().collect();
    let files = vec![fs::read(&words[2]).unwrap(), fs::read(&words[3]).unwrap()];
    let rounds: u64 = words[4].parse().unwrap();
    let machine = machine();
    let mut memory = vec![0u8; SIZE];
    for round in 0..rounds {
        let (parts, _) = linux::parts_of(&machine, "", &files).unwrap();
        check_room(&machine, &parts, &files).unwrap();
        if words[1] == "own" {
            load_parts(&mut memory, &StagedApart::new(&files, POOL_END - POOL), &parts);
        } else {
            let staged = Staged::new(&mut memory, POOL..POOL_END, &files);
            load_parts(&mut memory, &staged, &parts);
        }
        let initrd = parts.iter().find(|part| part.role == INITRD).unwrap();
        println!("{round} {}", memory[(initrd.address + round) as usize]);
    }
}
