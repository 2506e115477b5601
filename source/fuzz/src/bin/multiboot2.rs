//! Readers of Multiboot2 headers and of ELF files, and what writes boot information: `machine entry kernel`.
#![cfg_attr(fuzzing, no_main)]

use bootcore_fuzz::{Drawn, load_entry, target};

fn run(bytes: &[u8]) {
    let (head, kernel) = bytes.split_at(bytes.len().min(64));
    let mut drawn = Drawn(head);
    let (machine, entry) = (drawn.machine(), drawn.multiboot2(kernel));
    load_entry(&machine, &entry);
}

target!(run);
