//! The reader of bzImages, and what writes boot parameters: `machine entry kernel`.
#![cfg_attr(fuzzing, no_main)]

use bootcore_fuzz::{Drawn, load_entry, target};

fn run(bytes: &[u8]) {
    let (head, kernel) = bytes.split_at(bytes.len().min(64));
    let mut drawn = Drawn(head);
    let (machine, entry) = (drawn.machine(), drawn.linux(kernel));
    load_entry(&machine, &entry);
}

target!(run);
