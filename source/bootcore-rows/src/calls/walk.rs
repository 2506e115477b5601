//! `walk BYTES`: what a kernel sees in an image, or the fault of reading or walking it.

use crate::calls::firmware::{say_efi_copy, say_efi_info, say_rsdp, say_screen, say_smbios};
use crate::calls::machine::region_text;
use crate::calls::read_image::read_row_image;
use crate::pieces::pieces;
use crate::row::{Answered, Row, Stop, say};
use bootcore::proved::bl_walk::{WalkFault, walk};

fn stop(fault: WalkFault) -> Stop {
    match fault {
        WalkFault::NoMemory => Stop::NoMemory,
        _ => Stop::Answer(format!("fault {}", fault.number())),
    }
}

/// Reads an image and walks it, both over the heap.
pub fn answer(row: &mut Row<'_>) -> Answered {
    let image = read_row_image(row)?;
    let seen = walk(row.heap, &image).map_err(stop)?;
    say!(row, "protocol {} entry={:x} line={}", seen.protocol.number(), seen.entry, pieces(seen.line.as_slice()));
    for part in &seen.kernel {
        say!(row, " kernel={:x}+{:x}", part.address, part.length);
    }
    for module in &seen.modules {
        say!(row, " module={:x}:{}:{}", module.mod_start, pieces(module.bytes), pieces(module.line.as_slice()));
    }
    if let Some(initrd) = &seen.initrd {
        say!(row, " initrd={:x}:{}", initrd.address, pieces(initrd.bytes));
    }
    for run in &seen.map {
        say!(row, " run={}", region_text(run));
    }
    for (name, copy) in [("rsdp_old", &seen.rsdp_old), ("rsdp_new", &seen.rsdp_new)] {
        if let Some(bytes) = copy {
            say!(row, " {name}={}", pieces(bytes.as_slice()));
        }
    }
    say_screen(row, &seen.firmware.screen);
    say_rsdp(row, seen.firmware.rsdp);
    say_efi_info(row, &seen.firmware.efi_info);
    say_efi_copy(row, &seen.firmware.efi_tables);
    say_smbios(row, &seen.firmware.smbios);
    Ok(())
}
