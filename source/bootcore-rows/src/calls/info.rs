//! `read_info BYTES`: what boot information tells, or its first fault.

use crate::calls::firmware::{say_efi_copy, say_screen, say_smbios};
use crate::calls::machine::region_text;
use crate::pieces::pieces;
use crate::row::{Answered, Row, Stop, say};
use bootcore::proved::bl_mbi::{InfoFault, read_info};

fn stop(fault: InfoFault) -> Stop {
    let number = fault.number();
    match fault {
        InfoFault::NoMemory => Stop::NoMemory,
        InfoFault::BadTag(place) | InfoFault::BadOrder(place) => Stop::Answer(format!("fault {number} {place:x}")),
        _ => Stop::Answer(format!("fault {number}")),
    }
}

/// Reads the information over the heap.
pub fn answer(row: &mut Row<'_>) -> Answered {
    let info = read_info(row.heap, row.bytes).map_err(stop)?;
    say!(row, "name={} line={}", pieces(info.name.as_slice()), pieces(info.line.as_slice()));
    for module in &info.modules {
        say!(row, " module={:x}..{:x}:{}", module.mod_start, module.mod_end, pieces(module.line.as_slice()));
    }
    say!(row, " lower={:x} upper={:x}", info.mem_lower, info.mem_upper);
    for run in &info.runs {
        say!(row, " run={}", region_text(run));
    }
    for (name, copy) in [("old", &info.rsdp_old), ("new", &info.rsdp_new)] {
        say!(row, " {name}={}", copy.as_ref().map_or("none".to_owned(), |bytes| pieces(bytes.as_slice())));
    }
    say!(row, " base={}", info.load_base.map_or("none".to_owned(), |base| format!("{base:x}")));
    say_screen(row, &info.screen);
    say_efi_copy(row, &info.efi);
    say_smbios(row, &info.smbios);
    Ok(())
}
