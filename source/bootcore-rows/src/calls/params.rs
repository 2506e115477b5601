//! `read_params BYTES`: what boot parameters tell, or their first fault.

use crate::calls::firmware::{say_efi_info, say_rsdp, say_screen};
use crate::calls::machine::region_text;
use crate::row::{Answered, Row, Stop, say};
use bootcore::proved::bl_params::{ParamFault, read_params};

fn stop(fault: ParamFault) -> Stop {
    match fault {
        ParamFault::WrongLength => Stop::Answer("fault 66".to_owned()),
        ParamFault::BadParams(offset) => Stop::Answer(format!("fault 67 {offset:x}")),
        ParamFault::NoMemory => Stop::NoMemory,
    }
}

/// Reads boot parameters over the heap.
pub fn answer(row: &mut Row<'_>) -> Answered {
    let params = read_params(row.heap, row.bytes).map_err(stop)?;
    say!(row, "code32_start={:x} ramdisk={:x}+{:x}", params.code32_start, params.ramdisk_image, params.ramdisk_size);
    say!(row, " cmd_line_ptr={:x} version={:x} loadflags={:x}", params.cmd_line_ptr, params.version, params.loadflags);
    say!(row, " initrd_addr_max={:x} kernel_alignment={:x}", params.initrd_addr_max, params.kernel_alignment);
    say!(row, " relocatable_kernel={:x} xloadflags={:x}", params.relocatable_kernel as u64, params.xloadflags);
    say!(row, " cmdline_size={:x} pref_address={:x} init_size={:x}", params.cmdline_size, params.pref_address, params.init_size);
    for run in &params.runs {
        say!(row, " run={}", region_text(run));
    }
    say_screen(row, &params.screen);
    say_rsdp(row, params.rsdp);
    say_efi_info(row, &params.efi);
    Ok(())
}
