//! `read_setup BYTES`: the fields of a Linux kernel's setup header, how many bytes it has, and the payload as `OFFSET+LENGTH`; or
//! the fault. `setup_fault BYTES`: the fault alone, or `none`.

use crate::entries::fault;
use crate::row::{Answered, Row, say};
use bootcore::proved::bl_bzimage::{Setup, read_setup};
use bootcore::proved::bl_mem::SliceView;

fn read(row: &Row<'_>) -> Answered<Setup> {
    read_setup(&SliceView::new(row.bytes)).map_err(|why| fault("fault ", why))
}

/// Reads a kernel's file.
pub fn answer(row: &mut Row<'_>) -> Answered {
    let setup = read(row)?;
    say!(row, "setup_sects={:x} version={:x} loadflags={:x}", setup.setup_sects, setup.version, setup.loadflags);
    say!(row, " initrd_addr_max={:x} kernel_alignment={:x}", setup.initrd_addr_max, setup.kernel_alignment);
    say!(row, " relocatable_kernel={:x} xloadflags={:x}", setup.relocatable_kernel as u64, setup.xloadflags);
    say!(row, " cmdline_size={:x} pref_address={:x} init_size={:x}", setup.cmdline_size, setup.pref_address, setup.init_size);
    say!(row, " header={:x} payload={:x}+{:x}", setup.header.as_slice().len(), setup.payload_offset, setup.payload_size);
    Ok(())
}

/// The fault of a kernel's file.
pub fn answer_fault(row: &mut Row<'_>) -> Answered {
    read(row)?;
    say!(row, "none");
    Ok(())
}
