//! `prepare ENTRY of KERNEL` and `load fill=VV ENTRY of KERNEL`, on the last machine.

use crate::calls::memory::read;
use crate::entries::{loaded_entry, prepared_entry};
use crate::pieces::pieces;
use crate::row::{Answered, Row, say};
use bootcore::proved::bl_load::Registers;
use bootcore::proved::bl_mem::PhysMem;
use bootcore::proved::bl_plan::{Place, Protocol, Role};

fn role_name(role: Role) -> &'static str {
    match role {
        Role::Kernel => "kernel",
        Role::Module => "module",
        Role::Information => "information",
        Role::BootParams => "boot_params",
        Role::CommandLine => "command_line",
        Role::Gdt => "gdt",
        Role::Initrd => "initrd",
        Role::PageTables => "page_tables",
    }
}

/// A protocol, and the registers in the order of an image, which is that of their names.
pub fn say_registers(row: &mut Row<'_>, protocol: Protocol, registers: &Registers) {
    say!(row, "protocol {} registers", protocol.number());
    for register in (0..registers.count()).filter_map(|index| registers.named(index)) {
        say!(row, " {:x}", register.value);
    }
}

/// A place as `ROLE INDEX ADDRESS+LENGTH`.
pub fn place_text(place: &Place) -> String {
    format!("{} {:x} {:x}+{:x}", role_name(place.role), place.index, place.address, place.length)
}

/// Prepares the entry over the heap.
pub fn answer(row: &mut Row<'_>) -> Answered {
    let plan = prepared_entry(row)?;
    say_registers(row, plan.protocol, &plan.registers);
    for part in &plan.parts {
        say!(row, ", {}", place_text(&part.place));
    }
    Ok(())
}

/// Prepares the entry and loads it, both over the heap; the handoff, how often loading asked for memory, and all of memory.
pub fn answer_load(row: &mut Row<'_>) -> Answered {
    let loaded = loaded_entry(row)?;
    let handoff = &loaded.handoff;
    say_registers(row, handoff.protocol(), &handoff.registers());
    for index in 0..handoff.len() {
        say!(row, ", {}", place_text(&handoff.place(index)));
    }
    let memory = read(&loaded.memory, 0, loaded.memory.size())?;
    say!(row, ", asked {:x}, memory {}", loaded.requests, pieces(&memory));
    Ok(())
}
