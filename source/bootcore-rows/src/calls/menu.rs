//! `menu MENU ..`: the order of its attempts and how many files it names, or its fault.

use crate::menus::boot_fields::BootFields;
use crate::row::{Answered, Row, Stop, say};
use bootcore::proved::bl_session::MenuFault;

fn stop(fault: MenuFault) -> Stop {
    match fault {
        MenuFault::NoMemory => Stop::NoMemory,
        _ => Stop::Answer(format!("fault {}", fault.number())),
    }
}

/// Makes the menu over the heap.
pub fn answer(row: &mut Row<'_>) -> Answered {
    let menu = BootFields::of(row.session, row.rest())?.menu_over(row.heap).map_err(stop)?;
    say!(row, "attempts");
    for attempt in 0..menu.attempts() {
        say!(row, " {:x}", menu.entry_of(attempt));
    }
    say!(row, ", files {:x}", menu.files());
    Ok(())
}
