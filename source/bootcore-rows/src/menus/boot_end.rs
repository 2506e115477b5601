//! What a boot ended in, as text.

use crate::calls::memory::read;
use crate::calls::prepare::{place_text, say_registers};
use crate::entries::refusal_text;
use crate::menus::memory_after::pool_text;
use crate::refusing::Refusing;
use crate::row::{Answered, Row, Stop, say};
use bootcore::proved::bl_mem::PhysMem;
use bootcore::proved::bl_session::{BootFault, Outcome, RefusedEntry};
use std::ops::Range;

/// What a boot ended in.
pub type End<'e, 'h> = Result<&'e Outcome<&'h Refusing>, &'e BootFault<&'h Refusing>>;

/// FNV-1a with 64 bits.
fn sum_of(bytes: &[u8]) -> u64 {
    bytes.iter().fold(0xcbf2_9ce4_8422_2325, |sum, byte| (sum ^ u64::from(*byte)).wrapping_mul(0x100_0000_01b3))
}

fn say_refused(row: &mut Row<'_>, refused: &[RefusedEntry]) {
    for it in refused {
        say!(row, "refused {:x} {}, ", it.entry, refusal_text(it.refusal));
    }
}

/// Where the parts lie that a boot handed over.
pub fn parts_of<'e>(end: End<'e, '_>) -> &'e [Range<u64>] {
    end.map_or(&[], |outcome| outcome.handoff.ranges())
}

/// An entry that was handed over, each part with the sum of what memory holds there; or why nothing is.
pub fn say_end<M: PhysMem>(row: &mut Row<'_>, memory: &M, pool: &Range<u64>, end: End<'_, '_>) -> Answered {
    match end {
        Ok(outcome) => {
            say_refused(row, &outcome.refused);
            say!(row, "booted {:x}, ", outcome.entry);
            let handoff = &outcome.handoff;
            say_registers(row, handoff.protocol(), &handoff.registers());
            for place in (0..handoff.len()).map(|index| handoff.place(index)) {
                let bytes = read(memory, place.address, place.length)?;
                say!(row, ", {}={:016x}", place_text(&place), sum_of(&bytes));
            }
        }
        Err(BootFault::NoMemory) => return Err(Stop::NoMemory),
        Err(BootFault::NoEntryLeft(refused)) => {
            say_refused(row, refused);
            say!(row, "no entry left");
        }
    }
    say!(row, ", {}", pool_text(memory, pool, parts_of(end))?);
    Ok(())
}
