//! `registers ENTRY of KERNEL`, on the last machine: the registers by their names, and the segment registers whole.

use crate::entries::prepared_entry;
use crate::row::{Answered, Row, say};
use bootcore::proved::bl_load::SegmentName;

const SEGMENTS: [(&str, SegmentName); 6] = [
    ("cs", SegmentName::Cs),
    ("ds", SegmentName::Ds),
    ("es", SegmentName::Es),
    ("fs", SegmentName::Fs),
    ("gs", SegmentName::Gs),
    ("ss", SegmentName::Ss),
];

/// Prepares the entry over the heap.
pub fn answer(row: &mut Row<'_>) -> Answered {
    let plan = prepared_entry(row)?;
    say!(row, "{}", plan.registers);
    for (name, segment) in SEGMENTS {
        let it = plan.registers.segment(segment);
        say!(row, ", {name} selector {:x} base {:x} limit {:x} type {:x}", it.selector, it.base, it.limit, it.segment_type);
        say!(row, " dpl {:x}", it.dpl);
        for (flag, is_set) in [("s", it.s), ("p", it.p), ("avl", it.avl), ("l", it.l), ("db", it.db), ("g", it.g)] {
            if is_set {
                say!(row, " {flag}");
            }
        }
    }
    Ok(())
}
