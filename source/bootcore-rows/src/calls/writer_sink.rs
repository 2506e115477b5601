//! `sink N END PART ..`: parts, one after the other, to a sink over a writer that takes at most two bytes at each of N writes;
//! then it takes nothing (END is `nothing`) or has an error. A PART is `write=BYTES` (one write) or `all=BYTES`.

use crate::row::{Answered, Row, Stop, say};
use crate::words::{cut, pick};
use bootcore::proved::bl_image::{ImageFault, IoSink, Sink, write_all};
use std::io::{self, ErrorKind, Write};

/// How a writer ends: it takes nothing, or has an error.
const ENDS: [(&str, Option<ErrorKind>); 4] = [
    ("nothing", None),
    ("storage_full", Some(ErrorKind::StorageFull)),
    ("broken_pipe", Some(ErrorKind::BrokenPipe)),
    ("interrupted", Some(ErrorKind::Interrupted)),
];

/// A writer that ends early.
struct ShortWriter {
    writes: u64,
    error: Option<ErrorKind>,
    taken: usize,
}

impl Write for ShortWriter {
    fn write(&mut self, part: &[u8]) -> io::Result<usize> {
        if self.writes == 0 {
            return self.error.map_or(Ok(0), |kind| Err(kind.into()));
        }
        self.writes -= 1;
        let count = part.len().min(2);
        self.taken += count;
        Ok(count)
    }

    fn flush(&mut self) -> io::Result<()> {
        Ok(())
    }
}

/// Writes the parts to the sink.
pub fn answer(row: &mut Row<'_>) -> Answered {
    let writer = ShortWriter { writes: row.number()?, error: pick(&ENDS, row.word())?, taken: 0 };
    let mut sink = IoSink::new(writer);
    for word in row.rest().split_whitespace() {
        let (way, bytes) = cut(word, "=")?;
        let part = row.session.bytes(bytes)?;
        let taken = match way {
            "write" => sink.write(&part),
            "all" => write_all(&mut sink, &part).map(|()| part.len()),
            _ => return Err(Stop::BadRow),
        };
        match taken {
            Ok(count) => say!(row, "took {count:x}, "),
            Err(fault) => say!(row, "fault {}, ", ImageFault::from(fault).number()),
        }
    }
    say!(row, "faults {:x}, holds {:x} bytes", sink.faults(), sink.into_writer().taken);
    Ok(())
}
