//! The calls of the program: `line WORD ..`, and its commands over bytes: `boot FIELD .. of DESCRIPTION`, `explain ..`, `map ..`,
//! `walk_to said=B blamed=B step=N fail=N of IMAGE`, `convert FIELD .. of IMAGE`.

use crate::calls::image::sink_over;
use crate::calls::read_image::SourceFields;
use crate::pieces::pieces;
use crate::refusing::Refusing;
use crate::row::{Answered, Row, Stop, core_vec, say};
use crate::session::Session;
use crate::words::{cut, number};
use bootcore::proved::bl_image::{Sink, Source};
use bootcore::proved::bl_mem::Bytes;
use bootcore::shim::alloc::Global;
use bootcore::shim::vec::Vec as CoreVec;
use bootcore_cli::program_line::{Order, read_line};
use bootcore_cli::proved::program_commands::{Files, MemFiles, boot, convert, explain_to, map_to, walk_to};
use bootcore_cli::proved::program_desc::{FileRow, Text};
use bootcore_cli::shim::string::String as CoreString;

/// The job of a command line, or why there is none.
pub fn answer_line(row: &mut Row<'_>) -> Answered {
    let words: Vec<_> = row.rest().split_whitespace().collect();
    match read_line(Global, &words) {
        Ok(job) => say!(row, "{job:?}"),
        Err(fault) => say!(row, "{fault:?}"),
    }
    Ok(())
}

/// What a boot has beside its description: without any words no files, nothing said, and a sink that takes each image of a row at
/// once.
struct Beside {
    files: Vec<(String, Vec<u8>)>,
    said: Vec<u8>,
    limit: u64,
    step: u64,
    order: Order,
}

impl Beside {
    fn of(session: &Session, words: &str) -> Answered<Beside> {
        let mut beside = Beside { files: Vec::new(), said: Vec::new(), limit: 0x10_0000, step: 0x10_0000, order: Order::Forward };
        for word in words.split_whitespace() {
            if word == "reverse" {
                beside.order = Order::Reverse;
                continue;
            }
            match cut(word, "=")? {
                ("file", file) => {
                    let (name, bytes) = cut(file, ":")?;
                    beside.files.push((name.to_owned(), session.bytes(bytes)?));
                }
                ("said", bytes) => beside.said = session.bytes(bytes)?,
                ("limit", digits) => beside.limit = number(digits)?,
                ("step", digits) => beside.step = number(digits)?,
                _ => return Err(Stop::BadRow),
            }
        }
        Ok(beside)
    }

    fn files(&self) -> Answered<MemFiles<Global>> {
        let mut files = CoreVec::new(Global);
        for (name, bytes) in &self.files {
            let name = Text::from(CoreString::from_str(Global, name)?);
            files.push(FileRow { name, bytes: Bytes::from(core_vec(bytes)) })?;
        }
        Ok(MemFiles::new(files))
    }
}

/// What was said before, over the heap.
fn over_heap<'h>(heap: &'h Refusing, said: &[u8]) -> Answered<CoreVec<u8, &'h Refusing>> {
    Ok(CoreVec::from_slice(heap, said)?)
}

/// What was said, in quotes.
fn quoted(said: &[u8]) -> String {
    std::str::from_utf8(said).map_or("no text".to_owned(), |said| format!("{said:?}"))
}

/// A status, and what was said.
fn say_status(row: &mut Row<'_>, status: u8, said: &[u8]) {
    let lack = if status == 4 { ", no memory" } else { "" };
    say!(row, "status {status}{lack}, said {}", quoted(said));
}

/// Boots the description over the heap.
pub fn answer_boot(row: &mut Row<'_>) -> Answered {
    let beside = Beside::of(row.session, row.rest())?;
    let mut out = sink_over(Global, beside.limit, beside.step)?;
    let mut files = beside.files()?;
    match over_heap(row.heap, &beside.said) {
        Ok(mut said) => {
            let status = boot(row.heap, Global, row.bytes, &mut files, beside.order, &mut out, &mut said);
            say_status(row, status, &said);
            say!(row, ", faults {:x}, missing {:x}", out.faults(), files.faults());
        }
        Err(_) => say!(row, "no memory"),
    }
    say!(row, ", image {}", pieces(out.contents()));
    Ok(())
}

/// Tells the boot of the description over the heap.
pub fn answer_explain(row: &mut Row<'_>) -> Answered {
    let beside = Beside::of(row.session, row.rest())?;
    let mut files = beside.files()?;
    let mut said = over_heap(row.heap, &beside.said)?;
    let status = explain_to(row.heap, Global, row.bytes, &mut files, beside.order, &mut said);
    say_status(row, status, &said);
    say!(row, ", missing {:x}", files.faults());
    Ok(())
}

/// Says the description's map over the heap.
pub fn answer_map(row: &mut Row<'_>) -> Answered {
    let beside = Beside::of(row.session, row.rest())?;
    let mut said = over_heap(row.heap, &beside.said)?;
    let status = map_to(row.heap, Global, row.bytes, &mut said);
    say_status(row, status, &said);
    Ok(())
}

/// Says the walk of an image over the heap, after what was said and blamed before, and the faults of the source.
pub fn answer_walk(row: &mut Row<'_>) -> Answered {
    let (said, blamed) = (row.bytes_field("said")?, row.bytes_field("blamed")?);
    let fields = SourceFields::of(row.rest())?;
    let mut said = over_heap(row.heap, &said)?;
    let mut blamed = over_heap(row.heap, &blamed)?;
    let mut source = fields.source(row.bytes);
    let status = walk_to(row.heap, &mut source, &mut said, &mut blamed);
    say!(row, "status {status}, said {}, blamed {}", quoted(&said), quoted(&blamed));
    say!(row, ", faults {:x}{}", source.faults(), if status == 4 { ", no memory" } else { "" });
    Ok(())
}

/// Converts an image over the heap: `blamed=B` was blamed before, `limit=N` is the sink's room, `takes=N` how many bytes it takes
/// at most at a write; the other fields are the source's.
pub fn answer_convert(row: &mut Row<'_>) -> Answered {
    let mut fields = SourceFields::new();
    let (mut blamed, mut limit, mut takes) = (Vec::new(), 0x1_0000, 0x1_0000);
    for word in row.rest().split_whitespace() {
        match cut(word, "=")? {
            ("blamed", bytes) => blamed = row.session.bytes(bytes)?,
            ("limit", digits) => limit = number(digits)?,
            ("takes", digits) => takes = number(digits)?,
            (name, value) => fields.add(name, value)?,
        }
    }
    let mut blamed = over_heap(row.heap, &blamed)?;
    let mut out = sink_over(Global, limit, takes)?;
    let mut source = fields.source(row.bytes);
    let status = convert(row.heap, &mut source, &mut out, &mut blamed);
    say!(row, "status {status}, blamed {}, faults {:x} {:x}", quoted(&blamed), source.faults(), out.faults());
    say!(row, ", {}{}", pieces(out.contents()), if status == 4 { ", no memory" } else { "" });
    Ok(())
}
