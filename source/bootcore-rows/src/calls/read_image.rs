//! `read_image FIELD .. of BYTES`, `image_fault BYTES` (the fault alone, or `none`), and `read_images fails=A..B FIELD .. of
//! BYTES` (where each read from A to B - 1 is a fault). A FIELD is `step=N`, how many bytes a read gives at most, or `fail=N`,
//! which read is a fault.

use crate::calls::prepare::{place_text, say_registers};
use crate::pieces::pieces;
use crate::refusing::Refusing;
use crate::row::{Answered, Row, Stop, core_vec, require, say};
use crate::sweep::joined_hexadecimal;
use crate::words::{cut, number, range};
use bootcore::proved::bl_image::{Image, ImageFault, MemSource, Source, read_image};
use bootcore::proved::bl_plan::Place;
use bootcore::shim::alloc::Global;

/// What a source is made with, beside its bytes.
#[derive(Clone, Copy)]
pub struct SourceFields {
    step: usize,
    fail: u64,
}

impl SourceFields {
    /// All comes at once, and no read is a fault.
    pub fn new() -> SourceFields {
        SourceFields { step: 0x100_0000, fail: 0 }
    }

    /// Those of these words.
    pub fn of(words: &str) -> Answered<SourceFields> {
        let mut fields = SourceFields::new();
        for word in words.split_whitespace() {
            let (name, value) = cut(word, "=")?;
            fields.add(name, value)?;
        }
        Ok(fields)
    }

    /// Takes the field of this name.
    pub fn add(&mut self, name: &str, value: &str) -> Answered {
        match name {
            "step" => self.step = number(value)?,
            "fail" => self.fail = number(value)?,
            _ => return Err(Stop::BadRow),
        }
        require(self.step != 0)
    }

    /// A source of bytes.
    pub fn source(self, bytes: &[u8]) -> MemSource<Global> {
        MemSource::new(core_vec(bytes), self.step, self.fail)
    }
}

/// A fault as its number and what it tells.
fn fault_text(fault: ImageFault) -> String {
    match fault {
        ImageFault::NoMemory => "no memory".to_owned(),
        ImageFault::BadPart(index) => format!("fault {} {index:x}", fault.number()),
        _ => format!("fault {}", fault.number()),
    }
}

/// What an image says, each part as `, ROLE INDEX ADDRESS+LENGTH BYTES`.
pub fn say_image(row: &mut Row<'_>, image: &Image<&Refusing>) {
    say_registers(row, image.protocol(), &image.registers());
    for part in image.parts() {
        let (role, index, address, length) = (part.role(), part.index(), part.address(), part.bytes().len() as u64);
        say!(row, ", {} {}", place_text(&Place { role, index, address, length }), pieces(part.bytes()));
    }
}

/// The fault of reading an image from a source, or `none`, and the faults of the source.
fn fault_of(row: &Row<'_>, fields: SourceFields) -> String {
    let mut source = fields.source(row.bytes);
    let end = match read_image(row.heap, &mut source) {
        Ok(_) => "none".to_owned(),
        Err(fault) => fault_text(fault),
    };
    match source.faults() {
        0 => end,
        faults => format!("{end}, faults {faults:x}"),
    }
}

/// The image that the words which are left tell of, read over the heap.
pub fn read_row_image<'a>(row: &mut Row<'a>) -> Answered<Image<&'a Refusing>> {
    let mut source = SourceFields::of(row.rest())?.source(row.bytes);
    read_image(row.heap, &mut source).map_err(|fault| Stop::Answer(fault_text(fault)))
}

/// Reads an image over the heap.
pub fn answer(row: &mut Row<'_>) -> Answered {
    let image = read_row_image(row)?;
    say_image(row, &image);
    Ok(())
}

/// The fault of an image, read over the heap.
pub fn answer_fault(row: &mut Row<'_>) -> Answered {
    let fields = SourceFields::of(row.rest())?;
    let fault = fault_of(row, fields);
    say!(row, "{fault}");
    Ok(())
}

/// The fault of an image, read over the heap, where each read in turn is a fault of the source.
pub fn answer_each(row: &mut Row<'_>) -> Answered {
    let fails = range(row.field("fails")?)?;
    let fields = SourceFields::of(row.rest())?;
    let answers: Vec<_> = fails.map(|fail| (fail, fault_of(row, SourceFields { fail, ..fields }))).collect();
    say!(row, "{}", joined_hexadecimal(&answers));
    Ok(())
}
