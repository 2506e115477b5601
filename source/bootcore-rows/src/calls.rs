//! The calls that rows can name. Each file of this folder answers the rows of one call, or of a few about the same.

mod commands;
mod elf;
mod firmware;
mod image;
mod info;
mod linux_setup;
pub mod machine;
pub mod memory;
mod menu;
mod multiboot2_header;
mod owned_bytes;
mod paging;
mod params;
mod plan;
pub mod prepare;
mod read_image;
mod registers;
mod run;
mod session_steps;
mod stage;
mod walk;
mod writer_sink;

use crate::row::{Answered, Row, Stop};

/// What follows a call's name.
#[derive(Clone, Copy, PartialEq)]
enum Takes {
    /// `NAME WORDS`
    Words,
    /// `NAME WORDS of BYTES`
    WordsOfBytes,
    /// `NAME BYTES`, or `NAME WORDS of BYTES`
    Bytes,
}
use Takes::{Bytes, Words, WordsOfBytes};

type Answer = fn(&mut Row<'_>) -> Answered;

const CALLS: [(&str, Takes, Answer); 37] = [
    ("machine", Words, machine::answer),
    ("plan", Words, plan::answer),
    ("memory", Words, memory::answer_flat),
    ("sparse", Words, memory::answer_sparse),
    ("slice_memory", Words, memory::answer_slice),
    ("own", Bytes, owned_bytes::answer),
    ("elf", Bytes, elf::answer),
    ("header", Bytes, multiboot2_header::answer),
    ("read_setup", Bytes, linux_setup::answer),
    ("setup_fault", Bytes, linux_setup::answer_fault),
    ("gdt64", Words, paging::answer_gdt64),
    ("page_tables", Words, paging::answer_tables),
    ("translate", WordsOfBytes, paging::answer_translate),
    ("read_params", Bytes, params::answer),
    ("read_info", Bytes, info::answer),
    ("prepare", WordsOfBytes, prepare::answer),
    ("registers", WordsOfBytes, registers::answer),
    ("load", WordsOfBytes, prepare::answer_load),
    ("image", WordsOfBytes, image::answer),
    ("images", WordsOfBytes, image::answer_each),
    ("image_of", WordsOfBytes, image::answer_held),
    ("read_image", Bytes, read_image::answer),
    ("image_fault", Bytes, read_image::answer_fault),
    ("read_images", WordsOfBytes, read_image::answer_each),
    ("walk", Bytes, walk::answer),
    ("sink", Words, writer_sink::answer),
    ("line", Words, commands::answer_line),
    ("boot", WordsOfBytes, commands::answer_boot),
    ("explain", WordsOfBytes, commands::answer_explain),
    ("map", WordsOfBytes, commands::answer_map),
    ("walk_to", WordsOfBytes, commands::answer_walk),
    ("convert", WordsOfBytes, commands::answer_convert),
    ("stage", Words, stage::answer_flat),
    ("sparse_stage", Words, stage::answer_sparse),
    ("menu", Words, menu::answer),
    ("run", Words, run::answer),
    ("session", Words, session_steps::answer),
];

/// Whether all words after this name are bytes.
pub fn takes_bytes(name: &str) -> bool {
    CALLS.iter().any(|(known, takes, _)| *known == name && *takes == Bytes)
}

/// Makes the call of a row, once.
pub fn make(row: &mut Row<'_>, is_over_bytes: bool) -> Answered {
    let name = row.word();
    let is_meant = |(known, takes, _): &&(&str, Takes, Answer)| *known == name && (*takes != Words) == is_over_bytes;
    let (_, _, answer) = CALLS.iter().find(is_meant).ok_or(Stop::BadRow)?;
    answer(row)
}
