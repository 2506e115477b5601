//! The loader core bootcore for programs in Rust: what a boot loader does with memory.
//!
//! | You have | Call |
//! |---|---|
//! | files on a disk, and a guest's memory | [`Plan::new`]: read each file straight to its places |
//! | files in memory, and the machine's memory | [`load()`] |
//! | the same, and a menu with fallbacks | [`boot()`] |
//! | a menu, and a disk that is still reading | [`Session`] |
//! | an image of what was handed over | [`walk`] |
//! | what a machine is to be handed, to measure it | [`digest()`], or [`Digest`] as files come |
//!
//! From equal files, lines and machines the first four hand a kernel equal bytes, places and
//! registers, unless a pool is too small. Addresses and lengths are in bytes, and addresses are
//! those of the machine that is booted.
//!
//! ```
//! use bootcore::{load, Entry, Error, Kind, Machine, Memory, Multiboot2};
//!
//! # fn main() -> Result<(), Error> {
//! // a kernel that is a Multiboot2 header alone, with where it lies and where it is entered
//! let words = [
//!     0xE85250D6, 0, 64, 0u32.wrapping_sub(0xE85250D6 + 64), // magic, architecture, length, sum
//!     2, 24, 0x100000, 0x100000, 0, 0x102000, // an address tag
//!     3, 12, 0x100000, 0, // the entry address
//!     0, 8, // the end
//! ];
//! let kernel: Vec<u8> = words.iter().flat_map(|word: &u32| word.to_le_bytes()).collect();
//!
//! let machine = Machine::new(2 << 20).region(0, 2 << 20, Kind::Usable);
//! let mut guest = vec![0; 2 << 20];
//! let entry = Entry::from(Multiboot2::new(&kernel).line("quiet").module(b"hello", "greeting"));
//! let handoff = load(&mut Memory::new(0, &mut guest), &machine, &entry)?;
//!
//! assert_eq!(handoff.registers.rip, 0x100000);
//! assert_eq!(handoff.registers.segments().cs.selector, 0x10);
//! assert_eq!(handoff.places.len(), 3); // information, kernel, module
//! assert_eq!(&guest[0x102000..][..5], b"hello");
//! # Ok(())
//! # }
//! ```
//!
//! Memory is a slice ([`Memory`]), several slices, or what has [`GuestMemory`], as a mapping that a
//! guest's processors share. The crate is `no_std`, over `alloc`; the feature `digest` adds the
//! digests.
//!
//! A refusal, as of a kernel that is none, is an [`Error`] that says which of the rules is broken:
//! the kernel or the machine is at fault, and memory is as before. A [`Misuse`] is a mistake of the
//! program, or of a memory map that it passes on. No call panics, and where memory for its tables
//! runs out it answers [`Error::NoMemory`]; what a program builds itself (the regions of a
//! [`Machine`], the entries of a [`Menu`]) grows as its `Vec` does.
//!
//! Calls start no thread, open no file, and know nothing of each other.
#![no_std]
#![forbid(unsafe_code)]
#![deny(missing_docs, rustdoc::broken_intra_doc_links)]
// the digests are named where they are not
#![cfg_attr(not(feature = "digest"), allow(rustdoc::broken_intra_doc_links))]

extern crate alloc;
#[cfg(any(feature = "std", test))]
extern crate std;

// Written by tools/source: the core as it is proved, without its contracts. It has names that
// contracts alone use, and forms that its language has, and lints don't know it.
#[cfg(not(feature = "__proved"))]
#[allow(unused, unknown_lints, mismatched_lifetime_syntaxes, clippy::all)]
mod proved;
#[cfg(feature = "__proved")]
#[doc(hidden)]
#[allow(unused, unknown_lints, missing_docs, mismatched_lifetime_syntaxes, clippy::all, rustdoc::all)]
pub mod proved;
// what the core takes of its language's library
#[cfg(not(feature = "__proved"))]
#[allow(unused)]
mod shim;
#[cfg(feature = "__proved")]
#[doc(hidden)]
#[allow(missing_docs)]
pub mod shim;

mod boot;
#[cfg(feature = "digest")]
mod digest;
mod entry;
mod error;
mod firmware;
mod given;
mod handoff;
mod image;
mod lists;
mod load;
mod machine;
mod memory;
mod numbers;
mod plan;
mod refusal;
mod told;
mod unplaced;

pub use boot::{Booted, Progress, Request, Session, boot};
#[cfg(feature = "digest")]
pub use digest::{Digest, Digests, FileRange, PartDigest, digest};
pub use entry::{Entry, File, Linux, LinuxEntry, LongLine, Menu, Module, Multiboot2, Protocol};
pub use error::{Error, Misuse, RefusedEntry};
pub use firmware::{Color, Efi, EfiBits, Firmware, Screen, SecureBoot, Smbios};
pub use handoff::{Handoff, Place, Registers, Role, Segment, Segments};
pub use image::{Range, Run, Seen, SeenEfi, SeenFirmware, SeenModule, walk};
pub use load::{load, prepare};
pub use machine::{Kind, Machine, Region};
pub use memory::{GuestMemory, Memory};
pub use plan::{Plan, Source, Step, Steps};
pub use refusal::{Fault, Refusal};
pub use unplaced::{Choice, Unplaced, unplaced};

/// A machine has no more regions.
pub const MAX_REGIONS: usize = 128;
/// A menu has no more entries.
pub const MAX_ENTRIES: usize = 32;
/// An entry has no more modules.
pub const MAX_MODULES: usize = 64;
/// A line has no more bytes; a Linux kernel may take fewer.
pub const MAX_LINE: usize = 4095;
/// A copy of an RSDP has no more bytes.
pub const MAX_RSDP: usize = 256;
/// A machine has no more ranges to avoid.
pub const MAX_AVOIDED: usize = 128;
/// How long each piece of a file is that a [`Session`] awaits, but for the last one.
pub const PIECE: usize = 4096;

/// The example of the package's page is tried.
#[cfg(doctest)]
#[doc = include_str!("../README.md")]
struct Page;
