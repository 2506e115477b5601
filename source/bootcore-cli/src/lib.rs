//! What the program `bootcore` is made of. It is a library for the tests' sake; no version of it promises anything.
#![forbid(unsafe_code)]

extern crate alloc;

#[doc(hidden)]
pub mod program_line;
#[doc(hidden)]
pub mod proved;
#[doc(hidden)]
pub mod shim;
