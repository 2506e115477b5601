//! The program: from a boot description to the image of a handover or to its digests, or to the map
//! of a machine; from an image to what a kernel sees in it, or to its digests. It does what the crate
//! bootcore's modules program and image_jobs do, with this language's files.
#![forbid(unsafe_code)]

mod files;

use bootcore::proved::bl_mem::Bytes;
use bootcore::shim::alloc::Global;
use bootcore::shim::vec::Vec as Said;
use bootcore_cli::program_line::{Job, LineFault, Order, read_line};
use bootcore_cli::proved::program_commands::{Fetched, boot, convert, digest_image_to, digest_to, explain_to, map_to, walk_to};
use files::{ImageFile, PathFiles, open_image, read_file, tell_fault};
use std::io::{self, ErrorKind, Write};
use std::process::ExitCode;

const USAGE: &str = concat!(
    "bootcore ",
    env!("CARGO_PKG_VERSION_MAJOR"),
    ".",
    env!("CARGO_PKG_VERSION_MINOR"),
    "
usage: bootcore boot DESC --out IMAGE [--order forward|reverse]
       bootcore map DESC
       bootcore walk IMAGE
       bootcore convert IMAGE --out NEW
       bootcore explain DESC [--order forward|reverse]
       bootcore digest DESC
       bootcore digest --image IMAGE
"
);

/// Writes to standard output, whose faults are not told.
fn tell(text: &[u8]) {
    let mut out = io::stdout();
    let _ = out.write_all(text).and_then(|()| out.flush());
}

/// Says on standard error what a status means, where it has a word, and answers it.
fn tell_status(status: u8) -> u8 {
    let word = match status {
        2 => "bad description",
        3 => "file fault",
        4 => "no memory",
        64 => "bad command line",
        _ => return status,
    };
    let _ = writeln!(io::stderr(), "{word}");
    status
}

/// Says on standard error what is wrong with an image, where the status is 2, or what the status
/// means, and answers it.
fn tell_blame(status: u8, blame: &[u8]) -> u8 {
    if status != 2 {
        return tell_status(status);
    }
    let _ = io::stderr().write_all(blame);
    status
}

/// The description at a path, or the status where it can't be read; why is told where that is wanted.
fn read_desc(path: &str, tells: bool) -> Result<Bytes<Global>, u8> {
    match read_file(Global, path, u64::MAX) {
        Ok(Fetched::Bytes(desc)) => Ok(desc),
        Err(error) if error.kind() == ErrorKind::OutOfMemory => Err(tell_status(4)),
        Err(error) if tells => {
            tell_fault(path, &error);
            Err(3)
        }
        _ => Err(tell_status(3)),
    }
}

fn boot_path(path: &str, image: &str, order: Order) -> Result<u8, u8> {
    let desc = read_desc(path, false)?;
    let mut out = ImageFile::new(image);
    let mut say = Said::new(Global);
    let status = boot(Global, Global, desc.as_slice(), &mut PathFiles::new(), order, &mut out, &mut say);
    drop(out); // closed before anything is told
    tell(&say);
    Ok(tell_status(status))
}

fn digest_path(path: &str) -> Result<u8, u8> {
    let desc = read_desc(path, false)?;
    let mut say = Said::new(Global);
    let status = digest_to(Global, Global, desc.as_slice(), &mut PathFiles::new(), &mut say);
    tell(&say);
    Ok(tell_status(status))
}

fn explain_path(path: &str, order: Order) -> Result<u8, u8> {
    let desc = read_desc(path, true)?;
    let mut say = Said::new(Global);
    let status = explain_to(Global, Global, desc.as_slice(), &mut PathFiles::telling(), order, &mut say);
    tell(&say);
    Ok(tell_status(status))
}

fn map_path(path: &str) -> Result<u8, u8> {
    let desc = read_desc(path, false)?;
    let mut say = Said::new(Global);
    let status = map_to(Global, Global, desc.as_slice(), &mut say);
    tell(&say);
    Ok(tell_status(status))
}

fn walk_path(path: &str) -> Result<u8, u8> {
    let mut source = open_image(path).map_err(tell_status)?;
    let (mut say, mut blame) = (Said::new(Global), Said::new(Global));
    let status = walk_to(Global, &mut source, &mut say, &mut blame);
    tell(&say);
    Ok(tell_blame(status, &blame))
}

fn digest_image_path(path: &str) -> Result<u8, u8> {
    let mut source = open_image(path).map_err(tell_status)?;
    let (mut say, mut blame) = (Said::new(Global), Said::new(Global));
    let status = digest_image_to(Global, &mut source, &mut say, &mut blame);
    tell(&say);
    Ok(tell_blame(status, &blame))
}

fn convert_path(path: &str, new: &str) -> Result<u8, u8> {
    let mut source = open_image(path).map_err(tell_status)?;
    let mut out = ImageFile::new(new);
    let mut blame = Said::new(Global);
    let status = convert(Global, &mut source, &mut out, &mut blame);
    drop(out);
    Ok(tell_blame(status, &blame))
}

/// Does what a command line asks for, and answers the program's status.
fn run_line(words: &[&str]) -> Result<u8, u8> {
    match read_line(Global, words) {
        Ok(Job::Boot { description, image, order }) => boot_path(&description, &image, order),
        Ok(Job::Map { description }) => map_path(&description),
        Ok(Job::Walk { image }) => walk_path(&image),
        Ok(Job::Convert { image, new }) => convert_path(&image, &new),
        Ok(Job::Explain { description, order }) => explain_path(&description, order),
        Ok(Job::Digest { description }) => digest_path(&description),
        Ok(Job::DigestImage { image }) => digest_image_path(&image),
        Err(LineFault::Help) => {
            tell(USAGE.as_bytes());
            Ok(0)
        }
        Err(LineFault::Refused) => Err(tell_status(64)),
    }
}

fn main() -> ExitCode {
    let words: Result<Vec<String>, _> = std::env::args_os().map(|word| word.into_string()).collect();
    let status = match &words {
        Ok(words) => run_line(&words.iter().map(String::as_str).collect::<Vec<_>>()),
        Err(_) => Err(tell_status(64)), // they are no text
    };
    ExitCode::from(status.unwrap_or_else(|told| told))
}
