//! Calls a plain reader on one file, many times.
//!
//!     plain_reader elf|header|setup FILE COUNT
//!
//! The file is read once. The time of one call is what COUNT calls take above none.

mod elf;
mod header;
mod setup;
mod words;

use std::hint::black_box;
use std::{env, fs, process};

fn run(words: &[String]) -> Result<(), String> {
    let [reader, file, count] = words else {
        return Err("plain_reader elf|header|setup FILE COUNT".into());
    };
    let count: u64 = count
        .parse()
        .map_err(|_| format!("{count}: not a number"))?;
    let bytes = fs::read(file).map_err(|error| format!("{file}: {error}"))?;
    for _ in 0..count {
        let file = black_box(bytes.as_slice());
        match reader.as_str() {
            "elf" => {
                black_box(elf::read_elf(file).map_err(|fault| format!("{fault:?}"))?);
            }
            "header" => {
                black_box(header::find_header(file).map_err(|fault| format!("{fault:?}"))?);
            }
            "setup" => {
                black_box(setup::read_setup(file).map_err(|fault| format!("{fault:?}"))?);
            }
            _ => return Err(format!("{reader}: no such reader")),
        }
    }
    Ok(())
}

fn main() {
    let words: Vec<String> = env::args().skip(1).collect();
    if let Err(message) = run(&words) {
        eprintln!("{message}");
        process::exit(1);
    }
}
