//! The boot of one entry in plain Rust, without a proof: the yardstick of `bootcore boot`.
//!
//!     plain straight|pool multiboot2|linux IMAGE LINE KERNEL FILE.. -- SIZE FILL POOL_START POOL_END (BASE LENGTH KIND)..
//!     plain copy TO FROM..
//!
//! FILEs are the modules, which have no lines, or the initial ramdisk. The numbers are those of a boot description, decimal
//! or hexadecimal; the regions are ascending, apart, and none adjoins one of its kind, so that they are the machine's map
//! as they stand. `pool` stages the files in frames of the machine's pool, moves each frame that a part meets, and loads
//! them from there; `straight` loads them from where they were read. The image is, byte for byte, the one that `bootcore
//! boot` writes. A Multiboot2 kernel that may be moved is refused: it is no part of what is measured.

mod elf;
mod header;
mod image;
mod information;
mod linux;
mod loading;
mod machine;
mod multiboot2;
mod places;
mod setup;
mod staging;
mod words;

use image::write_image;
use loading::load_parts;
use machine::{Machine, Region};
use places::check_room;
use staging::Staged;
use std::fs::{self, File};
use std::io::{self, Read, Write};
use std::{env, process};

type Answer<T> = Result<T, String>;

/// What is booted: a protocol, its line and the paths of its files.
struct Entry<'a> {
    protocol: &'a str,
    line: &'a str,
    files: &'a [&'a str],
}

fn boot(is_staged: bool, entry: &Entry<'_>, image: &str, machine: &Machine) -> Answer<()> {
    let read = |path: &&str| fs::read(path).map_err(|error| format!("{path}: {error}"));
    let files = entry.files.iter().map(read).collect::<Answer<Vec<_>>>()?;
    let (mut parts, state) = match entry.protocol {
        "multiboot2" => multiboot2::parts_of(machine, entry.line, &files)?,
        "linux" => linux::parts_of(machine, entry.line, &files)?,
        other => return Err(format!("{other}: no such protocol")),
    };
    check_room(machine, &parts, &files)?;

    let mut memory = vec![machine.fill; machine.size as usize];
    if is_staged {
        let pool = machine.pool.start as usize..machine.pool.end as usize;
        let mut staged = Staged::new(&mut memory, pool, &files);
        let ranges: Vec<_> = parts.iter().map(|part| part.range()).collect();
        staged.make_way(&mut memory, &ranges);
        load_parts(&mut memory, &staged, &parts);
    } else {
        load_parts(&mut memory, files.as_slice(), &parts);
    }

    parts.sort_by_key(|part| part.address);
    write_image(image, &parts, &state, &memory).map_err(|error| format!("{image}: {error}"))
}

fn copy(to: &str, from: &[&str]) -> io::Result<()> {
    let mut to = File::create(to)?;
    let mut buffer = vec![0; 65536];
    for path in from {
        let mut from = File::open(path)?;
        loop {
            let count = from.read(&mut buffer)?;
            if count == 0 {
                break;
            }
            to.write_all(&buffer[..count])?;
        }
    }
    Ok(())
}

fn number(word: &str) -> Answer<u64> {
    match word.strip_prefix("0x") {
        Some(digits) => u64::from_str_radix(digits, 16),
        None => word.parse(),
    }
    .map_err(|_| format!("{word}: not a number"))
}

fn machine_of(words: &[&str]) -> Answer<Machine> {
    let numbers: Answer<Vec<u64>> = words.iter().map(|word| number(word)).collect();
    let numbers = numbers?;
    let [size, fill, start, end, regions @ ..] = numbers.as_slice() else {
        return Err("too few numbers".into());
    };
    let regions = regions.chunks_exact(3).map(|region| Region {
        base: region[0],
        length: region[1],
        kind: region[2] as u32,
    });
    Ok(Machine {
        size: *size,
        fill: *fill as u8,
        pool: *start..*end,
        regions: regions.collect(),
    })
}

const USAGE: &str = "plain straight|pool PROTOCOL IMAGE LINE FILE.. -- NUMBERS.., plain copy TO FROM..";

fn run(words: &[&str]) -> Answer<()> {
    match words {
        ["copy", to, from @ ..] => copy(to, from).map_err(|error| error.to_string()),
        [way @ ("straight" | "pool"), protocol, image, line, rest @ ..] => {
            let ends = rest.iter().position(|word| *word == "--").ok_or(USAGE)?;
            let (files, numbers) = (&rest[..ends], &rest[ends + 1..]);
            if files.is_empty() {
                return Err(USAGE.into());
            }
            let entry = Entry {
                protocol,
                line,
                files,
            };
            boot(*way == "pool", &entry, image, &machine_of(numbers)?)
        }
        _ => Err(USAGE.into()),
    }
}

fn main() {
    let words: Vec<String> = env::args().skip(1).collect();
    let words: Vec<&str> = words.iter().map(String::as_str).collect();
    if let Err(message) = run(&words) {
        eprintln!("{message}");
        process::exit(1);
    }
}
