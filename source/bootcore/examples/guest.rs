//! A guest loader: plans what goes where in a guest's memory, reads files straight to their places, and prints how the kernel is
//! entered and what stands where: all that a virtual processor is set from.
//!     guest multiboot2 KERNEL LINE [MODULE..]      a module's line is its file's name
//!     guest linux|linux64 KERNEL LINE [INITRD]

use std::fs::{self, File};
use std::os::unix::fs::FileExt;
use std::process::exit;

use bootcore::{Entry, Kind, Linux, Machine, Multiboot2, Plan, Segment, Source};

type Result<T> = std::result::Result<T, Box<dyn std::error::Error>>;

const SIZE: usize = 512 << 20;
const USAGE: &str = "guest multiboot2 KERNEL LINE [MODULE..], guest linux|linux64 KERNEL LINE [INITRD]";

/// What is given: the kernel's bytes, and of the other files the lengths.
fn entry_of<'a>(protocol: &str, kernel: &'a [u8], line: &'a str, files: &'a [(String, File)]) -> Result<Entry<'a>> {
    let length = |file: &File| file.metadata().map(|about| bootcore::File::Length(about.len()));
    let linux = match (protocol, files) {
        ("multiboot2", _) => {
            let mut entry = Multiboot2::new(kernel).line(line);
            for (name, file) in files {
                entry = entry.module(length(file)?, name);
            }
            return Ok(entry.into());
        }
        ("linux", [] | [_]) => Linux::new(kernel),
        ("linux64", [] | [_]) => Linux::new64(kernel),
        _ => return Err(USAGE.into()),
    };
    let mut linux = linux.line(line);
    linux.initrd = files.first().map(|(_, file)| length(file)).transpose()?;
    Ok(linux.into())
}

/// The guest's memory with the plan carried out. It is fresh, so that zeros are left out.
fn carry_out(plan: &Plan, kernel: &[u8], files: &[(String, File)]) -> Result<Vec<u8>> {
    let mut memory = vec![0; SIZE];
    for step in plan {
        let to = &mut memory[step.address as usize..][..step.length as usize];
        match step.source {
            Source::Own(bytes) => to.copy_from_slice(bytes),
            Source::File { file: 0, offset } => to.copy_from_slice(&kernel[offset as usize..][..to.len()]),
            Source::File { file, offset } => files[file - 1].1.read_exact_at(to, offset)?,
            Source::Zeros => {}
            other => return Err(format!("no bytes of {:?}", other).into()),
        }
    }
    Ok(memory)
}

fn print_segment(name: &str, s: &Segment) {
    print!("{} {:x} base {:x} limit {:x} type {:x} s {} dpl {}", name, s.selector, s.base, s.limit, s.type_, s.s, s.dpl);
    println!(" p {} avl {} l {} db {} g {}", s.p, s.avl, s.l, s.db, s.g);
}

fn print_entering(plan: &Plan) {
    let r = plan.registers();
    println!("bits {}\nip {:x} ax {:x} bx {:x} si {:x}", r.bits, r.rip, r.rax, r.rbx, r.rsi);
    println!("cr0 {:x} cr3 {:x} cr4 {:x} efer {:x} gdt {:x}", r.cr0, r.cr3, r.cr4, r.efer, r.gdt_base);
    let s = r.segments();
    for (name, segment) in [("cs", s.cs), ("ds", s.ds), ("es", s.es), ("fs", s.fs), ("gs", s.gs), ("ss", s.ss)] {
        print_segment(name, &segment);
    }
    for place in plan.places() {
        println!("part {} {} at {:x}, {} bytes", place.role.number(), place.index, place.address, place.length);
    }
}

fn run(words: &[String]) -> Result<()> {
    let (protocol, kernel, line, files) = match words {
        [protocol, kernel, line, files @ ..] => (protocol, kernel, line, files),
        _ => return Err(USAGE.into()),
    };
    let kernel = fs::read(kernel)?;
    let files = files.iter().map(|name| Ok((name.clone(), File::open(name)?)));
    let files = files.collect::<std::io::Result<Vec<_>>>()?;
    let machine =
        Machine::new(SIZE as u64).region(0, 0x9F000, Kind::Usable).region(1 << 20, SIZE as u64 - (1 << 20), Kind::Usable);
    let plan = Plan::new(&machine, &entry_of(protocol, &kernel, line, &files)?)?;
    let _memory = carry_out(&plan, &kernel, &files)?;
    print_entering(&plan);
    Ok(())
}

fn main() {
    let words: Vec<String> = std::env::args().skip(1).collect();
    if let Err(why) = run(&words) {
        if let Some(bootcore::Error::Refused(refusal)) = why.downcast_ref() {
            println!("{}", refusal);
            exit(1);
        }
        eprintln!("guest: {}", why);
        exit(2);
    }
}
