//! A reader of ELF executables in plain Rust, with the checks of the proved one in the same order.

use crate::words::{ends_within, holds, u16_at, u32_at, u64_at};

const MAGIC: u32 = 0x464C_457F;
const PT_LOAD: u32 = 1;
const MAX_PROGRAM_HEADERS: u16 = 128;
const ADDRESS_END: u64 = 1 << 32;

#[derive(Clone, Copy, Debug, PartialEq, Eq)]
pub enum ElfFault {
    NotElf,
    BadElf,
    SegmentCut(u32),
    AddressTooHigh(u32),
    SegmentsOverlap(u32, u32),
}

/// What a kernel asks to be loaded: `filesz` bytes from `offset` on, and zeros up to `memsz`.
#[derive(Clone, Copy, Debug, PartialEq, Eq)]
pub struct Segment {
    pub offset: u64,
    pub address: u64,
    pub filesz: u64,
    pub memsz: u64,
}

#[derive(Clone, Debug, PartialEq, Eq)]
pub struct Elf {
    pub segments: Vec<Segment>,
    pub entry: Option<u64>,
}

struct Header {
    is_64: bool,
    e_type: u16,
    e_machine: u16,
    e_version: u32,
    e_entry: u64,
    e_phoff: u64,
    e_phentsize: u16,
    e_phnum: u16,
}

struct ProgramHeader {
    p_type: u32,
    p_offset: u64,
    p_vaddr: u64,
    p_paddr: u64,
    p_filesz: u64,
    p_memsz: u64,
}

impl Header {
    fn read(file: &[u8]) -> Result<Header, ElfFault> {
        let size = file.len() as u64;
        if size < 16 || u32_at(file, 0) != MAGIC {
            return Err(ElfFault::NotElf);
        }
        let is_64 = file[4] == 2;
        if (file[4] != 1 && !is_64) || file[5] != 1 || file[6] != 1 {
            return Err(ElfFault::BadElf);
        }
        if size < if is_64 { 64 } else { 52 } {
            return Err(ElfFault::BadElf);
        }
        let header = Header {
            is_64,
            e_type: u16_at(file, 16),
            e_machine: u16_at(file, 18),
            e_version: u32_at(file, 20),
            e_entry: if is_64 {
                u64_at(file, 24)
            } else {
                u32_at(file, 24) as u64
            },
            e_phoff: if is_64 {
                u64_at(file, 32)
            } else {
                u32_at(file, 28) as u64
            },
            e_phentsize: u16_at(file, if is_64 { 54 } else { 42 }),
            e_phnum: u16_at(file, if is_64 { 56 } else { 44 }),
        };
        header.check(size)?;
        Ok(header)
    }

    fn check(&self, size: u64) -> Result<(), ElfFault> {
        if self.e_type != 2 && self.e_type != 3 {
            return Err(ElfFault::BadElf);
        }
        if self.e_machine != if self.is_64 { 62 } else { 3 } {
            return Err(ElfFault::BadElf);
        }
        if self.e_version != 1 || self.e_phnum > MAX_PROGRAM_HEADERS || !self.has_table(size) {
            return Err(ElfFault::BadElf);
        }
        Ok(())
    }

    fn has_table(&self, size: u64) -> bool {
        let least = if self.is_64 { 56 } else { 32 };
        let table = self.e_phnum as u64 * self.e_phentsize as u64;
        self.e_phnum == 0 || (self.e_phentsize >= least && ends_within(self.e_phoff, table, size))
    }

    fn program_header(&self, file: &[u8], i: u16) -> ProgramHeader {
        let at = self.e_phoff + i as u64 * self.e_phentsize as u64;
        if self.is_64 {
            ProgramHeader {
                p_type: u32_at(file, at),
                p_offset: u64_at(file, at + 8),
                p_vaddr: u64_at(file, at + 16),
                p_paddr: u64_at(file, at + 24),
                p_filesz: u64_at(file, at + 32),
                p_memsz: u64_at(file, at + 40),
            }
        } else {
            ProgramHeader {
                p_type: u32_at(file, at),
                p_offset: u32_at(file, at + 4) as u64,
                p_vaddr: u32_at(file, at + 8) as u64,
                p_paddr: u32_at(file, at + 12) as u64,
                p_filesz: u32_at(file, at + 16) as u64,
                p_memsz: u32_at(file, at + 20) as u64,
            }
        }
    }
}

impl ProgramHeader {
    fn is_loadable(&self) -> bool {
        self.p_type == PT_LOAD && self.p_memsz > 0
    }

    fn check(&self, i: u32, size: u64) -> Result<(), ElfFault> {
        if self.p_filesz > self.p_memsz {
            return Err(ElfFault::BadElf);
        }
        if self.p_filesz > 0 && !ends_within(self.p_offset, self.p_filesz, size) {
            return Err(ElfFault::SegmentCut(i));
        }
        if !ends_within(self.p_paddr, self.p_memsz, ADDRESS_END) {
            return Err(ElfFault::AddressTooHigh(i));
        }
        Ok(())
    }

    fn segment(&self) -> Segment {
        Segment {
            offset: self.p_offset,
            address: self.p_paddr,
            filesz: self.p_filesz,
            memsz: self.p_memsz,
        }
    }
}

/// The loadable program headers with their indices.
fn loadable_headers(file: &[u8], header: &Header) -> Result<Vec<(u32, ProgramHeader)>, ElfFault> {
    let mut programs = Vec::new();
    for i in 0..header.e_phnum {
        let program = header.program_header(file, i);
        if program.is_loadable() {
            program.check(i as u32, file.len() as u64)?;
            programs.push((i as u32, program));
        }
    }
    Ok(programs)
}

fn check_overlaps(programs: &[(u32, ProgramHeader)]) -> Result<(), ElfFault> {
    for (at, (i, a)) in programs.iter().enumerate() {
        for (j, b) in &programs[at + 1..] {
            if a.p_paddr < b.p_paddr + b.p_memsz && b.p_paddr < a.p_paddr + a.p_memsz {
                return Err(ElfFault::SegmentsOverlap(*i, *j));
            }
        }
    }
    Ok(())
}

fn find_entry(e_entry: u64, programs: &[(u32, ProgramHeader)]) -> Option<u64> {
    for (_, program) in programs {
        if holds(program.p_vaddr, program.p_memsz, e_entry) {
            return Some(e_entry - program.p_vaddr + program.p_paddr);
        }
    }
    let mut programs = programs.iter();
    let is_held = programs.any(|(_, program)| holds(program.p_paddr, program.p_memsz, e_entry));
    is_held.then_some(e_entry)
}

/// The loadable segments of an executable, and its entry where some segment holds it.
pub fn read_elf(file: &[u8]) -> Result<Elf, ElfFault> {
    let header = Header::read(file)?;
    let programs = loadable_headers(file, &header)?;
    check_overlaps(&programs)?;
    Ok(Elf {
        segments: programs
            .iter()
            .map(|(_, program)| program.segment())
            .collect(),
        entry: find_entry(header.e_entry, &programs),
    })
}
