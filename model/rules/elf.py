"""ELF files. BOOT-RULES.md "An ELF file"; gABI "ELF Header", "Program Header"."""

from typing import List, NamedTuple, Optional

from .machine import meets
from .numbers import u16, u32, u64
from .refusals import refuse

PT_LOAD = 1
MAX_PROGRAMS = 128
MAX_ADDRESS = 1 << 32

# The header of each class: its size, its machine, where its fields stand, how wide an address is.
CLASSES = {
    1: {"size": 52, "machine": 3, "wide": u32, "entry": 24, "phoff": 28, "phentsize": 42,
        "phnum": 44, "least_phentsize": 32},
    2: {"size": 64, "machine": 62, "wide": u64, "entry": 24, "phoff": 32, "phentsize": 54,
        "phnum": 56, "least_phentsize": 56},
}

# Where the fields of a program header stand, by class.
PROGRAMS = {
    1: {"offset": 4, "vaddr": 8, "paddr": 12, "filesz": 16, "memsz": 20},
    2: {"offset": 8, "vaddr": 16, "paddr": 24, "filesz": 32, "memsz": 40},
}


class Segment(NamedTuple):
    """filesz bytes of the file from offset on, at address, and zeros up to memsz bytes."""
    offset: int
    address: int
    filesz: int
    memsz: int

    @property
    def end(self) -> int:
        return self.address + self.memsz


class Program(NamedTuple):
    """A loadable program header."""
    index: int  # among all program headers
    offset: int
    vaddr: int
    paddr: int
    filesz: int
    memsz: int

    def segment(self) -> Segment:
        return Segment(self.offset, self.paddr, self.filesz, self.memsz)


class Elf(NamedTuple):
    segments: List[Segment]
    entry: Optional[int]  # the physical entry that the file names, if it names one


def read(file: bytes) -> Elf:
    """The loadable segments in the order of their program headers; refused with 11, 12, 13 and i,
    14 and i, 15 and i, j."""
    kind = check_header(file)
    programs = loadable(file, kind)
    for program in programs:
        check_program(program, len(file))
    check_overlaps(programs)
    e_entry = kind["wide"](file, kind["entry"])
    return Elf([p.segment() for p in programs], physical_entry(e_entry, programs))


def check_header(file: bytes) -> dict:
    """Orders 1 to 12 of the table; gives the fields of the file's class."""
    if len(file) < 16:
        refuse(11)
    if file[0:4] != b"\x7fELF":
        refuse(11)
    if file[4] not in CLASSES:
        refuse(12)
    if file[5] != 1:  # encoding of data
        refuse(12)
    if file[6] != 1:  # ident version
        refuse(12)
    kind = CLASSES[file[4]]
    if len(file) < kind["size"]:
        refuse(12)
    if u16(file, 16) not in (2, 3):  # e_type
        refuse(12)
    if u16(file, 18) != kind["machine"]:  # e_machine
        refuse(12)
    if u32(file, 20) != 1:  # e_version
        refuse(12)
    phnum = u16(file, kind["phnum"])
    phentsize = u16(file, kind["phentsize"])
    if phnum > MAX_PROGRAMS:
        refuse(12)
    if phnum > 0 and phentsize < kind["least_phentsize"]:
        refuse(12)
    if phnum > 0 and kind["wide"](file, kind["phoff"]) + phnum * phentsize > len(file):
        refuse(12)
    return kind


def loadable(file: bytes, kind: dict) -> List[Program]:
    """The program headers of type 1 with a p_memsz above 0."""
    fields, wide = PROGRAMS[file[4]], kind["wide"]
    phoff = wide(file, kind["phoff"])
    programs = []
    for index in range(u16(file, kind["phnum"])):
        at = phoff + index * u16(file, kind["phentsize"])
        if u32(file, at) == PT_LOAD and wide(file, at + fields["memsz"]) > 0:
            programs.append(Program(index, *[wide(file, at + fields[name]) for name in (
                "offset", "vaddr", "paddr", "filesz", "memsz")]))
    return programs


def check_program(program: Program, file_length: int) -> None:
    """The table of loadable program headers."""
    if program.filesz > program.memsz:
        refuse(12)
    if program.filesz > 0 and program.offset + program.filesz > file_length:
        refuse(13, program.index)
    if program.paddr + program.memsz > MAX_ADDRESS:
        refuse(14, program.index)


def check_overlaps(programs: List[Program]) -> None:
    """Order 14: the first that shares a byte with a later one, and the first such later one."""
    ranges = [(p.paddr, p.paddr + p.memsz) for p in programs]
    for i, one in enumerate(programs):
        for j in range(i + 1, len(programs)):
            if meets(ranges[i], ranges[j]):
                refuse(15, one.index, programs[j].index)


def physical_entry(e_entry: int, programs: List[Program]) -> Optional[int]:
    """BOOT-RULES.md "Entry and relocation": as virtual address, then as physical address."""
    for p in programs:
        if p.vaddr <= e_entry < p.vaddr + p.memsz:
            return e_entry - p.vaddr + p.paddr
    if any(p.paddr <= e_entry < p.paddr + p.memsz for p in programs):
        return e_entry
    return None
