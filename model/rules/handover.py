"""What is handed over: registers and parts. BOOT-RULES.md "Entry state"; FORMATS.md, "A record"."""

from typing import Dict, List, NamedTuple, Optional

MULTIBOOT2, LINUX, LINUX64 = 1, 2, 3
PROTOCOL_NAMES = {MULTIBOOT2: "multiboot2", LINUX: "linux", LINUX64: "linux64"}

# The registers in the order of the image: those of 32 bits, and those of the 64-bit entry.
REGISTERS = ["EIP", "EAX", "EBX", "ECX", "EDX", "ESI", "EDI", "EBP", "ESP", "EFLAGS", "CR0", "CS",
             "DS", "ES", "FS", "GS", "SS", "GDT base", "GDT limit", "A20"]
WIDE_REGISTERS = ["RIP", "RAX", "RBX", "RCX", "RDX", "RSI", "RDI", "RBP", "RSP",
                  *[f"R{n}" for n in range(8, 16)], "RFLAGS", "CR0", "CR3", "CR4", "EFER",
                  *REGISTERS[11:]]

# roles, and what `explain` and `digest` call a part of each
KERNEL, MODULE, INFORMATION, BOOT_PARAMETERS, COMMAND_LINE, GDT, INITRD, PAGE_TABLES = range(1, 9)
PART_NAMES = {KERNEL: "kernel", MODULE: "module", INFORMATION: "information",
              BOOT_PARAMETERS: "parameters", COMMAND_LINE: "line", GDT: "gdt", INITRD: "initrd",
              PAGE_TABLES: "tables"}


class Origin(NamedTuple):
    """Where a piece's bytes stand: in which of the entry's files, the kernel's being 0, and from which
    offset on."""
    file: int
    offset: int


class Piece(NamedTuple):
    """Bytes of a part from an offset in it on; without an origin the loader makes them."""
    offset: int
    data: bytes
    origin: Optional[Origin] = None


class Part(NamedTuple):
    """Its bytes are the pieces, each at its offset in the part, and zeros elsewhere."""
    role: int
    index: int
    address: int
    length: int
    pieces: List[Piece]


class Handover(NamedTuple):
    protocol: int
    registers: Dict[str, int]
    parts: List[Part]  # in ascending address order


def in_order(parts: List[Part]) -> List[Part]:
    return sorted(parts, key=lambda part: part.address)


def in_part_order(pieces: List[Piece]) -> List[Piece]:
    return sorted(pieces, key=lambda piece: piece.offset)


def part_bytes(part: Part) -> bytes:
    """All bytes of a part."""
    data = bytearray(part.length)
    for piece in part.pieces:
        data[piece.offset:piece.offset + len(piece.data)] = piece.data
    return bytes(data)


def names_of(protocol: int) -> List[str]:
    """The registers that a protocol gives, in the order of the image."""
    return WIDE_REGISTERS if protocol == LINUX64 else REGISTERS


def registers_of(protocol: int) -> Dict[str, int]:
    """The registers, with 0 in those that hold an address."""
    registers = dict.fromkeys(names_of(protocol), 0)
    registers.update({"CS": 0x10, "DS": 0x18, "ES": 0x18, "FS": 0x18, "GS": 0x18, "SS": 0x18,
                      "A20": 1})
    if protocol == LINUX64:
        registers.update({"RFLAGS": 2, "CR0": 0x80000011, "CR4": 0x20, "EFER": 0x500})
    else:
        registers.update({"EFLAGS": 2, "CR0": 0x11})
    if protocol == MULTIBOOT2:
        registers["EAX"] = 0x36D76289
    else:
        registers["GDT limit"] = 31
    return registers
