"""A Multiboot2 entry to its parts. BOOT-RULES.md "Entry and relocation", "Places"."""

from typing import List, Optional, Tuple

from . import elf, information, multiboot2
from .elf import Segment
from .handover import (INFORMATION, KERNEL, MODULE, MULTIBOOT2, Handover, Origin, Part, Piece,
                       in_order, registers_of)
from .machine import Machine, high_kib, low_kib, normal_map
from .numbers import FRAME, frames
from .places import GIB4, MIB, Planner
from .refusals import refuse


def read_kernel(file: bytes, has_screen: bool) -> Tuple[multiboot2.Header, List[Segment], int]:
    """Steps 5 to 7: the header, the segments, the entry that counts, at its linked address."""
    header = multiboot2.read(file, has_screen)
    if header.segment is not None:
        segments, own_entry = [header.segment], None
    else:
        segments, own_entry = elf.read(file)
    entered = header.entry if header.entry is not None else own_entry
    if entered is None:
        refuse(16)
    if not any(s.address <= entered < s.end for s in segments):
        refuse(17)
    return header, segments, entered


def prepare(machine: Machine, kernel: bytes, line: bytes,
            modules: List[Tuple[bytes, bytes]], rsdp_old: Optional[bytes],
            rsdp_new: Optional[bytes]) -> Handover:
    """Steps 5 to 9; a module is its file and its line. The copies are told as they stand."""
    firmware = machine.firmware
    header, segments, entered = read_kernel(kernel, firmware.screen is not None)
    planner = Planner(machine)
    if header.relocation is None:
        parts = [fixed_segment(planner, i, segment, kernel)
                 for i, segment in enumerate(segments)]
        moved_by, load_base = 0, None
    else:
        block = moved_block(planner, header.relocation, segments, kernel)
        parts, load_base = [block], block.address
        moved_by = load_base - min(s.address for s in segments)
    told_modules = []
    for i, (file, module_line) in enumerate(modules):
        length = max(frames(len(file)), 1) * FRAME
        at = planner.part(MODULE, i).lowest(length, FRAME, MIB, GIB4)
        parts.append(Part(MODULE, i, at, length, [Piece(0, file, Origin(i + 1, 0))]))
        told_modules.append(information.Module(at, at + len(file), module_line))
    told = information.spell(information.Information(
        line, told_modules, low_kib(machine.regions), high_kib(machine.regions),
        normal_map(machine.regions), load_base, rsdp_old, rsdp_new, screen=firmware.screen,
        efi=firmware.efi and firmware.efi.tables, smbios=firmware.smbios))
    length = frames(len(told)) * FRAME
    at = planner.part(INFORMATION).lowest(length, FRAME, 0x1000, GIB4)
    parts.append(Part(INFORMATION, 0, at, length, [Piece(0, told)]))
    registers = {**registers_of(MULTIBOOT2), "EIP": entered + moved_by, "EBX": at}
    return Handover(MULTIBOOT2, registers, in_order(parts))


def contents(segment: Segment, file: bytes, at: int = 0) -> Piece:
    """Of a segment that begins at an offset in its part."""
    data = file[segment.offset:segment.offset + segment.filesz]
    return Piece(at, data, Origin(0, segment.offset))


def fixed_segment(planner: Planner, index: int, segment: Segment, file: bytes) -> Part:
    at = planner.part(KERNEL, index).fixed(segment.address, segment.end)
    return Part(KERNEL, index, at, segment.memsz, [contents(segment, file)])


def moved_block(planner: Planner, relocation: multiboot2.Relocation, segments: List[Segment],
                file: bytes) -> Part:
    """All segments as one part, with zeros in the gaps."""
    linked = min(s.address for s in segments)
    length = max(s.end for s in segments) - linked
    limits = (length, relocation.align or 1, relocation.min_addr, relocation.max_addr)
    planner.part(KERNEL)
    if relocation.preference == 1:
        at = planner.lowest(*limits)
    elif relocation.preference == 2:
        at = planner.highest(*limits)
    else:
        at = planner.preferred(linked, *limits)
    pieces = [contents(s, file, s.address - linked) for s in segments]
    return Part(KERNEL, 0, at, length, pieces)
