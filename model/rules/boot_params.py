"""Boot parameters and descriptors. FORMATS.md "Boot parameters"; LBP "Zero Page"."""

from typing import List, NamedTuple, Optional

from . import told_fields
from .bzimage import HEADER_START, LEAST_HEADER_END, header_end
from .firmware import EfiInfo, Screen
from .machine import REGION_LIMIT, Run
from .numbers import long, u16, u32, u64, word
from .refusals import refuse

LENGTH = 4096
E820_ENTRIES, E820_TABLE, E820_SIZE = 0x1E8, 0x2D0, 20
MAX_ENTRIES = 128


class Params(NamedTuple):
    """What a loader tells a Linux kernel, beside the setup header."""
    code32_start: int
    ramdisk_image: int
    ramdisk_size: int
    cmd_line_ptr: int
    runs: List[Run]
    screen: Optional[Screen] = None
    rsdp: Optional[int] = None
    efi: Optional[EfiInfo] = None


def spell(header: bytes, facts: Params) -> bytes:
    """4096 bytes; `header` is the kernel's file from 0x1F1 to the header's end."""
    page = bytearray(LENGTH)
    put(page, HEADER_START, header)
    put(page, E820_ENTRIES, bytes([len(facts.runs)]))
    put(page, 0x1FA, b"\xff\xff")  # vid_mode
    put(page, 0x210, b"\xff")  # type_of_loader
    put(page, 0x214, word(facts.code32_start))
    put(page, 0x218, word(facts.ramdisk_image))
    put(page, 0x21C, word(facts.ramdisk_size))
    put(page, 0x228, word(facts.cmd_line_ptr))
    put(page, 0x250, long(0))  # setup_data
    for i, run in enumerate(facts.runs):
        entry = long(run.start) + long(run.end - run.start) + word(run.kind)
        put(page, E820_TABLE + i * E820_SIZE, entry)
    told = []
    if facts.screen is not None:
        told += told_fields.screen_bytes(facts.screen)
    if facts.rsdp is not None:
        told += told_fields.rsdp_bytes(facts.rsdp)
    if facts.efi is not None:
        told += told_fields.efi_bytes(facts.efi)
    for at, data in told:
        put(page, at, data)
    return bytes(page)


def put(page: bytearray, at: int, data: bytes) -> None:
    page[at:at + len(data)] = data


def read(data: bytes) -> Params:
    """Refused with 66, or with 67 and the least offset that breaks the form."""
    if len(data) != LENGTH:
        refuse(66)
    breaks = [*told_fields.breaks(data), *header_breaks(data), *entry_breaks(data),
              *zero_breaks(data)]
    if breaks:
        refuse(67, min(breaks))
    return Params(u32(data, 0x214), u32(data, 0x218), u32(data, 0x21C), u32(data, 0x228),
                  [run_of(data, i) for i in range(data[E820_ENTRIES])],
                  told_fields.screen_in(data), told_fields.rsdp_in(data), told_fields.efi_in(data))


def header_breaks(data: bytes) -> List[int]:
    """The offsets at which the number of entries and the header's fields break the form."""
    rules = [
        (E820_ENTRIES, data[E820_ENTRIES] <= MAX_ENTRIES),
        (0x1FA, u16(data, 0x1FA) == 0xFFFF),
        (0x1FE, u16(data, 0x1FE) == 0xAA55),
        (0x201, header_end(data) >= LEAST_HEADER_END),
        (0x202, data[0x202:0x206] == b"HdrS"),
        (0x206, u16(data, 0x206) >= 0x020A),
        (0x210, data[0x210] == 0xFF),
        (0x250, u64(data, 0x250) == 0),
    ]
    return [at for at, is_met in rules if not is_met]


def run_of(data: bytes, i: int) -> Run:
    at = E820_TABLE + i * E820_SIZE
    return Run(u64(data, at), u64(data, at) + u64(data, at + 8), u32(data, at + 16))


def entry_breaks(data: bytes) -> List[int]:
    breaks = []
    for i in range(min(data[E820_ENTRIES], MAX_ENTRIES)):
        at, run = E820_TABLE + i * E820_SIZE, run_of(data, i)
        if run.end > REGION_LIMIT:
            breaks.append(at)
        if not 1 <= run.kind <= 5:
            breaks.append(at + 16)
    return breaks


def zero_breaks(data: bytes) -> List[int]:
    """The first byte that should be 0 and is not: those before the header, between it and the
    entries, and after the entries, but for the number of entries and what firmware tells."""
    entries_end = E820_TABLE + min(data[E820_ENTRIES], MAX_ENTRIES) * E820_SIZE
    for start, end in [(told_fields.SCREEN_INFO_END, told_fields.RSDP),
                       (told_fields.RSDP + 8, told_fields.EFI_INFO),
                       (told_fields.EFI_INFO_END, E820_ENTRIES),
                       (E820_ENTRIES + 1, told_fields.SECURE_BOOT),
                       (told_fields.SECURE_BOOT + 1, HEADER_START),
                       (header_end(data), E820_TABLE), (entries_end, LENGTH)]:
        zeros = data[start:end].lstrip(b"\0")
        if zeros:
            return [end - len(zeros)]
    return []


def gdt() -> bytes:
    """The four descriptors, 32 bytes."""
    return long(0) + long(0) + long(0x00CF9A000000FFFF) + long(0x00CF92000000FFFF)
