"""The header of a Multiboot2 kernel. BOOT-RULES.md "The header of a Multiboot2 kernel"; MB2 3.1."""

from typing import List, NamedTuple, Optional

from .elf import Segment
from .numbers import round_up, u16, u32
from .refusals import Refused, refuse

MAGIC = 0xE85250D6
SEARCH_END = 32768
FRONT = 16  # bytes of magic, architecture, length and checksum
LEAST_LENGTH = 24

END, REQUEST, ADDRESS, ENTRY, CONSOLE, FRAMEBUFFER, RELOCATABLE = 0, 1, 2, 3, 4, 5, 10
LEAST_SIZES = {ADDRESS: 24, ENTRY: 12, CONSOLE: 12, RELOCATABLE: 24}
LAST_TYPE = 10
INFORMATION_TYPES = [*range(1, 9), *range(10, 22)]  # what may be required of the information


class Relocation(NamedTuple):
    """The relocatable header tag, MB2 3.1.13."""
    min_addr: int
    max_addr: int
    align: int
    preference: int


class Header(NamedTuple):
    place: int  # file offset
    segment: Optional[Segment]  # what the address tag gives
    entry: Optional[int]  # of the entry address tag
    relocation: Optional[Relocation]


class Tag(NamedTuple):
    at: int  # file offset
    type: int
    is_optional: bool
    size: int


def read(file: bytes, has_screen: bool = False) -> Header:
    """On a machine that has a screen, or on one without. Refused with 4, 5, 6, 7 and the tag's file
    offset, 8 and its type, 9 and the type asked for, 10."""
    place = find(file)
    end = place + u32(file, place + 8)
    if end - place < LEAST_LENGTH or end > len(file) or end > SEARCH_END:
        refuse(5)
    if u32(file, place + 4) != 0:
        refuse(6)
    segment = entry = relocation = None
    address = None
    has_console = has_screen and wants_screen(file, place + FRONT, end)
    for tag in read_tags(file, place + FRONT, end, has_console):  # the last of a type counts
        if tag.type == ADDRESS:
            address = tag
        elif tag.type == ENTRY:
            entry = u32(file, tag.at + 8)
        elif tag.type == RELOCATABLE:
            relocation = Relocation(*[u32(file, tag.at + 8 + 4 * i) for i in range(4)])
    if address is not None:
        segment = address_segment(file, place, address)
    return Header(place, segment, entry, relocation)


def find(file: bytes) -> int:
    """The least place where a header stands."""
    magic = MAGIC.to_bytes(4, "little")
    limit = min(len(file), SEARCH_END)
    at = file.find(magic, 0, limit)
    while at != -1:
        if at % 8 == 0 and at + FRONT <= limit:
            if sum(u32(file, at + 4 * i) for i in range(4)) % (1 << 32) == 0:
                return at
        at = file.find(magic, at + 1, limit)
    refuse(4)


def wants_screen(file: bytes, at: int, end: int) -> bool:
    """Whether a framebuffer tag is among the tags from `at` on, as far as they can be followed."""
    try:
        tag = read_tag(file, at, end)
        while tag.type not in (FRAMEBUFFER, END):
            tag = read_tag(file, round_up(tag.at + tag.size, 8), end)
        return tag.type == FRAMEBUFFER
    except Refused:
        return False


def read_tags(file: bytes, at: int, end: int, has_console: bool) -> List[Tag]:
    """The tags from `at` on up to the one of type 0; the first that is bad is refused."""
    tags = []
    while True:
        tag = read_tag(file, at, end)
        check_tag(file, tag, has_console)
        if tag.type == END:
            return tags
        tags.append(tag)
        at = round_up(at + tag.size, 8)


def read_tag(file: bytes, at: int, end: int) -> Tag:
    """A tag whose size is right; order 1 of the table of tags."""
    if at + 8 > end:
        refuse(7, at)
    tag = Tag(at, u16(file, at), u16(file, at + 2) % 2 == 1, u32(file, at + 4))
    if at + tag.size > end:
        refuse(7, at)
    if tag.size < LEAST_SIZES.get(tag.type, 8):
        refuse(7, at)
    if tag.type == END and tag.size != 8:
        refuse(7, at)
    return tag


def check_tag(file: bytes, tag: Tag, has_console: bool) -> None:
    """Orders 2 to 4 of the table of tags; an optional tag has none of these faults."""
    if tag.is_optional:
        return
    if tag.type > LAST_TYPE:
        refuse(8, tag.type)
    if tag.type == REQUEST:
        for i in range((tag.size - 8) // 4):
            wanted = u32(file, tag.at + 8 + 4 * i)
            if wanted not in INFORMATION_TYPES:
                refuse(9, wanted)
    if tag.type == CONSOLE and u32(file, tag.at + 8) % 2 == 1 and not has_console:
        refuse(10)


def address_segment(file: bytes, place: int, tag: Tag) -> Segment:
    """The one segment of the address tag; the table "Address tag"."""
    header_addr, load_addr, load_end_addr, bss_end_addr = [
        u32(file, tag.at + 8 + 4 * i) for i in range(4)]
    if load_addr == 0xFFFFFFFF:
        offset, address = 0, header_addr - place
    else:
        offset, address = place - (header_addr - load_addr), load_addr
        # the header lies in what is loaded: it is not before its first byte
        if header_addr < load_addr:
            refuse(7, tag.at)
    if address < 0 or offset < 0:
        refuse(7, tag.at)
    if load_end_addr != 0 and load_end_addr < address:
        refuse(7, tag.at)
    filesz = load_end_addr - address if load_end_addr != 0 else len(file) - offset
    if offset + filesz > len(file):
        refuse(7, tag.at)
    if bss_end_addr != 0 and bss_end_addr < address + filesz:
        refuse(7, tag.at)
    memsz = bss_end_addr - address if bss_end_addr != 0 else filesz
    return Segment(offset, address, filesz, memsz)
