"""The descriptors and the page tables of the 64-bit entry, and where an address leads by them.
docs/BOOT-RULES.md, "Page tables"; Intel SDM volume 3, 4.5."""

from typing import Dict, List, Optional

from .numbers import long, u64

FRAME = 0x1000
FRAMES = 6
PAGE = 1 << 21
PRESENT_WRITABLE = 3
PAGE_BITS = 0x83  # present, writable, and a page of 2 MiB
WORDS = FRAME // 8
LENGTH = FRAMES * FRAME
REACH = 1 << 32  # each address below it leads to itself


def gdt64() -> bytes:
    """The four descriptors, 32 bytes."""
    return long(0) + long(0) + long(0x00AF9A000000FFFF) + long(0x00CF92000000FFFF)


def frame(base: int, number: int) -> bytes:
    """Frame 0 names frame 1, which names frames 2 to 5, which name the pages from 0 on."""
    words: List[int] = [0] * WORDS
    if number == 0:
        words[0] = base + FRAME + PRESENT_WRITABLE
    elif number == 1:
        words[:4] = [base + (2 + k) * FRAME + PRESENT_WRITABLE for k in range(4)]
    else:
        first = (number - 2) * WORDS
        words = [(first + k) * PAGE + PAGE_BITS for k in range(WORDS)]
    return b"".join(long(word) for word in words)


def tables(base: int) -> bytes:
    """All six frames."""
    return b"".join(frame(base, number) for number in range(FRAMES))


def is_identity(tables: bytes, base: int) -> bool:
    """Whether each page below 4 GiB leads to itself: its last word is its address and 0x83. The
    pages of one GiB have one last frame."""
    gibs = [last_frame(tables, base, at) for at in range(0, REACH, WORDS * PAGE)]
    return all(at is not None and tables[at * FRAME:(at + 1) * FRAME] == frame(base, 2 + k)
               for k, at in enumerate(gibs))


def translate(tables: bytes, base: int, address: int) -> Optional[int]:
    """By three levels: bits 39 to 47, 30 to 38 and 21 to 29 of the address."""
    at = last_frame(tables, base, address)
    if at is None:
        return None
    page = word(tables, at, address >> 21)
    return page - PAGE_BITS + address % PAGE if page % PAGE == PAGE_BITS else None


def last_frame(tables: bytes, base: int, address: int) -> Optional[int]:
    """The frame whose word names the address's page."""
    if len(tables) != LENGTH or address >> 48:
        return None
    frames: Dict[int, int] = {base + n * FRAME + PRESENT_WRITABLE: n for n in range(FRAMES)}
    at: Optional[int] = 0
    for bit in (39, 30):
        at = frames.get(word(tables, at, address >> bit))
        if at is None:
            return None
    return at


def word(tables: bytes, at: int, index: int) -> int:
    return u64(tables, at * FRAME + 8 * (index % WORDS))
