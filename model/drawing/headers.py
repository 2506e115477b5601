"""Multiboot2 headers: their tags, for segments that stand at some addresses."""

from random import Random
from typing import List, NamedTuple

from rules.numbers import word

from .chances import chance, number, some_bytes

MIB = 1 << 20
MAGIC = 0xE85250D6


class Load(NamedTuple):
    """A segment to be."""
    vaddr: int
    paddr: int
    filesz: int
    memsz: int


def short(value: int) -> bytes:
    return (value % (1 << 16)).to_bytes(2, "little")


def header(rng: Random, tags: List[bytes]) -> bytes:
    """A header of these tags and an end tag, with a right sum."""
    body = b"".join(tag + bytes(-len(tag) % 8) for tag in tags) + word(0) + word(8)
    total = 16 + len(body)
    if chance(rng, 5):
        body, total = body + some_bytes(rng, 16), total + 16  # what follows the end tag
    return words(MAGIC, 0, total, -(MAGIC + total)) + body


def words(*values: int) -> bytes:
    return b"".join(word(value % (1 << 32)) for value in values)


def tag(type_: int, flags: int, body: bytes) -> bytes:
    return short(type_) + short(flags) + word(8 + len(body)) + body


def summed(file: bytes) -> bytes:
    """The first header's checksum mended."""
    at = file.find(word(MAGIC))
    if at == -1 or at + 16 > len(file):
        return file
    front = [int.from_bytes(file[at + i:at + i + 4], "little") for i in (0, 4, 8)]
    return file[:at + 12] + words(-sum(front)) + file[at + 16:]


def other_tags(rng: Random) -> List[bytes]:
    """Tags that give nothing; a few are refused."""
    tags = []
    for _ in range(rng.choice([0, 0, 0, 1, 2, 4])):
        flags = rng.choice([0, 1, 1])
        what = rng.randrange(6)
        if what == 0:
            types = [rng.choice([*range(1, 9), *range(10, 22)]) for _ in range(rng.randrange(5))]
            types += [9] * chance(rng, 10) + [rng.choice([0, 22, 99])] * chance(rng, 10)
            tags.append(tag(1, flags, words(*types) + bytes(rng.choice([0, 0, 3]))))
        elif what == 1:
            tags.append(tag(4, flags, words(rng.choice([0, 2, 2, 3]))))
            if chance(rng, 50):
                tags.append(tag(5, rng.choice([0, 1]), words(80, 25, 0)))
        elif what == 2:
            tags.append(tag(5, flags, words(80, 25, 0)))
        elif what == 3:
            tags.append(tag(rng.choice([6, 7]), flags, b""))
        elif what == 4:
            tags.append(tag(rng.choice([8, 9]), flags, words(MIB)))
        else:
            tags.append(tag(rng.choice([11, 12, 99, 0x100]), 1 if chance(rng, 90) else 0,
                            some_bytes(rng, rng.randrange(9))))
    return tags


def relocatable(rng: Random, start: int, length: int) -> bytes:
    """A relocatable tag for a block that is linked at start."""
    low = rng.choice([0, 0x1000, MIB, start, start + 1, start + 0x10000, number(rng, 32)])
    high = rng.choice([0xFFFFFFFF, 0xFFFFFFFF, start + length, start + length - 1, 2 * MIB,
                       4 * MIB, low + length, number(rng, 32)])
    align = rng.choice([0, 1, 0x1000, 0x1000, 0x10000, 0x200000, 3, 0x3000, number(rng, 32)])
    preference = rng.choice([0, 0, 1, 1, 2, 2, 3, number(rng, 32)])
    return tag(10, rng.choice([0, 1]), words(low, high, align, preference))


def entry_tag(rng: Random, loads: List[Load]) -> bytes:
    """Mostly in a segment."""
    load = rng.choice(loads)
    at = load.paddr + rng.choice([0, load.memsz - 1, rng.randrange(max(load.memsz, 1))])
    if chance(rng, 5):
        at = rng.choice([load.paddr + load.memsz, load.paddr - 1, number(rng, 32)])
    return tag(3, rng.choice([0, 1]), words(at))


def tags_for(rng: Random, loads: List[Load], needs_entry: bool) -> List[bytes]:
    tags = other_tags(rng)
    start = min(load.paddr for load in loads)
    length = max(load.paddr + load.memsz for load in loads) - start
    if chance(rng, 35):
        tags += [relocatable(rng, start, length) for _ in range(rng.choice([1, 1, 1, 2]))]
    if chance(rng, 96 if needs_entry else 15):
        tags += [entry_tag(rng, loads) for _ in range(rng.choice([1, 1, 1, 2]))]
    rng.shuffle(tags)
    return tags
