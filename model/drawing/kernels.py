"""Multiboot2 kernels: ELF files of both classes, and files with an address tag."""

from random import Random
from typing import List

from rules.numbers import long, round_up, word

from .chances import chance, changed, number, some_bytes
from .headers import MIB, Load, header, short, summed, tag, tags_for, words


def draw_multiboot2(rng: Random) -> bytes:
    """A Multiboot2 kernel; two in five are changed."""
    file, places = draw_flat(rng) if chance(rng, 20) else draw_elf(rng)
    if chance(rng, 40):
        for _ in range(rng.choice([1, 1, 2, 3])):
            file = changed(rng, file, places, 20)
        if chance(rng, 50):
            file = summed(file)
    return file


def draw_flat(rng: Random):
    """A file with an address tag, and the places of its fields."""
    before = rng.choice([0, 0, 8, 64, 4096])
    after = rng.choice([0, 16, 500, 5000])
    load = rng.choice([MIB, 2 * MIB, MIB + 0x800, 0x8000, 0x90010])
    zeros = rng.choice([0, 0, 1, 0x100, 0x2000])
    tags = tags_for(rng, [Load(load, load, after + 100, after + 100 + zeros)], True)
    size = len(header(Random(0), tags)) + 24  # with the address tag
    length = before + size + after
    skipped = rng.choice([0, 0, min(before, 8), before])  # bytes that are not loaded
    header_addr = load + before - skipped
    load_addr = 0xFFFFFFFF if skipped == 0 and chance(rng, 40) else load
    end = rng.choice([0, 0, load + length - skipped, load + size])
    part = end - load if end else length - skipped
    bss = rng.choice([0, load + part + zeros, load + part + zeros])
    if chance(rng, 4):
        bss = rng.choice([load + part - 1, load + part, load, 1])
    if chance(rng, 8):
        header_addr, load_addr, end, bss = [
            rng.choice([value, value, number(rng, 32)])
            for value in (header_addr, load_addr, end, bss)]
    tags.insert(rng.randrange(len(tags) + 1),
                tag(2, rng.choice([0, 1]), words(header_addr, load_addr, end, bss)))
    head = header(Random(0), tags)
    file = some_bytes(rng, before) + head + some_bytes(rng, after)
    return file, [*range(before, before + len(head), 2)]


def draw_loads(rng: Random) -> List[Load]:
    """One to four segments, apart from each other as a rule."""
    loads = []
    at = rng.choice([MIB, MIB, MIB, MIB + 0x100, 2 * MIB, 0x8000, 0x1000, 0x600])
    for _ in range(rng.choice([1, 1, 1, 2, 2, 3, 4])):
        memsz = rng.choice([1, 0x10, 0x50, 0x200, 0x1000, 0x1001, rng.randrange(1, 0x3000)])
        filesz = rng.choice([0, memsz, rng.randrange(memsz + 1)])
        if chance(rng, 1):
            filesz = memsz + rng.choice([1, 5])
        virtual = at + rng.choice([0, 0, 0xC0000000, 0xFFFFFFFF80000000])
        loads.append(Load(virtual, at, filesz, memsz))
        at += memsz + rng.choice([0, 0, 1, 0x10, 0x1000, 0x800, 0x2345])
        if chance(rng, 2):
            at -= rng.choice([1, memsz])
    if chance(rng, 40):
        rng.shuffle(loads)
    if chance(rng, 2):
        loads.append(Load(0, rng.choice([0xFFFFF000, 0xFFFFFF00, 0xFFFFFFFF]), 0, 0x100))
    return loads


def draw_elf(rng: Random):
    """An executable, and the places of its fields."""
    is_wide = chance(rng, 45)
    loads = draw_loads(rng)
    if not is_wide:
        loads = [load._replace(vaddr=load.vaddr % (1 << 32)) for load in loads]
    entered = rng.choice(loads)
    entry = rng.choice([entered.vaddr, entered.paddr]) + rng.randrange(entered.memsz)
    tags = tags_for(rng, loads, False)
    head = header(rng, tags)
    header_size, program_size = (64, 56) if is_wide else (52, 32)
    phentsize = program_size + rng.choice([0, 0, 0, 8, 4])
    programs = [(1, load) for load in loads]
    others = rng.choice([0, 0, 1, 2])
    if chance(rng, 1):
        others = rng.choice([127, 128, 129]) - len(programs)
    for _ in range(others):  # some that are not loaded
        odd = Load(*[number(rng, 32) for _ in range(4)])
        programs.insert(rng.randrange(len(programs) + 1),
                        rng.choice([(0, odd), (4, odd), (1, odd._replace(memsz=0))]))
    phoff = round_up(header_size, rng.choice([1, 8]))
    place = round_up(phoff + phentsize * len(programs), 8) + rng.choice([0, 0, 8, 256, 4096])
    at = place + len(head)
    table = b""
    for type_, load in programs:
        entry_bytes = program(is_wide, type_, at, load)
        table += entry_bytes + some_bytes(rng, phentsize - len(entry_bytes))
        at += load.filesz if type_ == 1 and load in loads else 0
    front = elf_header(is_wide, rng.choice([2, 2, 2, 3]), entry, phoff, phentsize, len(programs))
    file = (front + bytes(phoff - len(front)) + table).ljust(place, b"\0") + head
    file += some_bytes(rng, max(at - len(file), 0))
    return file, [*range(0, header_size, 2), *range(phoff, phoff + len(table), 4),
                  *range(place, place + len(head), 2)]


def elf_header(is_wide, type_, entry, phoff, phentsize, phnum) -> bytes:
    wide = long if is_wide else word
    limit = 1 << (64 if is_wide else 32)
    ident = b"\x7fELF" + bytes([2 if is_wide else 1, 1, 1]) + bytes(9)
    size = 64 if is_wide else 52
    return (ident + short(type_) + short(62 if is_wide else 3) + word(1) + wide(entry % limit)
            + wide(phoff) + wide(0) + word(0) + short(size) + short(phentsize) + short(phnum)
            + short(0) * 3)


def program(is_wide, type_, offset, load) -> bytes:
    if is_wide:
        return (word(type_) + word(5) + long(offset) + long(load.vaddr) + long(load.paddr)
                + long(load.filesz) + long(load.memsz) + long(4096))
    return (word(type_) + word(offset) + word(load.vaddr) + word(load.paddr) + word(load.filesz)
            + word(load.memsz) + word(5) + word(4096))
