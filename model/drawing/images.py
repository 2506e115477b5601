"""Images that no boot wrote: parts as short as what they hold, side by side; then changed."""

from random import Random
from typing import List, Tuple

from rules import boot_params, information, paging
from rules.handover import (BOOT_PARAMETERS, COMMAND_LINE, GDT, INFORMATION, INITRD, KERNEL, LINUX,
                            LINUX64, MODULE, MULTIBOOT2, PAGE_TABLES, Handover, Part, Piece,
                            registers_of)
from rules.image import COUNT_AT, FIELDS, HEADS, OLD, RECORD_SIZE, WRITTEN, spell
from rules.information import Information, Module
from rules.machine import Run

from . import firmware
from .chances import chance, changed, copy, number, some_bytes

# Where boot parameters tell what firmware tells.
TOLD_AT = [0x0F, 0x12, 0x14, 0x16, 0x18, 0x1C, 0x24, *range(0x26, 0x2C), 0x32, 0x36, 0x3A, 0x70,
           *range(0x1C0, 0x1E0, 4), 0x1EC]


def draw(rng: Random) -> bytes:
    """An image of either version that is walked, mostly."""
    handover = rng.choice([draw_multiboot2, draw_multiboot2, draw_linux, draw_linux64])(rng)
    is_wide = handover.protocol == LINUX64
    if chance(rng, 6):
        name = rng.choice(list(handover.registers))
        handover.registers[name] = number(rng, 64 if is_wide else 32)
    data = spell(handover, OLD if chance(rng, 40) and not is_wide else WRITTEN)
    if chance(rng, 1):  # another number for the protocol
        data = data[:12] + bytes([rng.randrange(5)]) + data[13:]
    return with_register(rng, data) if chance(rng, 6) else data


def version_of(data: bytes) -> int:
    """The one that the image tells, or the one that is written."""
    told = int.from_bytes(data[8:12], "little")
    return told if told in FIELDS else WRITTEN


def with_register(rng: Random, data: bytes) -> bytes:
    """With another number in a register, of any width that the version has for it."""
    version = version_of(data)
    width = (COUNT_AT[version] - 16) // len(FIELDS[version])
    at = 16 + width * rng.randrange(len(FIELDS[version]))
    value = rng.choice([number(rng, 8 * width), number(rng, 32), 1 << rng.randrange(8 * width)])
    return data[:at] + value.to_bytes(width, "little") + data[at + width:]


def mutated(rng: Random, data: bytes) -> bytes:
    """With one to three changes, most of them where fields stand."""
    version = version_of(data)
    head = HEADS[version]
    parts = int.from_bytes(data[COUNT_AT[version]:COUNT_AT[version] + 4], "little")
    heads = [*range(0, head, 4)]
    if parts > 256:
        return changed(rng, data, heads)
    start = head + RECORD_SIZE * parts
    records = [*range(head, start, 4)]
    inner = [*range(start, min(start + 400, len(data)), 2)]
    fields = [start + at for at in (*TOLD_AT, 0x1E8, 0x1F1, 0x1FA, 0x1FE, 0x201, 0x202, 0x206, 0x210, 0x214,
                                    0x218, 0x21A, 0x21C, 0x228, 0x22A, 0x250, 0x2D0, 0x2D8, 0x2E0)]
    for _ in range(rng.choice([1, 1, 2, 3])):
        if chance(rng, 5) and len(data) >= head:
            data = with_register(rng, data)
        else:
            places = rng.choice([heads, records, inner, inner, inner, fields])
            data = changed(rng, data, places, 8)
    return data


# ---- parts side by side


class Ground:
    """Where parts are put, each after the one before."""

    def __init__(self, rng: Random):
        self.rng = rng
        self.at = rng.choice([0, 0x1000, 0x1000, 0xFFF8, 0x100000])
        self.parts: List[Part] = []

    def put(self, role: int, data: bytes, index: int = 0) -> int:
        """The bytes as a part, perhaps with more behind them; gives their address."""
        self.at += self.rng.choice([0, 0, 0, 1, 8, 0x1000, 0x100000])
        return self.put_at(role, data, index)

    def put_at(self, role: int, data: bytes, index: int = 0) -> int:
        """The same right behind what stands there."""
        at = self.at
        more = self.rng.choice([0, 0, 1, 8, 100])
        more = max(more, 0 if data else 1)
        self.parts.append(Part(role, index, at, len(data) + more, [Piece(0, data)]))
        self.at += len(data) + more
        return at

    def somewhere(self) -> Tuple[int, int]:
        """A range that lies in one part as a rule: start and length."""
        rng, part = self.rng, self.rng.choice(self.parts)
        first = rng.choice([0, 0, rng.randrange(part.length)])
        length = rng.choice([part.length - first, rng.randrange(part.length - first + 1), 0, 1])
        if chance(rng, 4):
            length += rng.choice([1, 8, 0x1000])
        if chance(rng, 2):
            return number(rng, 32), rng.choice([0, 0, 1])
        return part.address + first, length


def draw_runs(rng: Random, most: int) -> List[Run]:
    """Runs that need not be a normal map: a kernel is told of any."""
    runs = []
    for _ in range(min(rng.choice([0, 1, 3, 3, 5, 20, 128]), most)):
        base = rng.choice([0, 0x100000, number(rng, 52), number(rng, 32)])
        length = rng.choice([0, 0x1000, number(rng, 32), (1 << 52) - base])
        runs.append(Run(base, base + length, rng.randrange(1, 6)))
    return runs


def draw_text(rng: Random) -> bytes:
    return some_bytes(rng, rng.choice([0, 1, 2, 5, 7, 8, 40])).replace(b"\0", b"k")


def draw_multiboot2(rng: Random) -> Handover:
    ground = Ground(rng)
    for i in range(rng.choice([1, 1, 2])):
        ground.put(KERNEL, some_bytes(rng, rng.randrange(1, 200)), i)
    for i in range(rng.choice([0, 1, 2])):
        ground.put(MODULE, some_bytes(rng, rng.randrange(200)), i)
    modules = []
    for _ in range(rng.choice([0, 1, 1, 2, 3])):
        at, length = ground.somewhere()
        modules.append(Module(at, min(at + length, 0xFFFFFFFF), draw_text(rng)))
    told = information.spell(Information(
        draw_text(rng), modules, rng.choice([0, 636, 640]), number(rng, 32), draw_runs(rng, 20),
        rng.choice([None, number(rng, 32)]),
        rng.choice([None, None, copy(rng, 30)]),
        rng.choice([None, None, copy(rng, 30)]),
        rng.choice([b"bootcore", b"", draw_text(rng)]), firmware.draw_told_screen(rng),
        firmware.draw_efi_tables(rng), firmware.draw_told_smbios(rng)))
    if chance(rng, 20):
        told = damaged(rng, told)
    info = ground.put(INFORMATION, told)
    if chance(rng, 3):
        info += rng.choice([1, 8, 16])
    entry = rng.choice([p.address for p in ground.parts if p.role == KERNEL])
    registers = {**registers_of(MULTIBOOT2), "EIP": entry, "EBX": info}
    return Handover(MULTIBOOT2, registers, ground.parts)


def damaged(rng: Random, told: bytes) -> bytes:
    """Boot information with a change, and a total size that fits it as a rule."""
    what = rng.randrange(4)
    if what == 0:
        told = changed(rng, told, [*range(0, len(told), 4)], 10)
    elif what == 1:  # cut
        told = told[:rng.randrange(len(told) + 1)]
    elif what == 2:  # more behind the end
        told += bytes(rng.choice([1, 4, 8, 16]))
    else:  # a tag twice, or out of its place
        at = 8 * rng.randrange(1, len(told) // 8)
        told = told[:at] + rng.choice([told[8:24], told[-8:], told[at:at + 24]]) + told[at:]
    if len(told) >= 4 and chance(rng, 85):
        told = len(told).to_bytes(4, "little") + told[4:]
    return told


def draw_linux64(rng: Random) -> Handover:
    return draw_linux(rng, LINUX64)


def draw_tables(rng: Random, ground: Ground) -> int:
    """Page tables, of ten two with changes; they stand at a multiple of a frame as a rule."""
    if chance(rng, 96):
        ground.at = -(-ground.at // paging.FRAME) * paging.FRAME
    at = ground.at
    tables = bytearray(paging.tables(at))
    if chance(rng, 5):  # the last frames in another order, and named so
        order = rng.sample(range(2, 6), 4)
        for k, to in enumerate(order):
            word = at + to * paging.FRAME + paging.PRESENT_WRITABLE
            tables[0x1000 + 8 * k:0x1008 + 8 * k] = word.to_bytes(8, "little")
            tables[to * paging.FRAME:(to + 1) * paging.FRAME] = paging.frame(at, 2 + k)
    if chance(rng, 15):
        word = 8 * rng.choice([0, 0, 1, 512, 513, 515, 516, rng.randrange(3072)])
        value = int.from_bytes(tables[word:word + 8], "little")
        value = rng.choice([0, value ^ 1 << rng.randrange(64), value ^ 1 << rng.randrange(22),
                            value + 0x1000, number(rng, 64)]) % (1 << 64)
        tables[word:word + 8] = value.to_bytes(8, "little")
    return ground.put_at(PAGE_TABLES, bytes(tables))


def draw_linux(rng: Random, protocol: int = LINUX) -> Handover:
    """By the 32-bit entry, or by the 64-bit one."""
    is_wide = protocol == LINUX64
    ground = Ground(rng)
    kernel = ground.put(KERNEL, some_bytes(rng, rng.randrange(1, 200)))
    line = ground.put(COMMAND_LINE, draw_text(rng) + (b"\0" if chance(rng, 90) else b"x"))
    disk = (0, 0)
    if chance(rng, 60):
        ground.put(INITRD, some_bytes(rng, rng.randrange(1, 200)))
        disk = ground.somewhere()
    descriptors = paging.gdt64() if is_wide != chance(rng, 2) else boot_params.gdt()
    table = ground.put(GDT, descriptors if chance(rng, 96) else some_bytes(rng, 32))
    tables = draw_tables(rng, ground) if is_wide else 0
    if chance(rng, 10):
        line = ground.somewhere()[0]
    header = bytearray(some_bytes(rng, rng.choice([0x73, 0x77, 0x9F])))
    for at, value in [(0x1FE, b"\x55\xaa"), (0x202, b"HdrS"), (0x206, b"\x0c\x02"),
                      (0x201, bytes([0x1F1 + len(header) - 0x202]))]:
        header[at - 0x1F1:at - 0x1F1 + len(value)] = value
    params = boot_params.spell(bytes(header), boot_params.Params(
        kernel, disk[0], disk[1], line, draw_runs(rng, 128), firmware.draw_told_screen(rng),
        number(rng, 64) or None if chance(rng, 40) else None, firmware.draw_efi_info(rng)))
    if chance(rng, 20):
        params = changed(rng, params, [0x1E8, 0x1F1, 0x1FA, 0x1FE, 0x201, 0x202, 0x206, 0x210,
                                       0x250, 0x228, 0x218, 0x21C, 0x2D0, 0x2E0, 0x2E4,
                                       *TOLD_AT], 5)
    at = ground.put(BOOT_PARAMETERS, params)
    if is_wide:
        registers = {**registers_of(LINUX64), "RIP": kernel, "RSI": at, "GDT base": table,
                     "CR3": tables + (rng.choice([1, 8, 0x1000, 1 << 32]) if chance(rng, 2) else 0)}
    else:
        registers = {**registers_of(LINUX), "EIP": kernel, "ESI": at, "GDT base": table}
    return Handover(protocol, registers, ground.parts)
