"""What firmware tells: within its limits mostly, and away from usable memory."""

from random import Random
from typing import Callable, List, Optional

from rules.firmware import (DEPTHS, NO_FIRMWARE, Color, Efi, EfiInfo, EfiTables, Firmware, Screen,
                            Smbios, pixel_bytes)
from rules.machine import Machine, Range, meets, usable_ranges
from rules.numbers import FRAME

from .chances import chance, number, some_bytes

GIB4 = 1 << 32
PLACES = [0xA0000, 0xB8000, 0xE0000, 0xF0000, 0xF8000, 0x80000000, 0xFD000000, 0xFFFF0000, GIB4,
          0x380000000000]


def draw(rng: Random, machine: Machine) -> Firmware:
    """Of a machine that has no such facts yet; of half of them none. Of ten one is broken."""
    if chance(rng, 50):
        return NO_FIRMWARE
    firmware = Firmware(
        draw_screen(rng, machine) if chance(rng, 60) else None,
        place(rng, machine, 36) if chance(rng, 50) else None,
        draw_efi(rng, machine) if chance(rng, 50) else None,
        draw_smbios(rng) if chance(rng, 50) else None,
        draw_avoided(rng, machine) if chance(rng, 50) else [])
    return broken(rng, firmware) if chance(rng, 10) else firmware


def place(rng: Random, machine: Machine, length: int, align: int = 1,
          limit: Optional[int] = None) -> int:
    """An address from which so many bytes are not usable, if one is found at once, near the ends
    of usable memory or far from it."""
    ends = [end for range_ in usable_ranges(machine) for end in (range_[0] - length, range_[1])]
    for _ in range(8):
        at = rng.choice(PLACES + ends) + rng.choice([0, 0, 0, 1, 8, FRAME])
        if limit is not None and (chance(rng, 10) or at + length > limit):
            at = limit - length
        at = max(at // align * align, align)
        if not any(meets((at, at + length), range_) for range_ in usable_ranges(machine)):
            return at
    return at


def draw_screen(rng: Random, machine: Machine) -> Screen:
    depth = rng.choice(DEPTHS)
    width = rng.choice([1, 80, 640, 1024, 1920, 0xFFFF // pixel_bytes(depth)])
    pitch = min(width * pixel_bytes(depth) + rng.choice([0, 0, 0, 1, 64]), 0xFFFF)
    height = rng.choice([1, 25, 480, 768, 1080, 0xFFFF])
    base = place(rng, machine, pitch * height)
    if chance(rng, 6):
        base = (1 << 52) - pitch * height
    return Screen(base, pitch, width, height, depth, *draw_colors(rng, depth))


def draw_colors(rng: Random, depth: int) -> List[Color]:
    if depth == 32 and chance(rng, 60):
        return [Color(16, 8), Color(8, 8), Color(0, 8)]
    positions = [rng.randrange(depth + 1) for _ in range(3)]
    return [Color(at, rng.choice([0, depth - at, rng.randrange(depth - at + 1)]))
            for at in positions]


def draw_efi(rng: Random, machine: Machine) -> Efi:
    size = rng.choice([40, 48, 48, 48, 56, 80])
    told = some_bytes(rng, size * rng.choice([1, 1, 2, 3, 7, 90]))
    if chance(rng, 3):
        size, told = 64, bytes(1 << 16)
    bits = rng.choice([32, 64])
    table = rng.choice([1, 0x7E9EC018, GIB4 - 1, GIB4, rng.getrandbits(63) or 1])
    if bits == 32 and table >= GIB4:
        table %= GIB4 - 1
        table += 1
    return Efi(bits, table, place(rng, machine, len(told), 8, GIB4), told, size, 1,
               rng.randrange(4))


def draw_smbios(rng: Random) -> Smbios:
    tables = some_bytes(rng, rng.choice([1, 7, 8, 31, 400, rng.randrange(1, 5000)]))
    return Smbios(rng.randrange(256), rng.randrange(256), tables)


def draw_avoided(rng: Random, machine: Machine) -> List[Range]:
    """A few ranges near the places that matter, most of them beside the pool."""
    drawn = []
    for _ in range(rng.choice([1, 1, 2, 3, 8, 40])):
        start = rng.choice([0, 0x1000, 0x2000, 0x9D000, 0x100000, 0x101000, 0x110000, 0x200000,
                            rng.randrange(machine.size), number(rng, 34)])
        length = rng.choice([0, 1, 0x50, FRAME, FRAME, 4 * FRAME, 0x20000, 1 << 20])
        range_ = (start, start + length)
        if chance(rng, 1) or not meets(range_, machine.pool):
            drawn.append(range_)
    return drawn


# ---- what may be a fault


def broken(rng: Random, firmware: Firmware) -> Firmware:
    """With another number in one of its facts."""
    changes: List[Callable[[], Firmware]] = []
    if firmware.screen is not None:
        name = rng.choice(["base", "pitch", "width", "height", "depth", "red"])
        wild = Color(rng.randrange(256), rng.randrange(256)) if name == "red" else number(
            rng, {"base": 63, "depth": 8}.get(name, 32))
        changes.append(lambda: firmware._replace(screen=firmware.screen._replace(**{name: wild})))
    if firmware.rsdp is not None:
        changes.append(lambda: firmware._replace(rsdp=number(rng, 63)))
    if firmware.efi is not None:
        field = rng.choice(["system_table", "map_address", "descriptor_size", "descriptor_version",
                            "map"])
        other = some_bytes(rng, rng.choice([0, 39, 47, 49])) if field == "map" else number(
            rng, 32 if field.startswith("descriptor") else 63)
        changes.append(lambda: firmware._replace(efi=firmware.efi._replace(**{field: other})))
    if firmware.smbios is not None:
        more = bytes(rng.choice([0, 1 << 16, (1 << 16) + 1]))
        changes.append(lambda: firmware._replace(smbios=firmware.smbios._replace(tables=more)))
    many = firmware.avoided + [(0, 0)] * rng.choice([1, 127, 128, 129])
    start = number(rng, 62)
    far = (start, start + number(rng, 62))
    changes.append(lambda: firmware._replace(avoided=many))
    changes.append(lambda: firmware._replace(avoided=firmware.avoided + [far]))
    return rng.choice(changes)()


# ---- of an image that no boot wrote


WITHOUT_MEMORY = Machine(1 << 20, [], (0, 0))


def draw_told_screen(rng: Random) -> Optional[Screen]:
    return draw_screen(rng, WITHOUT_MEMORY) if chance(rng, 40) else None


def draw_efi_info(rng: Random) -> Optional[EfiInfo]:
    return draw_efi(rng, WITHOUT_MEMORY).info if chance(rng, 40) else None


def draw_efi_tables(rng: Random) -> Optional[EfiTables]:
    return draw_efi(rng, WITHOUT_MEMORY).tables if chance(rng, 40) else None


def draw_told_smbios(rng: Random) -> Optional[Smbios]:
    return draw_smbios(rng) if chance(rng, 40) else None
