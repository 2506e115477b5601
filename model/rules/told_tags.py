"""The tags of boot information that tell what firmware tells, written and read. FORMATS.md "Boot
information"; MB2 3.6.12 to 3.6.15 and 3.6.19, multiboot2.h for the layout of tag 8."""

from typing import Tuple

from .firmware import (DESCRIPTOR_VERSION, Color, EfiTables, Screen, Smbios, is_descriptor_size,
                       is_efi_map_size, is_smbios_size, is_system_table, screen_fault)
from .numbers import long, u32, u64, word
from .refusals import refuse

SCREEN, EFI32, EFI64, SMBIOS, EFI_MAP = 8, 11, 12, 13, 17
TABLE_TYPES = {32: EFI32, 64: EFI64}
DIRECT_COLOR = 1  # framebuffer_type
SCREEN_LENGTH, SMBIOS_HEAD, MAP_HEAD = 30, 8, 8

Body = Tuple[int, bytes]  # a tag's type and what stands behind its size


# ---- written


def screen_body(screen: Screen) -> Body:
    colors = bytes(n for color in (screen.red, screen.green, screen.blue) for n in color)
    return SCREEN, (long(screen.base) + word(screen.pitch) + word(screen.width)
                    + word(screen.height) + bytes([screen.depth, DIRECT_COLOR]) + bytes(2) + colors)


def table_body(efi: EfiTables) -> Body:
    return TABLE_TYPES[efi.bits], efi.system_table.to_bytes(efi.bits // 8, "little")


def smbios_body(smbios: Smbios) -> Body:
    return SMBIOS, bytes([smbios.major, smbios.minor]) + bytes(6) + smbios.tables


def efi_map_body(efi: EfiTables) -> Body:
    return EFI_MAP, word(efi.descriptor_size) + word(efi.descriptor_version) + efi.map


# ---- read: each is refused with 63 and the tag's offset


def screen_of(at: int, body: bytes) -> Screen:
    if len(body) != SCREEN_LENGTH or body[21] != DIRECT_COLOR or any(body[22:24]):
        refuse(63, at)
    colors = [Color(body[i], body[i + 1]) for i in (24, 26, 28)]
    screen = Screen(u64(body, 0), u32(body, 8), u32(body, 12), u32(body, 16), body[20], *colors)
    if screen_fault(screen) is not None:
        refuse(63, at)
    return screen


def table_of(bits: int, at: int, body: bytes) -> int:
    if len(body) != bits // 8 or not is_system_table(bits, int.from_bytes(body, "little")):
        refuse(63, at)
    return int.from_bytes(body, "little")


def smbios_of(at: int, body: bytes) -> Smbios:
    tables = body[SMBIOS_HEAD:]
    if len(body) < SMBIOS_HEAD or any(body[2:SMBIOS_HEAD]) or not is_smbios_size(len(tables)):
        refuse(63, at)
    return Smbios(body[0], body[1], tables)


def efi_map_of(at: int, body: bytes) -> Tuple[int, int, bytes]:
    """The descriptors' size and version, and the map."""
    if len(body) < MAP_HEAD:
        refuse(63, at)
    size, version, told = u32(body, 0), u32(body, 4), body[MAP_HEAD:]
    if not is_descriptor_size(size) or version != DESCRIPTOR_VERSION:
        refuse(63, at)
    if not is_efi_map_size(size, len(told)):
        refuse(63, at)
    return size, version, told
