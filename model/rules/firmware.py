"""What firmware tells of a machine beside its memory, and the limits of it. BOOT-RULES.md "What
firmware tells"."""

from typing import List, NamedTuple, Optional, Tuple

U16_LIMIT, GIB4 = 1 << 16, 1 << 32
END_LIMIT = 1 << 52  # as that of a region
RSDP_LENGTH = 36
SYSTEM_TABLE_LENGTH = 120  # with 64 bits
LEAST_DESCRIPTOR, DESCRIPTOR_VERSION = 40, 1
MAX_EFI_MAP = MAX_SMBIOS = 1 << 16
MAX_AVOIDED = 128
DEPTHS = (15, 16, 24, 32)
BITS = (32, 64)
MAX_SECURE_BOOT = 3


class Color(NamedTuple):
    """Which bits of a pixel: from the lowest one on so many."""
    position: int
    size: int


class Screen(NamedTuple):
    base: int
    pitch: int  # bytes of a line
    width: int
    height: int
    depth: int
    red: Color
    green: Color
    blue: Color

    @property
    def size(self) -> int:
        return self.pitch * self.height

    @property
    def end(self) -> int:
        return self.base + self.size


class EfiInfo(NamedTuple):
    """What boot parameters tell of UEFI."""
    bits: int
    system_table: int
    map_address: int
    map_size: int
    descriptor_size: int
    descriptor_version: int
    secure_boot: int


class EfiTables(NamedTuple):
    """What boot information tells of UEFI."""
    bits: int
    system_table: int
    descriptor_size: int
    descriptor_version: int
    map: bytes


class Efi(NamedTuple):
    bits: int
    system_table: int
    map_address: int
    map: bytes
    descriptor_size: int
    descriptor_version: int
    secure_boot: int = 0

    @property
    def info(self) -> EfiInfo:
        return EfiInfo(*self[:3], len(self.map), *self[4:])

    @property
    def tables(self) -> EfiTables:
        return EfiTables(*self[:2], *self[4:6], self.map)


class Smbios(NamedTuple):
    major: int
    minor: int
    tables: bytes


class Firmware(NamedTuple):
    screen: Optional[Screen] = None
    rsdp: Optional[int] = None
    efi: Optional[Efi] = None
    smbios: Optional[Smbios] = None
    avoided: List[Tuple[int, int]] = []  # ranges


NO_FIRMWARE = Firmware()


# ---- limits, one by one


def pixel_bytes(depth: int) -> int:
    return (depth + 7) // 8


def fits_depth(color: Color, depth: int) -> bool:
    return color.position + color.size <= depth


def has_pitch(screen: Screen) -> bool:
    return screen.pitch >= screen.width * pixel_bytes(screen.depth)


def is_system_table(bits: int, at: int) -> bool:
    return at >= 1 and (bits == 64 or at < GIB4)


def is_descriptor_size(size: int) -> bool:
    return size >= LEAST_DESCRIPTOR and size % 8 == 0


def is_efi_map_size(descriptor_size: int, size: int) -> bool:
    """Of at least one descriptor, and of no part of one."""
    return descriptor_size <= size <= MAX_EFI_MAP and size % descriptor_size == 0


def is_map_address(at: int) -> bool:
    return at >= 1 and at % 8 == 0


def is_smbios_size(size: int) -> bool:
    return 1 <= size <= MAX_SMBIOS


# ---- the first fault, but for bytes that are usable


def screen_fault(screen: Screen) -> Optional[int]:
    """6 to 10, in this order."""
    if not all(1 <= n < U16_LIMIT for n in (screen.width, screen.height, screen.pitch)):
        return 6
    if screen.depth not in DEPTHS:
        return 7
    if not all(fits_depth(c, screen.depth) for c in (screen.red, screen.green, screen.blue)):
        return 8
    if not has_pitch(screen):
        return 9
    return None if screen.base >= 1 and screen.end <= END_LIMIT else 10


def efi_fault(efi: EfiInfo) -> Optional[int]:
    """12 to 15, in this order."""
    if not is_system_table(efi.bits, efi.system_table):
        return 12
    if not is_descriptor_size(efi.descriptor_size) or efi.descriptor_version != DESCRIPTOR_VERSION:
        return 13
    if not is_efi_map_size(efi.descriptor_size, efi.map_size):
        return 14
    is_placed = is_map_address(efi.map_address) and efi.map_address + efi.map_size <= GIB4
    return None if is_placed else 15
