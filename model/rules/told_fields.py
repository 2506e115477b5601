"""The fields of boot parameters that tell what firmware tells, written and read. FORMATS.md "Boot
parameters"; LBP "Zero Page", linux/screen_info.h, asm/bootparam.h."""

from typing import Iterable, List, Optional, Tuple

from .firmware import (DEPTHS, DESCRIPTOR_VERSION, END_LIMIT, GIB4, MAX_SECURE_BOOT, Color, EfiInfo,
                       Screen, fits_depth, has_pitch, is_descriptor_size, is_efi_map_size,
                       is_map_address, is_system_table)
from .numbers import long, u32, u64, word

SCREEN_INFO, SCREEN_INFO_END = 0x000, 0x040
VIDEO_TYPE, EFI_VIDEO = 0x00F, 0x70  # orig_video_isVGA, VIDEO_TYPE_EFI
SKIP_QUIRKS, HAS_HIGH_BASE = 1, 2  # bits of capabilities
RSDP = 0x070  # acpi_rsdp_addr
EFI_INFO, EFI_INFO_END = 0x1C0, 0x1E0
SIGNATURES = {32: b"EL32", 64: b"EL64"}
SECURE_BOOT = 0x1EC

# The fields of screen_info that are told: place and width.
SCREEN_FIELDS = {"type": (0x0F, 1), "width": (0x12, 2), "height": (0x14, 2), "depth": (0x16, 2),
                 "base": (0x18, 4), "size": (0x1C, 4), "linelength": (0x24, 2),
                 "red_size": (0x26, 1), "red_pos": (0x27, 1), "green_size": (0x28, 1),
                 "green_pos": (0x29, 1), "blue_size": (0x2A, 1), "blue_pos": (0x2B, 1),
                 "pages": (0x32, 2), "capabilities": (0x36, 4), "ext_base": (0x3A, 4)}

Bytes = List[Tuple[int, bytes]]  # each with its offset


# ---- written


def screen_bytes(screen: Screen) -> Bytes:
    high = screen.base // GIB4
    told = {"type": EFI_VIDEO, "width": screen.width, "height": screen.height,
            "depth": screen.depth, "base": screen.base % GIB4, "size": screen.size,
            "linelength": screen.pitch, "red_size": screen.red.size, "red_pos": screen.red.position,
            "green_size": screen.green.size, "green_pos": screen.green.position,
            "blue_size": screen.blue.size, "blue_pos": screen.blue.position, "pages": 1,
            "capabilities": SKIP_QUIRKS + (HAS_HIGH_BASE if high else 0), "ext_base": high}
    return [(at, told[name].to_bytes(width, "little"))
            for name, (at, width) in SCREEN_FIELDS.items()]


def rsdp_bytes(rsdp: int) -> Bytes:
    return [(RSDP, long(rsdp))]


def efi_bytes(efi: EfiInfo) -> Bytes:
    words = [efi.system_table % GIB4, efi.descriptor_size, efi.descriptor_version, efi.map_address,
             efi.map_size, efi.system_table // GIB4, 0]
    return [(EFI_INFO, SIGNATURES[efi.bits] + b"".join(word(n) for n in words)),
            (SECURE_BOOT, bytes([efi.secure_boot]))]


# ---- read: the fields of a form that is sound


def field(data: bytes, name: str) -> int:
    at, width = SCREEN_FIELDS[name]
    return int.from_bytes(data[at:at + width], "little")


def screen_in(data: bytes) -> Optional[Screen]:
    if data[VIDEO_TYPE] == 0:
        return None
    colors = [Color(field(data, f"{color}_pos"), field(data, f"{color}_size"))
              for color in ("red", "green", "blue")]
    base = field(data, "base") + GIB4 * field(data, "ext_base")
    return Screen(base, field(data, "linelength"), field(data, "width"), field(data, "height"),
                  field(data, "depth"), *colors)


def rsdp_in(data: bytes) -> Optional[int]:
    return u64(data, RSDP) or None


def bits_in(data: bytes) -> Optional[int]:
    signature = data[EFI_INFO:EFI_INFO + 4]
    return next((bits for bits, told in SIGNATURES.items() if told == signature), None)


def efi_in(data: bytes) -> Optional[EfiInfo]:
    bits = bits_in(data)
    if bits is None:
        return None
    table, size, version, at, length, high = [u32(data, EFI_INFO + 4 * i) for i in range(1, 7)]
    return EfiInfo(bits, table + GIB4 * high, at, length, size, version, data[SECURE_BOOT])


# ---- the offsets at which the form is broken


def breaks(data: bytes) -> List[int]:
    return [*screen_breaks(data), *efi_breaks(data)]


def filled(data: bytes, places: Iterable[int]) -> List[int]:
    """Which of the bytes are not 0."""
    return [at for at in places if data[at] != 0]


def screen_breaks(data: bytes) -> List[int]:
    places = range(SCREEN_INFO, SCREEN_INFO_END)
    if data[VIDEO_TYPE] == 0:
        return filled(data, places)
    if data[VIDEO_TYPE] != EFI_VIDEO:
        return [VIDEO_TYPE, *filled(data, range(SCREEN_INFO, VIDEO_TYPE))]
    told = {at + i for at, width in SCREEN_FIELDS.values() for i in range(width)}
    return broken(screen_rules(data, screen_in(data))) + filled(
        data, [at for at in places if at not in told])


Rules = List[Tuple[int, bool]]  # offsets, and whether what must hold there does


def broken(rules: Rules) -> List[int]:
    return [at for at, is_met in rules if not is_met]


def screen_rules(data: bytes, screen: Screen) -> Rules:
    """A rule of several fields stands at the one that is named here."""
    is_high = field(data, "ext_base") != 0
    rules = [("width", screen.width >= 1), ("height", screen.height >= 1),
             ("depth", screen.depth in DEPTHS), ("size", field(data, "size") == screen.size),
             ("linelength", screen.pitch >= 1 and has_pitch(screen)),
             ("red_pos", fits_depth(screen.red, screen.depth)),
             ("green_pos", fits_depth(screen.green, screen.depth)),
             ("blue_pos", fits_depth(screen.blue, screen.depth)),
             ("pages", field(data, "pages") == 1),
             ("capabilities",
              field(data, "capabilities") == SKIP_QUIRKS + (HAS_HIGH_BASE if is_high else 0)),
             ("ext_base", screen.base >= 1 and screen.end <= END_LIMIT)]
    return [(SCREEN_FIELDS[name][0], is_met) for name, is_met in rules]


def efi_breaks(data: bytes) -> List[int]:
    efi = efi_in(data)
    if efi is not None:
        return broken(efi_rules(data, efi))
    if any(data[EFI_INFO:EFI_INFO + 4]):
        return [EFI_INFO]
    return filled(data, [*range(EFI_INFO, EFI_INFO_END), SECURE_BOOT])


def efi_rules(data: bytes, efi: EfiInfo) -> Rules:
    is_size = is_descriptor_size(efi.descriptor_size)
    return [
        (EFI_INFO, efi.bits == 64 or efi.system_table < GIB4),
        (0x1C8, is_size),
        (0x1CC, efi.descriptor_version == DESCRIPTOR_VERSION),
        (0x1D0, is_map_address(efi.map_address)),
        (0x1D4, is_size and is_efi_map_size(efi.descriptor_size, efi.map_size)
         and efi.map_address + efi.map_size <= GIB4),
        (0x1D8, efi.system_table >= 1),
        (0x1DC, u32(data, 0x1DC) == 0),
        (SECURE_BOOT, efi.secure_boot <= MAX_SECURE_BOOT),
    ]
