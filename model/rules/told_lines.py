"""The lines of what firmware tells, of `walk` and of `explain`. FORMATS.md "What the program
says"."""

import hashlib
from typing import List, Optional, Union

from .firmware import Color, EfiInfo, EfiTables, Firmware, Screen, Smbios
from .machine import Range

NONE = "-"  # in place of a word that is not told


def screen_line(screen: Screen) -> str:
    return (f"screen {screen.base:016x} {screen.pitch} {screen.width} {screen.height} "
            f"{screen.depth} " + " ".join(map(color_word, screen[5:])))


def color_word(color: Color) -> str:
    return f"{color.position}+{color.size}"


def rsdp_line(rsdp: int) -> str:
    return f"rsdp {rsdp:016x}"


def efi_lines(efi: Union[EfiInfo, EfiTables]) -> List[str]:
    """Of its map the address, or what it holds."""
    table = f"efi {efi.bits} {efi.system_table:016x}"
    form = (efi.descriptor_size, efi.descriptor_version)
    if isinstance(efi, EfiInfo):
        return [table, efi_map_line(efi.map_address, efi.map_size, *form, None),
                f"secure-boot {efi.secure_boot}"]
    return [table, efi_map_line(None, len(efi.map), *form, efi.map)]


def efi_map_line(at: Optional[int], size: int, descriptor_size: int, version: int,
                 data: Optional[bytes]) -> str:
    place = NONE if at is None else f"{at:016x}"
    told = NONE if data is None else sha256(data)
    return f"efi-map {place} {size} {descriptor_size} {version} {told}"


def smbios_line(smbios: Smbios) -> str:
    return (f"smbios {smbios.major} {smbios.minor} {len(smbios.tables)} "
            f"{sha256(smbios.tables)}")


def sha256(data: bytes) -> str:
    return hashlib.sha256(data).hexdigest()


def told_lines(screen: Optional[Screen], rsdp: Optional[int],
               efi: Union[EfiInfo, EfiTables, None], smbios: Optional[Smbios]) -> List[str]:
    """In the order of `walk`."""
    lines = [] if screen is None else [screen_line(screen)]
    lines += [] if rsdp is None else [rsdp_line(rsdp)]
    lines += [] if efi is None else efi_lines(efi)
    return lines + ([] if smbios is None else [smbios_line(smbios)])


def machine_lines(firmware: Firmware) -> List[str]:
    """What a machine's firmware tells, and what is avoided, for a person."""
    lines = told_lines(firmware.screen, firmware.rsdp, firmware.efi and firmware.efi.info,
                       firmware.smbios)
    return lines + [avoid_line(range_) for range_ in firmware.avoided]


def avoid_line(range_: Range) -> str:
    return f"avoid {range_[0]:016x} {range_[1]:016x}"
