"""What a firmware leaves in memory, as little as Linux takes: tables of ACPI (6.5) and of UEFI (2.10), each place by its section there."""

import struct
from typing import Dict

OEM = b"BOOTC "
REVISION = 2 << 16 | 70  # of UEFI: 2.7
RUNTIME = 1 << 63  # the attribute of memory that the runtime services keep
PAGE = 4096


def checked(data: bytes, place: int, length: int) -> bytes:
    """The byte at the place makes the first bytes sum to 0."""
    return data[:place] + bytes([-sum(data[:length]) & 0xFF]) + data[place + 1:]


def laid(parts: Dict[int, bytes]) -> bytes:
    """Each part at its offset, zeros between."""
    data = b""
    for place, part in parts.items():
        assert len(data) <= place
        data = data.ljust(place, b"\0") + part
    return data


def acpi_table(signature: bytes, revision: int, content: bytes) -> bytes:
    """5.2.6: the header, and what follows it."""
    length = 36 + len(content)
    head = struct.pack("<4sIBB6s8sI4sI", signature, length, revision, 0, OEM, b"BOOTCORE", 1, b"BOOT", 1)
    return checked(head + content, 9, length)


def acpi(base: int) -> bytes:
    """The tables of a machine of one processor, the RSDP first."""
    dsdt, fadt, madt, xsdt = (base + offset for offset in (0x40, 0x80, 0x180, 0x200))
    # 5.2.5.3: the first 20 bytes, which have a sum of their own, are the RSDP of ACPI 1.0
    rsdp = checked(struct.pack("<8sB6sBIIQB3x", b"RSD PTR ", 0, OEM, 2, 0, 36, xsdt, 0), 8, 20)
    # 5.2.9, revision 3: the DSDT, interrupt 9, and ports of events and of control, which QEMU's PC does not open
    fixed = struct.pack("<4xI2xH8xI4xI20xBB50xQ96x", dsdt, 9, 0x600, 0x604, 4, 2, dsdt)
    # 5.2.12: a local APIC, which is enabled, and an I/O APIC, where QEMU's PC has them; there the timer has input 2
    apics = struct.pack("<II BBBBI BBBBII BBBBIH", 0xFEE00000, 1, 0, 8, 0, 0, 1, 1, 12, 0, 0, 0xFEC00000, 0, 2, 10, 0, 0, 2, 0)
    return laid({
        0: checked(rsdp, 32, 36),
        dsdt - base: acpi_table(b"DSDT", 2, b""),
        fadt - base: acpi_table(b"FACP", 3, fixed),
        madt - base: acpi_table(b"APIC", 3, apics),
        xsdt - base: acpi_table(b"XSDT", 1, struct.pack("<QQ", fadt, madt)),
    })  # fmt: skip


def efi_map(base: int, acpi_base: int) -> bytes:
    """7.2: descriptors of 48 bytes, as OVMF has them: type, first address, pages, attributes."""
    kinds = [(7, 0, 0x9F000, 0), (7, 0x100000, acpi_base, 0), (9, acpi_base, base, 0)]
    kinds += [(6, base, base + PAGE, RUNTIME), (5, base + PAGE, base + 2 * PAGE, RUNTIME)]
    return b"".join(struct.pack("<I4xQ8xQQ8x", kind, at, (end - at) // PAGE, 15 | more) for kind, at, end, more in kinds)


def efi(base: int, map_bytes: bytes) -> bytes:
    """A page with UEFI's system table, and the memory map at its offset 0x400; a page with the code of its services."""
    # 8.1: 14 services; the fifth, SetVirtualAddressMap, succeeds, and each other one is EFI_UNSUPPORTED
    succeeds, fails = base + PAGE, base + PAGE + 16
    runtime = struct.pack("<8sIIII14Q", b"RUNTSERV", REVISION, 136, 0, 0, *[fails] * 4, succeeds, *[fails] * 9)
    # 4.3: the vendor's name at 0x200; no console, no boot services; one table of a kind that nobody knows, at 0x240
    table = struct.pack("<8sIIIIQ56xQQQQ", b"IBI SYST", REVISION, 120, 0, 0, base + 0x200, base + 0x100, 0, 1, base + 0x240)
    return laid({
        0: table, 0x100: runtime, 0x200: "bootcore\0".encode("utf-16-le"), 0x400: map_bytes,
        PAGE: bytes.fromhex("31c0c3"), PAGE + 16: bytes.fromhex("48b80300000000000080c3"),
    })  # fmt: skip
