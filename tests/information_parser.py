#!/usr/bin/env python3
"""Prints Multiboot2 boot information tag by tag, as the standard lays it out: usage: information_parser.py [FILE]

It knows the tags of the Multiboot2 Specification 2.0, part 3.6, with the layout of its multiboot2.h, and nothing of who wrote the information: any
order, any loader. FILE, or standard input, has the information from its total size on; what follows its end is not looked at. Numbers are decimal,
addresses hexadecimal; of long bytes the number and the SHA-256 are printed. The status is 1 for bytes that are no information.
"""

import hashlib
import struct
import sys
from typing import Callable, Dict, Iterator, List, NamedTuple, Tuple


class NotInformation(Exception):
    """The argument says why."""


class Tag(NamedTuple):
    offset: int
    type: int
    body: bytes  # without type and size


def tags(data: bytes) -> Iterator[Tag]:
    """By type and size, each at a multiple of 8, up to the one of type 0."""
    if len(data) < 8:
        raise NotInformation("no total size")
    total, _ = struct.unpack_from("<II", data)
    if total > len(data):
        raise NotInformation(f"a total size of {total}, and {len(data)} bytes")
    at = 8
    while True:
        if at + 8 > total:
            raise NotInformation(f"no end tag before {total}")
        type_, size = struct.unpack_from("<II", data, at)
        if size < 8 or at + size > total:
            raise NotInformation(f"a tag of size {size} at {at}")
        yield Tag(at, type_, data[at + 8:at + size])
        if type_ == 0:
            return
        at = (at + size + 7) // 8 * 8


# ---- the fields of each type: name and value


Fields = List[Tuple[str, object]]


def fields_of(layout: str, names: str) -> Callable[[bytes], Fields]:
    """Of fixed fields; what stands behind them is told as bytes."""
    def read(body: bytes) -> Fields:
        size = struct.calcsize("<" + layout)
        if len(body) < size:
            raise NotInformation(f"{len(body)} bytes for {names}")
        told: Fields = list(zip(names.split(), struct.unpack_from("<" + layout, body)))
        return told + ([("rest", body[size:])] if body[size:] else [])
    return read


def text(body: bytes) -> Fields:
    return [("string", body.split(b"\0")[0])]


def module(body: bytes) -> Fields:
    start, end = struct.unpack_from("<II", body)
    return [("mod_start", Address(start)), ("mod_end", Address(end)), ("string", body[8:].split(b"\0")[0])]


def memory_map(body: bytes) -> Fields:
    size, version = struct.unpack_from("<II", body)
    told: Fields = [("entry_size", size), ("entry_version", version)]
    for at in range(8, len(body), size):
        base, length, kind, _ = struct.unpack_from("<QQII", body, at)
        told += [("base_addr", Address(base)), ("length", Address(length)), ("type", kind)]
    return told


def framebuffer(body: bytes) -> Fields:
    """The reserved field of multiboot2.h has 16 bits."""
    names = "framebuffer_addr framebuffer_pitch framebuffer_width framebuffer_height framebuffer_bpp framebuffer_type reserved"
    values = struct.unpack_from("<QIIIBBH", body)
    told: Fields = list(zip(names.split(), values))
    told[0] = (told[0][0], Address(values[0]))
    if values[5] == 1:
        colors = "red_field_position red_mask_size green_field_position green_mask_size blue_field_position blue_mask_size"
        told += zip(colors.split(), struct.unpack_from("<6B", body, 24))
    return told


def smbios(body: bytes) -> Fields:
    return [("major", body[0]), ("minor", body[1]), ("reserved", body[2:8]), ("tables", body[8:])]


def efi_map(body: bytes) -> Fields:
    size, version = struct.unpack_from("<II", body)
    told: Fields = [("descriptor_size", size), ("descriptor_version", version), ("efi_memory_map", body[8:])]
    for at in range(8, len(body) - size + 1, size):
        type_, _, start, virtual, pages, attribute = struct.unpack_from("<IIQQQQ", body, at)
        told.append(("descriptor", f"type {type_} start {start:#x} virtual {virtual:#x} pages {pages} attribute {attribute:#x}"))
    return told


def address(layout: str) -> Callable[[bytes], Fields]:
    return lambda body: [("pointer", Address(struct.unpack_from(layout, body)[0]))]


class Address(int):
    """Printed in hexadecimal digits."""

    def __str__(self) -> str:
        return hex(self)


TYPES: Dict[int, Tuple[str, Callable[[bytes], Fields]]] = {
    0: ("end", lambda body: []),
    1: ("boot command line", text),
    2: ("boot loader name", text),
    3: ("module", module),
    4: ("basic memory information", fields_of("II", "mem_lower mem_upper")),
    5: ("BIOS boot device", fields_of("III", "biosdev partition sub_partition")),
    6: ("memory map", memory_map),
    7: ("VBE info", fields_of("HHHH", "vbe_mode vbe_interface_seg vbe_interface_off vbe_interface_len")),
    8: ("framebuffer info", framebuffer),
    9: ("ELF symbols", fields_of("III", "num entsize shndx")),
    10: ("APM table", fields_of("HHIHHHHHH", "version cseg offset cseg_16 dseg flags cseg_len cseg_16_len dseg_len")),
    11: ("EFI 32-bit system table pointer", address("<I")),
    12: ("EFI 64-bit system table pointer", address("<Q")),
    13: ("SMBIOS tables", smbios),
    14: ("ACPI old RSDP", lambda body: [("rsdp", body)]),
    15: ("ACPI new RSDP", lambda body: [("rsdp", body)]),
    16: ("networking information", lambda body: [("dhcp_ack", body)]),
    17: ("EFI memory map", efi_map),
    18: ("EFI boot services not terminated", lambda body: []),
    19: ("EFI 32-bit image handle pointer", address("<I")),
    20: ("EFI 64-bit image handle pointer", address("<Q")),
    21: ("image load base physical address", address("<I")),
}


def shown(value: object) -> str:
    if not isinstance(value, bytes):
        return str(value)
    if len(value) > 64:
        return f"{len(value)} bytes {hashlib.sha256(value).hexdigest()}"
    return f"{len(value)} bytes {value.hex()}" if value else "0 bytes"


def lines(data: bytes) -> Iterator[str]:
    for tag in tags(data):
        name, read = TYPES.get(tag.type, ("unknown", lambda body: [("body", body)]))
        yield f"tag {tag.type} at {tag.offset} size {len(tag.body) + 8}: {name}"
        try:
            yield from (f"  {field} {shown(value)}" for field, value in read(tag.body))
        except (struct.error, IndexError):
            raise NotInformation(f"a body of {len(tag.body)} bytes in a tag of type {tag.type}") from None


def main(words: List[str]) -> int:
    if len(words) > 1 or words == ["--help"]:
        print(__doc__, end="", file=sys.stdout if words == ["--help"] else sys.stderr)
        return 0 if words == ["--help"] else 64
    if words:
        with open(words[0], "rb") as file:
            data = file.read()
    else:
        data = sys.stdin.buffer.read()
    try:
        for line in lines(data):
            print(line)
    except NotInformation as why:
        print(f"information_parser: {why}", file=sys.stderr)
        return 1
    return 0


if __name__ == "__main__":
    sys.exit(main(sys.argv[1:]))
