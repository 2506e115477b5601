"""The handoff image, versions 1 and 2. FORMATS.md "The handoff image"."""

from typing import Dict, Iterator, List, NamedTuple, Optional, Tuple

from .handover import (INITRD, LINUX64, PAGE_TABLES, PROTOCOL_NAMES, REGISTERS, WIDE_REGISTERS,
                       Handover, Part, Piece, in_part_order)
from .numbers import long, u32, u64, word
from .refusals import refuse

MAGIC = b"BLIMAGE\0"
OLD, WRITTEN = 1, 2  # the versions that are read; the second one is written
RECORD_SIZE = 24
MAX_PARTS = 256
MAX_ADDRESS = 1 << 32
MAX_NARROW = 1 << 32
CHUNK = 1 << 20

# The registers of each version in its order, and the bytes of each. Of version 2 those without a
# name, R8 to R15, CR3, CR4 and EFER, are not given by the two protocols of 32 bits; the 64-bit
# entry gives all.
ABSENT = None
FIELDS: Dict[int, List[Optional[str]]] = {
    OLD: [*REGISTERS],
    WRITTEN: [*REGISTERS[:9], *[ABSENT] * 8, *REGISTERS[9:11], *[ABSENT] * 3, *REGISTERS[11:]],
}
WIDTHS = {OLD: 4, WRITTEN: 8}
# How many bytes stand before the number of parts, and before the records.
COUNT_AT = {version: 16 + WIDTHS[version] * len(FIELDS[version]) for version in FIELDS}
HEADS = {version: COUNT_AT[version] + 8 for version in FIELDS}


def fields_of(version: int, protocol: int) -> List[Optional[str]]:
    """The 64-bit entry stands in version 2 alone."""
    return [*WIDE_REGISTERS] if protocol == LINUX64 else FIELDS[version]


def protocols_of(version: int) -> List[int]:
    return [protocol for protocol in PROTOCOL_NAMES if version == WRITTEN or protocol != LINUX64]


class ImagePart(NamedTuple):
    role: int
    index: int
    address: int
    data: bytes


class Image(NamedTuple):
    protocol: int
    registers: Dict[str, int]
    parts: List[ImagePart]


# ---- written


def chunks(handover: Handover, version: int = WRITTEN) -> Iterator[bytes]:
    """The image's bytes, in some pieces that follow each other."""
    yield head(handover, version)
    for part in handover.parts:
        yield from part_chunks(part)


def head(handover: Handover, version: int = WRITTEN) -> bytes:
    """The head and the records: all that stands before the bytes of the parts."""
    data = MAGIC + word(version) + word(handover.protocol)
    for name in fields_of(version, handover.protocol):
        value = 0 if name is ABSENT else handover.registers[name]
        data += value.to_bytes(WIDTHS[version], "little")
    data += word(len(handover.parts)) + word(0)
    for part in handover.parts:
        data += word(part.role) + word(part.index) + long(part.address) + long(part.length)
    return data


def part_chunks(part: Part) -> Iterator[bytes]:
    """The part's pieces, with zeros before, between and after them."""
    at = 0
    for piece in in_part_order(part.pieces):
        yield from zeros(piece.offset - at)
        yield piece.data
        at = piece.offset + len(piece.data)
    yield from zeros(part.length - at)


def zeros(count: int) -> Iterator[bytes]:
    for at in range(0, count, CHUNK):
        yield bytes(min(CHUNK, count - at))


def spell(handover: Handover, version: int = WRITTEN) -> bytes:
    """The whole image."""
    return b"".join(chunks(handover, version))


def handover_of(image: Image) -> Handover:
    """What was read as what is handed over."""
    return Handover(image.protocol, image.registers, [
        Part(part.role, part.index, part.address, len(part.data), [Piece(0, part.data)])
        for part in image.parts])


def spell_read(image: Image, version: int = WRITTEN) -> bytes:
    """The whole image of what was read."""
    return spell(handover_of(image), version)


# ---- read


class Reader:
    """Goes over the input; one that ends inside what is asked for has the wrong length."""

    def __init__(self, data: bytes):
        self.data = data
        self.at = 0

    def bytes(self, count: int) -> bytes:
        if self.at + count > len(self.data):
            refuse(75)
        self.at += count
        return self.data[self.at - count:self.at]

    def u32(self) -> int:
        return u32(self.bytes(4), 0)

    def u64(self) -> int:
        return u64(self.bytes(8), 0)


def read(data: bytes) -> Image:
    """Refused with 71, 72, 73, 74 and the record's index, 75; field by field as they come."""
    reader = Reader(data)
    if reader.bytes(8) != MAGIC:
        refuse(71)
    version = reader.u32()
    if version not in FIELDS:
        refuse(72)
    protocol = reader.u32()
    if protocol not in protocols_of(version):
        refuse(73)
    registers = read_registers(reader, version, protocol)
    count = reader.u32()
    if count > MAX_PARTS:
        refuse(73)
    if reader.u32() != 0:
        refuse(73)
    records = read_records(reader, count, PAGE_TABLES if protocol == LINUX64 else INITRD)
    parts = [ImagePart(role, index, address, reader.bytes(length))
             for role, index, address, length in records]
    if reader.at < len(data):
        refuse(75)
    return Image(protocol, registers, parts)


def read_registers(reader: Reader, version: int, protocol: int) -> Dict[str, int]:
    """The registers that the protocol gives: of 32 bits, whatever their width in the image, or any
    numbers of 64 bits."""
    if protocol == LINUX64:
        return {name: reader.u64() for name in WIDE_REGISTERS}
    if version == OLD:
        return {name: reader.u32() for name in REGISTERS}
    registers = {}
    for name in FIELDS[version]:
        value = reader.u64()
        if value >= (1 if name is ABSENT else MAX_NARROW):
            refuse(73)
        if name is not ABSENT:
            registers[name] = value
    return registers


def read_records(reader: Reader, count: int, most_role: int) -> List[Tuple[int, int, int, int]]:
    """Role, index, address and length of each part."""
    records = []
    end = 0
    for i in range(count):
        role = reader.u32()
        if not 1 <= role <= most_role:
            refuse(74, i)
        index = reader.u32()
        address = reader.u64()
        if address < end:
            refuse(74, i)
        length = reader.u64()
        end = address + length
        if length == 0 or end > MAX_ADDRESS:
            refuse(74, i)
        records.append((role, index, address, length))
    return records


def convert(data: bytes) -> bytes:
    """An image in the version that is written; refused as `read` refuses it."""
    return spell_read(read(data))
