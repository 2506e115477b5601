"""What a boot is, as the pictures need it: read from the lines of `bootcore map` and `bootcore explain`, and from an image's head."""

from __future__ import annotations

import os
import re
import struct
from typing import Dict, List, NamedTuple, Optional, Tuple

# Role 1 of an image's record is the first.
ROLES = ("kernel", "module", "information", "parameters", "line", "gdt", "initrd", "tables")
FILE_ROLES = ("kernel", "module", "initrd")  # of the parts that are made of a file; the loader makes the others

# Of each protocol the registers that hold the address of a part, with that part's role. Another register may hold the number of
# a byte in a part by chance, as EAX does on a machine with memory at 0x36d76289.
POINTERS = {
    "multiboot2": (("eip", "kernel"), ("ebx", "information")),
    "linux": (("eip", "kernel"), ("esi", "parameters"), ("gdt_base", "gdt")),
    "linux64": (("rip", "kernel"), ("rsi", "parameters"), ("cr3", "tables"), ("gdt_base", "gdt")),
}


class BadInput(Exception):
    """An input that the program did not write, or two inputs of different boots; the text says what is wrong."""


class Source(NamedTuple):
    """The bytes that a part takes of a file: pieces of an offset and a length. Zeros fill the rest."""

    file: int
    pieces: Tuple[Tuple[int, int], ...]

    @property
    def taken(self) -> int:
        return sum(length for _, length in self.pieces)


class Part(NamedTuple):
    """A part in memory. Without a source the loader made it, or its source is not known."""

    role: str
    index: int
    address: int
    length: int
    source: Optional[Source] = None

    @property
    def end(self) -> int:
        return self.address + self.length

    @property
    def place(self) -> Tuple[str, int, int, int]:
        """What a record of an image has."""
        return self.role, self.index, self.address, self.length


class File(NamedTuple):
    name: str
    length: int


class Handover(NamedTuple):
    protocol: str
    parts: Tuple[Part, ...]
    registers: Dict[str, int]


class Boot(NamedTuple):
    """The boot that `bootcore explain` foretells: the handover, the entry, its files, and their frames in the pool."""

    handover: Handover
    entry: int
    title: str
    files: Dict[int, File]
    frames: Tuple[int, int]


class Pointer(NamedTuple):
    """A register that holds an address in a part."""

    register: str
    value: int
    part: Part


def pointers_of(handover: Handover) -> Tuple[Pointer, ...]:
    return tuple(_pointer(handover, register, role) for register, role in POINTERS[handover.protocol])


def _pointer(handover: Handover, register: str, role: str) -> Pointer:
    value = handover.registers.get(register)
    if value is None:
        raise BadInput(f"the protocol {handover.protocol} has the register {register}, which is missing")
    for part in handover.parts:
        if part.role == role and part.address <= value < part.end:
            return Pointer(register, value, part)
    raise BadInput(f"the register {register} is {value:#x}, which lies in no part {role}")


# ---- the lines of `bootcore map`

_RUN = re.compile(r"([0-9a-f]{16}) ([0-9a-f]{16}) (usable|reserved|acpi|nvs|bad)")
_LAST = re.compile(r"low ([0-9]+)\nhigh ([0-9]+)\npool ([0-9a-f]{16}) ([0-9a-f]{16})\n")


class Run(NamedTuple):
    start: int
    end: int
    kind: str


class MemoryMap(NamedTuple):
    """The normal map of a machine: runs that ascend and do not overlap, the two sizes in KiB, and the pool."""

    runs: Tuple[Run, ...]
    low: int
    high: int
    pool: Tuple[int, int]

    @property
    def pool_frames(self) -> int:
        return (self.pool[1] - self.pool[0]) // 4096


def read_map(text: str) -> MemoryMap:
    last = _LAST.search(text)
    if last is None or last.end() != len(text):
        raise BadInput("the map does not end with its lines low, high and pool")
    lines = text[: last.start()].split("\n")[:-1]
    low, high = int(last.group(1)), int(last.group(2))
    pool = int(last.group(3), 16), int(last.group(4), 16)
    return MemoryMap(tuple(_runs(lines)), low, high, pool)


def _runs(lines: List[str]) -> List[Run]:
    runs: List[Run] = []
    for number, line in enumerate(lines, 1):
        form = _RUN.fullmatch(line)
        if form is None:
            raise BadInput(f"line {number} of the map is none of `bootcore map`: {line!r}")
        run = Run(int(form.group(1), 16), int(form.group(2), 16), form.group(3))
        if run.start >= run.end or (runs and run.start < runs[-1].end):
            raise BadInput(f"line {number} of the map does not ascend: {line!r}")
        runs.append(run)
    return runs


# ---- the lines of `bootcore explain`

# The details of a refusal, and the hints: none is drawn.
_PASSED = re.compile(r"(no file [0-9]+ |no place |not usable |hint: ).*|frames [0-9]+ wanted, [0-9]+ in all")
_FORMS = {
    "entry": re.compile(r"entry ([0-9]+) (.+)"),
    "file": re.compile(r"file ([0-9]+) ([0-9]+) [0-9]+ (.*)"),
    "refused": re.compile(r"(refused [0-9]+ .+)"),
    "booted": re.compile(r"booted ([0-9]+) (.+)"),
    "protocol": re.compile(f"protocol ({'|'.join(POINTERS)})"),
    "part": re.compile(f"part ({'|'.join(ROLES)}) ([0-9]+) ([0-9a-f]+) ([0-9]+) from (.+)"),
    "register": re.compile(r"register ([a-z0-9_]+) ([0-9a-f]{16})"),
    "frames": re.compile(r"frames ([0-9]+) wanted, [0-9]+ open, ([0-9]+) in all"),
    "no": re.compile("no entry left"),
}
_SOURCE = re.compile(r"file ([0-9]+)((?:,? at [0-9]+, [0-9]+ bytes)+)")
_PIECE = re.compile(r"at ([0-9]+), ([0-9]+) bytes")


class Explained(NamedTuple):
    """The boot, if an entry would be booted, and the lines of the refusals before it."""

    boot: Optional[Boot]
    refusals: Tuple[str, ...]


class _Reader:
    """Takes line after line. The files stay those of the last attempt: that entry would be booted."""

    def __init__(self) -> None:
        self.files: Dict[int, File] = {}
        self.refusals: List[str] = []
        self.booted: Optional[Tuple[int, str]] = None
        self.protocol = ""
        self.parts: List[Part] = []
        self.registers: Dict[str, int] = {}
        self.frames: Optional[Tuple[int, int]] = None
        self.none_left = False

    def take(self, line: str) -> bool:
        """Whether the line is one of `bootcore explain`."""
        if _PASSED.fullmatch(line):
            return True
        word = line.split(" ", 1)[0]
        form = _FORMS[word].fullmatch(line) if word in _FORMS else None
        if form is None:
            return False
        getattr(self, "_take_" + word)(*form.groups())
        return True

    def _take_entry(self, _index: str, _title: str) -> None:
        self.files = {}

    def _take_file(self, place: str, length: str, name: str) -> None:
        self.files[int(place)] = File(name, int(length))

    def _take_refused(self, line: str) -> None:
        self.refusals.append(line)

    def _take_booted(self, index: str, title: str) -> None:
        self.booted = int(index), title

    def _take_protocol(self, name: str) -> None:
        self.protocol = name

    def _take_part(self, role: str, index: str, address: str, length: str, source: str) -> None:
        self.parts.append(Part(role, int(index), int(address, 16), int(length), _source(source)))

    def _take_register(self, name: str, value: str) -> None:
        self.registers[name] = int(value, 16)

    def _take_frames(self, wanted: str, in_all: str) -> None:
        self.frames = int(wanted), int(in_all)

    def _take_no(self) -> None:
        self.none_left = True

    def boot(self) -> Optional[Boot]:
        if self.booted is None and self.none_left:
            return None
        if self.booted is None or not self.protocol or not self.parts or self.frames is None:
            raise BadInput("the explanation is not whole: it has neither a handover nor the line 'no entry left'")
        for part in self.parts:
            if (part.source is None) == (part.role in FILE_ROLES):
                raise BadInput(f"the part {part.role} {part.index} has a source that its role can't have")
            if part.source is not None and part.source.file not in self.files:
                raise BadInput(f"the part {part.role} {part.index} is of file {part.source.file}, which is not listed")
        handover = Handover(self.protocol, tuple(self.parts), self.registers)
        return Boot(handover, *self.booted, self.files, self.frames)


def read_explained(text: str) -> Explained:
    reader = _Reader()
    # no splitlines: a file's name may hold what that takes for a line's end
    for number, line in enumerate(text.split("\n")[:-1], 1):
        if not reader.take(line):
            raise BadInput(f"line {number} of the explanation is none of `bootcore explain`: {line!r}")
    return Explained(reader.boot(), tuple(reader.refusals))


def _source(words: str) -> Optional[Source]:
    if words == "here":
        return None
    form = _SOURCE.fullmatch(words)
    if form is None:
        raise BadInput(f"no part comes from {words!r}")
    pieces = tuple((int(offset), int(length)) for offset, length in _PIECE.findall(form.group(2)))
    return Source(int(form.group(1)), pieces)


# ---- the head and the records of an image, of version 1 or 2: the bytes of the parts are not read

_PROTOCOLS = ("multiboot2", "linux", "linux64")
_LAST_NAMES = ("cs", "ds", "es", "fs", "gs", "ss", "gdt_base", "gdt_limit", "a20")
_GENERAL = ("ip", "ax", "bx", "cx", "dx", "si", "di", "bp", "sp")
_NARROW = tuple("e" + name for name in _GENERAL) + ("eflags", "cr0") + _LAST_NAMES
_ADDED = tuple(f"r{number}" for number in range(8, 16))
_WIDE = tuple("r" + name for name in _GENERAL) + _ADDED + ("rflags", "cr0", "cr3", "cr4", "efer") + _LAST_NAMES
_ONLY_WIDE = _ADDED + ("cr3", "cr4", "efer")
_HEADS = {1: struct.Struct("<8sII20III"), 2: struct.Struct("<8sII31QII")}
_RECORD = struct.Struct("<IIQQ")
_MOST_PARTS = 256


def read_image(path: str) -> Handover:
    with open(path, "rb") as image:
        start = image.read(12)
        version = int.from_bytes(start[8:12], "little")
        if start[:8] != b"BLIMAGE\0" or version not in _HEADS:
            raise BadInput(f"{path} is no image of version 1 or 2")
        head = _HEADS[version]
        fields = head.unpack(_whole(start + image.read(head.size - 12), head.size, path))
        count = fields[-2]
        if count > _MOST_PARTS:
            raise BadInput(f"{path} has {count} parts, more than {_MOST_PARTS}")
        records = _whole(image.read(_RECORD.size * count), _RECORD.size * count, path)
    parts = [_part(record, path) for record in _RECORD.iter_unpack(records)]
    length = head.size + len(records) + sum(part.length for part in parts)
    if os.path.getsize(path) != length:
        raise BadInput(f"{path} has {os.path.getsize(path)} bytes, and its records say {length}")
    return Handover(_protocol(fields[2], path), tuple(parts), _registers(version, fields[2], fields[3:-2]))


def check_image(explained: Optional[Handover], image: Handover) -> None:
    """Refuses an image that is not of the explained boot."""
    if explained is None:
        raise BadInput("no entry is booted in the explanation, and there is an image")
    found = _differences(explained, image)
    if found:
        raise BadInput("the image is not of the explained boot:\n  " + "\n  ".join(found))


def _differences(explained: Handover, image: Handover) -> List[str]:
    found = []
    if explained.protocol != image.protocol:
        found.append(f"protocol: {explained.protocol} explained, {image.protocol} in the image")
    for name in sorted({**explained.registers, **image.registers}):
        pair = explained.registers.get(name), image.registers.get(name)
        if pair[0] != pair[1]:
            found.append("register {}: {} explained, {} in the image".format(name, *map(_shown, pair)))
    expected, recorded = [part.place for part in explained.parts], [part.place for part in image.parts]
    found += [f"{_place(place)}: explained, not in the image" for place in expected if place not in recorded]
    found += [f"{_place(place)}: in the image, not explained" for place in recorded if place not in expected]
    if not found and expected != recorded:
        found.append("the parts: in another order in the image")
    return found


def _shown(value: object) -> str:
    return "missing" if value is None else f"{value:#x}"


def _place(place: Tuple[str, int, int, int]) -> str:
    return "part {} {} at {:#010x}, {} bytes".format(*place)


def _whole(found: bytes, size: int, path: str) -> bytes:
    if len(found) != size:
        raise BadInput(f"{path} ends within its head or its records")
    return found


def _protocol(number: int, path: str) -> str:
    if not 1 <= number <= len(_PROTOCOLS):
        raise BadInput(f"{path} has the protocol {number}")
    return _PROTOCOLS[number - 1]


def _part(record: Tuple[int, ...], path: str) -> Part:
    role, index, address, length = record
    if not 1 <= role <= len(ROLES):
        raise BadInput(f"{path} has a part of the role {role}")
    return Part(ROLES[role - 1], index, address, length)


def _registers(version: int, protocol: int, values: Tuple[int, ...]) -> Dict[str, int]:
    """By the names that the protocol has; version 2 holds 32-bit registers in the fields of the wide ones."""
    if version == 1:
        return dict(zip(_NARROW, values))
    wide = dict(zip(_WIDE, values))
    if protocol == 3:
        return wide
    return dict(zip(_NARROW, (wide[name] for name in _WIDE if name not in _ONLY_WIDE)))
