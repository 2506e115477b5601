"""Boot information, written and read. FORMATS.md "Boot information"; MB2 3.6."""

from typing import List, NamedTuple, Optional, Tuple

from . import told_tags
from .firmware import EfiTables, Screen, Smbios
from .machine import REGION_LIMIT, Run
from .numbers import long, round_up, u32, u64, word
from .refusals import refuse
from .told_tags import EFI_MAP, SCREEN, SMBIOS, TABLE_TYPES

LINE, LOADER, MODULE, MEMORY, MAP, OLD_RSDP, NEW_RSDP, LOAD_BASE = 1, 2, 3, 4, 6, 14, 15, 21
END = 0
MAX_LOW_KIB = 640


class Module(NamedTuple):
    start: int  # mod_start
    end: int  # mod_end
    line: bytes


class Information(NamedTuple):
    line: bytes
    modules: List[Module]
    low_kib: int
    high_kib: int
    runs: List[Run]
    load_base: Optional[int] = None
    old_rsdp: Optional[bytes] = None
    new_rsdp: Optional[bytes] = None
    loader: bytes = b"bootcore"
    screen: Optional[Screen] = None
    efi: Optional[EfiTables] = None
    smbios: Optional[Smbios] = None


# ---- written


def spell(facts: Information) -> bytes:
    """total_size bytes, in the order of the table of tags."""
    bodies: List[Tuple[int, bytes]] = [(LINE, facts.line + b"\0"), (LOADER, facts.loader + b"\0")]
    for module in facts.modules:
        body = word(module.start) + word(module.end) + module.line + b"\0"
        bodies.append((MODULE, body))
    bodies.append((MEMORY, word(facts.low_kib) + word(facts.high_kib)))
    bodies.append((MAP, word(24) + word(0) + b"".join(spell_run(run) for run in facts.runs)))
    if facts.screen is not None:
        bodies.append(told_tags.screen_body(facts.screen))
    if facts.efi is not None:
        bodies.append(told_tags.table_body(facts.efi))
    if facts.smbios is not None:
        bodies.append(told_tags.smbios_body(facts.smbios))
    if facts.old_rsdp is not None:
        bodies.append((OLD_RSDP, facts.old_rsdp))
    if facts.new_rsdp is not None:
        bodies.append((NEW_RSDP, facts.new_rsdp))
    if facts.efi is not None:
        bodies.append(told_tags.efi_map_body(facts.efi))
    if facts.load_base is not None:
        bodies.append((LOAD_BASE, word(facts.load_base)))
    bodies.append((END, b""))
    tags = b"".join(spell_tag(type_, body) for type_, body in bodies)
    return word(8 + len(tags)) + word(0) + tags


def spell_run(run: Run) -> bytes:
    return long(run.start) + long(run.end - run.start) + word(run.kind) + word(0)


def spell_tag(type_: int, body: bytes) -> bytes:
    """A tag and the zeros up to the next multiple of 8."""
    tag = word(type_) + word(8 + len(body)) + body
    return tag + bytes(-len(tag) % 8)


# ---- read


class Reader:
    """Goes over the tags in their order; `at` is where the next one must stand."""

    def __init__(self, data: bytes):
        self.data = data
        self.at = 8

    def is_next(self, type_: int) -> bool:
        """Whether a tag of this type stands next; at the end or near it none does."""
        return self.at + 8 <= len(self.data) and u32(self.data, self.at) == type_

    def tag(self, type_: int) -> Tuple[int, bytes]:
        """The next tag, which must be of this type: its offset and its body."""
        data, at = self.data, self.at
        if at >= len(data):
            refuse(64, at)  # no bytes are left
        if at + 8 > len(data):
            refuse(63, at)
        if u32(data, at) != type_:
            refuse(64, at)
        size = u32(data, at + 4)
        if size < 8 or at + size > len(data):
            refuse(63, at)
        # The end may cut the padding: then nothing is left for the next tag, at the padded place.
        self.at = round_up(at + size, 8)
        if any(data[at + size:self.at]):
            refuse(63, at)
        return at, data[at + 8:at + size]


def read(data: bytes) -> Information:
    """Refused with 61, 62, 63 and an offset, 64 and an offset."""
    if len(data) < 16 or u32(data, 0) != len(data):
        refuse(61)
    if u32(data, 4) != 0:
        refuse(62)
    reader = Reader(data)
    line = text(*reader.tag(LINE))
    loader = text(*reader.tag(LOADER))
    modules = []
    while reader.is_next(MODULE):
        modules.append(module_of(*reader.tag(MODULE)))
    low, high = memory_of(*reader.tag(MEMORY))
    runs = map_of(*reader.tag(MAP))
    screen = told_tags.screen_of(*reader.tag(SCREEN)) if reader.is_next(SCREEN) else None
    bits = next((bits for bits, type_ in TABLE_TYPES.items() if reader.is_next(type_)), None)
    table = told_tags.table_of(bits, *reader.tag(TABLE_TYPES[bits])) if bits else None
    smbios = told_tags.smbios_of(*reader.tag(SMBIOS)) if reader.is_next(SMBIOS) else None
    old_rsdp = reader.tag(OLD_RSDP)[1] if reader.is_next(OLD_RSDP) else None
    new_rsdp = reader.tag(NEW_RSDP)[1] if reader.is_next(NEW_RSDP) else None
    efi = EfiTables(bits, table, *told_tags.efi_map_of(*reader.tag(EFI_MAP))) if bits else None
    load_base = load_base_of(*reader.tag(LOAD_BASE)) if reader.is_next(LOAD_BASE) else None
    at, body = reader.tag(END)
    if body:
        refuse(63, at)
    if reader.at < len(data):
        refuse(64, reader.at)  # bytes after the end tag
    return Information(line, modules, low, high, runs, load_base, old_rsdp, new_rsdp, loader,
                       screen, efi, smbios)


def text(at: int, body: bytes) -> bytes:
    """A text has one zero byte, at its end."""
    if body.find(b"\0") != len(body) - 1 or not body:
        refuse(63, at)
    return body[:-1]


def module_of(at: int, body: bytes) -> Module:
    if len(body) < 9:
        refuse(63, at)
    start, end = u32(body, 0), u32(body, 4)
    if end < start:
        refuse(63, at)
    return Module(start, end, text(at, body[8:]))


def memory_of(at: int, body: bytes) -> Tuple[int, int]:
    if len(body) != 8 or u32(body, 0) > MAX_LOW_KIB:
        refuse(63, at)
    return u32(body, 0), u32(body, 4)


def map_of(at: int, body: bytes) -> List[Run]:
    if len(body) < 8 or u32(body, 0) != 24 or u32(body, 4) != 0 or (len(body) - 8) % 24 != 0:
        refuse(63, at)
    return [run_of(at, body[i:i + 24]) for i in range(8, len(body), 24)]


def run_of(at: int, entry: bytes) -> Run:
    base, length, kind, reserved = u64(entry, 0), u64(entry, 8), u32(entry, 16), u32(entry, 20)
    if not 1 <= kind <= 5 or reserved != 0 or base + length > REGION_LIMIT:
        refuse(63, at)
    return Run(base, base + length, kind)


def load_base_of(at: int, body: bytes) -> int:
    if len(body) != 4:
        refuse(63, at)
    return u32(body, 0)
