"""What the values of a description must be, and the keys of its tables. FORMATS.md "The
description"."""

import re
from typing import Any, Callable, List, NamedTuple, Optional, Tuple

from .entry import is_copy
from .firmware import BITS, MAX_SECURE_BOOT
from .handover import PROTOCOL_NAMES
from .machine import KINDS

NUMBER_LIMIT = 1 << 63
MAX_ENTRIES, MAX_MODULES = 32, 64


class Allowed(NamedTuple):
    """What a value must be, and whether one is; of an array, but for its items."""
    told: str
    holds: Callable[[Any], bool]
    words: Tuple[str, ...] = ()  # if it must be one of these, in the order of the page


class Key(NamedTuple):
    name: str
    is_required: bool
    allowed: Allowed
    items: Optional[Allowed] = None  # what each item of an array must be that is no table


# ---- what a value must be


def is_number(value) -> bool:
    return type(value) is int and 0 <= value < NUMBER_LIMIT


def is_text(value) -> bool:
    return isinstance(value, str)


def is_array(value) -> bool:
    return isinstance(value, list)


def is_hex(value) -> bool:
    return is_text(value) and re.fullmatch("([0-9a-fA-F]{2})*", value) is not None


def protocol_of(value) -> Optional[int]:
    words = {word: protocol for protocol, word in PROTOCOL_NAMES.items()}
    return words.get(value) if is_text(value) else None


NUMBER = Allowed("a number of 0 or more", is_number)
TWO_NUMBERS = Allowed("an array of two numbers", lambda v: is_array(v) and len(v) == 2)
BYTE = Allowed("a number from 0 to 255", lambda v: is_number(v) and v <= 255)
TWO_BYTES = Allowed("an array of two numbers from 0 to 255",
                    lambda v: TWO_NUMBERS.holds(v) and all(BYTE.holds(item) for item in v))
WORD = Allowed("a number from 0 to 4294967295", lambda v: is_number(v) and v < 1 << 32)
BITS_NUMBER = Allowed("32 or 64", lambda v: is_number(v) and v in BITS)
SECURE_BOOT = Allowed("a number from 0 to 3", lambda v: is_number(v) and v <= MAX_SECURE_BOOT)
NUMBERS = Allowed("an array of numbers", is_array)
TABLES = Allowed("an array of tables", is_array)
ENTRIES = Allowed("an array of 1 to 32 tables",
                  lambda v: is_array(v) and 1 <= len(v) <= MAX_ENTRIES)
MODULES = Allowed("an array of at most 64 tables",
                  lambda v: is_array(v) and len(v) <= MAX_MODULES)
TABLE = Allowed("a table", lambda v: isinstance(v, dict))
TEXT = Allowed("a text", is_text)
TITLE = Allowed("a text of 1 to 64 printable characters of ASCII",
                lambda v: is_text(v) and re.fullmatch("[ -~]{1,64}", v) is not None)
KIND = Allowed('"usable", "reserved", "acpi", "nvs" or "bad"', lambda v: is_text(v) and v in KINDS,
               ("usable", "reserved", "acpi", "nvs", "bad"))
PROTOCOL = Allowed('"multiboot2", "linux" or "linux64"', lambda v: protocol_of(v) is not None,
                   ("multiboot2", "linux", "linux64"))
HEX = Allowed("a text of hexadecimal digits, an even number", is_hex)
COPY = Allowed("a text of hexadecimal digits, for 1 to 256 bytes",
               lambda v: is_hex(v) and is_copy(bytes.fromhex(v)))


def index_below(count: int) -> Allowed:
    return Allowed(f"the index of an entry, below {count}", lambda v: is_number(v) and v < count)


# ---- the keys of each table


def root_keys(count: int) -> List[Key]:
    """Of a description that has so many entries."""
    return [Key("size", True, NUMBER), Key("pool", True, TWO_NUMBERS, NUMBER),
            Key("fill", False, BYTE), Key("default", False, index_below(count)),
            Key("fallback", False, NUMBERS, index_below(count)), Key("region", False, TABLES),
            Key("file", False, TABLES), Key("entry", True, ENTRIES),
            Key("firmware", False, TABLE), Key("avoid", False, TABLES)]


REGION_KEYS = [Key("base", True, NUMBER), Key("length", True, NUMBER), Key("kind", True, KIND)]
AVOID_KEYS = [Key("base", True, NUMBER), Key("length", True, NUMBER)]
FIRMWARE_KEYS = [Key("rsdp", False, NUMBER), Key("screen", False, TABLE), Key("efi", False, TABLE),
                 Key("smbios", False, TABLE)]
SCREEN_KEYS = [Key("base", True, NUMBER), Key("pitch", True, WORD), Key("width", True, WORD),
               Key("height", True, WORD), Key("depth", True, BYTE),
               *(Key(color, True, TWO_BYTES) for color in ("red", "green", "blue"))]
EFI_KEYS = [Key("bits", True, BITS_NUMBER), Key("system_table", True, NUMBER),
            Key("map", True, HEX), Key("map_address", True, NUMBER),
            Key("descriptor_size", True, WORD), Key("descriptor_version", True, WORD),
            Key("secure_boot", False, SECURE_BOOT)]
SMBIOS_KEYS = [Key("major", True, BYTE), Key("minor", True, BYTE), Key("tables", True, HEX)]
FILE_KEYS = [Key("name", True, TEXT), Key("hex", True, HEX)]
ENTRY_KEYS = [Key("title", True, TITLE), Key("protocol", True, PROTOCOL),
              Key("kernel", True, TEXT), Key("line", False, TEXT)]
MULTIBOOT2_KEYS = ENTRY_KEYS + [Key("module", False, MODULES), Key("rsdp_old", False, COPY),
                                Key("rsdp_new", False, COPY)]
LINUX_KEYS = ENTRY_KEYS + [Key("initrd", False, TEXT)]
MODULE_KEYS = [Key("file", True, TEXT), Key("line", False, TEXT)]
