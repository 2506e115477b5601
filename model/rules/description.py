"""The description of a boot, in TOML. FORMATS.md "The description"."""

from typing import Any, Callable, Dict, List, NamedTuple, NoReturn, Optional, Tuple

from .firmware import Color, Efi, Firmware, Screen, Smbios
from .handover import MULTIBOOT2
from .keys import (AVOID_KEYS, EFI_KEYS, FILE_KEYS, FIRMWARE_KEYS, LINUX_KEYS, MODULE_KEYS,
                   MULTIBOOT2_KEYS, NUMBER_LIMIT, REGION_KEYS, SCREEN_KEYS, SMBIOS_KEYS, TABLE, Key,
                   is_array, protocol_of, root_keys)
from .machine import KINDS, Machine, Range, Region, check
from .refusals import Refused

try:
    import tomllib
except ImportError:  # before Python 3.11
    tomllib = None


class BadDescription(Exception):
    """The argument says why, for a reader; no rule fixes it."""


class MenuEntry(NamedTuple):
    title: str
    protocol: int  # 1 Multiboot2, 2 Linux, 3 the 64-bit entry of Linux
    kernel: str  # the name of a file, or a path
    line: bytes
    modules: List[Tuple[str, bytes]]  # file, line
    initrd: Optional[str]
    rsdp_old: Optional[bytes]
    rsdp_new: Optional[bytes]


class Description(NamedTuple):
    machine: Machine
    fill: int
    default: int
    fallbacks: List[int]
    files: Dict[str, bytes]
    entries: List[MenuEntry]


def bad(why: str) -> NoReturn:
    raise BadDescription(why)


def read(text: bytes) -> Description:
    """Raises BadDescription. A machine that is refused is a bad description too."""
    described = describe(toml_tree(text))
    try:
        check(described.machine)
    except Refused as refused:
        bad(f"machine {refused.args}")
    return described


def toml_tree(text: bytes) -> dict:
    if tomllib is None:
        raise SystemExit("tomllib is not at hand: descriptions need Python 3.11")
    try:
        tree = tomllib.loads(text.decode("utf-8"))
    except (ValueError, RecursionError) as error:  # not UTF-8, not TOML
        bad(str(error))
    if not fits(tree):
        bad("an integer beyond 64 bits")  # which a reader of TOML must refuse
    return tree


def fits(value) -> bool:
    """Whether each integer in it has 64 bits with its sign."""
    if isinstance(value, dict):
        return all(fits(item) for item in value.values())
    if isinstance(value, list):
        return all(fits(item) for item in value)
    return not isinstance(value, int) or -NUMBER_LIMIT <= value < NUMBER_LIMIT


# ---- tables


def describe(tree: dict) -> Description:
    check_keys(tree, root_keys(entry_count(tree)))
    regions = [region_in(table) for table in tables(tree, "region")]
    named = [file_in(table) for table in tables(tree, "file")]
    files = dict(named)
    if len(files) != len(named):
        bad("two files of one name")
    entries = [entry_in(table) for table in tables(tree, "entry")]
    start, end = tree["pool"]
    machine = Machine(tree["size"], regions, (start, end), firmware_in(tree))
    return Description(machine, tree.get("fill", 0), tree.get("default", 0),
                       tree.get("fallback", []), files, entries)


def entry_count(tree: dict) -> int:
    return len(tree["entry"]) if is_array(tree.get("entry")) else 0


def region_in(table: dict) -> Region:
    check_keys(table, REGION_KEYS)
    return Region(table["base"], table["length"], KINDS[table["kind"]])


def firmware_in(tree: dict) -> Firmware:
    """Of the tables `firmware` and `avoid`, which may be missing."""
    table = tree.get("firmware", {})
    check_keys(table, FIRMWARE_KEYS)
    avoided = [avoid_in(item) for item in tables(tree, "avoid")]
    return Firmware(table_in(table, "screen", SCREEN_KEYS, screen_in), table.get("rsdp"),
                    table_in(table, "efi", EFI_KEYS, efi_in),
                    table_in(table, "smbios", SMBIOS_KEYS, smbios_in), avoided)


def table_in(table: dict, key: str, keys: List[Key], told_in: Callable[[dict], Any]) -> Any:
    """What a table in another tells, None without it."""
    if key not in table:
        return None
    check_keys(table[key], keys)
    return told_in(table[key])


def screen_in(table: dict) -> Screen:
    colors = [Color(*table[color]) for color in ("red", "green", "blue")]
    return Screen(*(table[key] for key in ("base", "pitch", "width", "height", "depth")), *colors)


def efi_in(table: dict) -> Efi:
    return Efi(table["bits"], table["system_table"], table["map_address"],
               bytes.fromhex(table["map"]), table["descriptor_size"], table["descriptor_version"],
               table.get("secure_boot", 0))


def smbios_in(table: dict) -> Smbios:
    return Smbios(table["major"], table["minor"], bytes.fromhex(table["tables"]))


def avoid_in(table: dict) -> Range:
    check_keys(table, AVOID_KEYS)
    return table["base"], table["base"] + table["length"]


def file_in(table: dict) -> Tuple[str, bytes]:
    check_keys(table, FILE_KEYS)
    return table["name"], bytes.fromhex(table["hex"])


def entry_in(table: dict) -> MenuEntry:
    protocol = protocol_of(table.get("protocol"))
    if protocol is None:
        bad("protocol")
    check_keys(table, MULTIBOOT2_KEYS if protocol == MULTIBOOT2 else LINUX_KEYS)
    return MenuEntry(
        title=table["title"],
        protocol=protocol,
        kernel=table["kernel"],
        line=line_in(table),
        modules=[module_in(module) for module in tables(table, "module")],
        initrd=table.get("initrd"),
        rsdp_old=copy_in(table, "rsdp_old"),
        rsdp_new=copy_in(table, "rsdp_new"),
    )


def copy_in(table: dict, key: str) -> Optional[bytes]:
    return bytes.fromhex(table[key]) if key in table else None


def module_in(table: dict) -> Tuple[str, bytes]:
    check_keys(table, MODULE_KEYS)
    return table["file"], line_in(table)


def line_in(table: dict) -> bytes:
    return table.get("line", "").encode("utf-8")


def check_keys(table: dict, keys: List[Key]) -> None:
    known = [key.name for key in keys]
    for name in table:
        if name not in known:
            bad(f"unknown key {name}")
    for key in keys:
        if key.name not in table:
            if key.is_required:
                bad(f"missing key {key.name}")
            continue
        value = table[key.name]
        if not key.allowed.holds(value):
            bad(f"{key.name} is not {key.allowed.told}")
        if key.items is not None and not all(key.items.holds(item) for item in value):
            bad(f"{key.name} has an item that is not {key.items.told}")


def tables(table: dict, key: str) -> List[dict]:
    items = table.get(key, [])
    if not all(TABLE.holds(item) for item in items):
        bad(f"{key} has an item that is no table")
    return items
