"""The description of a handover, as its event has it. Nothing hashes this text: only the image shows what it says. So of all texts
that say the same exactly one is accepted: docs/FORMATS.md, "The description of a measured boot"."""

import re
import tomllib
from typing import Any, Dict, List, NamedTuple, NoReturn, Optional, Tuple

from firmware import Firmware, Region, firmware_lines, firmware_of, regions_of
from limits import DESCRIPTION_BYTES
from reading import fault, shown
from tables import bytes_value, pair_lines, tables, text_value, value

KINDS = ["usable", "reserved", "acpi", "nvs", "bad"]
PROTOCOLS = ["multiboot2", "linux", "linux64"]
FRAME = 0x1000
SIZE = 1 << 32  # the boot manager's: the image tells of it only where a part would lie above
ALL_FRAMES = 0xFFFFF000  # no part ends above it
# what any line of the one form looks like: other TOML takes its reader up to a minute
HEADER = r"\[\[(?:region|avoid|entry|entry\.module)\]\]|\[firmware(?:\.(?:screen|efi|smbios))?\]"
NUMBER, TEXT = "0x[0-9a-f]+", r'"(?:[^"\\]|\\.)*"'
LINE = re.compile(rf"(?:{HEADER}|[a-z_0-9]+ = (?:{NUMBER}|{TEXT}|\[{NUMBER}, {NUMBER}\]))?")


class Module(NamedTuple):
    file: str
    line: str


class Described(NamedTuple):
    size: int
    regions: List[Region]
    firmware: Firmware
    title: str
    protocol: str
    kernel: str
    line: str
    rsdp_old: Optional[str]
    rsdp_new: Optional[str]
    modules: List[Module]
    initrd: Optional[str]

    @property
    def ramdisks(self) -> List[str]:
        return self.initrd.split("\n") if self.initrd is not None else []


def pool_of(size: int, regions: List[Region], avoided: List[Region]) -> Tuple[int, int]:
    """The longest run of whole frames that a part may lie in, the lowest of equally long ones. The image does not depend on it."""
    longest = (0, 0)
    for region in regions:
        start, last = max(region.base, FRAME), min(region.base + region.length, size, ALL_FRAMES)
        for end, next_start in [*((it.base, it.base + it.length) for it in avoided), (last, last)]:
            frame, end = (start + FRAME - 1) // FRAME * FRAME, min(end, last) // FRAME * FRAME
            if region.kind == "usable" and end - frame > longest[1] - longest[0]:
                longest = (frame, end)
            start = max(start, next_start)
    return longest


# ---- the writer


def entry_lines(described: Described) -> List[str]:
    pairs: List[Tuple[str, Optional[str]]] = [("title", described.title), ("protocol", described.protocol)]
    pairs += [("kernel", described.kernel), ("line", described.line)]
    pairs += [("rsdp_old", described.rsdp_old), ("rsdp_new", described.rsdp_new), ("initrd", described.initrd)]
    lines = ["[[entry]]", *(f"{key} = {text_value(text)}" for key, text in pairs if text is not None)]
    for module in described.modules:
        lines += ["", "[[entry.module]]", f"file = {text_value(module.file)}", f"line = {text_value(module.line)}"]
    return lines


def written(described: Described) -> bytes:
    start, end = pool_of(described.size, described.regions, described.firmware.avoided)
    lines = [f"size = {described.size:#x}", f"pool = [{start:#x}, {end:#x}]", ""]
    for region in described.regions:
        lines += ["[[region]]", *pair_lines(region._asdict()), ""]
    lines += firmware_lines(described.firmware) + entry_lines(described)
    return "".join(line + "\n" for line in lines).encode()


# ---- the reader


def entry_of(table: Dict[str, Any], size: int, regions: List[Region], firmware: Firmware) -> Described:
    protocol = value(table, "protocol", str, "it")
    for_multiboot2 = protocol == "multiboot2"
    if protocol not in PROTOCOLS:
        fault(f"its protocol is {shown(protocol.encode())}")
    copies = [bytes_value(table, key, "it") if key in table and for_multiboot2 else None for key in ("rsdp_old", "rsdp_new")]
    modules = [Module(value(it, "file", str, "it"), value(it, "line", str, "it")) for it in tables(table, "module", "it") if for_multiboot2]
    initrd = value(table, "initrd", str, "it") if "initrd" in table and not for_multiboot2 else None
    if initrd == "":
        fault("it has an empty initrd")
    title, kernel, line = (value(table, key, str, "it") for key in ("title", "kernel", "line"))
    return Described(size, regions, firmware, title, protocol, kernel, line, copies[0], copies[1], modules, initrd)


def read_description(text: bytes) -> Described:
    """What it says. Its one form is what the writer above makes of that, so nothing else is compared."""
    if len(text) > DESCRIPTION_BYTES:
        fault(f"it has more than {DESCRIPTION_BYTES} bytes")
    try:
        other = next((i for i, line in enumerate(text.decode().split("\n")) if not LINE.fullmatch(line)), None)
        table = tomllib.loads(text.decode()) if other is None else {}
    except (ValueError, RecursionError):
        fault("it is no text of TOML")
    if other is not None:
        fault_in_line(text.split(b"\n"), other)
    entries = tables(table, "entry", "it")
    if len(entries) != 1:
        fault(f"it has {len(entries)} entries")
    size = value(table, "size", int, "it")
    if size != SIZE:
        fault(f"its size is {size:#x}, and that of the boot manager is {SIZE:#x}")
    firmware = firmware_of(table, entries[0].get("protocol") != "multiboot2")
    described = entry_of(entries[0], size, regions_of(table, "region", KINDS), firmware)
    wanted = written(described)
    if text != wanted:
        came, should = text.split(b"\n"), wanted.split(b"\n")
        at = next((i for i, pair in enumerate(zip(came, should)) if pair[0] != pair[1]), min(len(came), len(should)))
        fault_in_line(came, at)
    return described


def fault_in_line(lines: List[bytes], at: int) -> NoReturn:
    fault(f"it is not in its one form: line {at + 1} is {shown(lines[at]) if at < len(lines) else 'missing'}")
