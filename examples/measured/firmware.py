"""What firmware tells beside memory, as a description has it. The program knows the limits of it."""

from typing import Any, Dict, List, NamedTuple, Optional

from limits import TOLD_BYTES
from reading import fault
from tables import Value, pair_lines, tables, two_values, value


class Region(NamedTuple):
    base: int
    length: int
    kind: str  # empty of a range to avoid


class Firmware(NamedTuple):
    """Each of the tables has its keys in the order in which they are written."""

    rsdp: Optional[int]
    tables: Dict[str, Dict[str, Value]]
    avoided: List[Region]

    def sizes(self) -> Dict[str, Value]:
        """Of what has no bytes here, by the tables' names."""
        return {name: self.tables[name][f"{key}_size"] for name, key in SIZED.items() if name in self.tables}

    def with_bytes(self, held: Dict[str, bytes]) -> "Firmware":
        """As `bootcore digest` takes it: in place of sizes bytes."""
        made = dict(self.tables)
        for name, each in held.items():
            size = f"{SIZED[name]}_size"
            made[name] = {SIZED[name] if key == size else key: each.hex() if key == size else it for key, it in made[name].items()}
        return self._replace(tables=made)


TABLES = {
    "screen": ["base", "pitch", "width", "height", "depth", "red", "green", "blue"],
    "efi": ["bits", "system_table", "map_size", "map_address", "descriptor_size", "descriptor_version", "secure_boot"],
    "smbios": ["major", "minor", "tables_size"],
}
COLORS = ["red", "green", "blue"]
SIZED = {"efi": "map", "smbios": "tables"}  # whose bytes have events of their own


def table_of(name: str, table: Dict[str, Any]) -> Dict[str, Value]:
    pairs: Dict[str, Value] = {}
    for key in TABLES[name]:
        pairs[key] = two_values(table, key, "it") if key in COLORS else value(table, key, int, "it")
    if name in SIZED and not 0 < table[f"{SIZED[name]}_size"] <= TOLD_BYTES:
        fault(f"its {SIZED[name]}_size is 0, or above {TOLD_BYTES}")
    return pairs


def regions_of(table: Dict[str, Any], key: str, kinds: List[str]) -> List[Region]:
    before = Region(0, 0, "none")
    found: List[Region] = []
    for it in tables(table, key, "it"):
        each = Region(value(it, "base", int, "it"), value(it, "length", int, "it"), value(it, "kind", str, "it", ""))
        end = before.base + before.length
        if each.length <= 0 or each.kind not in kinds or each.base < end or (each.base == end and each.kind == before.kind):
            fault(f"its {key} at {each.base:#x} is empty, of another kind, out of order, or one with that before it")
        before = each
        found.append(each)
    return found


def firmware_of(table: Dict[str, Any], is_linux: bool) -> Firmware:
    """An image of Linux has nothing of SMBIOS, so such a description has not either."""
    told = value(table, "firmware", dict, "it", {})
    names = [name for name in TABLES if name in told and not (is_linux and name == "smbios")]
    found = {name: table_of(name, value(told, name, dict, "it")) for name in names}
    return Firmware(value(told, "rsdp", int, "it") if "rsdp" in told else None, found, regions_of(table, "avoid", [""]))


def firmware_lines(firmware: Firmware) -> List[str]:
    lines = ["[firmware]", *pair_lines({"rsdp": firmware.rsdp}), ""] if firmware.rsdp is not None else []
    for name, pairs in firmware.tables.items():
        lines += [f"[firmware.{name}]", *pair_lines(pairs), ""]
    for each in firmware.avoided:
        lines += ["[[avoid]]", *pair_lines({"base": each.base, "length": each.length}), ""]
    return lines
