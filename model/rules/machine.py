"""The machine: its size, its regions, its pool, what its firmware tells. BOOT-RULES.md "The
machine", "What firmware tells"."""

from typing import List, NamedTuple, Optional, Tuple

from .firmware import (END_LIMIT, MAX_AVOIDED, NO_FIRMWARE, RSDP_LENGTH, SYSTEM_TABLE_LENGTH,
                       Firmware, efi_fault, is_smbios_size, screen_fault)
from .numbers import FRAME
from .refusals import refuse

USABLE, RESERVED, ACPI, NVS, BAD = 1, 2, 3, 4, 5
KINDS = {"usable": 1, "reserved": 2, "acpi": 3, "nvs": 4, "bad": 5}
KIND_NAMES = {number: name for name, number in KINDS.items()}

LEAST_SIZE, MAX_SIZE = 1 << 20, 1 << 32
MAX_REGIONS = 128
REGION_LIMIT = 1 << 52
FIRST_USABLE = 4096
USABLE_LIMIT = 0xFFFFF000

Range = Tuple[int, int]  # start and end; the end is not one of its addresses


class Region(NamedTuple):
    base: int
    length: int
    kind: int


class Run(NamedTuple):
    """Addresses of one kind side by side, from start up to end."""
    start: int
    end: int
    kind: int


class Machine(NamedTuple):
    size: int
    regions: List[Region]
    pool: Range
    firmware: Firmware = NO_FIRMWARE


def is_size(size: int) -> bool:
    return LEAST_SIZE <= size <= MAX_SIZE and size % FRAME == 0


def check(machine: Machine) -> Machine:
    """The machine, or the first of its faults: refused with 1, 3, 2 and i, or 4, in this order, and
    then with 6 to 19 for what its firmware tells."""
    if not is_size(machine.size):
        refuse(1)
    if len(machine.regions) > MAX_REGIONS:
        refuse(3)
    for i, region in enumerate(machine.regions):
        if region.base + region.length > REGION_LIMIT:
            refuse(2, i)
    start, end = machine.pool
    if start > end or start % FRAME != 0 or end % FRAME != 0:
        refuse(4)
    if not is_usable(machine, start, end):
        refuse(4)
    check_firmware(machine, machine.firmware)
    return machine


def check_firmware(machine: Machine, told: Firmware) -> None:
    """What firmware tells lies apart from what a kernel is told of as usable memory, also above the
    machine's size: neither a part nor what a kernel lays into its memory lies there."""
    if told.screen is not None:
        refuse_for(screen_fault(told.screen))
        refuse_usable(machine, told.screen.base, told.screen.end, 10)
    if told.rsdp is not None:
        if told.rsdp == 0 or told.rsdp + RSDP_LENGTH > END_LIMIT:
            refuse(11)
        refuse_usable(machine, told.rsdp, told.rsdp + RSDP_LENGTH, 11)
    if told.efi is not None:
        if told.efi.system_table + SYSTEM_TABLE_LENGTH > END_LIMIT:
            refuse(12)
        refuse_for(efi_fault(told.efi.info))
        refuse_usable(machine, told.efi.map_address, told.efi.map_address + len(told.efi.map), 15)
    if told.smbios is not None and not is_smbios_size(len(told.smbios.tables)):
        refuse(16)
    if len(told.avoided) > MAX_AVOIDED:
        refuse(17)
    for i, (start, end) in enumerate(told.avoided):
        if start > end or end > END_LIMIT:
            refuse(18, i)
    if any(meets(machine.pool, range_) for range_ in told.avoided):
        refuse(19)


def refuse_for(fault: Optional[int]) -> None:
    if fault is not None:
        refuse(fault)


def refuse_usable(machine: Machine, start: int, end: int, number: int) -> None:
    """Refused with this number if a byte of these is told as usable memory."""
    told = [(run.start, run.end) for run in normal_map(machine.regions) if run.kind == USABLE]
    if any(meets((start, end), range_) for range_ in told):
        refuse(number)


def kind_at(regions: List[Region], address: int) -> int:
    """The greatest kind of the regions that hold the address, 0 if none does."""
    holding = [r.kind for r in regions if r.base <= address < r.base + r.length]
    return max(holding, default=0)


def normal_map(regions: List[Region]) -> List[Run]:
    """The runs, ascending. Between two neighbouring edges of regions the kind is the same."""
    edges = sorted({edge for r in regions for edge in (r.base, r.base + r.length)})
    runs: List[Run] = []
    for start, end in zip(edges, edges[1:]):
        kind = kind_at(regions, start)
        if kind == 0:
            continue
        if runs and runs[-1].end == start and runs[-1].kind == kind:
            runs[-1] = runs[-1]._replace(end=end)
        else:
            runs.append(Run(start, end, kind))
    return runs


def usable_ranges(machine: Machine) -> List[Range]:
    """All usable bytes, as ascending ranges with gaps between them."""
    limit = min(machine.size, USABLE_LIMIT)
    ranges = []
    for run in normal_map(machine.regions):
        start, end = max(run.start, FIRST_USABLE), min(run.end, limit)
        if run.kind == USABLE and start < end:
            ranges.append((start, end))
    return ranges


def permitted_ranges(machine: Machine) -> List[Range]:
    """All bytes that are usable and not avoided, as ascending ranges with gaps between them."""
    return gaps_between(usable_ranges(machine), machine.firmware.avoided)


def gaps_between(ranges: List[Range], without: List[Range]) -> List[Range]:
    """What of ascending ranges lies in none of the others, as ascending ranges with something
    between them."""
    gaps = []
    for at, end in ranges:
        for low, high in sorted(without):
            if meets((low, high), (at, end)):
                if at < low:
                    gaps.append((at, low))
                at = high
        if at < end:
            gaps.append((at, end))
    return gaps


def covers(ranges: List[Range], start: int, end: int) -> bool:
    """Whether one of the ranges holds all of start up to end, which may be nothing."""
    return start == end or any(low <= start and end <= high for low, high in ranges)


def is_usable(machine: Machine, start: int, end: int) -> bool:
    """Whether each byte from start up to end is usable."""
    return covers(usable_ranges(machine), start, end)


def first_unusable(machine: Machine, start: int, end: int) -> Optional[int]:
    """The first address from start up to end that is not usable, if there is one."""
    for low, high in usable_ranges(machine):
        if low <= start < high:
            start = high
    return start if start < end else None


def usable_end(regions: List[Region], address: int) -> int:
    """The end of the usable run that holds the address, 0 if there is none."""
    for run in normal_map(regions):
        if run.kind == USABLE and run.start <= address < run.end:
            return run.end
    return 0


def low_kib(regions: List[Region]) -> int:
    return min(usable_end(regions, 0) // 1024, 640)


def high_kib(regions: List[Region]) -> int:
    mib = 1 << 20
    end = usable_end(regions, mib)
    return 0 if end == 0 else min((end - mib) // 1024, (1 << 32) - 1)


def meets(one: Range, other: Range) -> bool:
    """Whether two ranges share a byte."""
    return max(one[0], other[0]) < min(one[1], other[1])
