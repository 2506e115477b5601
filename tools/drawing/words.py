"""The words of pictures of memory: sizes, addresses, where a part's bytes come from."""

from __future__ import annotations

from typing import Dict, List, Optional, Tuple

from .boots import Boot, MemoryMap, Part, Source

# So many characters of text fit into a line beside the parts, and into the line below the title, in the usual fonts.
LINE = 42
SUBTITLE = 124

# what the parts are that the loader makes itself
_MADE = {
    "information": "command line, memory map, list of modules",
    "parameters": "memory map, places of line and initrd",
    "line": "the kernel's command line, a zero byte",
    "gdt": "segment descriptors",
    "tables": "map each address below 4 GiB to itself",
}

# what the memory of each kind is for
MEANINGS = {
    "usable": "may be loaded into",
    "reserved": "used by firmware or devices, left alone",
    "acpi": "tables of ACPI, left alone",
    "nvs": "used by ACPI across sleep, left alone",
    "bad": "faulty, left alone",
    "none": "nothing is known of it, left alone",
    "pool": "holds the files until they are loaded",
}

_UNITS = ((30, "GiB"), (20, "MiB"), (10, "KiB"))


def size(length: int) -> str:
    """Exact, in the greatest unit that divides it."""
    for shift, unit in _UNITS:
        if length and length % (1 << shift) == 0:
            return f"{length >> shift} {unit}"
    return f"{length} bytes" if length != 1 else "1 byte"


def rough_size(length: int) -> str:
    """Exact if that is short, else rounded down to a tenth of a unit."""
    exact = size(length)
    if len(exact) <= 11:
        return exact
    shift, unit = next(each for each in _UNITS if length >> each[0])
    tenths = length * 10 >> shift
    return f"~{tenths // 10}.{tenths % 10} {unit}"


def address(value: int) -> str:
    return f"{value:#010x}"


def cut(words: str) -> str:
    return words if len(words) <= SUBTITLE else words[: SUBTITLE - 1] + "\u2026"


def _file_line(name: str) -> str:
    """A long name keeps its end: that says more of a path than its beginning."""
    room = LINE - len("file :")
    return f"file {name if len(name) <= room else chr(0x2026) + name[1 - room :]}:"


def part_names(parts: Tuple[Part, ...]) -> Dict[Part, str]:
    """By role, with the index where there are several of a role."""
    roles = [part.role for part in parts]
    return {part: part.role if roles.count(part.role) == 1 else f"{part.role} {part.index}" for part in parts}


def origin(part: Part, boot: Optional[Boot]) -> List[str]:
    """Where a part's bytes come from, in at most two lines."""
    if boot is None:
        return [_MADE[part.role]] if part.role in _MADE else []
    if part.source is None:
        return ["made by the loader:", _MADE[part.role]]
    return [_file_line(boot.files[part.source.file].name), _taken(part, part.source, boot)]


def frames(boot: Boot) -> List[str]:
    """What the pool was for."""
    wanted, in_all = boot.frames
    return [f"{wanted} of its {in_all} frames held the files", "while they were read"]


def staged(boot: Boot) -> List[str]:
    """What the pool has while files are read."""
    (wanted, in_all), files = boot.frames, len(boot.files)
    return [f"{files} {'file' if files == 1 else 'files'} in {wanted} {'frame' if wanted == 1 else 'frames'}", f"{in_all - wanted} frames free"]


def _taken(part: Part, source: Source, boot: Boot) -> str:
    taken = source.taken
    if taken == 0:
        return "none of its bytes, zeros alone"
    if len(source.pieces) > 1:
        return f"{size(taken)} in {len(source.pieces)} pieces" + (", else zeros" if taken < part.length else "")
    words = f"{size(taken)} at offset {source.pieces[0][0]}"
    if taken == boot.files[source.file].length:
        words = f"all its {size(taken)}"
    return words + (", then zeros" if taken < part.length else "")


def described_map(memory: MemoryMap) -> str:
    runs = [f"{address(run.start)} to {address(run.end)} {run.kind}" for run in memory.runs]
    return "; ".join([*runs, f"pool {address(memory.pool[0])} to {address(memory.pool[1])}"]) + "."


def described_part(part: Part, name: str, boot: Optional[Boot]) -> str:
    words = [f"{name} at {address(part.address)}", size(part.length)]
    if boot and part.source:
        words += [f"file {boot.files[part.source.file].name}", _taken(part, part.source, boot)]
    elif boot:
        words.append("made by the loader")
    return ", ".join(words) + "."
