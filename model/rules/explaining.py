"""A boot told for a person. FORMATS.md "What the program says", the lines of `explain`;
REFUSALS.md has the meanings."""

import os
import re
from functools import lru_cache
from typing import Callable, Dict, List, NamedTuple, Tuple

from . import bad_keys, booting, description, told_lines
from .bad_keys import shown
from .booting import File, Outcome, Run
from .description import BadDescription, Description
from .handover import PROTOCOL_NAMES
from .machine import Machine, check, first_unusable, is_size
from .numbers import FRAME, frames
from .refusals import MACHINE_NAMES, NAMES, Refused
from .telling import (detail_lines, handover_lines, hints, region_hints, sizes_of,
                      unusable_line)

PAGE = os.path.join(os.path.dirname(__file__), "..", "..", "docs", "REFUSALS.md")
OFFSETS = (7,)  # the refusals whose number is an offset, told in hexadecimal digits
ROW = re.compile(r"\| (\d+) \| (\w+)[^|]*\| ([^|]*) \|")
NOT_TOML = "it is not TOML, at "
BAD_SIZE, BAD_POOL = 1, 4  # numbers of faults of a machine


@lru_cache(None)
def meanings(title: str) -> Dict[int, str]:
    """The meanings of the page's table below a title, by number."""
    with open(PAGE, encoding="utf-8") as page:
        section = page.read().split("\n## " + title, 1)[1].split("\n## ", 1)[0]
    return {int(n): meaning.replace("`", "") for n, _, meaning in ROW.findall(section)}


def told(number: int, data: Tuple[int, ...], names: Dict[int, str], title: str) -> str:
    """A refusal or a machine's fault, with what it tells in brackets."""
    form = "0x%x" if number in OFFSETS else "%d"
    beside = "(%s)" % ", ".join(form % n for n in data) if data else ""
    return "%d %s%s: %s" % (number, names[number], beside, meanings(title)[number])


# ---- a description that is refused


def position_of(error: Exception) -> str:
    """Where the reader of TOML is stopped: by what tomllib says of it."""
    place = re.search(r"line (\d+), column (\d+)", str(error))
    return "line %s, column %s" % (place[1], place[2]) if place else "its end"


def blames(text: bytes) -> List[List[str]]:
    """Why a description is refused, that it is so being known: the lines of each answer that is
    right. Of bad keys any that stands may be told."""
    def alone(why: str) -> List[List[str]]:
        return [["bad description: " + why]]

    try:
        text.decode("utf-8")
    except ValueError:
        return alone("it is not UTF-8")
    try:
        tree = description.toml_tree(text)
    except BadDescription as error:
        return alone(NOT_TOML + position_of(error))
    faults = bad_keys.faults(tree)
    if faults:
        return [["bad description: " + fault.told, *("hint: " + hint for hint in fault.hints)]
                for fault in faults]
    machine = description.describe(tree).machine
    try:
        check(machine)
    except Refused as refused:
        lines = alone("machine " + told(refused.number, refused.data, MACHINE_NAMES,
                                        "Of a machine"))
        return [lines[0] + machine_lines(machine, refused.number)]
    raise AssertionError("no fault")


# ---- what is told of a bad machine


def machine_lines(machine: Machine, number: int) -> List[str]:
    """Behind the number of its fault."""
    if number == BAD_SIZE:
        return without_0x(machine.size, is_size)
    return unusable_lines(machine) + pool_hints(machine) if number == BAD_POOL else []


def unusable_lines(machine: Machine) -> List[str]:
    address = first_unusable(machine, *machine.pool)
    if address is None:
        return []
    return [unusable_line(machine, address),
            *("hint: " + hint for hint in region_hints(machine.regions))]


def pool_hints(machine: Machine) -> List[str]:
    def is_good(reading: int) -> bool:
        return reading % FRAME == 0 and reading <= machine.size

    return [hint for number in machine.pool if number % FRAME != 0
            for hint in without_0x(number, is_good)]


def without_0x(number: int, is_good: Callable[[int], bool]) -> List[str]:
    """The hint that a number was written without 0x."""
    reading = int(str(number), 16)
    return [f"hint: is 0x{number} meant?"] if is_good(reading) else []


# ---- a boot


class Boot(NamedTuple):
    described: Description
    file_named: Callable[[str], File]
    outcome: Outcome


def attempt_lines(boot: Boot, index: int) -> List[str]:
    entry = boot.described.entries[index]
    lines = [f"entry {index} {entry.title}"]
    for place, name in enumerate(booting.file_names(entry)):
        size = sizes_of([boot.file_named(name)])[0]
        if size is None:
            lines.append(f"no file {place} {shown(name)}")
        else:
            lines.append(f"file {place} {size} {frames(size)} {shown(name)}")
    return lines


def booted_lines(boot: Boot) -> List[str]:
    index = boot.outcome.entry
    entry = boot.described.entries[index]
    files = [boot.file_named(name) for name in booting.file_names(entry)]
    lines = [f"booted {index} {entry.title}", "protocol " + PROTOCOL_NAMES[entry.protocol]]
    return attempt_lines(boot, index) + lines + handover_lines(
        boot.described.machine, boot.outcome.handover, files)


def boot_lines(boot: Boot) -> List[str]:
    lines = told_lines.machine_lines(boot.described.machine.firmware)
    for index, refusal in boot.outcome.refused:
        lines += attempt_lines(boot, index)
        lines.append("refused " + told(refusal.number, refusal.data, NAMES, "Of an entry"))
        entry = boot.described.entries[index]
        files = [boot.file_named(name) for name in booting.file_names(entry)]
        lines += detail_lines(boot.described.machine, entry, refusal, files)
    lines += ["no entry left"] if boot.outcome.entry is None else booted_lines(boot)
    return lines + hints(boot.described, boot.outcome.refused, boot.outcome.entry,
                         boot.file_named)


def explain(text: bytes, path_named: Callable[[str], File]) -> List[Run]:
    """`bootcore explain`: each end that is right; path_named tells what is at a path."""
    try:
        described = description.read(text)
    except BadDescription:
        return [Run(2, lines, ["bad description"]) for lines in blames(text)]

    def file_named(name: str) -> File:
        return described.files[name] if name in described.files else path_named(name)

    outcome = booting.boot_menu(described.machine, described.entries, described.default,
                                described.fallbacks, file_named)
    lines = boot_lines(Boot(described, file_named, outcome))
    return [Run(1 if outcome.entry is None else 0, lines, [])]
