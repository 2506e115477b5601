"""Menus, attempts and the program. BOOT-RULES.md "Menus"; FORMATS.md "What the program says"."""

import os
from typing import Callable, List, NamedTuple, Optional, Tuple, Union

from . import description, digests, image, walking
from .description import BadDescription, MenuEntry
from .entry import Entry, LinuxEntry, Multiboot2Entry, hand_over, is_copy
from .handover import MULTIBOOT2, Handover
from .keys import MAX_ENTRIES, MAX_MODULES
from .machine import KIND_NAMES, Machine, high_kib, low_kib, normal_map
from .numbers import FRAME, frames
from .refusals import Refused, refuse

FILE_LIMIT = 0x40000000

# A file: its bytes, or its length alone if it is above the limit, or None if it is missing.
File = Union[bytes, int, None]


class Outcome(NamedTuple):
    entry: Optional[int]  # the entry that was handed over, None if none was
    handover: Optional[Handover]
    refused: List[Tuple[int, Refused]]  # entry and refusal, in the order of attempts


class Run(NamedTuple):
    """How the program ended."""
    status: int
    said: List[str]  # lines of standard output
    blamed: List[str]  # lines of standard error
    handover: Optional[Handover] = None  # whose image is written
    converted: Optional[bytes] = None  # the image that is written by a conversion


# ---- menus


def check_menu(module_counts: List[int], copies: List[Optional[bytes]], default: int,
               fallbacks: List[int]) -> None:
    """Refused with 52 or 51; module_counts has the number of modules of each entry, copies has
    those of the RSDP of all entries."""
    if len(module_counts) > MAX_ENTRIES or any(n > MAX_MODULES for n in module_counts):
        refuse(52)
    if not all(is_copy(copy) for copy in copies):
        refuse(52)
    if not all(index < len(module_counts) for index in [default, *fallbacks]):
        refuse(51)


def attempts(default: int, fallbacks: List[int]) -> List[int]:
    """The default, then the fallbacks; one that was named before is left out."""
    return list(dict.fromkeys([default, *fallbacks]))


def refuse_sizes(machine: Machine, sizes: List[Optional[int]]) -> None:
    """Steps 1 and 2 of the checks of an entry, by the sizes of its files (None: missing): refused
    with 1 and the file, 3 and the file, 21."""
    for file, size in enumerate(sizes):
        if size is None:
            refuse(1, file)
        if size > FILE_LIMIT:
            refuse(3, file)
    start, end = machine.pool
    if sum(frames(size) for size in sizes) > (end - start) // FRAME:
        refuse(21)


def file_names(entry: MenuEntry) -> List[str]:
    """The kernel, then the modules or the initrd."""
    disk = [] if entry.initrd is None else [entry.initrd]
    return [entry.kernel] + [name for name, _ in entry.modules] + disk


def entry_with(entry: MenuEntry, files: List[bytes]) -> Entry:
    """The entry and its files, which come in the order of their names."""
    if entry.protocol == MULTIBOOT2:
        lines = [line for _, line in entry.modules]
        return Multiboot2Entry(files[0], entry.line, list(zip(files[1:], lines)), entry.rsdp_old,
                               entry.rsdp_new)
    return LinuxEntry(files[0], entry.line, files[1] if files[1:] else None, entry.protocol)


def attempt(machine: Machine, entry: MenuEntry,
            file_named: Callable[[str], File]) -> Handover:
    """All steps of the checks of an entry whose files come."""
    files = [file_named(name) for name in file_names(entry)]
    refuse_sizes(machine, [len(f) if isinstance(f, bytes) else f for f in files])
    return hand_over(machine, entry_with(entry, files))


def boot_menu(machine: Machine, entries: List[MenuEntry], default: int, fallbacks: List[int],
              file_named: Callable[[str], File]) -> Outcome:
    """The outcome of a boot whose files all come: the first entry that is not refused."""
    refused = []
    for index in attempts(default, fallbacks):
        try:
            return Outcome(index, attempt(machine, entries[index], file_named), refused)
        except Refused as refusal:
            refused.append((index, refusal))
    return Outcome(None, None, refused)


# ---- the program


def boot(text: bytes, path_named: Callable[[str], File]) -> Run:
    """`bootcore boot`; path_named tells what is at a path."""
    try:
        described = description.read(text)
    except BadDescription:
        return Run(2, [], ["bad description"])
    files = described.files
    outcome = boot_menu(described.machine, described.entries, described.default,
                        described.fallbacks,
                        lambda name: files[name] if name in files else path_named(name))
    said = [f"refused {index} {refusal.number}" for index, refusal in outcome.refused]
    if outcome.entry is None:
        return Run(1, said + ["no entry left"], [])
    title = described.entries[outcome.entry].title
    return Run(0, said + [f"booted {outcome.entry} {title}"], [], outcome.handover)


def digest(text: bytes, path_named: Callable[[str], File]) -> Run:
    """`bootcore digest`: the lines of a boot, and of the image that it would write the digests; no
    image is written."""
    run = boot(text, path_named)
    if run.handover is None:
        return run
    return Run(run.status, run.said + digests.lines(run.handover), run.blamed)


def map_of(text: bytes) -> Run:
    """`bootcore map`."""
    try:
        machine = description.read(text).machine
    except BadDescription:
        return Run(2, [], ["bad description"])
    said = [f"{run.start:016x} {run.end:016x} {KIND_NAMES[run.kind]}"
            for run in normal_map(machine.regions)]
    said += [f"low {low_kib(machine.regions)}", f"high {high_kib(machine.regions)}",
             f"pool {machine.pool[0]:016x} {machine.pool[1]:016x}"]
    return Run(0, said, [])


def walk_faults(data: bytes) -> List[int]:
    """The numbers of which `bootcore walk` tells one; none if the image is walked."""
    try:
        return sorted(walking.faults(image.read(data)))
    except Refused as refusal:
        return [refusal.number]


def walk(data: bytes) -> Run:
    """`bootcore walk`; of several faults that stand the least is told here."""
    numbers = walk_faults(data)
    if numbers:
        return Run(2, [], [f"bad image {numbers[0]}"])
    return Run(0, walking.lines(walking.see(image.read(data))), [])


def convert(data: bytes) -> Run:
    """`bootcore convert`; what is led to is not looked at."""
    try:
        return Run(0, [], [], None, image.convert(data))
    except Refused as refusal:
        return Run(2, [], [f"bad image {refusal.number}"])


def digest_image(data: bytes) -> Run:
    """`bootcore digest --image`: the digests of the image that a conversion makes of it."""
    try:
        return Run(0, digests.lines(image.handover_of(image.read(data))), [])
    except Refused as refusal:
        return Run(2, [], [f"bad image {refusal.number}"])


def paths_from(folder: str) -> Callable[[str], File]:
    """What is at a path, relative to a folder: only a regular file that can be read counts."""
    def path_named(name: str) -> File:
        path = os.path.join(folder, name)
        try:
            if not name or not os.path.isfile(path):
                return None
            length = os.path.getsize(path)
            if length > FILE_LIMIT:
                return length
            with open(path, "rb") as file:
                return file.read()
        except (OSError, ValueError):
            return None
    return path_named
