"""An entry and its files: what is handed over, or why not. BOOT-RULES.md "Order of the checks"."""

from typing import List, NamedTuple, Optional, Tuple, Union

from . import linux_entry, multiboot2_entry
from .handover import LINUX, Handover
from .machine import Machine, Range
from .numbers import frames
from .places import undisturbed_frames
from .refusals import refuse

MAX_LINE = 4095
MAX_COPY = 256


class Multiboot2Entry(NamedTuple):
    kernel: bytes
    line: bytes
    modules: List[Tuple[bytes, bytes]]  # file, line
    rsdp_old: Optional[bytes] = None
    rsdp_new: Optional[bytes] = None


class LinuxEntry(NamedTuple):
    kernel: bytes
    line: bytes
    initrd: Optional[bytes]
    protocol: int = LINUX  # or LINUX64


Entry = Union[Multiboot2Entry, LinuxEntry]


def is_copy(copy: Optional[bytes]) -> bool:
    """Whether an entry may have this copy of an RSDP, or none."""
    return copy is None or 1 <= len(copy) <= MAX_COPY


def prepare(machine: Machine, entry: Entry) -> Handover:
    """Steps 4 to 9 of the checks of an entry, whose files are all there; refused with 4 to 20, or
    with 22 and above. The room is not asked for."""
    check_lines(entry)
    if isinstance(entry, Multiboot2Entry):
        return multiboot2_entry.prepare(machine, entry.kernel, entry.line, entry.modules,
                                        entry.rsdp_old, entry.rsdp_new)
    return linux_entry.prepare(machine, entry.kernel, entry.line, entry.initrd,
                               entry.protocol)


def check_room(machine: Machine, parts: List[Range], file_lengths: List[int]) -> None:
    """Step 10: refused with 21 if the parts leave the pool fewer frames than the files have."""
    if undisturbed_frames(machine, parts) < sum(frames(length) for length in file_lengths):
        refuse(21)


def hand_over(machine: Machine, entry: Entry) -> Handover:
    """Steps 4 to 10."""
    handover = prepare(machine, entry)
    ranges = [(part.address, part.address + part.length) for part in handover.parts]
    check_room(machine, ranges, [len(file) for file in files_of(entry)])
    return handover


def files_of(entry: Entry) -> List[bytes]:
    """The entry's files in order, the kernel first."""
    if isinstance(entry, Multiboot2Entry):
        return [entry.kernel] + [file for file, _ in entry.modules]
    return [entry.kernel] + ([] if entry.initrd is None else [entry.initrd])


def check_lines(entry: Entry) -> None:
    """Step 4: the kernel's line, and then the modules'."""
    lines = [entry.line]
    if isinstance(entry, Multiboot2Entry):
        lines += [line for _, line in entry.modules]
    for line in lines:
        if b"\0" in line:
            refuse(28)
        if len(line) > MAX_LINE:
            refuse(27)
