"""What `explain` tells of a handover, frames and where bytes come from, of a refusal beside its
number, and hints. FORMATS.md "What the program says"."""

from typing import Callable, List, Optional, Tuple

from . import booting, bzimage, entry as entries
from .booting import File
from .description import Description, MenuEntry
from .handover import PART_NAMES, Handover, Part, names_of
from .machine import (FIRST_USABLE, KIND_NAMES, USABLE, Machine, Region, is_usable, kind_at,
                      permitted_ranges, usable_ranges)
from .numbers import FRAME, frames, u16, u32
from .places import Wanted, undisturbed_frames
from .plans import FILE, OWN, part_steps
from .refusals import Refused

FileNamed = Callable[[str], File]


# ---- frames


def sizes_of(files: List[File]) -> List[Optional[int]]:
    return [len(file) if isinstance(file, bytes) else file for file in files]


def frames_line(machine: Machine, handover: Optional[Handover], files: List[File]) -> str:
    """The frames that the files take, those of the pool that meet no part, all of the pool's; none
    of the second if there are no parts."""
    wanted = sum(frames(size) for size in sizes_of(files))
    start, end = machine.pool
    beside = ""
    if handover is not None:
        ranges = [(part.address, part.address + part.length) for part in handover.parts]
        beside = " %d open," % undisturbed_frames(machine, ranges)
    return "frames %d wanted,%s %d in all" % (wanted, beside, (end - start) // FRAME)


# ---- a handover


def source_of(part: Part) -> str:
    """By the steps of the plan that begin in the part."""
    steps = list(part_steps(part, bytearray()))
    of_file = [step for step in steps if step.source == FILE]
    if of_file:
        ranges = ", ".join(f"at {step.offset}, {step.length} bytes" for step in of_file)
        return f"file {of_file[0].file} {ranges}"
    return "here" if any(step.source == OWN for step in steps) else "zeros"


def handover_lines(machine: Machine, handover: Handover, files: List[File]) -> List[str]:
    lines = [f"part {PART_NAMES[part.role]} {part.index} {part.address:08x} {part.length} from "
             + source_of(part) for part in handover.parts]
    for name in names_of(handover.protocol):
        value = handover.registers[name]
        lines.append(f"register {name.lower().replace(' ', '_')} {value:016x}")
    return lines + [frames_line(machine, handover, files)]


# ---- a refusal


def detail_lines(machine: Machine, entry: MenuEntry, refusal: Refused, files: List[File]
                 ) -> List[str]:
    """What is told of the refusal of an entry beside its number; the files are all there if it is
    one of these."""
    if refusal.number == 21:
        return [frames_line(machine, handover_of(machine, entry, files), files)]
    if refusal.wanted is None:
        return []
    lines = [no_place_line(refusal.wanted)]
    if refusal.wanted.choice == "fixed":
        lines.append(unpermitted_line(machine, refusal.wanted.at))
    elif machine.firmware.avoided:
        lines.append(f"ranges {len(machine.firmware.avoided)} avoided")
    return lines


def handover_of(machine: Machine, entry: MenuEntry, files: List[File]) -> Optional[Handover]:
    """What the entry would hand over, had the pool room for its files; None if it is refused."""
    try:
        return entries.prepare(machine, booting.entry_with(entry, files))
    except Refused:
        return None


def no_place_line(wanted: Wanted) -> str:
    within = f"from {wanted.low:08x} to {wanted.high:08x}, alignment {wanted.align}"
    choice = {"fixed": f"at {wanted.at:08x}",
              "lowest": "lowest " + within,
              "highest": "highest " + within,
              "preferred": f"preferred {wanted.at:08x}, lowest " + within}[wanted.choice]
    return f"no place {PART_NAMES[wanted.role]} {wanted.index} {wanted.length} {choice}"


def unpermitted_line(machine: Machine, at: int) -> str:
    """The first byte from an address on that no part may have, and why not."""
    for start, end in permitted_ranges(machine):
        if start <= at < end:
            at = end
    return f"avoided {at:08x}" if is_usable(machine, at, at + 1) else unusable_line(machine, at)


def unusable_line(machine: Machine, at: int) -> str:
    """The first byte from an address on that is not usable, and why not."""
    for start, end in usable_ranges(machine):
        if start <= at < end:
            at = end
    kind = kind_at(machine.regions, at)
    if kind == 0:
        why = "in no region"
    elif kind != USABLE:
        why = KIND_NAMES[kind]
    elif at < FIRST_USABLE:
        why = "in the first frame"
    elif at >= machine.size:
        why = "at or above the size"
    else:
        why = "in the last frame below 4 GiB"
    return f"not usable {at:08x} {why}"


# ---- hints


def hints(described: Description, refused: List[Tuple[int, Refused]], booted: Optional[int],
          file_named: FileNamed) -> List[str]:
    found = []
    for index, refusal in refused:
        entry = described.entries[index]
        found += kernel_hint(index, entry, refusal, file_named)
        found += cut_hint(index, file_named(entry.kernel))
    if booted is not None:
        found += cut_hint(booted, file_named(described.entries[booted].kernel))
    found += region_hints(described.machine.regions)
    attempted = booting.attempts(described.default, described.fallbacks)
    for index in range(len(described.entries)):
        if index not in attempted:
            found.append(f"entry {index} is not attempted: neither default nor fallback names it")
    return ["hint: " + hint for hint in found]


def region_hints(regions: List[Region]) -> List[str]:
    found = []
    for index, region in enumerate(regions):
        if region.kind == USABLE and region.base % FRAME != 0:
            found.append(f"region {index} begins within a frame")
        if region.kind == USABLE and (region.base + region.length) % FRAME != 0:
            found.append(f"region {index} ends within a frame")
    return found


def kernel_hint(index: int, entry: MenuEntry, refusal: Refused, file_named: FileNamed) -> List[str]:
    told = f"the kernel of entry {index} is"
    if refusal.number == 4:
        kernel = file_named(entry.kernel)
        if len(kernel) >= 0x206 and u16(kernel, 0x1FE) == 0xAA55 and kernel[0x202:0x206] == b"HdrS":
            return [told + " a bzImage: protocol linux"]
    if refusal.number == 22 and file_named(entry.kernel)[:4] == b"\x7fELF":
        return [told + " an ELF file: protocol multiboot2"]
    return []


def cut_hint(index: int, kernel: File) -> List[str]:
    """On a Linux kernel whose file lacks more than 16 bytes of what its header counts."""
    if not isinstance(kernel, bytes):
        return []
    try:
        setup = bzimage.read(kernel)
    except Refused:
        return []
    whole = setup.payload_at + 16 * u32(kernel, 0x1F4)  # syssize
    if len(kernel) + 16 >= whole:
        return []
    return [f"the kernel of entry {index} is cut: it has {len(kernel)} of {whole} bytes"]
