"""A plan: what an entry hands over as steps, which load the entry once they are carried out.
include/bootcore.h, bootcore_plan; FORMATS.md, the words SOURCE of `explain`."""

from typing import Dict, Iterable, Iterator, List, NamedTuple, Optional, Sequence

from . import entry as entries
from .entry import Entry, Multiboot2Entry
from .handover import Handover, Part, in_part_order, part_bytes
from .machine import Machine, Range
from .memory import Memory

FILE, OWN, ZEROS = 1, 2, 3  # where the bytes of a step come from


class Step(NamedTuple):
    """So many bytes of the source, from an offset on, go to an address."""
    address: int
    length: int
    offset: int
    source: int
    file: int  # of FILE, else 0


class Place(NamedTuple):
    role: int
    index: int
    address: int
    length: int


class Plan(NamedTuple):
    protocol: int
    registers: Dict[str, int]
    places: List[Place]
    steps: List[Step]
    own: bytes  # the bytes of parts that no file has


# ---- made


def plan(machine: Machine, entry: Entry) -> Plan:
    """From the kernel's bytes and the other files' lengths; refused as `prepare` refuses."""
    return plan_of(entries.prepare(machine, without_bytes(entry)))


def without_bytes(entry: Entry) -> Entry:
    """With zeros in place of each byte of the files beside the kernel."""
    return with_files(entry, [bytes(len(file)) for file in entries.files_of(entry)[1:]])


def with_files(entry: Entry, files: Sequence[bytes]) -> Entry:
    """With other files beside the kernel."""
    if isinstance(entry, Multiboot2Entry):
        lines = [line for _, line in entry.modules]
        return entry._replace(modules=list(zip(files, lines)))
    return entry._replace(initrd=files[0] if files else None)


def plan_of(handover: Handover) -> Plan:
    """The steps of one part after the other, by ascending address."""
    own = bytearray()
    steps = [step for part in handover.parts for step in part_steps(part, own)]
    places = [Place(*part[:4]) for part in handover.parts]
    return Plan(handover.protocol, handover.registers, places, steps, bytes(own))


def part_steps(part: Part, own: bytearray) -> Iterator[Step]:
    """The steps of a part; bytes of it that no file has are appended to the plan's own."""
    at = 0
    for piece in in_part_order(part.pieces):
        yield from zero_step(part, at, piece.offset)
        address, length = part.address + piece.offset, len(piece.data)
        if piece.origin is not None and length:
            yield Step(address, length, piece.origin.offset, FILE, piece.origin.file)
        elif length:
            yield Step(address, length, len(own), OWN, 0)
            own += piece.data
        at = piece.offset + length
    yield from zero_step(part, at, part.length)


def zero_step(part: Part, start: int, end: int) -> Iterator[Step]:
    """Zeros from one offset of a part up to another, if there are any between them."""
    if start < end:
        yield Step(part.address + start, end - start, 0, ZEROS, 0)


# ---- carried out


def carry_out(plan: Plan, files: Sequence[bytes], memory: Memory) -> None:
    for step in plan.steps:
        memory.write(step.address, source_bytes(step, plan, files))


def source_bytes(step: Step, plan: Plan, files: Sequence[bytes]) -> bytes:
    if step.source == ZEROS:
        return bytes(step.length)
    source = plan.own if step.source == OWN else files[step.file]
    return source[step.offset:step.offset + step.length]


# ---- judged


def fault(plan: Plan, entry: Entry, handover: Handover) -> Optional[str]:
    """What a plan of this entry, which hands over this, has wrong; None if it keeps its promises.
    Where a part is cut into steps, and what of it is the plan's own, it may choose."""
    files = entries.files_of(entry)
    told = plan_of(handover)
    if (plan.protocol, plan.registers, plan.places) != told[:3]:
        return "its protocol, its registers or its places"
    end = 0
    for number, step in enumerate(plan.steps):
        if step.length < 1 or step.address < end:
            return f"step {number} is empty, or begins before the end of the one before it"
        if not has_source(step, plan, files):
            return f"step {number} has no such source"
        end = step.address + step.length
    if joined((s.address, s.address + s.length) for s in plan.steps) != \
            joined((p.address, p.address + p.length) for p in told.places):
        return "its steps are not exactly the parts"
    return carried_out_fault(plan, files, handover)


def has_source(step: Step, plan: Plan, files: Sequence[bytes]) -> bool:
    if step.source == FILE:
        return step.file < len(files) and step.offset + step.length <= len(files[step.file])
    if step.source == OWN:
        return step.file == 0 and step.offset + step.length <= len(plan.own)
    return step.source == ZEROS and step.file == 0


def joined(ranges: Iterable[Range]) -> List[Range]:
    """Ascending ranges, those as one that follow each other."""
    made: List[Range] = []
    for start, end in ranges:
        if made and made[-1][1] == start:
            start = made.pop()[0]
        made.append((start, end))
    return made


def carried_out_fault(plan: Plan, files: Sequence[bytes], handover: Handover) -> Optional[str]:
    """Over memory that holds what no part has."""
    memory = Memory(1 << 32, 0xA5)
    carry_out(plan, files, memory)
    for part in handover.parts:
        if memory.read(part.address, part.length) != part_bytes(part):
            return f"it is carried out, and part {part.role} {part.index} is another"
    return None
