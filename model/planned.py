"""Plans and digests of entries by way of C, as tests/drivers/plans.c prints them, beside the rules'."""

import os
import sys
from random import Random
from typing import Callable, List, NamedTuple, Optional, Tuple

from drawing.chances import some_bytes
from program import TOP, Ended
from rules import booting, description, digests, entry as entries, image, plans
from rules.booting import File
from rules.handover import LINUX64, Handover
from rules.machine import Machine
from rules.plans import Place, Step
from rules.refusals import Refused

sys.path.append(os.path.join(TOP, "tests", "drivers"))
from spelling import spelled  # noqa: E402

DONE, REFUSED, BAD_FILE = 0, 1, 103  # statuses of include/bootcore.h
MAX_IMAGE = 16 << 20  # of a larger one the handoff and the places are compared alone


class Told(NamedTuple):
    """What is printed of an entry: a status; a refusal, or the handoff and a plan, and perhaps an
    image, its length and its SHA-256."""
    status: int
    refusal: Optional[List[int]] = None
    handoff: Optional[List[int]] = None
    places: List[Place] = []
    steps: List[Step] = []
    own: bytes = b""
    image: Optional[Tuple[int, str]] = None


def plan_fault(rng: Random, text: bytes, path_named: Callable[[str], File],
               driver: Callable[[bytes], Ended]) -> Tuple[Optional[str], List[str]]:
    """What is wrong with the plans of a description's entries, None if nothing is; and how they
    end. The driver is given the description as tests/drivers/case.h says."""
    try:
        described = description.read(text)
    except description.BadDescription:
        return None, ["bad description"]
    status, said, blamed = driver(spelled(described, path_named))
    printed = said.decode().split("entry\n")[1:]
    if (status, blamed, len(printed)) != (0, b"", len(described.entries)):
        return f"the driver ends with {status}, after {len(printed)} entries: {blamed!r}", []
    ends = []
    for index, (menu_entry, lines) in enumerate(zip(described.entries, printed)):
        files = [described.files[name] if name in described.files else path_named(name)
                 for name in booting.file_names(menu_entry)]
        told = read_told(lines)
        ends.append(f"refused {told.refusal[0]}" if told.refusal else f"status {told.status}")
        wrong = told_fault(rng, described.machine, menu_entry, files, told)
        if wrong is not None:
            return f"entry {index}: {wrong}", ends
    return None, ends


def told_fault(rng: Random, machine: Machine, menu_entry: description.MenuEntry,
               files: List[File], told: Told) -> Optional[str]:
    if None in files:
        return difference(Told(BAD_FILE), told)
    entry = booting.entry_with(menu_entry, files)
    try:
        handover = entries.prepare(machine, entry)
    except Refused as refusal:
        carried = [*refusal.data, 0, 0][:2]
        return difference(Told(REFUSED, [refusal.number, *carried]), told)
    wrong = difference(Told(DONE, None, handoff_of(handover)),
                       told._replace(places=[], steps=[], own=b"", image=None))
    if wrong is not None:
        return wrong
    own_plan = plans.plan(machine, entry)
    if sum(part.length for part in handover.parts) > MAX_IMAGE:
        return difference(own_plan.places, told.places)
    others = [some_bytes(rng, len(file)) for file in entries.files_of(entry)[1:]]
    plan = own_plan._replace(places=told.places, steps=told.steps, own=told.own)
    for name, judged in (("the rules' own plan", own_plan), ("its plan", plan)):
        for these in (entry, plans.with_files(entry, others)):
            wrong = plans.fault(judged, these, entries.prepare(machine, these))
            if wrong is not None:
                return f"{name}: {wrong}"
    return difference(digests.digest(image.chunks(handover)), told.image)


def difference(wanted: object, told: object) -> Optional[str]:
    return None if told == wanted else f"\n  rules   {wanted}\n  driver  {told}"


def handoff_of(handover: Handover) -> List[int]:
    """The protocol, the bits of the registers, and these in the order of an image; those that the
    protocol does not give are 0."""
    names = image.fields_of(image.WRITTEN, handover.protocol)
    return [handover.protocol, 64 if handover.protocol == LINUX64 else 32,
            *(0 if name is image.ABSENT else handover.registers[name] for name in names)]


def read_told(lines: str) -> Told:
    """The lines of an entry, each a word and numbers; bytes are hexadecimal digits."""
    told = Told(-1, None, None, [], [])
    for line in lines.splitlines():
        name, *words = line.split(" ")
        if name == "own":
            told = told._replace(own=bytes.fromhex(words[0]))
        elif name == "image":
            told = told._replace(image=(int(words[0]), words[1]))
        elif name == "status":
            told = told._replace(status=int(words[0]))
        elif name == "place":
            told.places.append(Place(*map(int, words)))
        elif name == "step":
            told.steps.append(Step(*map(int, words)))
        else:
            told = told._replace(**{name: [int(word) for word in words]})
    return told
