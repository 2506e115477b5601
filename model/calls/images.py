"""image, images, image_of, read_image, image_fault, read_images: the calls of bl_image."""

from typing import Optional

from language import demand, fields, number, only, pair, single, spell
from rules import entry as entries, image as rules
from rules.numbers import u32, u64
from rules.refusals import Refused

from . import ALL_BYTES, BYTES_OF, Call
from .answers import Sweep, one_of
from .entries import head_text, place_text, read_entry
from .kernels import fault_alone, fault_text, refusal_text
from .machines import last_machine


def spelled(table, words, data: bytes) -> bytes:
    """The image of an entry, which may be refused."""
    return rules.spell(entries.prepare(last_machine(table), read_entry(table, words, data)))


def sink_text(limit: int, size: int) -> str:
    """How a sink ends that has room for so many bytes. Writing asks for no memory."""
    return "ok, faults 0, asked 0" if size <= limit else "fault 76, faults 1, asked 0"


def image(table, line):
    demand(len(line.words) > 3)
    named, _ = fields(line.words[:3])
    limit, step = number(single(named, "limit")), number(single(named, "step"))
    number(single(named, "fill"), 8)
    demand(step > 0)
    try:
        whole = spelled(table, line.words[3:], line.data)
    except Refused as refused:
        return "refused " + refusal_text(refused)
    return "%s, %s" % (sink_text(limit, len(whole)), spell(whole[:limit]))


def images(table, line):
    demand(len(line.words) > 3)
    named, _ = fields(line.words[:3])
    first, end = pair(single(named, "limits"), "..")
    demand(number(single(named, "step")) > 0)
    number(single(named, "fill"), 8)
    whole = spelled(table, line.words[3:], line.data)
    return Sweep((limit, sink_text(limit, len(whole)) + ", its first bytes")
                 for limit in range(first, end))


def image_text(read: rules.Image) -> str:
    parts = ["%s %s" % (place_text(part, len(part.data)), spell(part.data)) for part in read.parts]
    return ", ".join([head_text(read.protocol, read.registers)] + parts)


def image_of(table, line):
    demand(len(line.words) > 1)
    number(single(fields(line.words[:1])[0], "fill"), 8)
    try:
        return image_text(rules.read(spelled(table, line.words[1:], line.data)))
    except Refused as refused:
        return "refused " + refusal_text(refused)


class Source:
    """A source of these bytes: at most `step` bytes a read, and read number `fail` is a fault."""

    def __init__(self, named):
        self.step: Optional[int] = number(single(named, "step")) if "step" in named else None
        self.fail: Optional[int] = number(single(named, "fail")) if "fail" in named else None
        demand(self.step != 0)

    def meets_fault(self, fail: int, needed: int) -> Optional[bool]:
        """Whether the read with this number comes before the answer is known: None if no rule says
        it. What the answer needs is so many bytes, or one less and the end."""
        if self.step == 1:
            return fail <= needed
        least = 1 if self.step is None else -(-needed // self.step)
        return True if fail <= max(least, 1) else None


def needed_of(data: bytes) -> int:
    """How many bytes are asked for until an image's answer is known; the end counts as one."""
    try:
        rules.read(data)
        return len(data) + 1
    except Refused as refused:
        if refused.number == 75:
            return min(image_end(data), len(data)) + 1
        return least_refused(data, refused)


def image_end(data: bytes) -> int:
    """Where an image ends whose head and records are sound, if they are all there."""
    version = u32(data, 8)
    if version not in rules.HEADS or len(data) < rules.HEADS[version]:
        return len(data)
    head, count = rules.HEADS[version], u32(data, rules.COUNT_AT[version])
    start = head + rules.RECORD_SIZE * count
    if len(data) < start:
        return len(data)
    return start + sum(u64(data, at + 16) for at in range(head, start, rules.RECORD_SIZE))


def least_refused(data: bytes, refused: Refused) -> int:
    """The least number of first bytes that are refused for the same: a field is judged once it is
    complete."""
    low, high = 0, len(data)
    while low < high:
        half = (low + high) // 2
        try:
            rules.read(data[:half])
        except Refused as other:
            if other == refused:
                high = half
                continue
        low = half + 1
    return high


def read_image(table, line):
    named, bare = fields(line.words)
    only(named, "step", "fail")
    demand(not bare)
    source = Source(named)
    try:
        told = image_text(rules.read(line.data))
    except Refused as refused:
        told = fault_text(refused)
    if source.fail is None or source.fail == 0:
        return told
    return either(source.meets_fault(source.fail, needed_of(line.data)), "fault 76", told)


def either(meets_fault: Optional[bool], fault: str, told):
    if meets_fault is None:
        return one_of([told, fault])
    return fault if meets_fault else told


def image_fault(table, line):
    return fault_alone(rules.read, line.data)


def read_images(table, line):
    named, bare = fields(line.words)
    only(named, "step", "fails")
    demand(not bare)
    source, told, needed = Source(named), image_fault(table, line), needed_of(line.data)
    first, end = pair(single(named, "fails"), "..")
    return Sweep((n, either(source.meets_fault(n, needed), "fault 76, faults 1", told))
                 for n in range(first, end))


CALLS = {
    "image": Call(image, BYTES_OF),
    "images": Call(images, BYTES_OF),
    "image_of": Call(image_of, BYTES_OF),
    "read_image": Call(read_image, ALL_BYTES),
    "image_fault": Call(image_fault, ALL_BYTES),
    "read_images": Call(read_images, BYTES_OF),
}
