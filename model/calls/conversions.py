"""convert: the call of program_commands that writes an image anew."""

from typing import Optional

from language import demand, number, perhaps, quoted, spell
from rules import booting

from . import BYTES_OF, Call
from .images import Source, either, needed_of
from .walks import Before

ROOM = 0x10000  # of a sink whose room, or whose greatest write, is left out


class Ends:
    """How conversions of some bytes end: what is told, but for the bytes that were taken."""

    def __init__(self, before: Before, data: bytes):
        self.before = before
        self.run = booting.convert(data)
        self.whole = self.run.converted or b""

    def text(self, status: int, blamed: str, source_faults: int, sink_faults: int) -> str:
        told = quoted(self.before.blamed + blamed.encode("utf-8"))
        return "status %d, blamed %s, faults %x %x" % (status, told, source_faults, sink_faults)

    def into(self, limit: int) -> str:
        """With a sink that has room for so many bytes."""
        if len(self.whole) > limit:
            return self.text(3, "", 0, 1)
        return self.text(self.run.status, "".join(line + "\n" for line in self.run.blamed), 0, 0)

    def broken(self) -> str:
        """With a source that has a fault."""
        return self.text(3, "", 1, 0)


def room_of(named, name: str) -> int:
    word: Optional[str] = perhaps(named, name)
    return ROOM if word is None else number(word)


def convert(table, line):
    before = Before(table, line, "blamed", "step", "fail", "limit", "takes")
    source, ends = Source(before.named), Ends(before, line.data)
    limit = room_of(before.named, "limit")
    demand(room_of(before.named, "takes") > 0)
    told = "%s, %s" % (ends.into(limit), spell(ends.whole[:limit]))
    if not source.fail:
        return told
    meets_fault = source.meets_fault(source.fail, needed_of(line.data))
    return either(meets_fault, ends.broken() + ", ", told)


def convert_is_refused(table, line, text):
    """Nothing is blamed or taken then; what there was before may lack the memory too. That it was
    wanting stands behind what was taken."""
    before = Before(table, line, "blamed", "step", "fail", "limit", "takes")
    blamed = quoted(before.blamed)
    return text in ("no memory", "status 4, blamed %s, faults 0 0, , no memory" % blamed)


CALLS = {"convert": Call(convert, BYTES_OF, convert_is_refused)}
