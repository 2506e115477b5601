"""sink: what sinks take of parts that are written to them."""

from typing import List, Tuple

from language import demand, number

from . import Call

PAIR = 2


class Sink:
    """Takes of a write what it has room for, at most `step` bytes."""

    def __init__(self, limit: int, step: int):
        self.limit = limit
        self.step = step
        self.taken = b""

    def write(self, data: bytes) -> int:
        """How many bytes are taken; -1 is a fault: no room for any of the bytes that there are."""
        count = min(len(data), self.step, self.limit - len(self.taken))
        if data and count == 0:
            return -1
        self.taken += data[:count]
        return count


def put(sink: Sink, kind: str, data: bytes) -> Tuple[str, bool]:
    """What is told of a part, and whether it was a fault."""
    written = 0
    while True:
        count = sink.write(data[written:])
        if count < 0:
            return "fault 76", True
        written += count
        if kind == "write" or written == len(data):
            return "took %x" % written, False


def parts_text(table, sink: Sink, words: List[str]) -> List[str]:
    """Of each part what became of it, and then the faults."""
    told, faults = [], 0
    for word in words:
        kind, equals, data = word.partition("=")
        demand(equals == "=" and kind in ("write", "all"))
        text, is_fault = put(sink, kind, table.names.one(data))
        told.append(text)
        faults += is_fault
    return told + ["faults %x" % faults]


def sink(table, line):
    """It takes two bytes at each of so many writes."""
    demand(len(line.words) >= 2)
    writes, end, *parts = line.words
    demand(end in ("nothing", "storage_full", "broken_pipe", "interrupted"))
    made = Sink(PAIR * number(writes), PAIR)
    return ", ".join(parts_text(table, made, parts) + ["holds %x bytes" % len(made.taken)])


CALLS = {"sink": Call(sink)}
