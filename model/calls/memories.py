"""memory, sparse, slice_memory, own: the calls of bl_mem."""

from typing import Callable, List

from language import demand, fields, number, numbers, only, pair, single, spell as spelled, steps
from rules.memory import MAX_BLOCK, Memory
from rules.numbers import FRAME

from . import Call
from .answers import Steps, is_right, one_of

NO_MEMORY = "no memory"


def read_steps(table, words: List[str], is_block: bool) -> List[Callable]:
    return [step_of(table, step, is_block) for step in steps(words)]


def step_of(table, words: List[str], is_block: bool) -> Callable:
    """A step of memory: what it does with a value that reads and writes as memory does."""
    demand(bool(words))
    name, rest = words[0], words[1:]
    if name == "size":
        demand(not rest)
        return lambda memory: "%x" % memory.size
    if name in ("read", "lend"):
        demand(len(rest) == 2)
        at, length = number(rest[0]), number(rest[1])
        if name == "lend" and not is_block:
            return lambda memory: one_of([spelled(held(memory, at, length)), "nothing"])
        return lambda memory: spelled(held(memory, at, length))
    if name == "write":
        demand(bool(rest))
        places, data = numbers(rest[0]), table.names.bytes_of(rest[1:])
        return lambda memory: write(memory, places, data)
    if name == "copy":
        demand(len(rest) == 3)
        source, to, length = number(rest[0]), number(rest[1]), number(rest[2])
        return lambda memory: copy(memory, source, to, length)
    if name == "zero":
        demand(len(rest) == 1)
        return lambda memory: zero(memory, pair(rest[0], ".."))
    demand(name == "reserve")
    ranges = [pair(word, "..") for word in rest]
    return lambda memory: reserve(memory, ranges)


def held(memory, at: int, length: int) -> bytes:
    demand(memory.holds(at, at + length))
    return memory.read(at, length)


def write(memory, places: List[int], data: bytes) -> str:
    for at in places:
        demand(memory.holds(at, at + len(data)))
    for at in places:
        memory.write(at, data)
    return "ok"


def copy(memory, source: int, to: int, length: int) -> str:
    """At most a frame, as the call asks."""
    demand(length <= FRAME and memory.holds(to, to + length))
    return write(memory, [to], held(memory, source, length))


def zero(memory, cleared) -> str:
    demand(memory.holds(*cleared))
    memory.zero(*cleared)
    return "ok"


def reserve(memory, ranges) -> str:
    for start, end in ranges:
        demand(memory.holds(start, end))
    return "ok"


def memory_in(line) -> Memory:
    """`size=N fill=VV`, before the steps."""
    demand(len(line.words) >= 2)
    named, bare = fields(line.words[:2])
    only(named, "size", "fill")
    demand(not bare)
    return Memory(number(single(named, "size")), number(single(named, "fill"), 8))


def flat(table, line):
    """Memory in one block, which is one request."""
    made, memory = read_steps(table, line.words[2:], True), memory_in(line)
    if memory.size > MAX_BLOCK:
        return "no memory, unasked"
    return "; ".join(step(memory) for step in made)


def sparse(table, line):
    made, memory = read_steps(table, line.words[2:], False), memory_in(line)
    return Steps([step(memory) for step in made])


def sparse_is_refused(table, line, text):
    """A step that was out of memory changes no byte; what the others answer is fixed then."""
    words, parts, memory = steps(line.words[2:]), text.split("; "), memory_in(line)
    if len(words) != len(parts) or NO_MEMORY not in parts:
        return False
    for step, part in zip(words, parts):
        if part == NO_MEMORY and step[0] in ("write", "copy", "zero", "reserve"):
            continue
        if not is_right(step_of(table, step, False)(memory), part):
            return False
    return True


class Slice:
    """Memory in a slice from a base on: what lies below is zero, and no call touches it."""

    def __init__(self, base: int, length: int, fill: int):
        self.base, self.size = base, base + length
        self.slice = bytearray([fill]) * length

    def holds(self, start: int, end: int) -> bool:
        return start <= end <= self.size

    def read(self, at: int, length: int) -> bytes:
        return bytes(self.slice[a - self.base] if self.base <= a else 0
                     for a in range(at, at + length))

    def write(self, at: int, data: bytes) -> None:
        self.slice[at - self.base:at - self.base + len(data)] = data

    def zero(self, start: int, end: int) -> None:
        self.write(start, bytes(end - start))


# Room that memory can't have is refused though no request for memory was.
NO_ROOM = NO_MEMORY + ", unasked"


def slice_step(table, words: List[str], memory: Slice) -> str:
    """A step as for other memory, but nothing below the base has room or is lent."""
    demand(bool(words))
    made = step_of(table, words, True)
    if words[0] == "lend" and number(words[1]) < memory.base:
        demand(memory.holds(number(words[1]), number(words[1]) + number(words[2])))
        return "nothing"
    length = lambda: len(table.names.bytes_of(words[2:]))
    ranges = {"write": lambda: [(at, at + length()) for at in numbers(words[1])],
              "copy": lambda: [(number(words[2]), number(words[2]) + number(words[3]))],
              "zero": lambda: [pair(words[1], "..")],
              "reserve": lambda: [pair(word, "..") for word in words[1:]]}
    # an empty range needs no room, wherever it lies
    if words[0] in ranges and any(start < memory.base and start < end for start, end in ranges[words[0]]()):
        return NO_ROOM
    return made(memory)


def slice_memory(table, line):
    """`base=ADDRESS size=N fill=VV`, before the steps; behind them all of the slice is told."""
    demand(len(line.words) >= 3)
    named, bare = fields(line.words[:3])
    only(named, "base", "size", "fill")
    demand(not bare)
    memory = Slice(number(single(named, "base"), 32), number(single(named, "size")),
                   number(single(named, "fill"), 8))
    told = [slice_step(table, words, memory) for words in steps(line.words[3:])]
    return "; ".join(told + ["slice " + spelled(bytes(memory.slice))])


def own(table, line):
    word = spelled(line.data)
    is_empty = "false" if line.data else "true"
    return "length %x empty %s; [%s]; [%s]" % (len(line.data), is_empty, word, word)


CALLS = {
    "memory": Call(flat),
    "sparse": Call(sparse, is_refused=sparse_is_refused),
    "slice_memory": Call(slice_memory),
    "own": Call(own, "all"),
}
