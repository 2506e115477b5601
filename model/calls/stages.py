"""stage, sparse_stage: the calls of bl_stage."""

from typing import Callable, List, Tuple

from language import ByHand, demand, fields, number, numbers, only, pair, single, spell, steps
from rules.memory import Memory
from rules.numbers import FRAME, frames as frames_for
from rules.staging import Stage, Untold

from . import Call
from .answers import Steps
from .machines import last_machine
from .memories import step_of

LETTERS = {"stored": "s", "repeated": "r", "strange": "x"}


class StagedMemory:
    """Memory beside a stage, which may lie in it."""

    def __init__(self, stage: Stage):
        self.stage = stage
        self.size = stage.memory.size
        self.holds = stage.memory.holds
        self.read = stage.read
        self.write = stage.write

    def zero(self, start: int, end: int) -> None:
        self.stage.write(start, bytes(end - start))


def read_step(table, words: List[str], is_block: bool) -> Callable[[Stage], object]:
    demand(bool(words))
    name, rest = words[0], words[1:]
    if name == "put":
        demand(len(rest) >= 2)
        file, index, data = number(rest[0], 32), number(rest[1], 32), table.names.bytes_of(rest[2:])
        return lambda stage: stage.put(file, index, data)
    if name == "puts":
        pieces = [read_put(table, word) for word in rest]
        return lambda stage: "".join(LETTERS[stage.put(*piece)] for piece in pieces)
    if name == "complete":
        demand(not rest)
        return lambda stage: "complete" if stage.is_complete() else "waiting"
    if name == "view":
        demand(len(rest) == 1)
        return lambda stage: view(stage, number(rest[0], 32))
    if name in ("evacuate", "scrub"):
        ranges = [pair(word, "..") for word in rest]
        demand(all(start <= end for start, end in ranges))
        if name == "evacuate":
            return lambda stage: "ok" if stage.evacuate(ranges) else "no pool"
        return lambda stage: scrub(stage, ranges)
    step = step_of(table, words, is_block)
    return lambda stage: step(StagedMemory(stage))


def read_put(table, word: str) -> Tuple[int, int, bytes]:
    """`FILE.INDEX=PIECE`."""
    place, equals, piece = word.partition("=")
    file, dot, index = place.partition(".")
    demand(equals == "=" and dot == ".")
    return number(file, 32), number(index, 32), table.names.one(piece)


def view(stage: Stage, file: int) -> str:
    demand(file < len(stage.sizes))
    demand(all(spot in stage.came for spot in stage.spots if spot[0] == file))
    return spell(stage.view(file))


def scrub(stage: Stage, ranges) -> str:
    stage.scrub(ranges)
    return "ok"


def read_frames(word: str, pool: Tuple[int, int], needed: int):
    """The frames that the files are staged in: enough of the pool's, none twice; or none given."""
    if word == "any":
        return None
    frames = numbers(word)
    demand(len(frames) == needed and len(set(frames)) == needed)
    demand(all(pool[0] <= frame < pool[1] and frame % FRAME == 0 for frame in frames))
    return frames


def make(table, line, is_block: bool):
    machine = last_machine(table)
    demand(len(line.words) >= 2)
    named, bare = fields(line.words[:2])
    only(named, "sizes", "frames")
    demand(not bare)
    sizes = numbers(single(named, "sizes"))
    made = [read_step(table, words, is_block) for words in steps(line.words[2:])]
    needed = sum(frames_for(size) for size in sizes)
    is_any = single(named, "frames") == "any"
    if is_any and needed > (machine.pool[1] - machine.pool[0]) // FRAME:
        return "no pool"
    frames = read_frames(single(named, "frames"), machine.pool, needed)
    stage = Stage(machine, Memory(machine.size, 0xa5), sizes, frames)
    try:
        return Steps([step(stage) for step in made])
    except Untold:
        raise ByHand("it depends on the frames that are chosen")


CALLS = {
    "stage": Call(lambda table, line: make(table, line, True)),
    "sparse_stage": Call(lambda table, line: make(table, line, False)),
}
