"""Whether the boot manager may copy, once the firmware has ended, as it says in handover.memory: nothing that is written is read,
or runs, until all is copied; and with what lies in its place already the copies are all parts of the image. Prints how many bytes
are copied and how many lie in place.

    memory.py handover.memory handover.image"""

import struct
import sys
from typing import List, NamedTuple, Tuple

sys.dont_write_bytecode = True

FREE = {1, 2, 3, 4, 7}  # the firmware's numbers of the types whose memory is free after its end: loader, boot services, conventional
LOADER_DATA = 2
PAGE = 4096
HEAD, RECORD = 272, struct.Struct("<IIQQ")  # of an image: where its records begin, and one of them


class Range(NamedTuple):
    start: int
    length: int

    @property
    def end(self) -> int:
        return self.start + self.length

    def meets(self, other: "Range") -> bool:
        return self.start < other.end and other.start < self.end and self.length > 0 and other.length > 0


class Move(NamedTuple):
    to: Range
    source: int  # 0: zeros


class Memory(NamedTuple):
    """As the firmware is to end: its ranges by type, the entry's files, and parts by role, what is needed until the last jump, the
    moves."""

    ranges: List[Tuple[int, Range]]
    files: List[Range]
    parts: List[Tuple[int, Range]]
    last: Range
    moves: List[Move]


def read_memory(path: str) -> Memory:
    with open(path, encoding="ascii") as text:
        lines = [line.split() for line in text]
    names = ("range", "file", "part", "last", "move")
    words = {name: [[int(word, 0) for word in line[1:]] for line in lines if line[0] == name] for name in names}
    if sum(map(len, words.values())) != len(lines) or len(words["last"]) != 1:
        raise ValueError(f"{path} has a line of another form")
    moves = [Move(Range(to, length), source) for to, source, length in words["move"]]
    return Memory(
        [(kind, Range(start, length)) for kind, start, length in words["range"]],
        [Range(start, length) for _, start, length in words["file"]],
        [(role, Range(start, length)) for role, start, length in words["part"]],
        Range(*words["last"][0]),
        moves,
    )


def read_parts(path: str) -> List[Tuple[int, Range]]:
    with open(path, "rb") as image:
        head = image.read(HEAD)
        count = struct.unpack_from("<I", head, 264)[0]
        records = [RECORD.unpack(image.read(RECORD.size)) for _ in range(count)]
    return [(role, Range(address, length)) for role, _, address, length in records]


def are_in(wanted: Range, ranges: List[Range]) -> bool:
    """Whether each byte lies in one of the ranges, which ascend."""
    at = wanted.start
    for each in ranges:
        if each.start <= at < each.end:
            at = each.end
    return at >= wanted.end


def faults(memory: Memory) -> List[str]:
    parts = [part for _, part in memory.parts]
    free = [each for kind, each in memory.ranges if kind in FREE]
    own = [each for kind, each in memory.ranges if kind == LOADER_DATA]
    written = [move.to for move in memory.moves]
    needed = [Range(move.source, move.to.length) for move in memory.moves if move.source] + [memory.last]
    found = [f"{each} is written, and not free" for each in written if not are_in(each, free)]
    found += [f"{each} is needed, and not the loader's" for each in needed if not are_in(each, own)]
    for each in written:
        found += [f"{each} is written, and {other} is needed" for other in needed if each.meets(other)]
    placed = sorted(written + [each for each in memory.files if each.length and any(are_in(each, [part]) for part in parts)])
    found += [f"{each} is placed, and {other} too" for each, other in zip(placed, placed[1:]) if each.meets(other)]
    found += [f"{part} is no whole part" for part in parts if not are_in(part, placed)]
    if sum(each.length for each in placed) != sum(part.length for part in parts):
        found.append("more is placed than the parts")
    return found


def main() -> int:
    memory = read_memory(sys.argv[1])
    found = faults(memory)
    if memory.parts != read_parts(sys.argv[2]):
        found.append("the parts are not the image's")
    copied = sum(move.to.length for move in memory.moves)
    in_place = sum(part.length for _, part in memory.parts) - copied
    print("\n".join(found) or f"{copied} bytes are copied, {in_place} lie in place")
    return 1 if found else 0


if __name__ == "__main__":
    sys.exit(main())
