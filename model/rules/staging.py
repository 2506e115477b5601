"""Files in frames of the pool: pieces, views, making way, scrubbing. crates/bl_stage/README.md.

Which free frame a file's piece is put or moved into is no rule. So a piece is `fixed` in a frame
that is known, or it is `loose`: then it is in one of several frames, and those hold bytes that the
rules do not tell."""

from typing import Dict, List, Optional, Sequence, Set, Tuple

from .machine import Machine, Range, meets
from .memory import Memory
from .numbers import FRAME, frames as frames_for

Spot = Tuple[int, int]  # a file and the index of a piece of it


class Untold(Exception):
    """The rules do not say what stands there."""


def frames_of(pool: Range) -> List[int]:
    return list(range(pool[0], pool[1], FRAME))


def frame_range(frame: int) -> Range:
    return frame, frame + FRAME


def free_of(pool: Range, ranges: Sequence[Range]) -> List[int]:
    """The pool's frames of which no byte lies in the ranges."""
    return [f for f in frames_of(pool) if not any(meets(frame_range(f), r) for r in ranges)]


class Stage:
    """Files of these sizes; their pieces are put in the pool's frames, in the given ones if there
    are any."""

    def __init__(self, machine: Machine, memory: Memory, sizes: Sequence[int],
                 frames: Optional[Sequence[int]]):
        self.pool = machine.pool
        self.memory = memory
        self.sizes = list(sizes)
        spots = [(file, i) for file, size in enumerate(sizes) for i in range(frames_for(size))]
        self.fixed: Dict[Spot, int] = {}
        self.loose: Dict[Spot, Set[int]] = {}
        self.text: Dict[Spot, bytearray] = {}  # what a loose piece's frame holds
        self.came: Set[Spot] = set()
        self.untold: Dict[int, bytearray] = {}  # of a frame: 1 for each byte that no rule tells
        if frames is not None:
            self.fixed = dict(zip(spots, frames))
        else:
            for spot in spots:
                self._loosen(spot, set(frames_of(self.pool)), memory.read(self.pool[0], FRAME))
        self.spots = spots

    def _loosen(self, spot: Spot, frames: Set[int], text: bytes) -> None:
        self.fixed.pop(spot, None)
        self.loose[spot] = frames
        self.text[spot] = bytearray(text)

    def _forget(self, frames: Set[int]) -> None:
        for frame in frames:
            self.untold[frame] = bytearray(b"\1") * FRAME

    def piece_size(self, spot: Spot) -> int:
        file, index = spot
        return min(FRAME, self.sizes[file] - index * FRAME)

    def put(self, file: int, index: int, data: bytes) -> str:
        """The first piece of the right length counts; no other changes anything."""
        spot = (file, index)
        if spot not in self.fixed and spot not in self.loose:
            return "strange"
        if len(data) != self.piece_size(spot):
            return "strange"
        if spot in self.came:
            return "repeated"
        self.came.add(spot)
        if spot in self.fixed:
            self.memory.write(self.fixed[spot], data)
        else:
            self.text[spot][:len(data)] = data
            self._forget(self.loose[spot])
        return "stored"

    def is_complete(self) -> bool:
        return len(self.came) == len(self.spots)

    def view(self, file: int) -> bytes:
        pieces = []
        for spot in self.spots:
            if spot[0] == file:
                pieces.append(self._held(spot)[:self.piece_size(spot)])
        return b"".join(pieces)

    def _held(self, spot: Spot) -> bytes:
        if spot in self.fixed:
            return self.memory.read(self.fixed[spot], FRAME)
        if not self.loose[spot]:
            raise Untold
        return bytes(self.text[spot])

    def evacuate(self, ranges: Sequence[Range]) -> bool:
        """Makes way for the ranges: no file's frame meets one then, and a frame that met none
        stays. Nothing is changed if the frames that meet none are too few for the files."""
        free = set(free_of(self.pool, ranges))
        if len(free) < len(self.spots):
            return False
        staying = {frame for frame in self.fixed.values() if frame in free}
        moving = [spot for spot, frame in self.fixed.items() if frame not in free]
        for spot in moving:
            self._forget({self.fixed[spot]})
            self._loosen(spot, free - staying, self.memory.read(self.fixed[spot], FRAME))
        for spot, frames in self.loose.items():
            if not frames <= free:
                self._forget(frames)
                self.loose[spot] = free - staying
            self._forget(self.loose[spot])
        return True

    def scrub(self, keep: Sequence[Range]) -> None:
        """Each byte of the pool outside of the ranges to keep is 0 then."""
        for start, end in gaps_of(self.pool, keep):
            self.memory.zero(start, end)
        for frame, untold in self.untold.items():
            clear(untold, frame, keep)
        for spot, frames in self.loose.items():
            ways = {tuple(gaps_of(frame_range(frame), keep, -frame)) for frame in frames}
            if len(ways) > 1:
                self.loose[spot] = set()  # it depends on the frame what is cleared
            elif frames:
                clear(self.text[spot], min(frames), keep)

    def read(self, at: int, length: int) -> bytes:
        for frame, untold in self.untold.items():
            if any(untold[max(at - frame, 0):max(at + length - frame, 0)]):
                raise Untold
        return self.memory.read(at, length)

    def write(self, at: int, data: bytes) -> None:
        """A byte that is written where a file lies is the file's."""
        self.memory.write(at, data)
        end = at + len(data)
        for frame, untold in self.untold.items():
            low, high = max(at, frame), min(end, frame + FRAME)
            if low < high:
                untold[low - frame:high - frame] = bytes(high - low)
        for spot, frames in self.loose.items():
            if any(meets(frame_range(frame), (at, end)) for frame in frames):
                self.loose[spot] = set()


def gaps_of(range_: Range, keep: Sequence[Range], further: int = 0) -> List[Range]:
    """The bytes of a range outside of those to keep, as ascending ranges, each so much further."""
    gaps, at = [], range_[0]
    for start, end in sorted(keep):
        if start < end and at < min(start, range_[1]):
            gaps.append((at + further, min(start, range_[1]) + further))
        at = max(at, end) if start < end else at
    if at < range_[1]:
        gaps.append((at + further, range_[1] + further))
    return gaps


def clear(held: bytearray, frame: int, keep: Sequence[Range]) -> None:
    """Clears what a frame holds outside of the ranges to keep."""
    for start, end in gaps_of(frame_range(frame), keep, -frame):
        held[start:end] = bytes(end - start)
