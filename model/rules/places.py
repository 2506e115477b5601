"""Places: where a part may stand, and which address is chosen. BOOT-RULES.md "Places"."""

from typing import List, NamedTuple, NoReturn, Optional

from .machine import Machine, Range, covers, gaps_between, meets, permitted_ranges
from .numbers import FRAME, frames, round_down, round_up
from .refusals import Refused

MIB, GIB4 = 0x100000, 1 << 32


class Wanted(NamedTuple):
    """A part that finds no place: what it is, which one of its role, its length, how its address is
    chosen, and by which limits; `at` is an address of its own, or one that is preferred."""
    role: int
    index: int
    length: int
    choice: str  # fixed, lowest, highest, preferred
    at: int = 0
    align: int = 0
    low: int = 0
    high: int = 0


class Planner:
    """The bytes of a machine that are usable and not avoided, and the ranges that parts have taken
    so far. Who asks which part finds no place says by `part` what is placed next."""

    def __init__(self, machine: Machine):
        self.permitted = permitted_ranges(machine)
        self.taken: List[Range] = []
        self.role, self.index = 0, 0

    def part(self, role: int, index: int = 0) -> "Planner":
        self.role, self.index = role, index
        return self

    def gaps(self) -> List[Range]:
        """The permitted bytes that no part has, as ascending ranges with something between them."""
        return gaps_between(self.permitted, self.taken)

    def is_permitted(self, at: int, length: int, align: int, low: int, high: int) -> bool:
        """The rules of a permitted address, one by one."""
        return (at % align == 0
                and low <= at
                and at + length <= high
                and covers(self.permitted, at, at + length)
                and not any(meets((at, at + length), part) for part in self.taken))

    def least(self, length: int, align: int, low: int, high: int) -> Optional[int]:
        """The least permitted address: the gaps that hold one, from the lowest on."""
        for start, end in self.gaps():
            at = round_up(max(start, low), align)
            if at + length <= min(end, high):
                return at
        return None

    def greatest(self, length: int, align: int, low: int, high: int) -> Optional[int]:
        """The greatest permitted address: the gaps that hold one, from the highest on."""
        for start, end in reversed(self.gaps()):
            at = round_down(min(end, high) - length, align)
            if at >= max(start, low):
                return at
        return None

    # What follows takes the range that it chose, or refuses and tells which part it was for.

    def take(self, at: int, length: int) -> int:
        self.taken.append((at, at + length))
        return at

    def lowest(self, length: int, align: int, low: int, high: int) -> int:
        at = self.least(length, align, low, high)
        if at is None:
            self._refuse(20, length, "lowest", 0, align, low, high)
        return self.take(at, length)

    def highest(self, length: int, align: int, low: int, high: int) -> int:
        at = self.greatest(length, align, low, high)
        if at is None:
            self._refuse(20, length, "highest", 0, align, low, high)
        return self.take(at, length)

    def preferred(self, asked: int, length: int, align: int, low: int, high: int) -> int:
        """The address asked for if it is permitted, else the lowest."""
        if self.is_permitted(asked, length, align, low, high):
            return self.take(asked, length)
        at = self.least(length, align, low, high)
        if at is None:
            self._refuse(20, length, "preferred", asked, align, low, high)
        return self.take(at, length)

    def fixed(self, start: int, end: int) -> int:
        """A part at its own address: each byte is usable, and none is avoided (19); none is in an
        earlier part (15)."""
        if not covers(self.permitted, start, end):
            self._refuse(19, end - start, "fixed", start)
        if any(meets((start, end), part) for part in self.taken):
            self._refuse(15, end - start, "fixed", start)
        return self.take(start, end - start)

    def _refuse(self, number: int, length: int, *asked) -> NoReturn:
        refused = Refused(number)
        refused.wanted = Wanted(self.role, self.index, length, *asked)
        raise refused


def undisturbed_frames(machine: Machine, parts: List[Range]) -> int:
    """How many of the pool's frames meet no part. Two parts may meet one frame."""
    start, end = machine.pool[0] // FRAME, machine.pool[1] // FRAME
    count, at = 0, start  # the frames below `at` are counted
    for low, high in sorted((low // FRAME, frames(high)) for low, high in parts if low < high):
        count += max(min(low, end) - at, 0)
        at = max(at, high)
    return count + max(end - at, 0)
