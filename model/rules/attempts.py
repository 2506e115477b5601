"""A boot that takes one event after the other. docs/BOOT-RULES.md "Menus", "Events", "Order of the
checks"."""

from typing import Dict, List, NamedTuple, Optional, Tuple

from . import booting
from .entry import hand_over
from .handover import Handover
from .machine import Machine
from .numbers import FRAME, frames
from .refusals import Refused


class Ticket(NamedTuple):
    attempt: int
    file: int  # the file's place in the entry, the kernel 0
    piece: int


def piece_of(file: bytes, index: int) -> bytes:
    return file[index * FRAME:(index + 1) * FRAME]


class Session:
    """The attempts of a menu. `sizes` tells the sizes of an entry's files."""

    def __init__(self, machine: Machine, menu, order: List[int]):
        self.machine = machine
        self.menu = menu
        self.order = order  # the entries that are attempted
        self.attempt: Optional[int] = None  # the attempt that runs, while one waits
        self.state = "new"  # then waiting, done or failed
        self.sizes: List[int] = []
        self.came: Dict[Tuple[int, int], bytes] = {}
        self.refused: List[Tuple[int, Refused]] = []
        self.handover: Optional[Handover] = None

    # ---- what is told

    def start(self) -> str:
        """What the first start answers; a later one changes nothing."""
        if self.state != "new":
            return self.state
        self._begin(0)
        return self._answer(0)

    def event(self, ticket: Ticket, data: Optional[bytes]) -> str:
        """A piece, or a fault if it has no bytes at all (None). One that is not wanted changes
        nothing."""
        if self.state == "new":
            return "waiting"
        if not self._is_wanted(ticket, data):
            return self.state
        before = self.attempt
        if data is None:
            self._refuse(Refused(2, ticket.file))
        else:
            self.came[ticket[1:]] = data
            if not self.missing():
                self._end()
        return self._answer(before)

    def _answer(self, before: int) -> str:
        if self.state == "waiting" and self.attempt != before:
            return "next %x" % self.attempt
        return self.state

    # ---- an attempt

    def spots(self) -> List[Tuple[int, int]]:
        """The pieces of the attempt, files ascending and in each of them pieces ascending."""
        return [(file, i) for file, size in enumerate(self.sizes) for i in range(frames(size))]

    def missing(self) -> List[Tuple[int, int]]:
        return [spot for spot in self.spots() if spot not in self.came]

    def piece_size(self, file: int, index: int) -> int:
        return min(FRAME, self.sizes[file] - index * FRAME)

    def _is_wanted(self, ticket: Ticket, data: Optional[bytes]) -> bool:
        if self.state != "waiting" or ticket.attempt != self.attempt:
            return False
        if ticket[1:] not in self.missing():
            return False
        return data is None or len(data) == self.piece_size(ticket.file, ticket.piece)

    def _begin(self, attempt: int) -> None:
        if attempt == len(self.order):
            self.state = "failed"
            return
        self.attempt, self.state, self.came = attempt, "waiting", {}
        sizes = self.menu.sizes(self.entry())
        try:
            booting.refuse_sizes(self.machine, sizes)
        except Refused as refused:
            self._refuse(refused)
            return
        self.sizes = sizes
        if not self.spots():
            self._end()

    def entry(self):
        return self.menu.entries[self.order[self.attempt]]

    def _refuse(self, refused: Refused) -> None:
        """The next attempt begins in the same call."""
        self.refused.append((self.order[self.attempt], refused))
        self._begin(self.attempt + 1)

    def _end(self) -> None:
        """All pieces came: the entry is refused for what its files hold, or for want of room, or
        handed over."""
        files = [b"".join(self.came[file, i] for i in range(frames(size)))
                 for file, size in enumerate(self.sizes)]
        try:
            self.handover = hand_over(self.machine, self.entry().with_files(files))
            self.state = "done"
        except Refused as refused:
            self._refuse(refused)
