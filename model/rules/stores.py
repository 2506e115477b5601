"""Stores, which answer the tickets of a boot. docs/BOOT-RULES.md, after "Events";
crates/bl_session/README.md."""

from typing import List, Optional, Tuple

from .attempts import Session, Ticket, piece_of

Answer = Tuple[Ticket, Optional[bytes]]  # a ticket, and its piece or a fault


class FileStore:
    """Answers the first ticket that was submitted, or in reverse the last, by its file's piece."""

    def __init__(self, is_reverse: bool):
        self.is_reverse = is_reverse
        self.pending: List[Answer] = []

    def submit(self, ticket: Ticket, piece: bytes) -> None:
        self.pending.append((ticket, piece))

    def answer(self) -> Optional[Answer]:
        if not self.pending:
            return None
        return self.pending.pop(-1 if self.is_reverse else 0)


class ScriptStore(FileStore):
    """Answers in any order: each pick is the place of the next answer among those to come. Some
    tickets are answered twice, the second time with other bytes, some by a fault."""

    def __init__(self, twice: List[Ticket], fail: List[Ticket], picks: List[int]):
        super().__init__(False)
        self.twice, self.fail, self.picks = twice, fail, picks

    def submit(self, ticket: Ticket, piece: bytes) -> None:
        self.pending.append((ticket, None if ticket in self.fail else piece))
        if ticket in self.twice:
            self.pending.append((ticket, altered(piece)))

    def answer(self) -> Optional[Answer]:
        if not self.pending:
            return None
        pick = self.picks.pop(0) if self.picks else 0
        return self.pending.pop(pick % len(self.pending))


def altered(piece: bytes) -> bytes:
    return bytes(byte ^ 0xff for byte in piece)


class SilentStore:
    """Gives no answer at all."""

    def submit(self, ticket: Ticket, piece: bytes) -> None:
        pass

    def answer(self) -> Optional[Answer]:
        return None


class DryStore:
    """Gives so many answers of another store, and then nothing more."""

    def __init__(self, store, answers: int):
        self.store, self.left = store, answers

    def submit(self, ticket: Ticket, piece: bytes) -> None:
        self.store.submit(ticket, piece)

    def answer(self) -> Optional[Answer]:
        if self.left == 0:
            return None
        self.left -= 1
        return self.store.answer()


def run(session: Session, store) -> None:
    """A boot over a store, up to its end. If nothing more comes, the first missing piece counts as
    a fault."""
    submitted = None
    session.start()
    while session.state == "waiting":
        if session.attempt != submitted:
            submitted = session.attempt
            files = [session.menu.file(index) for index in session.entry().files()]
            for file, index in session.spots():
                store.submit(Ticket(submitted, file, index), piece_of(files[file], index))
        given = store.answer()
        if given is None:
            given = Ticket(submitted, *session.missing()[0]), None
        session.event(*given)
