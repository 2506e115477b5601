"""run, session: the calls of bl_session on whole boots."""

from functools import lru_cache
from typing import List, Optional

from language import ByHand, demand, number, numbers, single, spell, steps
from rules import stores
from rules.attempts import Session, Ticket
from rules.handover import Handover, part_bytes
from rules.memory import Memory

from . import Call
from .answers import Answer, Open, Steps, is_right, one_of
from .entries import head_text, place_text
from .kernels import refusal_text
from .machines import last_machine
from .menus import Menu, usable_menu

FILL = 0xa5
NO_MEMORY, KEPT = "no memory", "outside kept"
LOOKED_AT = 1 << 22  # memory of so many bytes is looked at whole


@lru_cache(maxsize=256)
def fnv(data: bytes) -> int:
    """FNV-1a of 64 bits."""
    total = 0xcbf29ce484222325
    for byte in data:
        total = (total ^ byte) * 0x100000001b3 % (1 << 64)
    return total


def handover_text(handover: Handover) -> str:
    parts = ["%s=%016x" % (place_text(part, part.length), fnv(part_bytes(part)))
             for part in handover.parts]
    return ", ".join([head_text(handover.protocol, handover.registers)] + parts)


def outcome_text(session: Session) -> str:
    if session.state not in ("done", "failed"):
        return "none"
    words = ["refused %x %s" % (entry, refusal_text(refused)) for entry, refused in session.refused]
    if session.handover is None:
        return ", ".join(words + ["no entry left", "pool clear"])
    booted = "booted %x" % session.order[session.attempt]
    return ", ".join(words + [booted, handover_text(session.handover), "pool clear"])


def outside(machine) -> Answer:
    """Memory outside the pool and the parts is as before; not looked at where there is much."""
    if machine.size <= LOOKED_AT:
        return KEPT
    return one_of([KEPT, "outside not looked at"])


def store_of(menu: Menu):
    named = menu.named
    told = [single(named, name) if name in named else "" for name in ("twice", "fail", "picks")]
    demand(menu.store == "script" or not any(told))
    if menu.store == "script":
        store = stores.ScriptStore(read_tickets(told[0]), read_tickets(told[1]), numbers(told[2]))
    elif menu.store == "silent":
        store = stores.SilentStore()
    else:
        store = stores.FileStore(menu.store == "reverse")
    if "answers" in named:
        return stores.DryStore(store, number(single(named, "answers")))
    return store


def run(table, line):
    machine = last_machine(table)
    menu, order = usable_menu(table, line.words)
    session = Session(machine, menu, order)
    stores.run(session, store_of(menu))
    told = ", " + outcome_text(session)
    kept = outside(machine)
    if isinstance(kept, str):
        return kept + told
    return Open(KEPT + told, lambda text: text.endswith(told) and is_right(kept, text[:-len(told)]))


def read_tickets(word: str) -> List[Ticket]:
    """`A.F.P,..`."""
    return [read_ticket(ticket) for ticket in word.split(",")] if word else []


def read_ticket(word: str) -> Ticket:
    parts = [number(part, 32) for part in word.split(".")]
    demand(len(parts) == 3)
    return Ticket(*parts)


def memory_in(session: Session, at: int, length: int) -> str:
    """What memory holds: while an attempt waits the pool's bytes are no rule."""
    machine = session.machine
    demand(at + length <= machine.size)
    memory = Memory(machine.size, FILL)
    start, end = machine.pool
    if session.state in ("done", "failed"):
        if end <= machine.size:
            memory.zero(start, end)
        for part in session.handover.parts if session.handover else []:
            memory.write(part.address, part_bytes(part))
    elif session.state == "waiting" and max(at, start) < min(at + length, end):
        raise ByHand("what the pool holds while pieces come")
    return spell(memory.read(at, length))


def request_text(session: Session, after: Optional[Ticket]) -> str:
    """The first piece that is awaited, or the first one after that of a ticket of any attempt."""
    if session.state != "waiting":
        return "none"
    for file, index in session.missing():
        if after is None or (file, index) > after[1:]:
            return "file %x ticket %x.%x.%x length %x" % (
                session.entry().files()[file], session.attempt, file, index,
                session.piece_size(file, index))
    return "none"


def is_event(words: List[str]) -> bool:
    return words[0] in ("start", "piece", "fault")


def told(table, session: Session, words: List[str]) -> Answer:
    """What a step of a session answers."""
    name, rest = words[0], words[1:]
    if name == "start":
        demand(not rest)
        return session.start()
    if name == "piece":
        demand(bool(rest))
        return session.event(read_ticket(rest[0]), table.names.bytes_of(rest[1:]))
    if name == "fault":
        demand(len(rest) == 1)
        return session.event(read_ticket(rest[0]), None)
    if name == "read":
        demand(len(rest) == 2)
        return memory_in(session, number(rest[0]), number(rest[1]))
    if name == "missing":
        demand(len(rest) < 2)
        return request_text(session, read_ticket(rest[0]) if rest else None)
    if words == ["waiting"]:
        return "yes" if session.state == "waiting" else "no"
    demand(words in (["outcome"], ["outside"]))
    return outcome_text(session) if name == "outcome" else outside(session.machine)


def parse(table, line):
    demand("do" in line.words)
    at = line.words.index("do")
    menu, order = usable_menu(table, line.words[:at])
    made = steps(line.words[at + 1:])
    demand(all(made))
    return Session(last_machine(table), menu, order), made


def session(table, line):
    boot, made = parse(table, line)
    return Steps([told(table, boot, words) for words in made])


def session_is_refused(table, line, text):
    """Out of memory ends the boot: up to then each answer is the session's own, and no entry is
    refused for it. Then each event is answered the same, the outcome is want of memory, and memory
    outside the pool is as before. Without room for the pool no event may be told, and `no memory`
    stands in its place."""
    boot, made = parse(table, line)
    parts = text.split("; ")
    if text == NO_MEMORY or len(parts) != len(made):
        return text == NO_MEMORY
    is_out = False
    for words, part in zip(made, parts):
        if not is_out:
            own = told(table, boot, words)
            if is_right(own, part):
                continue
            # Only the start and an event that ends its attempt can be out of memory.
            is_out = words[0] == "start" or (is_event(words) and own != "waiting")
            if not is_out:
                return False
        if not is_told_out(words, part, boot):
            return False
    return is_out


def is_told_out(words: List[str], part: str, boot: Session) -> bool:
    """Whether a step answers so once the boot is out of memory."""
    if words[0] in ("piece", "fault"):
        return part in ("failed", NO_MEMORY)
    if words[0] == "read":
        at, length = number(words[1]), number(words[2])
        start, end = boot.machine.pool
        return max(at, start) < min(at + length, end) or part == spell(bytes([FILL]) * length)
    return part == {"start": "failed", "waiting": "no", "missing": "none", "outcome": NO_MEMORY,
                    "outside": KEPT}[words[0]]


CALLS = {
    "run": Call(run, is_refused=lambda table, line, text: text == KEPT + ", " + NO_MEMORY),
    "session": Call(session, is_refused=session_is_refused),
}
