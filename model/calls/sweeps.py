"""The ways to make a call: once, with a request refused, for each refusal, and over changed
BYTES."""

from typing import Dict, Iterator, List, Tuple

from language import BadRow, Line, demand, digits

from . import ALL_BYTES, NO_BYTES, Call, Table
from .answers import Answer, Refusals, Refusing, Sweep


def read_line(table: Table, calls: Dict[str, Call], words: List[str]) -> Line:
    demand(bool(words) and words[0] in calls)
    name, rest = words[0], words[1:]
    takes = calls[name].takes
    if takes == NO_BYTES:
        return Line(name, rest, b"")
    if "of" in rest:
        at = rest.index("of")
        return Line(name, rest[:at], table.names.bytes_of(rest[at + 1:]))
    demand(takes == ALL_BYTES)
    return Line(name, [], table.names.bytes_of(rest))


def once(table: Table, calls: Dict[str, Call], line: Line) -> Answer:
    try:
        return calls[line.name].make(table, line)
    except BadRow:
        return "bad row"


def each_cut(data: bytes) -> Iterator[Tuple[int, bytes]]:
    for n in range(len(data) + 1):
        yield n, data[:n]


def each_set(data: bytes, value: bytes) -> Iterator[Tuple[int, bytes]]:
    for n in range(len(data)):
        yield n, data[:n] + value + data[n + 1:]


def answer(table: Table, calls: Dict[str, Call], words: List[str]) -> Answer:
    """The answer of a row's call."""
    if words[:1] == ["refuse"]:
        demand(len(words) > 1 and words[1].isdigit())
        line = read_line(table, calls, words[2:])
        return Refusing(once(table, calls, line), is_refused(table, calls, line))
    if words[:1] != ["each"]:
        return once(table, calls, read_line(table, calls, words))
    demand(len(words) > 1)
    if words[1] == "refusal":
        line = read_line(table, calls, words[2:])
        return Refusals(once(table, calls, line), is_refused(table, calls, line))
    if words[1] == "cut":
        line = read_line(table, calls, words[2:])
        changed = each_cut(line.data)
    else:
        demand(words[1] == "set" and len(words) > 2)
        line = read_line(table, calls, words[3:])
        changed = each_set(line.data, digits(words[2]))
    demand(calls[line.name].takes != NO_BYTES)
    return Sweep((n, once(table, calls, line._replace(data=data))) for n, data in changed)


def is_refused(table: Table, calls: Dict[str, Call], line: Line):
    return lambda text: calls[line.name].is_refused(table, line, text)
