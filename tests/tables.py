"""Tables of rows as data: which lines are rows, and how answers differ from those that are wanted."""

from itertools import zip_longest
from pathlib import Path
from typing import List, NamedTuple, Tuple

from tests.support import TOP

ANSWERS = 20  # so many differing lines are shown of a table
WIDTH = 240  # and so many characters of each
MISSING = "(no line)"


def all_tables() -> List[Path]:
    return sorted(TOP.glob("rows/*.rows"))


def name_of(table: Path) -> str:
    return str(table.relative_to(TOP))


def lines_of(text: bytes) -> List[str]:
    """The lines of a table. Without its last line feed a text has another last line."""
    lines = text.decode(errors="backslashreplace").split("\n")
    return lines[:-1] if lines[-1] == "" else [*lines[:-1], lines[-1] + "\\ no line feed"]


def is_row(line: str) -> bool:
    return " | " in line


def rows_of(table: Path) -> int:
    return sum(map(is_row, lines_of(table.read_bytes())))


class Compared(NamedTuple):
    """How many rows of a table are answered as wanted, how many lines are not, and what these are."""

    passed: int
    failed: int
    why: str


def around(line: str, at: int) -> str:
    """A line, of a long one its beginning and what stands around a place."""
    if len(line) <= WIDTH:
        return line
    start = max(at - WIDTH // 4, 0)
    end = start + WIDTH // 2
    head = line[: min(WIDTH // 2, start)]
    return f"{head}{' .. ' if start > len(head) else ''}{line[start:end]}{' ..' if end < len(line) else ''}"


def first_difference(one: str, other: str) -> int:
    return next((at for at, (a, b) in enumerate(zip(one, other)) if a != b), min(len(one), len(other)))


def compared(name: str, wanted: bytes, answered: bytes, first: int = 1) -> Compared:
    """Compares a table with what was answered, line by line; `first` is the number of its first line."""
    pairs = list(zip_longest(lines_of(wanted), lines_of(answered)))
    differing: List[Tuple[int, str, str]] = [
        (number, MISSING if line is None else line, MISSING if answer is None else answer)
        for number, (line, answer) in enumerate(pairs, first)
        if line != answer
    ]
    rows = sum(is_row(line) for line, answer in pairs if line is not None and line == answer)
    shown = []
    for number, line, answer in differing[:ANSWERS]:
        at = first_difference(line, answer)
        shown += [f"{name}:{number}", f"  wanted:   {around(line, at)}", f"  answered: {around(answer, at)}"]
    if len(differing) > ANSWERS:
        shown.append(f".. and {len(differing) - ANSWERS} lines more")
    return Compared(rows, len(differing), "\n".join(shown))
