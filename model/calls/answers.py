"""Answers that are more than one text: of several steps, of sweeps, and those that the rules leave
open.

`settle` makes a computed answer one text. Where the rules leave something open it keeps what the
table wants, if that is one of the right answers."""

import re
from typing import Callable, Dict, Iterable, List, Tuple, Union


class Open:
    """An answer that the rules do not fix: each text that passes is right, and one of them is
    this."""

    def __init__(self, text: str, is_right: Callable[[str], bool]):
        self.text = text
        self.is_right = is_right


def one_of(answers: Iterable["Answer"]) -> "Answer":
    """Each of these answers is right."""
    known = list(answers)
    if len(known) == 1:
        return known[0]
    return Open(settle(known[0], ""), lambda text: any(is_right(one, text) for one in known))


def is_right(answer: "Answer", text: str) -> bool:
    return settle(answer, text) == text


class Steps:
    """The answers of several steps."""

    def __init__(self, answers: List["Answer"]):
        self.answers = answers


class Sweep:
    """An answer for each number; equal ones that follow each other are told as one."""

    def __init__(self, answers: Iterable[Tuple[int, "Answer"]]):
        self.answers = answers


class Refusals:
    """Runs with the 1st, 2nd, .. request for memory refused, until one in which none was. How many
    there are is no rule. The answer of the last run is `last`; that of each other one is right if
    `is_refused` says so."""

    def __init__(self, last: "Answer", is_refused: Callable[[str], bool]):
        self.last = last
        self.is_refused = is_refused


class Refusing:
    """One run with a request refused: the call's own answer if there was no such request."""

    def __init__(self, own: "Answer", is_refused: Callable[[str], bool]):
        self.own = own
        self.is_refused = is_refused


Answer = Union[str, Open, Steps, Sweep, Refusals, Refusing]

PLACE = re.compile(r"([0-9a-f]+)(?:\.\.([0-9a-f]+))?: ")


def unfold(text: str, base: int) -> List[Tuple[int, int, str]]:
    """`1..3: TEXT; 4: TEXT` as (1, 3, TEXT), (4, 4, TEXT); an answer may have a `; ` of its own."""
    runs: List[Tuple[int, int, str]] = []
    for part in text.split("; "):
        place = PLACE.match(part)
        if place and _is_next(runs, place, base):
            first = int(place[1], base)
            runs.append((first, int(place[2] or place[1], base), part[place.end():]))
        elif runs:
            first, last, told = runs[-1]
            runs[-1] = first, last, told + "; " + part
        else:
            return []
    return runs


def _is_next(runs, place, base) -> bool:
    try:
        first = int(place[1], base)
        int(place[2] or place[1], base)
    except ValueError:
        return False
    return not runs or first > runs[-1][1]


def fold(answers: Iterable[Tuple[int, str]], spelling: str) -> str:
    """The answers with their numbers, equal ones that follow each other as one."""
    runs: List[List] = []
    for n, text in answers:
        if runs and runs[-1][2] == text:
            runs[-1][1] = n
        else:
            runs.append([n, n, text])
    return "; ".join(_places(first, last, spelling) + ": " + text for first, last, text in runs)


def _places(first: int, last: int, spelling: str) -> str:
    if first == last:
        return spelling % first
    return spelling % first + ".." + spelling % last


def settle(answer: Answer, wanted: str) -> str:
    if isinstance(answer, Open):
        return wanted if answer.is_right(wanted) else answer.text
    if isinstance(answer, Steps):
        parts = wanted.split("; ")
        if len(parts) != len(answer.answers):
            parts = [""] * len(answer.answers)
        return "; ".join(settle(one, part) for one, part in zip(answer.answers, parts))
    if isinstance(answer, Sweep):
        return _settle_sweep(answer, wanted)
    if isinstance(answer, Refusals):
        return _settle_refusals(answer, wanted)
    if isinstance(answer, Refusing):
        return wanted if answer.is_refused(wanted) else settle(answer.own, wanted)
    return answer


def _settle_sweep(sweep: Sweep, wanted: str) -> str:
    runs = unfold(wanted, 16)
    at = 0
    settled = []
    for n, answer in sweep.answers:
        if isinstance(answer, str):
            settled.append((n, answer))
            continue
        while at < len(runs) and runs[at][1] < n:
            at += 1
        told = runs[at][2] if at < len(runs) and runs[at][0] <= n else ""
        settled.append((n, settle(answer, told)))
    return fold(settled, "%x")


def _settle_refusals(refusals: Refusals, wanted: str) -> str:
    runs = unfold(wanted, 10)
    last = settle(refusals.last, runs[-1][2] if runs else "")
    if not runs or not all(refusals.is_refused(text) for _, _, text in runs[:-1]):
        return "1: " + last
    followed = [runs[i][1] + 1 == runs[i + 1][0] for i in range(len(runs) - 1)]
    if runs[0][0] != 1 or not all(followed) or runs[-1][0] != runs[-1][1]:
        return "1: " + last
    kept: Dict[int, str] = {n: text for first, end, text in runs[:-1]
                            for n in range(first, end + 1)}
    kept[runs[-1][0]] = last
    return fold(sorted(kept.items()), "%d")
