"""plan: the calls of bl_plan."""

from typing import Callable, Dict, List, NamedTuple

from language import demand, fields, number, only, pair, single, steps
from rules.places import Planner
from rules.refusals import Refused

from . import Call
from .machines import last_machine

FAULTS = {15: "overlap", 19: "not usable", 20: "no room"}


class Asked(NamedTuple):
    """What a row asks a place for."""
    length: int
    align: int
    low: int
    high: int


def asked_in(named: Dict[str, List[str]]) -> Asked:
    asked = Asked(*[number(single(named, name)) for name in ("len", "align", "low", "high")])
    demand(asked.length > 0 and asked.align > 0)
    return asked


def chosen(words: List[str]) -> Callable[[Planner], int]:
    """The words of a place: at its own address, or by its choice among the permitted ones."""
    named, bare = fields(words)
    only(named, "len", "align", "low", "high", "at")
    if set(named) == {"len", "at"} and not bare:
        at, length = number(single(named, "at")), number(single(named, "len"))
        demand(length > 0)
        return lambda planner: planner.fixed(at, at + length)
    asked = asked_in(named)
    if "at" in named:
        demand(not bare)
        wanted = number(single(named, "at"))
        return lambda planner: planner.preferred(wanted, *asked)
    demand(bare in (["lowest"], ["highest"]))
    if bare == ["lowest"]:
        return lambda planner: planner.lowest(*asked)
    return lambda planner: planner.highest(*asked)


def taken_text(planner: Planner) -> str:
    return " ".join(["taken"] + ["%x..%x" % taken for taken in sorted(planner.taken)])


def read_step(words: List[str]) -> Callable[[Planner], str]:
    if words == ["taken"]:
        return taken_text
    demand(len(words) > 1)
    if words[0] == "take":
        demand(len(words) == 2)
        start, end = pair(words[1], "..")
        demand(start < end)

        def take(planner: Planner) -> str:
            planner.fixed(start, end)
            return "ok"
        return take
    demand(words[0] in ("place", "prefer"))
    choose = chosen(words[1:])
    demand((words[0] == "prefer") == any(word.startswith("at=") for word in words))
    return lambda planner: "%x" % choose(planner)


def told(step: Callable[[Planner], str], planner: Planner) -> str:
    try:
        return step(planner)
    except Refused as refused:
        return FAULTS[refused.number]


def plan(table, line):
    made = [read_step(words) for words in steps(line.words)]
    planner = Planner(last_machine(table))
    return "; ".join(told(step, planner) for step in made)


def plan_is_refused(table, line, text):
    """A step that was out of memory takes nothing; what the others answer is fixed then."""
    made, parts = [read_step(words) for words in steps(line.words)], text.split("; ")
    planner = Planner(last_machine(table))
    return len(made) == len(parts) and "no memory" in parts and all(
        (part == "no memory" and step_asks(words)) or told(step, planner) == part
        for step, part, words in zip(made, parts, steps(line.words)))


def step_asks(words: List[str]) -> bool:
    return words != ["taken"]


CALLS = {"plan": Call(plan, is_refused=plan_is_refused)}
