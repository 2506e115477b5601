"""machine: the machine that later rows are about."""

from typing import List

from language import demand, fields, number, only, pair, single
from rules import machine as rules
from rules.refusals import Refused

from . import Call
from .firmware import WORDS, read_firmware

FAULTS = {1: "bad size", 2: "bad region %d", 3: "too many regions", 4: "bad pool",
          6: "bad screen size", 7: "bad screen depth", 8: "bad screen color",
          9: "bad screen pitch", 10: "bad screen place", 11: "bad rsdp", 12: "bad system table",
          13: "bad descriptors", 14: "bad efi map size", 15: "bad efi map place",
          16: "bad smbios size", 17: "too many avoided ranges", 18: "bad avoided range %d",
          19: "pool is avoided"}


def last_machine(table) -> rules.Machine:
    demand(table.machine is not None)
    return table.machine


def kind_named(name: str) -> int:
    demand(name in rules.KINDS)
    return rules.KINDS[name]


def read_region(word: str) -> List[rules.Region]:
    """`BASE+LENGTH:KIND`, with `*COUNT` several times, with `/STEP` each so much further."""
    place, colon, rest = word.partition(":")
    demand(colon == ":")
    rest, _, step = rest.partition("/")
    kind, _, count = rest.partition("*")
    base, length = pair(place, "+")
    further = number(step) if step else 0
    times = number(count) if count else 1
    return [rules.Region(base + i * further, length, kind_named(kind)) for i in range(times)]


def machine(table, line):
    named, bare = fields(line.words)
    only(named, "size", "pool", "region", *WORDS)
    demand(not bare)
    regions = [region for word in named.get("region", []) for region in read_region(word)]
    made = rules.Machine(number(single(named, "size")), regions, pair(single(named, "pool"), ".."),
                         read_firmware(table, named))
    try:
        table.machine = rules.check(made)
    except Refused as refused:
        text = FAULTS[refused.number]
        return text % refused.data if refused.data else text
    return "ok"


def run_word(run: rules.Run) -> str:
    return "%x+%x:%s" % (run.start, run.end - run.start, rules.KIND_NAMES[run.kind])


CALLS = {"machine": Call(machine)}
