"""boot, map, explain: the calls of program_commands on a description."""

from typing import List, Optional, Set

from language import demand, fields, number, only, quoted, single, spell
from rules import booting, description, explaining
from rules.image import spell as image_of

from . import BYTES_OF, Call
from .answers import one_of

ROOM = 0x100000  # of a sink whose room is left out

class Given:
    """The fields of a row: files that can be fetched, what was said before, the sink."""

    def __init__(self, table, line):
        named, bare = fields(line.words)
        only(named, "file", "said", "limit", "step")
        demand(all(word == "reverse" for word in bare))
        self.named = named
        self.said = table.names.one(single(named, "said")) if "said" in named else b""
        self.files = {}
        for word in named.get("file", []):
            name, colon, data = word.partition(":")
            demand(colon == ":")
            self.files.setdefault(name, table.names.one(data))  # of two with one name the first
        demand("step" not in named or number(single(named, "step")) > 0)

    def path_named(self, name: str) -> Optional[bytes]:
        return self.files.get(name)

    def text(self, run: booting.Run, data: bytes, limit: int) -> str:
        """What is told of a boot whose sink has room for so many bytes, but for the bytes that it
        took."""
        if run.handover is not None and len(image_of(run.handover)) > limit:
            said, status, faults = "", 3, 1
        else:
            said, status, faults = "".join(line + "\n" for line in run.said), run.status, 0
        return "status %d, said %s, faults %d, missing %d" % (
            status, quoted(self.said + said.encode("utf-8")), faults, self.missing(data))

    def missing(self, data: bytes) -> int:
        """How many names of attempted entries were asked for in vain, each once: not those in the
        description."""
        try:
            described = description.read(data)
        except description.BadDescription:
            return 0
        names: Set[str] = set()
        for index in booting.attempts(described.default, described.fallbacks):
            names.update(booting.file_names(described.entries[index]))
        return sum(name not in described.files and self.path_named(name) is None for name in names)


def boot(table, line):
    given = Given(table, line)
    limit = number(single(given.named, "limit")) if "limit" in given.named else ROOM
    run = booting.boot(line.data, given.path_named)
    image = image_of(run.handover)[:limit] if run.handover is not None else b""
    return "%s, image %s" % (given.text(run, line.data, limit), spell(image))


def boot_is_refused(table, line, text):
    """Nothing is said, and the sink has nothing. What was said before may lack the memory too."""
    given = Given(table, line)
    said = quoted(given.said)
    ends = ["status 4, no memory, said %s, faults 0, missing %d, image " % (said, missing)
            for missing in range(given.missing(line.data) + 1)]
    return text in ends + ["no memory, image "]


def said_text(given: Given, status: int, lines: List[str]) -> str:
    said = "".join(line + "\n" for line in lines)
    return "status %d, said %s" % (status, quoted(given.said + said.encode("utf-8")))


def map_of(table, line):
    run = booting.map_of(line.data)
    return said_text(Given(table, line), run.status, run.said)


def map_is_refused(table, line, text):
    return text in ("no memory", "status 4, no memory, said " + quoted(Given(table, line).said))


def explain(table, line):
    """Of several bad keys any may be told."""
    given = Given(table, line)
    missing = given.missing(line.data)
    return one_of("%s, missing %d" % (said_text(given, run.status, run.said), missing)
                  for run in explaining.explain(line.data, given.path_named))


def explain_is_refused(table, line, text):
    """Nothing is said. What was said before may lack the memory too."""
    given = Given(table, line)
    ends = ["status 4, no memory, said %s, missing %d" % (quoted(given.said), missing)
            for missing in range(given.missing(line.data) + 1)]
    return text in ends + ["no memory"]


CALLS = {
    "boot": Call(boot, BYTES_OF, boot_is_refused),
    "map": Call(map_of, BYTES_OF, map_is_refused),
    "explain": Call(explain, BYTES_OF, explain_is_refused),
}
