"""What `bootcore explain` may answer: the rules' lines, and what no rule fixes."""

import re
from typing import Callable, List, Optional

from program import Ended, lines
from rules import booting, description, explaining
from rules.booting import File

NOT_TOML = re.compile(rb"bad description: it is not TOML, at line (\d+), column (\d+)\n")


def difference(ended: Ended, text: bytes, path_named: Callable[[str], File]) -> Optional[str]:
    """What is wrong with an answer, None if nothing is."""
    status, said, blamed = ended
    ends = explaining.explain(text, path_named)
    if ends[0].said[0].startswith("bad description: " + explaining.NOT_TOML):
        place = NOT_TOML.fullmatch(said)  # its reader decides where
        last = text.count(b"\n") + 1
        if place and 1 <= int(place[1]) <= last and (status, blamed) == (2, b"bad description\n"):
            return None
    elif (status, said) in [(run.status, lines(run.said)) for run in ends] and \
            are_blamed(blamed, ends[0].blamed, unread(text, path_named)):
        return None
    wanted = "\n          ".join(f"{run.status} {lines(run.said)}" for run in ends)
    return f"  rules   {wanted}\n  program {status} {said} {blamed}"


def unread(text: bytes, path_named: Callable[[str], File]) -> List[str]:
    """The files of attempted entries that could not be read, each once."""
    try:
        described = description.read(text)
    except description.BadDescription:
        return []
    names = [name for index in booting.attempts(described.default, described.fallbacks)
             for name in booting.file_names(described.entries[index])]
    return [name for name in dict.fromkeys(names)
            if name not in described.files and path_named(name) is None]


def are_blamed(blamed: bytes, wanted: List[str], names: List[str]) -> bool:
    """A line for each file that could not be read, with words of the system; their order is no
    rule."""
    if not names:
        return blamed == lines(wanted)
    rows = blamed.split(b"\n")
    return len(rows) == len(names) + 1 and not rows.pop() and all(
        any(row.startswith(b"file fault: %s: " % name.encode("utf-8")) for row in rows)
        for name in names)
