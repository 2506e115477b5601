"""What is drawn from sources alone: the crates, what a session and a frame of the pool go through, the screen of the boot manager.

Names and words are those of the sources: if one comes, goes or gets another name there, nothing is drawn."""

from __future__ import annotations

import re
import textwrap
from typing import Dict, List, NamedTuple, Set, Tuple

from checks.declarations import in_rt, items, text_of

from . import svg
from .boots import BadInput
from .graphs import Box, Graph, Way

HELD = ("variant", "field", "constructor")  # by a type


# ---- the crates

# Colours with their meanings, how the names of their crates begin, and the names of the specification and of what is given out,
# which do not begin so. What only examples need has thin lines.
KINDS = (
    ("examples", "examples", "example_", ()),
    ("c", "for C", "c_", ("bootcore_c",)),
    ("core", "core of the specification", "bl_", ("bootcore",)),
    ("program", "the program's libraries", "program_", ()),
)
FAINT = ("examples",)
CHARACTERS = 26  # of a line of text in a crate's box
# names are in dark text on each of the colours
CRATES_STYLE = """\
text { font-size: 11px }
.quiet { font-size: 12px }
rect { stroke: #57606a }
.strong { stroke: #1b1f24; stroke-width: 1.4; fill: none }
.faint { stroke: #9aa4ae; fill: none }
.core { fill: #f5c56b }
.program { fill: #a9d8f5 }
.c { fill: #d3c6ee }
.examples { fill: #c4ebca }
"""


def direct_uses(text: str) -> Dict[str, List[str]]:
    """Of each crate those that it uses and that no other one of these reaches. A name without a line is of the toolchain."""
    uses = {line.split(":")[0].split()[0]: line.split(":")[1].split() for line in text.splitlines() if line and line[0] != "#"}
    reached: Dict[str, Set[str]] = {}
    for name, used in uses.items():
        late = [each for each in used if each in uses and each not in reached]
        if late:
            raise BadInput(f"{name} uses {late[0]}, whose line is not above its own")
        reached[name] = {each for each in used if each in uses}.union(*(reached[each] for each in used if each in uses))
    return {
        name: [each for each in used if each in uses and not any(each in reached[other] for other in used if other in uses)]
        for name, used in uses.items()
    }


def does(name: str) -> str:
    """What a crate does, by the first line of its page."""
    head, _, words = text_of(f"crates/{name}/README.md").partition("\n")[0].partition(": ")
    if head != f"# {name}" or not words:
        raise BadInput(f"crates/{name}/README.md does not begin with '# {name}: ' and what it does")
    return words


def shortened(words: str) -> Tuple[str, ...]:
    """At most two lines, as even as can be. Words that are too long for these end before a comma, `and` or `of`, as late as
    can be; if there is none, before an ellipsis."""
    ends = [found.start() for found in re.finditer(r"[,;]| (and|of) |$", words)]
    for end in reversed(ends):
        for width in range(12, CHARACTERS + 1):
            lines = textwrap.wrap(words[:end].rstrip(",;"), width, break_long_words=False)
            if len(lines) <= 2 and max(map(len, lines), default=0) <= width:
                return tuple(lines)
    return tuple(textwrap.wrap(words, CHARACTERS, max_lines=2, placeholder="\u2026"))


def kind_of(name: str) -> str:
    found = [kind for kind, _, begin, others in KINDS if name.startswith(begin) or name in others]
    if len(found) != 1:
        raise BadInput(f"the name of {name} in crates.txt tells no colour of the picture of crates")
    return found[0]


def layers() -> Graph:
    uses = direct_uses(text_of("crates.txt"))
    kinds = {name: kind_of(name) for name in uses}
    return Graph(
        title="The crates, each above those that it rests on",
        note="A line leads down to a crate that is used. Where a crate is reached by way of another, the straight line is left out.",
        style=CRATES_STYLE,
        layout="nodesep=0.12 ranksep=0.6",
        boxes={name: Box(kinds[name], name, shortened(does(name)), (150, 52)) for name in uses},
        ways=[Way(name, used, kind="faint" if kinds[name] in FAINT else "strong") for name in uses for used in uses[name]],
        meanings=[(kind, meaning) for kind, meaning, *_ in KINDS],
        has_tips=False,
        line=14,
    )


# ---- what something goes through

STATES_STYLE = """\
text { font-size: 14px }
.name { font-size: 15px }
rect { stroke: #1b1f24 }
.begin, .frame { fill: #fff }
.runs { fill: #f5c56b }
.done { fill: #c4ebca }
.ends { fill: #e8ebee }
.way { stroke: #1b1f24; stroke-width: 1.5; fill: none }
"""

SESSION = Graph(
    title="What a session goes through",
    note="A call answers what stands in brackets. A start may come to an end at once. After an end no call changes anything.",
    style=STATES_STYLE,
    layout="rankdir=LR ranksep=0.3 nodesep=0.5",
    boxes={
        "not_started": Box("begin", "not started", ("memory is as it was",), (170, 70)),
        "waits": Box("runs", "an attempt waits", ("pieces of its files", "come into the pool"), (190, 100)),
        "hands_over": Box("done", "an entry is handed over", ("parts at their places,", "0 elsewhere in the pool"), (210, 85)),
        "has_none": Box("ends", "no entry is left", ("the pool is 0",), (210, 65)),
        "lacks_memory": Box("ends", "memory ran out", ("the pool may have changed",), (210, 65)),
    },
    ways=(
        Way("not_started", "waits", ("start (Waiting)",)),
        Way("waits", "waits", ("a piece, but not the last (Waiting)",), places="tailport=n headport=n"),
        Way("waits", "waits", ("refused, or a fault: the next", "attempt begins (Next)"), places="tailport=s headport=s"),
        Way("waits", "hands_over", ("the last piece (Done)",)),
        Way("waits", "has_none", ("refused, none is left (Failed)",)),
        Way("waits", "lacks_memory", ("want of memory (Failed)",)),
    ),
)

AROUND = "ltail=cluster"  # the way begins at the frame

FRAME = Graph(
    title="What a frame of the pool goes through",
    note="Nothing but these calls of bl_stage, and a load, writes a frame of the pool.",
    style=STATES_STYLE,
    layout="compound=true newrank=true ranksep=0.4 nodesep=0.5",
    boxes={
        "free": Box("begin", "free", ("no file has it",), (180, 75)),
        "awaited": Box("runs", "a file's", ("its piece is awaited",), (190, 75)),
        "held": Box("runs", "a file's", ("it holds its piece",), (190, 75)),
        "part": Box("done", "a part's", ("bytes of what is handed over",), (290, 70)),
        "cleared": Box("ends", "cleared", ("each byte is 0",), (190, 70)),
    },
    ways=(
        Way("free", "awaited", ("Stage::begin",)),
        Way("awaited", "held", ("put",)),
        Way("held", "free", ("", "refused: the next attempt begins"), places="constraint=false tailport=n headport=n"),
        Way("free", "part", ("a part goes here: evacuate moves a piece to", "a free frame first, then load writes the part"), places=AROUND),
        Way("held", "cleared", ("an entry is handed over to other", "places, or none is left: scrub"), places=AROUND),
    ),
    framed=("rank=same", "free", "awaited", "held"),
)


class Names(NamedTuple):
    """The variants or the fields that a type has in its source, in their order."""

    source: str
    owner: str
    names: Tuple[str, ...]


# what the pictures show is what the sources have
SHOWN = {
    "session": (
        Names("crates/bl_session/specs/session/Phases.antt", "PhaseFacts", tuple(SESSION.boxes)),
        Names("crates/bl_session/src/session/outcome.rt", "Progress", ("Waiting", "Next", "Done", "Failed")),
    ),
    "frame": (Names("crates/bl_stage/src/cell.rt", "Cell", ("holder", "shut")),),
}
CALLS = ("crates/bl_stage/README.md", {"begin", "put", "evacuate", "scrub"})
CALLS_THAT_READ = {"size", "piece", "piece_at", "complete", "are_staged", "pool", "files", "size_of", "is_missing", "view", "address"}
CALLS_FOR_TESTS = {"begin_at"}


def check(name: str) -> None:
    for source, owner, names in SHOWN[name]:
        found = tuple(dict.fromkeys(item.name for item in items(source) if item.owner == owner and item.kind in HELD))
        if found != names:
            raise BadInput(f"{source} has {', '.join(found)} of {owner}; the picture shows {', '.join(names)}")
    page, shown = CALLS
    calls = {item.name for item in in_rt(text_of(page)) if item.kind == "fn"} - CALLS_THAT_READ - CALLS_FOR_TESTS
    if name == "frame" and calls != shown:
        raise BadInput(f"{page} has the calls {', '.join(sorted(calls))}; the picture shows {', '.join(sorted(shown))}")


def states(name: str) -> Graph:
    check(name)
    return {"session": SESSION, "frame": FRAME}[name]


# ---- the screen of the boot manager

COLUMNS, KIND_AT, TEXT_AT = 80, 54, 4  # of a row; where the kind of an entry stands; before a row's text
WIDTH, HEIGHT = 8, 19  # of a character
ENTRIES = (("Debian GNU/Linux", 3), ("Debian GNU/Linux, by its 32-bit entry", 2), ("A kernel of my own", 1))  # titles, protocols
MARKED, KERNEL, REFUSAL = 2, "bootcore/kernel", 4
SCREEN_STYLE = f"""\
text {{ font: 13px {svg.MONO}; fill: #aaa }}
.panel {{ fill: #000 }}
.bar {{ fill: #00a }}
.marked {{ fill: #fff }}
"""


def one_place(name: str, pattern: str) -> str:
    """The group of the one place of a source that the pattern matches."""
    found = re.findall(pattern, text_of(name))
    if len(found) != 1:
        raise BadInput(f"{name} has {len(found)} places like {pattern}, and one is wanted")
    return found[0]


def printed(name: str, words: str) -> str:
    """A line that a source prints with these words, without its margin."""
    return one_place(f"examples/efi/{name}", rf'print\((?:.* \? )?"(?:\\n)?    ({words})(?:\\n)')


def rows_of_screen() -> List[Tuple[str, str]]:
    """The rows of the screen, each with the kind of its entry."""
    kinds = re.findall(r'"([^"]*)"', one_place("examples/efi/screen.c", r"names\[\] = \{((?:.|\n)*?)\};"))
    name, meaning = one_place("docs/REFUSALS.md", rf"## Of an entry(?s:.*?)\n\| {REFUSAL} \| (\w+) \| ([^|]*) \|")
    refused = f"{ENTRIES[MARKED][0]}: refused {REFUSAL} {name}: {meaning}"
    rows = [(printed("screen.c", "bootcore: [^\\\\]*"), ""), ("", "")]
    rows += [(title, kinds[protocol]) for title, protocol in ENTRIES]
    rows += [("", ""), (printed("screen.c", "Up and Down [^\\\\]*"), ""), ("", ""), ("", "")]
    rows.append((printed("files.c", r"Reading %s\.").replace("%s", KERNEL), ""))
    wrapped = textwrap.wrap(refused, COLUMNS - TEXT_AT - 1, subsequent_indent="  ")
    return rows + [(line, "") for line in wrapped] + [("", ""), (printed("screen.c", r"Press a key\."), "")]


def screen() -> str:
    """A menu of three entries, and why the marked one is refused, as the screen of docs/EFI.md writes it in 80 columns."""
    rows = rows_of_screen()
    width, height = COLUMNS * WIDTH + 16, (len(rows) + 2) * HEIGHT
    elements, said = [], []
    for number, (words, kind) in enumerate(rows):
        y = (number + 2) * HEIGHT - 5
        is_marked = words == ENTRIES[MARKED][0]
        if is_marked:
            elements.append(svg.rect("bar", ((TEXT_AT - 1) * WIDTH, y - 14), ((KIND_AT + 16 - TEXT_AT + 1) * WIDTH, HEIGHT)))
        for column, text in ((TEXT_AT, words), (KIND_AT, kind)):
            if text:
                column += len(text) - len(text.lstrip())
                elements.append(svg.text("marked" if is_marked else "", column * WIDTH, y, text.lstrip()))
        said.append(" ".join(it for it in (words, kind) if it))
    sheet = svg.Sheet(width, SCREEN_STYLE)
    return svg.document(height, "The screen of the boot manager", "\n".join(it for it in said if it), elements, sheet)
