"""Pictures of boxes and of ways between them, which graphviz's `dot` lays out.

`dot` is told how large each box and each label is, and asked only where they stand: so no font of a machine matters, and equal versions
of it lay out alike. What was laid out, and by which version, is kept in the picture."""

from __future__ import annotations

import json
import re
import subprocess
from typing import Dict, List, NamedTuple, Sequence, Tuple

from . import svg

TOP, MARGIN, LEGEND = 72, 16, 28  # above the boxes, at their sides, and for the colours' meanings
POINT = 72  # of an inch, in which `dot` wants sizes

Place = Tuple[int, int]

NO_FRAME = ((0, 0), (0, 0))


class Box(NamedTuple):
    """Its colour, its name, and words in it."""

    kind: str
    name: str
    words: Tuple[str, ...] = ()
    size: Tuple[int, int] = (0, 0)


class Way(NamedTuple):
    """From a box to another, with words beside it; `kind` is how it is drawn, `places` are attributes for `dot`."""

    start: str
    end: str
    words: Tuple[str, ...] = ()
    kind: str = "way"
    places: str = ""


class Graph(NamedTuple):
    """Boxes and ways by the names that `dot` has for them; `layout` are attributes for it. A frame is around the boxes `framed`."""

    title: str
    note: str
    style: str
    layout: str
    boxes: Dict[str, Box]
    ways: Sequence[Way]
    meanings: Sequence[Tuple[str, str]] = ()
    framed: Tuple[str, ...] = ()
    has_tips: bool = True
    line: int = 19  # from a line of text to the next
    character: int = 7  # the width of one beside a way


class Layout(NamedTuple):
    """Where all stands, from the upper left corner on: the picture's size; the middle of each box, the steps of each way, the middle of
    its words; two corners of the frame."""

    size: Place
    boxes: Dict[str, Place]
    ways: List[str]
    words: List[Place]
    frame: Tuple[Place, Place] = NO_FRAME


def quoted(words: Sequence[str]) -> str:
    return '"' + "\\n".join(words).replace('"', '\\"') + '"'


def text(graph: Graph) -> str:
    """What `dot` is given. Its letters are small, so that they fit wherever it measures them."""
    tips = "" if graph.has_tips else " arrowhead=none"
    lines = [f"digraph {{ {graph.layout}", "node [shape=box fixedsize=true fontsize=6]", f"edge [fontsize=6{tips}]"]
    for name, box in graph.boxes.items():
        width, height = (f"{length / POINT:.4f}" for length in box.size)
        lines.append(f"{name} [label={quoted([box.name, *box.words])} width={width} height={height}]")
    if graph.framed:
        lines.append(f"subgraph cluster {{ margin=20; {'; '.join(graph.framed)} }}")
    for number, way in enumerate(graph.ways):
        places = [f"id={number}", way.places] if way.places else [f"id={number}"]
        if way.words:
            wide, high = graph.character * max(map(len, way.words)) + 8, graph.line * len(way.words) + 6
            table = f'<table border="0" fixedsize="true" width="{wide}" height="{high}"><tr><td>'
            places.append(f"label=<{table}{svg.escaped(' '.join(way.words))}</td></tr></table>>")
        lines.append(f"{way.start} -> {way.end} [{' '.join(places)}]")
    return "\n".join([*lines, "}", ""])


def version() -> str:
    """What `dot` says of itself; nothing if it is not at hand."""
    try:
        ran = subprocess.run(["dot", "-V"], stdout=subprocess.PIPE, stderr=subprocess.STDOUT, check=False)
    except OSError:
        return ""
    return ran.stdout.decode(errors="replace").strip()


def laid_out(graph: Graph) -> Layout:
    ran = subprocess.run(["dot", "-Tjson0"], input=text(graph).encode(), stdout=subprocess.PIPE, check=True)
    found = json.loads(ran.stdout)
    _, _, width, height = map(float, found["bb"].split(","))

    def place(numbers: str) -> Place:
        x, y = map(float, numbers.split(",")[-2:])
        return round(MARGIN + x), round(top_of(graph) + height - y)

    objects = {each["name"]: each for each in found["objects"]}
    corners = [place(corner) for corner in re.findall(r"[\d.]+,[\d.]+", objects["cluster"]["bb"])] if graph.framed else []
    ways, words = [], []
    for way in sorted(found["edges"], key=lambda each: int(each["id"])):
        tip, *steps = way["pos"].split() if way["pos"].startswith("e") else ["", *way["pos"].split()]
        first, *others = ["{} {}".format(*place(step)) for step in steps]
        last = "L{} {}".format(*place(tip)) if tip else ""
        ways.append(f"M{first}C{' '.join(others)}{last}")
        words.append(place(way.get("lp", "0,0")))
    frame = NO_FRAME
    if corners:
        # `dot` may lay a way between boxes of the frame, with its words, above it
        inner = [(way, y) for way, (_, y) in zip(graph.ways, words) if {way.start, way.end} <= set(graph.framed)]
        within = [y - graph.line * (len(way.words) + 1) // 2 - 8 for way, y in inner]
        frame = ((corners[0][0], min([corners[1][1], *within])), (corners[1][0], corners[0][1]))
    boxes = {name: place(objects[name]["pos"]) for name in graph.boxes}
    return Layout((round(width) + 2 * MARGIN, round(height) + top_of(graph) + MARGIN), boxes, ways, words, frame)


def top_of(graph: Graph) -> int:
    return TOP + (LEGEND if graph.meanings else 0)


def nowhere(graph: Graph) -> Layout:
    """For a picture whose places are not compared."""
    return Layout((0, 0), {name: (0, 0) for name in graph.boxes}, [""] * len(graph.ways), [(0, 0)] * len(graph.ways))


def without_places(picture: str) -> str:
    return re.sub(r' (x|y|d|width|height|viewBox)="[^"]*"', "", picture)


def _lines(kind: str, middle: Place, lines: Sequence[str], step: int, named: bool = False) -> List[str]:
    """Lines of text around a middle, the first one perhaps a name."""
    x, first = middle[0], middle[1] + 5 - step * (len(lines) - 1) // 2
    kinds = [f"name {kind}" if named and index == 0 else kind for index in range(len(lines))]
    return [svg.text(each, x, first + step * index, line) for index, (each, line) in enumerate(zip(kinds, lines)) if line]


def drawn(graph: Graph, layout: Layout, by: str) -> str:
    """The picture; `by` is the version of `dot` that laid it out."""
    elements = [svg.text("title", MARGIN, 32, graph.title), svg.text("quiet", MARGIN, 55, graph.note)]
    x = MARGIN
    for kind, meaning in graph.meanings:
        elements += [svg.rect(kind, (x, 70), (22, 14)), svg.text("", x + 29, 81, meaning)]
        x += 64 + 11 * len(meaning) // 2
    if graph.framed:
        (left, upper), (right, lower) = layout.frame
        elements.append(svg.rect("frame", (left, upper), (right - left, lower - upper)))
    for way, steps, middle in zip(graph.ways, layout.ways, layout.words):
        elements += [svg.path(way.kind, steps, tip=graph.has_tips), *_lines("middle", middle, way.words, graph.line)]
    for name, box in graph.boxes.items():
        (x, y), (width, height) = layout.boxes[name], box.size
        elements.append(svg.rect(box.kind, (x - width // 2, y - height // 2), box.size))
        elements += _lines("middle", (x, y), [box.name, *box.words], graph.line, named=True)
    kept = "\n".join(map(svg.escaped, [by, *text(graph).splitlines()]))
    sheet = svg.Sheet(layout.size[0], svg.PANEL_STYLE + graph.style, (svg.TIP, f"<metadata>\n{kept}\n</metadata>"))
    return svg.document(layout.size[1], graph.title, _description(graph), elements, sheet)


def drawn_by(picture: str) -> str:
    """The version of `dot` that a picture names."""
    found = re.search(r"<metadata>\n(.*)\n", picture)
    return found[1] if found else ""


def _description(graph: Graph) -> str:
    """The picture in words, for a reader who can't see it."""
    ways = [f"{graph.boxes[way.start].name} to {graph.boxes[way.end].name}: {' '.join(way.words)}." for way in graph.ways if way.words]
    uses = {way.start: [each.end for each in graph.ways if each.start == way.start] for way in graph.ways if not way.words}
    rests = [f"{start} rests on {', '.join(ends)}." for start, ends in uses.items()]
    boxes = [f"{box.name}: {' '.join(box.words)}." for box in graph.boxes.values()]
    return " ".join([graph.note, *boxes, *ways, *rests])
