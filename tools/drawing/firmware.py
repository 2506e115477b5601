"""The picture of memory as the boot manager for UEFI leaves the firmware: while that serves, once it has ended, as the kernel begins."""

from __future__ import annotations

import sys
from pathlib import Path
from typing import Callable, List, NamedTuple, Sequence, Tuple

from . import svg, words
from .boots import BadInput

sys.path.append(str(Path(__file__).resolve().parent.parent.parent / "examples/efi/host"))

from memory import FREE, PAGE, Memory, Range, faults, read_memory  # noqa: E402

TOP, ROW = 122, 30
AXIS, FIRST, WIDTH, GAP = 112, 128, 200, 66
ROLES = {
    1: ("kernel", "kernel"),
    2: ("module", "module"),
    3: ("information", "boot information"),
    4: ("parameters", "boot parameters"),
    5: ("line", "command line"),
    6: ("gdt", "descriptors"),
    7: ("initrd", "ramdisk"),
    8: ("tables", "the kernel's page tables"),
}
SERVING = {1: "boot manager", 2: "its data", 3: "boot services", 4: "boot services", 7: "free"}
HEADS = ("the files are read", "the firmware has ended", "the kernel begins")
STYLE = svg.STYLE + ".needed { fill: #f5c56b; stroke: #1b1f24 }\n.own { fill: #fbe6c0 }\n"


class Cell(NamedTuple):
    """Neighbouring rows of a column that are one: the first, the one behind the last, its look and its words."""

    first: int
    end: int
    kind: str
    label: str


def _top(memory: Memory) -> int:
    """Where memory ends, and holes and devices begin."""
    top = max(each.end for kind, each in memory.ranges if kind in FREE)
    for _, each in memory.ranges:
        top = each.end if each.start == top else top
    return top


def _rows(memory: Memory) -> List[Range]:
    """The ranges between boundaries: of what the firmware keeps, the boot manager, files, parts. Others are one with those beside."""
    bounds = {0, _top(memory)}
    kept = False
    for kind, each in memory.ranges:
        if each.start >= _top(memory):
            break
        if (kind not in FREE) != kept or kind == 1:
            bounds.add(each.start)
        if kind == 1:
            bounds.add(each.end)
        kept = kind not in FREE
    for each in [*memory.files, memory.last, *(part for _, part in memory.parts)]:
        bounds |= {each.start, each.end}
    ordered = sorted(bounds)
    return [Range(start, end - start) for start, end in zip(ordered, ordered[1:])]


def _kinds(memory: Memory, row: Range) -> List[int]:
    return [kind for kind, each in memory.ranges if each.meets(row)]


def _kept(memory: Memory, row: Range) -> bool:
    """Also where no range is."""
    return all(kind not in FREE for kind in _kinds(memory, row))


def _needed(memory: Memory, row: Range) -> str:
    """What is needed until all is copied; of the plan's own bytes and page tables there are a few pages, which are not drawn."""
    for index, each in enumerate(memory.files):
        if each.meets(row):
            other = "the ramdisk's file" if any(role == 7 for role, _ in memory.parts) else f"the file of module {index - 1}"
            return "the kernel's file" if index == 0 else other
    return "copies and jump" if memory.last.meets(row) else ""


def _serving(memory: Memory, row: Range) -> Tuple[str, str]:
    needed = _needed(memory, row)
    if needed:
        return "needed", needed
    if _kept(memory, row):
        return "reserved", "the firmware keeps it"
    names = list(dict.fromkeys(SERVING[kind] for kind in _kinds(memory, row) if kind in FREE))
    return ("own", names[0]) if names == ["boot manager"] else ("usable", ", ".join(sorted(names)))


def _ended(memory: Memory, row: Range) -> Tuple[str, str]:
    needed = _needed(memory, row)
    if needed:
        return "needed", needed
    return ("reserved", "the firmware keeps it") if _kept(memory, row) else ("usable", "free")


def _begun(memory: Memory, row: Range) -> Tuple[str, str]:
    for role, part in memory.parts:
        if part.meets(row):
            return "part " + ROLES[role][0], ROLES[role][1]
    return ("reserved", "not usable") if _kept(memory, row) else ("usable", "usable")


def _cells(memory: Memory, rows: Sequence[Range], look: Callable[[Memory, Range], Tuple[str, str]]) -> List[Cell]:
    cells: List[Cell] = []
    for index, row in enumerate(rows):
        kind, label = look(memory, row)
        if cells and cells[-1].kind == kind and (cells[-1].label == label or kind == "usable"):
            names = sorted({*cells[-1].label.split(", "), *label.split(", ")})
            cells[-1] = cells[-1]._replace(end=index + 1, label=", ".join(names))
        else:
            cells.append(Cell(index, index + 1, kind, label))
    return cells


def _column(left: int, cells: Sequence[Cell]) -> List[str]:
    elements = []
    for cell in cells:
        top, bottom = TOP + ROW * cell.first, TOP + ROW * cell.end
        named = "name" if cell.kind.startswith(("part", "needed")) else "quiet"
        elements.append(svg.rect(cell.kind, (left, top), (WIDTH, bottom - top)))
        elements.append(svg.text(f"{named} middle", left + WIDTH // 2, (top + bottom) // 2 + 4, cell.label))
    return elements


def _axis(rows: Sequence[Range]) -> List[str]:
    elements = []
    for index, row in enumerate(rows):
        y = TOP + ROW * index
        elements += [svg.text("mono end", AXIS, y + 4, words.address(row.start)), svg.path("axis", f"M{AXIS + 4} {y}h8")]
        elements.append(svg.text("quiet end", AXIS, y + ROW // 2 + 5, words.rough_size(row.length)))
    last = TOP + ROW * len(rows)
    return elements + [svg.text("mono end", AXIS, last + 4, words.address(rows[-1].end)), svg.path("axis", f"M{AXIS + 8} {TOP}V{last}")]


def _middle(rows: Sequence[Range], wanted: Range) -> int:
    within = [index for index, row in enumerate(rows) if row.meets(wanted)]
    return TOP + ROW * (within[0] + within[-1] + 1) // 2


def _ways(memory: Memory, rows: Sequence[Range]) -> List[str]:
    """From a file to the part that takes bytes of it: each way once."""
    left, right = FIRST + 2 * WIDTH + GAP, FIRST + 2 * (WIDTH + GAP) - 1
    ways = []
    for each in memory.files:
        taken = [move.to for move in memory.moves if each.start <= move.source < each.end]
        parts = [part for _, part in memory.parts if any(part.meets(to) for to in taken)]
        ways += [(_middle(rows, each), _middle(rows, part)) for part in parts]
        ways += [(_middle(rows, each),) * 2 for _, part in memory.parts if each.length and part.meets(each)]
    return [svg.path("way", f"M{left} {y}C{left + 50} {y} {right - 50} {to} {right} {to}", tip=True) for y, to in ways]


def _pages(each: Range) -> Range:
    return each._replace(length=-(-each.length // PAGE) * PAGE)


def picture(path: str) -> str:
    """Of the file handover.memory at this path, whose copies must do."""
    try:
        memory = read_memory(path)
        wrong = faults(memory)
    except (IndexError, ValueError) as fault:
        raise BadInput(f"{path} is no handover.memory: {fault}") from fault
    if wrong:
        raise BadInput(wrong[0])
    memory = memory._replace(files=[_pages(each) for each in memory.files], last=_pages(memory.last))
    rows = _rows(memory)
    elements = [
        svg.text("title", 16, 32, "Memory as the boot manager leaves the firmware"),
        svg.text("quiet", 16, 54, "A Linux kernel with a ramdisk, on a machine of 1 GiB, under OVMF. What is needed until all is copied is orange."),
        *_axis(rows),
    ]
    for index, (head, look) in enumerate(zip(HEADS, (_serving, _ended, _begun))):
        left = FIRST + index * (WIDTH + GAP)
        elements.append(svg.text("head middle", left + WIDTH // 2, TOP - 18, head))
        elements += _column(left, _cells(memory, rows, look))
    elements += _ways(memory, rows)
    y = TOP + ROW * len(rows) + 32
    elements.append(svg.text("promise", 16, y, "No copy goes over what is needed, so there is no order in which they must be made."))
    elements.append(svg.text("quiet", 16, y + 20, "Addresses are not to scale: each row is one range. Page tables and the plan's own bytes are single pages, not drawn."))
    described = "Three columns: who has memory while the firmware serves, what is needed once it has ended, what the kernel finds."
    sheet = svg.Sheet(FIRST + 3 * WIDTH + 2 * GAP + 16, STYLE, (svg.DEFINITIONS,))
    return svg.document(y + 36, "Memory as the boot manager leaves the firmware", described, elements, sheet)
