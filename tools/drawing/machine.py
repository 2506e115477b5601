"""The picture of a machine's memory before a boot, perhaps while files are read, and after it, beside an axis of addresses."""

from __future__ import annotations

from typing import Callable, List, NamedTuple, Optional, Sequence, Tuple

from . import svg, words
from .boots import BadInput, Boot, Explained, Handover, MemoryMap, Part, Pointer, check_image, pointers_of, read_explained, read_image, read_map

# ---- rows: the ranges of addresses between two neighbouring boundaries, whatever their length


class Row(NamedTuple):
    """A range in which every byte has one kind (none in no region), and lies in one part or in none."""

    start: int
    end: int
    kind: Optional[str]
    in_pool: bool
    part: Optional[Part]


class Cell(NamedTuple):
    """Neighbouring rows that one column shows as one: their positions, the last one excluded, and the first of them."""

    first: int
    last: int
    row: Row


def rows_of(memory: MemoryMap, parts: Sequence[Part]) -> List[Row]:
    """In the order of addresses, without a gap: a range in no region is a row too."""
    ranges = [(run.start, run.end) for run in memory.runs] + [(part.address, part.end) for part in parts]
    if memory.pool[0] < memory.pool[1]:
        ranges.append(memory.pool)
    boundaries = sorted({address for each in ranges for address in each})
    rows = [_row(memory, parts, start, end) for start, end in zip(boundaries, boundaries[1:])]
    for row in rows:
        if row.part is not None and row.kind != "usable":
            name = f"{row.part.role} {row.part.index}"
            raise BadInput(f"the part {name} is not in usable memory: the map is of another machine")
    return rows


def _row(memory: MemoryMap, parts: Sequence[Part], start: int, end: int) -> Row:
    kinds = [run.kind for run in memory.runs if run.start <= start < run.end]
    here = [part for part in parts if part.address <= start < part.end]
    if len(here) > 1:
        raise BadInput(f"two parts lie at {start:#x}")
    in_pool = memory.pool[0] <= start < memory.pool[1]
    return Row(start, end, kinds[0] if kinds else None, in_pool, here[0] if here else None)


def cells_before(rows: Sequence[Row]) -> List[Cell]:
    return _cells(rows, lambda row: (row.kind, row.in_pool))


def cells_after(rows: Sequence[Row]) -> List[Cell]:
    return _cells(rows, lambda row: row.part.place if row.part else (row.kind, row.in_pool))


def _cells(rows: Sequence[Row], same: Callable[[Row], Tuple[object, ...]]) -> List[Cell]:
    cells: List[Cell] = []
    for position, row in enumerate(rows):
        if cells and same(cells[-1].row) == same(row):
            cells[-1] = cells[-1]._replace(last=position + 1)
        else:
            cells.append(Cell(position, position + 1, row))
    return cells


# ---- columns: the axis, memory before, while files are read, and after, with registers and sources

TOP = 108  # of the first row
PLAIN, TALL = 32, 46  # heights of a row: of one line, and of two
BEFORE, READING, AFTER = 120, 150, 186  # widths of the columns
NARROW_GAP = 14  # between memory before and while files are read
GAP = 46  # before memory after: the ways of the files
POINTERS = 92  # behind them: the arrows of the registers
BROKEN_FROM = 0x10000  # a row of more bytes has a broken axis


class Drawn(NamedTuple):
    """What is drawn. Without a handover it is the map alone; without a boot it is unknown where the parts' bytes come from."""

    memory: MemoryMap
    handover: Optional[Handover]
    boot: Optional[Boot]
    refusals: Tuple[str, ...]
    is_reading_drawn: bool = False


class Layout(NamedTuple):
    """Where the columns stand, and how far down each boundary of the rows is. With a column for the time in which files are read
    there is none for registers."""

    axis: int
    before: int
    reading: Optional[int]
    after: int
    labels: int
    heights: List[int]

    @property
    def pool_edge(self) -> int:
        """From where files go to their parts."""
        return self.before + BEFORE if self.reading is None else self.reading + READING

    def middle(self, cell: Cell) -> int:
        return (self.heights[cell.first] + self.heights[cell.last]) // 2


def layout_of(rows: Sequence[Row], has_after: bool, has_reading: bool = False) -> Layout:
    digits = max((len(words.address(row.end)) for row in rows), default=10)
    axis = 24 + 8 * digits
    before = axis + 12
    reading = before + BEFORE + NARROW_GAP if has_reading else None
    after = (before + BEFORE if reading is None else reading + READING) + GAP
    labels = before + BEFORE + 16
    if has_after:
        labels = after + AFTER + (POINTERS if reading is None else 16)
    heights = [TOP]
    for row in rows:
        heights.append(heights[-1] + (TALL if row.part or row.in_pool else PLAIN))
    return Layout(axis, before, reading, after, labels, heights)


def axis(rows: Sequence[Row], layout: Layout) -> List[str]:
    x, heights = layout.axis, layout.heights
    boundaries = [row.start for row in rows] + [row.end for row in rows[-1:]]
    right = layout.labels - (POINTERS if layout.reading is None and layout.labels > layout.after else 16)
    elements = []
    for boundary, y in zip(boundaries, heights):
        elements.append(svg.path("guide", f"M{x + 4} {y}H{right}"))
        elements.append(svg.path("axis", f"M{x - 4} {y}H{x + 4}"))
        elements.append(svg.text("mono end", x - 8, y + 4, words.address(boundary)))
    for row, y, below in zip(rows, heights, heights[1:]):
        length, middle = row.end - row.start, (y + below) // 2
        elements.append(svg.text("quiet end", x - 8, middle + 4, words.rough_size(length)))
        broken = f"V{middle - 3}m-4 2l8 -4m-8 8l8 -4m-4 2" if length > BROKEN_FROM else ""
        elements.append(svg.path("axis", f"M{x} {y}{broken}V{below}"))
    return elements


def before(rows: Sequence[Row], layout: Layout, drawn: Drawn) -> List[str]:
    elements = []
    for cell in cells_before(rows):
        lines = ["pool", "files go here first"] if cell.row.in_pool else [cell.row.kind or "in no region"]
        elements += _cell(layout, cell, (layout.before, BEFORE), _kind_of(cell.row), lines)
        if not drawn.handover:
            elements += _label(layout, cell, [words.MEANINGS[_kind_of(cell.row)]])
    return elements


def reading(rows: Sequence[Row], layout: Layout, boot: Boot) -> List[str]:
    elements = []
    for cell in cells_before(rows):
        lines = words.staged(boot) if cell.row.in_pool else ["unchanged" if cell.row.kind else "in no region"]
        elements += _cell(layout, cell, (layout.reading or 0, READING), _kind_of(cell.row), lines)
    return elements


def after(rows: Sequence[Row], layout: Layout, handover: Handover, boot: Optional[Boot]) -> List[str]:
    names = words.part_names(handover.parts)
    pointers = {pointer.part: pointer for pointer in pointers_of(handover)}
    pool = [cell for cell in cells_before(rows) if cell.row.in_pool]
    cells = cells_after(rows)
    elements = []
    for cell in cells:
        part = cell.row.part
        if part is None:
            elements += _rest(layout, cell)
            continue
        lines = [names[part], f"{words.address(part.address)}, {words.size(part.length)}"]
        elements += _cell(layout, cell, (layout.after, AFTER), f"part {part.role}", lines)
        elements += _label(layout, cell, words.origin(part, boot))
        if part.source and part.source.taken and pool:
            elements.append(_way(layout, pool[0], cell))
        if part in pointers and layout.reading is None:
            elements += _pointer(layout, cell, pointers[part])
    cleared = [cell for cell in cells if cell.row.in_pool and cell.row.part is None]
    if boot and cleared and layout.reading is None:
        elements += _label(layout, cleared[0], words.frames(boot))
    return elements


def _rest(layout: Layout, cell: Cell) -> List[str]:
    """What is in no part."""
    lines = ["unchanged" if cell.row.kind else "in no region"]
    if cell.row.in_pool:
        lines = ["pool", "cleared: zeros"]
    return _cell(layout, cell, (layout.after, AFTER), _kind_of(cell.row), lines)


def _kind_of(row: Row) -> str:
    return "pool" if row.in_pool else row.kind or "none"


def _cell(layout: Layout, cell: Cell, column: Tuple[int, int], kind: str, lines: Sequence[str]) -> List[str]:
    """A cell with one line, or with a name and a line below it."""
    x, width = column
    y, bottom = layout.heights[cell.first], layout.heights[cell.last]
    center, middle = x + width // 2, layout.middle(cell)
    elements = [svg.rect(kind, (x, y), (width, bottom - y))]
    if len(lines) == 1:
        return elements + [svg.text("quiet middle", center, middle + 4, lines[0])]
    name = svg.text("name middle", center, middle - 4, lines[0])
    return elements + [name, svg.text("middle", center, middle + 13, lines[1])]


def _label(layout: Layout, cell: Cell, lines: Sequence[str]) -> List[str]:
    first = layout.middle(cell) + (4 if len(lines) == 1 else -4)
    return [svg.text("", layout.labels, first + 17 * k, line) for k, line in enumerate(lines)]


def _way(layout: Layout, pool: Cell, cell: Cell) -> str:
    """From the pool, where the file was read, to the part that takes bytes of it."""
    left, right = layout.pool_edge, layout.after - 1
    y, to = layout.middle(pool), layout.middle(cell)
    return svg.path("way", f"M{left} {y}C{right} {y} {left} {to} {right} {to}", tip=True)


def _pointer(layout: Layout, cell: Cell, pointer: Pointer) -> List[str]:
    left, y = layout.after + AFTER, layout.middle(cell)
    center = left + POINTERS // 2
    return [
        svg.text("name middle", center, y - 6, pointer.register.replace("_", " ").upper()),
        svg.path("arrow", f"M{layout.labels - 10} {y}H{left + 3}", tip=True),
        svg.text("mono middle", center, y + 15, words.address(pointer.value)),
    ]


# ---- the picture


def picture(drawn: Drawn) -> str:
    rows = rows_of(drawn.memory, drawn.handover.parts if drawn.handover else ())
    layout = layout_of(rows, drawn.handover is not None, drawn.is_reading_drawn)
    elements = _heads(layout, drawn) + axis(rows, layout) + before(rows, layout, drawn)
    if drawn.boot and drawn.is_reading_drawn:
        elements += reading(rows, layout, drawn.boot)
    if drawn.handover:
        elements += after(rows, layout, drawn.handover, drawn.boot)
    y = layout.heights[-1] + 12
    for kind, note in _notes(drawn):
        y += 20
        elements.append(svg.text(kind, 16, y, note))
    sheet = svg.WIDE_MEMORY if drawn.is_reading_drawn else svg.MEMORY
    return svg.document(y + 16, _title(drawn), _description(drawn), elements, sheet)


def _title(drawn: Drawn) -> str:
    if drawn.is_reading_drawn:
        return "Memory before, during and after a boot"
    return "Memory before and after a boot" if drawn.handover else "Memory, as the loader finds it"


def _subtitle(drawn: Drawn) -> str:
    if drawn.handover:
        entry = f"entry {drawn.boot.entry}, \u201c{drawn.boot.title}\u201d: " if drawn.boot else ""
        return f"bootcore loads {entry}a kernel of the protocol {drawn.handover.protocol}"
    if drawn.refusals:
        return "No entry is booted: " + drawn.refusals[-1]
    return f"Usable memory: {drawn.memory.low} KiB from 0 on, {drawn.memory.high} KiB from 1 MiB on"


def _heads(layout: Layout, drawn: Drawn) -> List[str]:
    y = TOP - 18
    heads = [
        svg.text("title", 16, 32, _title(drawn)),
        svg.text("quiet", 16, 54, words.cut(_subtitle(drawn))),
        svg.text("head end", layout.axis - 8, y, "address"),
        svg.text("head middle", layout.before + BEFORE // 2, y, "before" if drawn.handover else "memory"),
    ]
    if not drawn.handover:
        return heads + [svg.text("head", layout.labels, y, "what it is for")]
    if layout.reading is not None:
        heads.append(svg.text("head middle", layout.reading + READING // 2, y, "while files are read"))
    heads.append(svg.text("head middle", layout.after + AFTER // 2, y, "after"))
    if layout.reading is None:
        heads.append(svg.text("head middle", layout.after + AFTER + POINTERS // 2, y, "registers"))
    return heads + [svg.text("head", layout.labels, y, "where the bytes come from" if drawn.boot else "what it holds")]


def _notes(drawn: Drawn) -> List[Tuple[str, str]]:
    scale = ("quiet", "Addresses are not to scale: each row is one range, with its size on the left.")
    if not drawn.handover:
        return [scale]
    notes = [("promise", "Every byte outside of the parts and the pool is as it was before."), scale]
    if drawn.is_reading_drawn:
        notes.insert(0, ("quiet", "A file's pieces come in any order, and each lies in a frame of the pool, wherever one is free."))
    return notes


def _description(drawn: Drawn) -> str:
    """The picture in words, for a reader who can't see it."""
    sentences = [_subtitle(drawn) + ".", "Before: " + words.described_map(drawn.memory)]
    if drawn.handover:
        names = words.part_names(drawn.handover.parts)
        if drawn.boot and drawn.is_reading_drawn:
            sentences.append(f"While files are read: in the pool {', '.join(words.staged(drawn.boot))}.")
        sentences.append("After:")
        sentences += [words.described_part(part, names[part], drawn.boot) for part in drawn.handover.parts]
        for pointer in () if drawn.is_reading_drawn else pointers_of(drawn.handover):
            sentences.append(f"{pointer.register} is {words.address(pointer.value)}, in {names[pointer.part]}.")
    return " ".join(sentences + [note for _, note in _notes(drawn)])


def read(map_text: str, explained_text: Optional[str], image_path: Optional[str], is_reading_wanted: bool) -> Drawn:
    """What there is to draw, of the program's lines and perhaps of an image, which must be of the same boot."""
    memory = read_map(map_text)
    explained = Explained(None, ()) if explained_text is None else read_explained(explained_text)
    handover = explained.boot.handover if explained.boot else None
    if explained.boot and explained.boot.frames[1] != memory.pool_frames:
        raise BadInput("the pool of the map has another number of frames than that of the explanation")
    if image_path:
        image = read_image(image_path)
        if explained_text is not None:
            check_image(handover, image)
        handover = handover or image
    return Drawn(memory, handover, explained.boot, explained.refusals, is_reading_wanted and explained.boot is not None)
