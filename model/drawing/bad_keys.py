"""Descriptions by their difference from one that stands: each key in turn is left out, is written
twice, or has another value."""

from typing import Any, Iterator, NamedTuple, Tuple

TABLES = ("region", "avoid", "file", "entry", "module")
INNER = ("firmware", "screen", "efi", "smbios")  # a table each

# A value of each kind. A number with a point is a float, a text behind ! stands as it is.
KINDS = ["a text", "~" * 65, -1, 7, True, False, 1.5, "!2026-01-31", "!07:32:00", [], [0, "a"],
         [[]], {}, {"a": 1}]
EDGES = [-(1 << 63), -1, 0, 1, 255, 256, 4095, 4096, (1 << 20) - 1, 1 << 20, 10000000, 20000000,
         (1 << 32) - 1, 1 << 32, (1 << 32) + 4096, (1 << 52) - 1, 1 << 52, (1 << 63) - 4096,
         (1 << 63) - 1, 1 << 63]
# Texts at their edges in bytes, and a character of each size: 1 to 4 bytes.
TEXTS = ["", "~", "~" * 64, "00", "0", "0g", "00" * 256, "00" * 257, "\x7f", "é", "€", "😀", "\t\\",
         "é" * 32, "é" * 32 + "~", "usable", "linux", "multiboot2", "usabel", "linux6"]
# Of keys that a table may not have.
NAMES = ["extra", "", "a\tb", "é", "a.b", "size", "title", "sizes", "titel"]


class Table(list):
    """Pairs of key and value; a key may stand twice."""


class Changed(NamedTuple):
    told: str  # what was changed
    text: bytes


def changed(tree: dict) -> Iterator[Changed]:
    """Each change of the keys of a description, one at a time; of the tables of an array those of
    the last one."""
    root = pairs_of(tree)
    yield Changed("nothing", spelled(root))
    for path, table in tables(root):
        for told, new in changes(table):
            yield Changed(f"{path}{told}", spelled(replaced(root, table, new)))


def pairs_of(value):
    """The value with each table as pairs."""
    if isinstance(value, dict):
        return Table((key, pairs_of(item)) for key, item in value.items())
    return [pairs_of(item) for item in value] if isinstance(value, list) else value


def tables(root: Table) -> Iterator[Tuple[str, Table]]:
    yield "", root
    for key, value in root:
        if key in TABLES and are_tables(value):
            yield f"{key}: ", value[-1]
            yield from ((f"{key} {path}", table) for path, table in tables(value[-1]) if path)
        elif key in INNER and isinstance(value, Table):
            yield f"{key}: ", value
            yield from ((f"{key} {path}", table) for path, table in tables(value) if path)


def changes(table: Table) -> Iterator[Tuple[str, Table]]:
    for at, (key, value) in enumerate(table):
        before, after = table[:at], table[at + 1:]
        yield f"{key} left out", Table(before + after)
        if key not in TABLES:
            yield f"{key} twice", Table(before + [(key, value), (key, value)] + after)
        for told, new in values(value):
            yield f"{key} = {told}", Table(before + [(key, new)] + after)
    for name in NAMES:
        if name not in dict(table):
            yield f"{name!r} added", Table([(name, 1)] + table)


def values(value) -> Iterator[Tuple[str, Any]]:
    """Other values: of each kind, at the edges of this kind; of an array so for its last item."""
    for other in KINDS:
        yield short(other), pairs_of(other)
    if isinstance(value, int):
        yield from ((short(edge), edge) for edge in EDGES)
    elif isinstance(value, str):
        yield from ((short(text), text) for text in TEXTS)
    elif value and not isinstance(value, Table):
        yield "one item more", value + value[-1:]
        yield "one item fewer", value[:-1]
        yield "its last item alone", value[-1]
        for told, item in values(None if isinstance(value[-1], Table) else value[-1]):
            yield f"[.., {told}]", value[:-1] + [item]


def short(value) -> str:
    told = repr(value)
    return told if len(told) < 40 else f"{told[:30]}.. of {len(told)}"


def replaced(value, old, new):
    if value is old:
        return new
    if isinstance(value, Table):
        return Table((key, replaced(item, old, new)) for key, item in value)
    return [replaced(item, old, new) for item in value] if isinstance(value, list) else value


# ---- as a text


def spelled(root: Table) -> bytes:
    """Keys with plain values come first, and then the arrays of tables."""
    return "".join(section("", root)).encode("utf-8")


def section(path: str, table: Table) -> Iterator[str]:
    inner = [(key, value) for key, value in table if key in TABLES and are_tables(value)]
    for key, value in table:
        if not (key in TABLES and are_tables(value)):
            yield f"{quoted(key)} = {inline(value)}\n"
    for key, value in inner:
        for item in value:
            yield f"\n[[{path}{key}]]\n"
            yield from section(f"{path}{key}.", item)


def are_tables(value) -> bool:
    return isinstance(value, list) and not isinstance(value, Table) and value != [] and \
        all(isinstance(item, Table) for item in value)


def inline(value) -> str:
    if isinstance(value, bool):
        return str(value).lower()
    if isinstance(value, str):
        return value[1:] if value.startswith("!") else quoted(value)
    if isinstance(value, Table):
        return "{ " + ", ".join(f"{quoted(key)} = {inline(item)}" for key, item in value) + " }"
    if isinstance(value, list):
        return "[" + ", ".join(inline(item) for item in value) + "]"
    return repr(value)


def quoted(text: str) -> str:
    escapes = {'"': '\\"', "\\": "\\\\"}
    return '"' + "".join(escapes.get(c, f"\\u{ord(c):04x}" if ord(c) < 32 or ord(c) == 127 else c)
                         for c in text) + '"'
