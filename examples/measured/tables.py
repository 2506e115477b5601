"""Tables of TOML, as a policy and a description have them. What is wrong there is told with its place."""

import re
from typing import Any, Dict, List, Tuple, Union

from reading import BadInput

Table = Dict[str, Any]
Value = Union[int, str, Tuple[int, int]]

HIGHEST = (1 << 64) - 1  # of numbers
KINDS = {str: "text", int: "number", list: "array", dict: "table"}


def only(table: Table, keys: List[str], where: str) -> None:
    unknown = [key for key in table if key not in keys]
    if unknown:
        raise BadInput(f"{where} has the key {unknown[0]!r}; it may have {', '.join(keys)}")


def value(table: Table, key: str, kind: type, where: str, otherwise: Any = None) -> Any:
    found = table.get(key, otherwise)
    # a truth value is an int to Python
    if type(found) is not kind or (kind is int and not 0 <= found <= HIGHEST):
        raise BadInput(f"{where}: {key} is no {KINDS[kind]}")
    return found


def named(table: Table, key: str, where: str) -> str:
    found: str = value(table, key, str, where, "")
    if not found:
        raise BadInput(f"{where} has no {key}")
    return found


def texts(table: Table, key: str, where: str) -> List[str]:
    found = value(table, key, list, where, [])
    if not all(isinstance(item, str) and item for item in found):
        raise BadInput(f"{where}: {key} is no array of texts")
    return found


def tables(table: Table, key: str, where: str) -> List[Table]:
    found = value(table, key, list, where, [])
    if not all(isinstance(item, dict) for item in found):
        raise BadInput(f"{where}: {key} is no array of tables")
    return found


def two_values(table: Table, key: str, where: str) -> Tuple[int, int]:
    found = value(table, key, list, where)
    if len(found) != 2 or any(type(it) is not int for it in found):
        raise BadInput(f"{where}: {key} is no array of two numbers")
    return found[0], found[1]


def bytes_value(table: Table, key: str, where: str) -> str:
    """Bytes, at least one, as hexadecimal digits."""
    found = named(table, key, where)
    if not re.fullmatch("(?:[0-9a-f]{2})+", found):
        raise BadInput(f"{where}: {key} is no text of lower-case hexadecimal digits, two for each byte")
    return found


# ---- the writer


def text_value(text: str) -> str:
    """In a description's one form."""
    escapes = {'"': '\\"', "\\": "\\\\"}
    return '"' + "".join(f"\\u{ord(c):04x}" if c < " " or c == "\x7f" else escapes.get(c, c) for c in text) + '"'


def array(words: List[str]) -> str:
    return "[" + ", ".join(map(text_value, words)) + "]"


def pair_lines(pairs: Dict[str, Value]) -> List[str]:
    def spelled(it: Value) -> str:
        return f"[{it[0]:#x}, {it[1]:#x}]" if isinstance(it, tuple) else f"{it:#x}" if isinstance(it, int) else text_value(it)

    return [f"{key} = {spelled(it)}" for key, it in pairs.items()]
