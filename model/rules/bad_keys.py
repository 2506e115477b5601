"""The keys of a description that are bad, each told by its path. FORMATS.md "What the program
says": the tables of PATH, HELD and ALLOWED."""

import re
from typing import Callable, Iterator, List, NamedTuple, Sequence, Tuple

from .description import entry_count
from .handover import MULTIBOOT2
from .keys import (AVOID_KEYS, EFI_KEYS, FILE_KEYS, FIRMWARE_KEYS, LINUX_KEYS, MODULE_KEYS,
                   MULTIBOOT2_KEYS, PROTOCOL, REGION_KEYS, SCREEN_KEYS, SMBIOS_KEYS, TABLE, Allowed,
                   Key, is_array, is_text, protocol_of, root_keys)

MAX_TOLD = 64  # bytes of a text that is told itself


class Fault(NamedTuple):
    """What is told of a bad key, and the hints behind it."""
    told: str
    hints: Tuple[str, ...] = ()


ANOTHER_NAME = "another name than that of each other file"


# ---- as they are told


def shown(name: str) -> str:
    """A file's name, or a key, within a line."""
    return re.sub(r"[\x00-\x1f\x7f\\]", lambda c: "\\x%02x" % ord(c[0]), name)


def held(value) -> str:
    if isinstance(value, str):
        size = len(value.encode("utf-8"))
        return f'"{shown(value)}"' if size <= MAX_TOLD else f"a text of {size} bytes"
    if isinstance(value, bool):
        return "true" if value else "false"
    if isinstance(value, int):
        return str(value)
    if isinstance(value, float):
        return "a float"
    if isinstance(value, list):
        return f"an array of {len(value)}"
    return "a table" if isinstance(value, dict) else "a date or a time"


def is_held(path: str, value, told: str) -> Fault:
    return Fault(f"{path} is {held(value)}; it must be {told}")


def is_not_allowed(path: str, value, allowed: Allowed) -> Fault:
    hints = hint(value, allowed.words) if is_text(value) else ()
    return is_held(path, value, allowed.told)._replace(hints=hints)


def missing(path: str, allowed: Allowed) -> Fault:
    return Fault(f"{path} is missing; it must be {allowed.told}")


# ---- words that are misspelt


def hint(held_word: str, words: Sequence[str]) -> Tuple[str, ...]:
    """On the first of the words that is one edit away, if one is."""
    near = [word for word in words if is_near(held_word.encode("utf-8"), word.encode("utf-8"))]
    return tuple(f"is {word} meant?" for word in near[:1])


def is_near(word: bytes, other: bytes) -> bool:
    """Whether a byte more, a byte less, another byte or two neighbours swapped make it the other
    one."""
    if len(word) != len(other):
        return is_one_fewer(word, other) or is_one_fewer(other, word)
    differing = [i for i in range(len(word)) if word[i] != other[i]]
    if len(differing) != 2:
        return len(differing) == 1
    first, second = differing
    return second == first + 1 and (word[first], word[second]) == (other[second], other[first])


def is_one_fewer(word: bytes, other: bytes) -> bool:
    return len(word) + 1 == len(other) and any(
        word == other[:i] + other[i + 1:] for i in range(len(other)))


# ---- the faults that stand


def faults(tree: dict) -> List[Fault]:
    """Each of a whole description; which of them is told is no rule."""
    found = [*in_table("", tree, root_keys(entry_count(tree))),
             *in_items("region", tree, lambda path, table: in_table(path, table, REGION_KEYS)),
             *in_one("firmware", tree, FIRMWARE_KEYS), *in_firmware(tree.get("firmware")),
             *in_items("avoid", tree, lambda path, table: in_table(path, table, AVOID_KEYS)),
             *in_items("file", tree, lambda path, table: in_table(path, table, FILE_KEYS)),
             *twice_named(tree), *in_items("entry", tree, in_entry)]
    return list(dict.fromkeys(found))


def in_table(path: str, table: dict, keys: List[Key]) -> Iterator[Fault]:
    before = path + "." if path else ""
    known = [key.name for key in keys]
    for name in table:
        if name not in known:
            yield Fault(f"{before}{shown(name)} is no key; the keys are {', '.join(known)}",
                        hint(name, known))
    for key in keys:
        if key.name not in table:
            if key.is_required:
                yield missing(before + key.name, key.allowed)
            continue
        yield from in_value(before + key.name, table[key.name], key)


def in_one(key: str, table: dict, keys: List[Key], before: str = "") -> Iterator[Fault]:
    """Of a table in another, if it is one."""
    if TABLE.holds(table.get(key)):
        yield from in_table(before + key, table[key], keys)


def in_firmware(value) -> Iterator[Fault]:
    if TABLE.holds(value):
        for key, keys in (("screen", SCREEN_KEYS), ("efi", EFI_KEYS), ("smbios", SMBIOS_KEYS)):
            yield from in_one(key, value, keys, "firmware.")


def in_value(path: str, value, key: Key) -> Iterator[Fault]:
    if not key.allowed.holds(value):
        yield is_not_allowed(path, value, key.allowed)
    if key.items is not None and is_array(value):
        for i, item in enumerate(value):
            if not key.items.holds(item):
                yield is_held(f"{path}[{i}]", item, key.items.told)


def in_items(name: str, table: dict, in_one: Callable[[str, dict], Iterator[Fault]],
             before: str = "") -> Iterator[Fault]:
    """Of the tables of an array."""
    value = table.get(name)
    for i, item in enumerate(value if is_array(value) else []):
        path = f"{before}{name}[{i}]"
        if TABLE.holds(item):
            yield from in_one(path, item)
        else:
            yield is_held(path, item, TABLE.told)


def twice_named(tree: dict) -> Iterator[Fault]:
    files = tree.get("file")
    names = [table.get("name") if isinstance(table, dict) else None
             for table in (files if is_array(files) else [])]
    for i, name in enumerate(names):
        if is_text(name) and names.count(name) > 1:
            yield is_held(f"file[{i}].name", name, ANOTHER_NAME)


def in_entry(path: str, table: dict) -> Iterator[Fault]:
    """If the protocol is bad, its other keys can't be judged."""
    if "protocol" not in table:
        yield missing(path + ".protocol", PROTOCOL)
        return
    protocol = protocol_of(table["protocol"])
    if protocol is None:
        yield is_not_allowed(path + ".protocol", table["protocol"], PROTOCOL)
    elif protocol == MULTIBOOT2:
        yield from in_table(path, table, MULTIBOOT2_KEYS)
        yield from in_items("module", table,
                            lambda at, module: in_table(at, module, MODULE_KEYS), path + ".")
    else:
        yield from in_table(path, table, LINUX_KEYS)
