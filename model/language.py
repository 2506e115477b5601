"""The language of rows (source/bootcore-rows/README.md): numbers, pieces, names, bytes as an answer
spells them."""

import re
from typing import Dict, List, NamedTuple, Optional, Sequence, Tuple

HEX = re.compile(r"[0-9a-f]+\Z")
WIDTHS = {"u16": 2, "u32": 4, "u64": 8}
# One byte that stands sixteen times in a row.
RUN = re.compile(rb"(.)\1{15}", re.DOTALL)


class BadRow(Exception):
    """A row that can't be read, or that breaks what the library's call asks for."""


class ByHand(Exception):
    """A row that the rules do not answer, so that no model can."""


def demand(held: bool) -> None:
    if not held:
        raise BadRow


def number(word: str, bits: int = 64) -> int:
    demand(HEX.match(word) is not None)
    value = int(word, 16)
    demand(value < 1 << bits)
    return value


def pair(word: str, between: str) -> Tuple[int, int]:
    """The two numbers of `A..B` or of `A+B`."""
    first, found, second = word.partition(between)
    demand(found == between)
    return number(first), number(second)


def numbers(word: str, bits: int = 64) -> List[int]:
    """The numbers of `N,N`; none of an empty word."""
    return [number(part, bits) for part in word.split(",")] if word else []


def digits(word: str) -> bytes:
    demand(HEX.match(word) is not None and len(word) % 2 == 0)
    return bytes.fromhex(word)


class Names(Dict[str, bytes]):
    """What `let` and `text` have named so far."""

    def piece(self, word: str) -> bytes:
        if word in self:
            return self[word]
        kind, colon, rest = word.partition(":")
        if colon:
            demand(kind in WIDTHS)
            width = WIDTHS[kind]
            return b"".join(n.to_bytes(width, "little") for n in numbers(rest, 8 * width))
        count, star, rest = word.partition("*")
        if star:
            return number(count) * self.piece(rest)
        return digits(word)

    def bytes_of(self, words: Sequence[str]) -> bytes:
        data = b""
        for word in words:
            if word[:1] == "<":
                demand(number(word[1:]) <= len(data))
                data = data[:number(word[1:])]
            elif word[:1] == ">":
                demand(number(word[1:]) >= len(data))
                data = data.ljust(number(word[1:]), b"\0")
            elif word[:1] == "@":
                offset, _, rest = word[1:].partition("=")
                demand("*" not in rest)
                at, over = number(offset), self.piece(rest)
                demand(at + len(over) <= len(data))
                data = data[:at] + over + data[at + len(over):]
            else:
                data += self.piece(word)
        return data

    def one(self, word: str) -> bytes:
        """A word that is BYTES alone, perhaps none."""
        return self.piece(word) if word else b""


class Line(NamedTuple):
    """A row's call: its name, the words before BYTES, and BYTES, if it takes any."""
    name: str
    words: List[str]
    data: bytes


def run_end(data: bytes, start: int) -> int:
    """The end of the bytes that are as the one at start; ever larger blocks are compared, then
    smaller ones."""
    end, size = start, 1
    while data[end:end + size] == data[start:start + 1] * size:
        end, size = end + size, 2 * size
    while size > 0:
        if data[end:end + size] == data[start:start + 1] * size:
            end += size
        size //= 2
    return end


def spell(data: bytes) -> str:
    """Bytes as pieces: `COUNT*VV` where one byte stands sixteen times in a row or more."""
    words, at = [], 0
    run = RUN.search(data)
    while run:
        start, end = run.start(), run_end(data, run.start())
        if at < start:
            words.append(data[at:start].hex())
        words.append("%x*%02x" % (end - start, data[start]))
        at, run = end, RUN.search(data, end)
    if at < len(data):
        words.append(data[at:].hex())
    return " ".join(words)


def quoted(text: bytes) -> str:
    """What is said, between quotes: a line feed is written as `\\n`, a tab as `\\t`, a zero byte as
    `\\0`."""
    shown = text.decode("utf-8", "replace").replace("\\", "\\\\").replace('"', '\\"')
    return '"%s"' % shown.replace("\n", "\\n").replace("\t", "\\t").replace("\0", "\\0")


def steps(words: Sequence[str]) -> List[List[str]]:
    """`STEP; STEP ..`: the words of each step. No words are no step."""
    found: List[List[str]] = [[]]
    for word in words:
        if word.endswith(";"):
            if word != ";":
                found[-1].append(word[:-1])
            found.append([])
        else:
            found[-1].append(word)
    return found if words else []


def fields(words: Sequence[str]) -> Tuple[Dict[str, List[str]], List[str]]:
    """The values of each `NAME=VALUE`, in order, and the words without a sign of equality."""
    named: Dict[str, List[str]] = {}
    bare = []
    for word in words:
        name, equals, value = word.partition("=")
        if equals:
            named.setdefault(name, []).append(value)
        else:
            bare.append(word)
    return named, bare


def only(named: Dict[str, List[str]], *allowed: str) -> None:
    demand(all(name in allowed for name in named))


def perhaps(named: Dict[str, List[str]], name: str) -> Optional[str]:
    """The value of a field that stands once, or None of one that is left out."""
    return single(named, name) if name in named else None


def single(named: Dict[str, List[str]], name: str) -> str:
    """The value of a field that stands once."""
    demand(len(named.get(name, [])) == 1)
    return named[name][0]
