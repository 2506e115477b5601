"""Inputs, read field by field; what can't be read and what is not as it should be."""

import os
import stat
from contextlib import contextmanager
from pathlib import Path
from typing import Any, BinaryIO, Iterator, NoReturn

PIECE = 1 << 18  # of a file that is too long to be held


class BadInput(Exception):
    """An input that can't be read; the argument says why."""


class Fault(Exception):
    """The first thing that is not as it should be; the argument says what."""


def fault(what: str) -> NoReturn:
    raise Fault(what)


@contextmanager
def opened(path: Path, most: int) -> Iterator[BinaryIO]:
    """A regular file. A pipe might never begin and a device never end, so neither is waited for."""
    try:
        file = open(path, "rb", opener=lambda name, how: os.open(name, how | os.O_NONBLOCK | os.O_NOCTTY))
    except (OSError, ValueError) as error:  # a name with a zero byte is a wrong value
        raise BadInput(f"{path}: {getattr(error, 'strerror', error)}") from None
    with file:
        told = os.fstat(file.fileno())
        if not stat.S_ISREG(told.st_mode):
            raise BadInput(f"{path} is no regular file")
        if told.st_size > most:
            raise BadInput(f"{path} has more than {most} bytes")
        yield file


def pieces(file: BinaryIO, start: int, end: int) -> Iterator[bytes]:
    file.seek(start)
    while start < end:
        held = file.read(min(PIECE, end - start))
        if not held:
            return
        start += len(held)
        yield held


def file_bytes(path: Path, most: int) -> bytes:
    with opened(path, most) as file:
        held = file.read(most + 1)  # the kernel's files, as that of a log, tell no length
    if len(held) > most:
        raise BadInput(f"{path} has more than {most} bytes")
    return held


def shown(text: bytes) -> str:
    """A part of an input in quotes, byte by byte, and not too long."""
    cut = text if len(text) <= 200 else text[:200] + b".."
    return '"' + "".join(chr(byte) if 0x20 <= byte < 0x7F else f"\\x{byte:02x}" for byte in cut) + '"'


FILLS = (bytes(12), b"\xff" * 12)  # no event begins so


class Fields:
    """Bytes that are taken from front to back. What was passed is never copied again, so the time is linear."""

    def __init__(self, held: bytes, what: str, order: str, at: int = 0) -> None:
        self.held, self.what, self.at = held, what, at
        self.order: Any = order  # of a number's bytes, little or big

    def take(self, length: int) -> bytes:
        if not 0 <= length <= len(self.held) - self.at:
            raise BadInput(f"{self.what} ends too early")
        self.at += length
        return self.held[self.at - length : self.at]

    def number(self, length: int) -> int:
        return int.from_bytes(self.take(length), self.order)

    def is_unused(self) -> bool:
        """Whether nothing follows but what fills up a firmware's room: zeros, or bytes 0xFF."""
        ahead = self.held[self.at : self.at + len(FILLS[0])]  # only where these are alike is the rest looked at
        if len(ahead) == len(FILLS[0]) and ahead not in FILLS:
            return False
        return any(self.held.count(fill, self.at) == self.left for fill in (b"\0", b"\xff"))

    @property
    def left(self) -> int:
        return len(self.held) - self.at

    def end(self) -> None:
        if self.left:
            raise BadInput(f"{self.what} goes on behind its end")
