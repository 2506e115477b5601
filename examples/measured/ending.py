"""How these programs talk and end. Only what was judged ends with 1: all that fails on the way has the status 2, and words for it."""

import argparse
import contextlib
import os
import signal
import sys
from typing import Any, Callable, List, NoReturn

from reading import BadInput, Fault

WRONG, UNREADABLE, BAD_WORDS = 1, 2, 64


def plain(line: str) -> str:
    """For a terminal: whoever wrote a log, a policy or a name might have written its escape sequences. To a reader of TOML or JSON
    it is the same text."""
    return "".join(c if c.isprintable() else f"\\u{ord(c):04x}" if ord(c) < 0x10000 else f"\\U{ord(c):08x}" for c in line)


def put(lines: List[str], stream: int) -> None:
    """All of it, past Python's buffers, which would fail once the status is settled."""
    left = memoryview("".join(plain(line) + "\n" for line in lines).encode())
    while left:
        left = left[os.write(stream, left) :]


def tell(lines: List[str]) -> None:
    try:
        put(lines, 1)
    except OSError as error:
        raise BadInput(f"standard output: {error.strerror}") from None


def complain(*lines: str) -> None:
    with contextlib.suppress(OSError):  # then the status alone tells it
        put([*lines], 2)


def why(error: BaseException) -> str:
    """What failed, of all but a Fault."""
    if isinstance(error, OSError):
        return f"{error.filename or 'a file'}: {error.strerror}"
    if isinstance(error, (MemoryError, KeyboardInterrupt)):
        return "out of memory" if isinstance(error, MemoryError) else "interrupted"
    return str(error) if isinstance(error, BadInput) else f"a mistake of this program's own, {error!r}"


class Parser(argparse.ArgumentParser):
    def __init__(self, usage: str, **how: Any) -> None:
        super().__init__(usage=usage, formatter_class=argparse.RawDescriptionHelpFormatter, allow_abbrev=False, **how)

    def print_help(self, file: Any = None) -> None:
        if run(self.prog, lambda: tell(self.format_help().splitlines())):
            sys.exit(UNREADABLE)

    def error(self, message: str) -> NoReturn:
        complain(*self.format_usage().splitlines(), f"{os.path.basename(sys.argv[0])}: {message}")
        sys.exit(BAD_WORDS)


def interrupted(_number: int, _frame: Any) -> NoReturn:
    raise KeyboardInterrupt


def begin() -> None:
    """No file gets the number of a stream that is closed, and who ends the program ends it in order."""
    for stream in range(3):
        try:
            os.fstat(stream)
        except OSError:
            os.open(os.devnull, os.O_RDONLY)
    signal.signal(signal.SIGTERM, interrupted)


def want_python() -> None:
    if sys.version_info < (3, 11):
        raise BadInput("Python 3.11 or later is wanted")


def run(name: str, act: Callable[[], None]) -> int:
    """What it finds not as it should be ends with 1."""
    try:
        want_python()
        act()
        return 0
    except Fault as wrong:
        status, failed = WRONG, str(wrong)
    except BaseException as error:  # noqa: B036: also an interrupt
        status, failed = UNREADABLE, why(error)
    complain(f"{name}: {failed}")
    return status
