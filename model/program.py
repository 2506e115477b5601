"""Runs of the program that is compared with the rules."""

import os
import subprocess
from typing import List, Optional, Tuple

from rules.booting import Run

TOP = os.path.dirname(os.path.dirname(os.path.abspath(__file__)))
MINUTE = 60

Ended = Tuple[int, bytes, bytes]  # status, what is said and what is blamed


class NoEnd(Exception):
    """A run that does not end within a minute."""


def program_at(path: Optional[str], built: str = "crates/bootcore/out/bootcore") -> str:
    """The program that is named, or else the one that is built; without it there is nothing to do."""
    program = os.path.abspath(path or os.path.join(TOP, built))
    if not os.path.isfile(program):
        print(f"there is no program {program}: build it, or name one with --program")
        raise SystemExit(64)
    return program


def run(program: str, folder: str, *words: str, given: Optional[bytes] = None) -> Ended:
    """A run in a folder, which is given these bytes on standard input."""
    try:
        ended = subprocess.run([program, *words], cwd=folder, timeout=MINUTE, input=given or b"",
                               stdout=subprocess.PIPE, stderr=subprocess.PIPE)
    except subprocess.TimeoutExpired:
        raise NoEnd(f"{' '.join(words)} does not end within a minute") from None
    return ended.returncode, ended.stdout, ended.stderr


def end_of(wanted: Run) -> Ended:
    """What a run by the rules ends in."""
    return wanted.status, lines(wanted.said), lines(wanted.blamed)


def lines(texts: List[str]) -> bytes:
    return "".join(text + "\n" for text in texts).encode("utf-8")
