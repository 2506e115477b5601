"""The repository's files, for the parts that look at all of them."""

import os
import subprocess
from functools import lru_cache
from typing import Iterator, List, Tuple

from tests.support import TOP

MADE = {".git", "out", "trial", "__pycache__"}  # folders whose files are none of the repository's


def walked() -> Iterator[str]:
    for folder, below, names in os.walk(TOP):
        below[:] = [name for name in below if name not in MADE]
        for name in names:
            yield os.path.relpath(os.path.join(folder, name), TOP)


@lru_cache(maxsize=None)
def files() -> Tuple[str, ...]:
    """Paths from the top: what git tracks, with new files that it does not ignore; all where git does not say it."""
    names: List[str] = list(walked())
    if (TOP / ".git").exists():
        try:
            words = ["git", "ls-files", "-z", "--cached", "--others", "--exclude-standard"]
            listed = subprocess.run(words, cwd=TOP, stdin=subprocess.DEVNULL, capture_output=True, check=True).stdout
            names = os.fsdecode(listed).split("\0")
        except (OSError, subprocess.CalledProcessError):
            pass  # no git, or a repository of another user's
    return tuple(sorted({name for name in names if (TOP / name).is_file()}))


def pages() -> List[str]:
    return [name for name in files() if name.endswith(".md")]


def lines(name: str) -> List[str]:
    """A text's lines; a byte that is no UTF-8 does not end the test."""
    return (TOP / name).read_text(encoding="utf-8", errors="surrogateescape").split("\n")


def texts() -> Iterator[str]:
    """The files that are text: as for git, those without a zero byte at their start."""
    for name in files():
        with (TOP / name).open("rb") as file:
            if b"\0" not in file.read(8000):
                yield name


def first_line(name: str) -> str:
    with (TOP / name).open("rb") as file:
        return file.readline(200).decode(errors="replace").rstrip("\n")


def bash_scripts() -> List[str]:
    """What bash runs or sources."""
    named = (".sh", ".bash")
    return [name for name in files() if name.endswith(named) or first_line(name) == "#!/usr/bin/env bash"]


def python_files() -> List[str]:
    return [name for name in files() if name.endswith(".py") or first_line(name) == "#!/usr/bin/env python3"]


def programs() -> List[str]:
    """What a person calls by its path: scripts of any language."""
    return [name for name in files() if first_line(name).startswith("#!")]
