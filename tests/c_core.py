"""What the checks of the core for C share: the build, why it is left out, and the images that they look at."""

import os
import time
import unittest
from functools import lru_cache
from pathlib import Path
from typing import Dict, List, Optional, Union

from tests import changed_images, examples
from tests.support import C_ARCHIVE, PLAIN, PROGRAM, STARTED, TOP, ProgramChecks, Ran, is_at_hand, run

OUT = PLAIN / "examples" if PLAIN else TOP / "examples/c/out"
HEADER = TOP / "include/bootcore.h"
FREESTANDING = (PLAIN or OUT) / "libbootcore_freestanding.a"
WARNINGS = ["-Wall", "-Wextra", "-Wpedantic", "-Wconversion", "-Werror"]
SANITIZERS = ["-fsanitize=address,undefined", "-fno-sanitize-recover=all"]
CC = (os.environ.get("CC") or "cc").split()
HOURS = 3600.0
LATEST = 105 * 60.0  # the core for C and its checks take an hour more on a slow machine, and CI ends at three


def why_left_out() -> Optional[str]:
    if not is_at_hand(CC[0]):
        return f"the core for C: no compiler of C is at hand, '{' '.join(CC)}' is none"
    is_late = len(os.sched_getaffinity(0)) < 4 or time.monotonic() - STARTED > LATEST
    if os.environ.get("CI") and is_late and not C_ARCHIVE.exists():
        return (
            "the core for C: the gate proves its crates and builds no library,"
            " and to prove them again takes longer than is left"
        )
    return None


@lru_cache(maxsize=None)
def build() -> Ran:
    """The core and the examples, built once for all checks; over an archive of the plain source the examples alone."""
    if PLAIN:
        return run(TOP / "examples/c/build", C_ARCHIVE, OUT, timeout=600)
    print("c: the static library for C is built: minutes, if its crates were not built before", flush=True)
    return run(TOP / "examples/c/build", timeout=3 * HOURS)


@lru_cache(maxsize=None)
def build_freestanding() -> Ran:
    """The archive for firmware, built once for all checks."""
    if PLAIN:
        return run("test", "-f", FREESTANDING)
    return run(TOP / "tools/c_archive", "--freestanding", FREESTANDING, timeout=3 * HOURS)


@lru_cache(maxsize=None)
def libraries() -> List[Path]:
    """What a program in C links."""
    return [C_ARCHIVE if PLAIN else OUT / "libbootcore.a"]


def working_sanitizers(room: Path) -> List[str]:
    """The sanitizers, if the compiler has them and what it makes with them in a folder runs; else none."""
    source, made = room / "sanitized.c", room / "sanitized"
    source.write_text("int main(void) { return 0; }\n", encoding="utf-8")
    works = run(*CC, *SANITIZERS, source, "-o", made).status == 0 and run(made).status == 0
    return SANITIZERS if works else []


class CoreChecks(ProgramChecks):
    """Checks of the core for C as it is built, with the files of two examples and the images of these."""

    images: Dict[str, Path]
    modules: Path  # the folder of examples/modules.sh
    kernel: Path

    @classmethod
    def setUpClass(cls) -> None:
        super().setUpClass()
        if build().status != 0:
            raise unittest.SkipTest("the core for C is not built, as is reported above")
        cls.images = changed_images.base_images(cls.room, PROGRAM)
        cls.modules = cls.booted("modules", "modules.sh")
        cls.kernel = cls.modules / "kernel.elf"

    @classmethod
    def booted(cls, name: str, *script: str, kernel: bytes = b"") -> Path:
        """A new folder with the files of an example's script and the image that it makes of them."""
        folder = cls.room / name
        folder.mkdir()
        if kernel:
            examples.write_linux(folder, kernel)
        else:
            examples.write_modules(folder)
        ran = run(TOP / "examples" / script[0], *script[1:], cwd=folder, env={"BOOTCORE": str(PROGRAM)})
        if ran.status != 0:
            raise AssertionError(f"ran: {ran}\nstatus {ran.status}, wanted 0\n{ran.err.decode(errors='replace')}")
        return folder

    def example(self, name: str, *words: Union[str, Path], cwd: Path = TOP) -> Ran:
        """A run of a program that examples/c/build made."""
        return run(OUT / name, *words, cwd=cwd)

    def sanitizers(self) -> List[str]:
        """The sanitizers, or none, which is told then."""
        working = working_sanitizers(self.room)
        if not working:
            self.leave_out("a driver of the core for C runs under the sanitizers", "this compiler has none")
        return working

    def driver(self, name: str, *flags: str, archive: Optional[Path] = None) -> Optional[Path]:
        """A program of tests/drivers over an archive, the one with a libc if none is named; None if it can't be built, as is reported."""
        made = self.room / f"c_{name}"
        words = [*CC, "-std=c99", "-g", "-O2", *WARNINGS, *flags, "-I", HEADER.parent, TOP / f"tests/drivers/{name}.c"]
        built = run(*words, *([archive] if archive else libraries()), "-o", made, timeout=600)
        self.ends(f"tests/drivers/{name}.c is built without a warning over {(archive or libraries()[0]).name}", built)
        return made if built.status == 0 else None
