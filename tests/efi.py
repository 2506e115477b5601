"""the boot manager in C, in QEMU under OVMF"""

import os
import re
import subprocess
from typing import Iterable, Iterator, List, NamedTuple

from tests.support import C_ARCHIVE, PLAIN, PROGRAM, TOP, Checks, Ran, need_built, run

NOT_AT_HAND = 127  # the status with which examples/efi/build ends if it has not what it needs
SHIPPED = TOP / "examples/efi/out/BOOTX64.EFI"
OVER = {"CORE_LIBRARIES": str(PLAIN / "libbootcore_freestanding.a")} if PLAIN else {}
# with which distributions build their packages
PACKAGERS = "-g -O2 -flto=auto -fstack-protector-strong -fstack-clash-protection -fcf-protection -D_FORTIFY_SOURCE=2 -Werror"

MARKED = re.compile(r"(ok|FAILED|skipped:) +(.+)")


class Reported(NamedTuple):
    """A check as examples/efi/check reports it: how it ended, its sentence, and what follows if it failed."""

    mark: str
    sentence: str
    details: List[str]


def reports(lines: Iterable[str]) -> Iterator[Reported]:
    """The checks as they come; one that failed comes when its last line did, and a line of no check at once."""
    failed = None
    for line in lines:
        marked = MARKED.fullmatch(line)
        if failed is not None:
            if marked is None:
                failed.details.append(line)
                continue
            yield failed
            failed = None
        if marked is None:
            print(line, flush=True)
        elif marked[1] == "FAILED":
            failed = Reported("FAILED", marked[2], [])
        else:
            yield Reported(marked[1], marked[2], [])
    if failed is not None:
        yield failed


class BootManager(Checks):
    built: Ran
    shipped = b""

    @classmethod
    def setUpClass(cls) -> None:
        super().setUpClass()
        if C_ARCHIVE.exists():
            for more in ({}, {"TESTS": "yes"}, {"UNVERIFIED": "yes", "CFLAGS": PACKAGERS}):
                cls.built = run(TOP / "examples/efi/build", env={**OVER, **more}, timeout=1800)
                if cls.built.status != 0:
                    break
                cls.shipped = cls.shipped or SHIPPED.read_bytes()
        else:
            cls.built = Ran(["examples/efi/build"], TOP, NOT_AT_HAND, b"", b"the core for C is not built\n")

    def test_build(self) -> None:
        """the boot manager is built: as it is shipped, for tests, and, with a packager's flags, for what nobody verified"""
        if self.built.status == NOT_AT_HAND:
            written = (self.built.out + self.built.err).decode(errors="replace")
            self.skipTest((written.splitlines() or ["examples/efi/build does not say what it needs"])[-1])
        self.assert_ended(self.built, 0, None)
        self.assertEqual(SHIPPED.read_bytes(), self.shipped, "the boot manager that is shipped was written over")

    def test_check(self) -> None:
        """the boot manager boots in QEMU under OVMF"""
        if self.built.status != 0:
            self.skipTest("the boot manager is not built")
        need_built(PROGRAM, "tools/build")
        passed = failed = skipped = 0
        with subprocess.Popen(
            [TOP / "examples/efi/check"],
            cwd=TOP,
            env={**os.environ, "BOOTCORE": str(PROGRAM)},
            stdin=subprocess.DEVNULL,
            stdout=subprocess.PIPE,
            stderr=subprocess.STDOUT,
            encoding="utf-8",
            errors="backslashreplace",
        ) as checks:
            for mark, sentence, details in reports(line.rstrip("\n") for line in checks.stdout or ()):
                passed += mark == "ok"
                failed += mark == "FAILED"
                skipped += mark == "skipped:"
                self.report(mark, sentence, details)
        with self.check("the checks of the boot manager end, with the status 0 if none failed"):
            if (checks.returncode == 0) != (failed == 0) or passed + failed + skipped == 0:
                counts = f"{passed} ok, {failed} failed, {skipped} left out"
                self.fail(f"ran: examples/efi/check\nstatus {checks.returncode}; {counts}")

    def report(self, mark: str, sentence: str, details: List[str]) -> None:
        if mark == "skipped:":
            what, _, why = sentence.partition(", since ")
            self.leave_out(what, why or "examples/efi/check does not say why")
            return
        with self.check(sentence):
            if mark == "FAILED":
                self.fail("\n".join(["ran: examples/efi/check", *details]))
