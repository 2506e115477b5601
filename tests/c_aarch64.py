"""The plain source's library for C on aarch64, emulated: Linux with what firmware tells, misuses, the cases"""

import re
import unittest
from pathlib import Path
from typing import Union

from tests import examples
from tests.c import CASES_COUNT, GUEST, TOLD_LINUX, Examples, changed_for_64
from tests.c_core import HEADER, WARNINGS
from tests.support import PLAIN, TOP, Checks, Ran, has_tomllib, is_at_hand, path_with_rust, run

TARGET = "aarch64-unknown-linux-gnu"
TOOLS = {"CARGO_BUILD_TARGET": TARGET, "CC": "aarch64-linux-gnu-gcc", "LD": "aarch64-linux-gnu-ld", "OBJCOPY": "aarch64-linux-gnu-objcopy"}
EMULATED = ["qemu-aarch64", "-L", "/usr/aarch64-linux-gnu"]


def setUpModule() -> None:
    if not PLAIN:
        raise unittest.SkipTest("the library for C on aarch64: only the plain source makes one")
    for tool in (TOOLS["CC"], EMULATED[0], "rustc"):
        if not is_at_hand(tool):
            raise unittest.SkipTest(f"the library for C on aarch64: {tool} is not at hand")
    path = path_with_rust(TARGET)
    if path is None:
        why = "rustc has no library for it: `rustup target add`, or of Debian libstd-rust-dev:arm64, brings one"
        raise unittest.SkipTest(f"the library for C on aarch64: {why}")
    TOOLS["PATH"] = path


class Aarch64(Checks):
    archive: Path

    @classmethod
    def setUpClass(cls) -> None:
        super().setUpClass()
        cls.archive = cls.room / "libbootcore.a"
        ran = run(TOP / "tools/c_archive", "--source", cls.archive, env=TOOLS, timeout=1200)
        if ran.status != 0:
            raise AssertionError(f"ran: {ran}\n{ran.err.decode(errors='replace')}")

    def compiled(self, source: Path, *flags: str, archive: Path = Path()) -> Path:
        """A program for aarch64 of a file in C, which a script of its name runs."""
        program = self.room / f"{source.stem}.aarch64"
        words = [TOOLS["CC"], "-std=c99", "-O2", *WARNINGS, "-DBOOTCORE_FROM_SOURCE", *flags, "-I", HEADER.parent, source]
        self.assert_ended(run(*words, archive if flags else self.archive, "-o", program))
        script = self.room / source.stem
        script.write_text("#!/bin/sh\nexec " + " ".join([*EMULATED, str(program), '"$@"']) + "\n", encoding="utf-8")
        script.chmod(0o755)
        return script

    def example(self, name: str, *words: Union[str, Path], cwd: Path = TOP) -> Ran:
        return run(self.compiled(TOP / f"examples/c/{name}.c"), *words, cwd=cwd, timeout=600)

    def test_statuses(self) -> None:
        sentence = "each answer of a load, a preparation and a plan from C has its status on aarch64"
        self.ends(sentence, self.example("statuses"), 0, "570 tried, 0 wrong\n")
        self.ends("each answer of a session's calls from C has its status on aarch64", self.example("sessions"), 0, "138 tried, 0 wrong\n")

    def test_guest(self) -> None:
        examples.write_modules(self.room)
        ran = self.example("guest", "multiboot2", "kernel.elf", "k", "settings.cfg", cwd=self.room)
        self.ends("a guest loader on aarch64 prints what it prints on x86-64", ran, 0, GUEST)

    def test_firmware(self) -> None:
        if not has_tomllib():
            self.leave_out("Linux is told on aarch64 what firmware tells", "python3 of 3.11 or later is not at hand")
            return
        words = Examples.described(self.room, "firmware_linux")
        (self.room / "linux64").write_bytes(changed_for_64((self.room / "linux").read_bytes()))
        rows = (TOP / "cases/told.cases").read_text(encoding="utf-8")
        for case, told in (("linux_told_all", words), ("linux64_told_all", ["linux64", "linux64", *words[2:]])):
            ran = self.example("firmware", "all", "image", *told, cwd=self.room)
            self.ends(f"a program in C on aarch64 tells a kernel what firmware tells: {case}", ran, 0, TOLD_LINUX)
            digest = re.search(rf"^{case}\|.*\|([0-9a-f]{{64}})$", rows, re.M)[1]
            self.has_digest(f"its image is the one that the model computes: {case}", digest, self.room / "image")

    def test_cases(self) -> None:
        sentence = "each case ends as wanted by way of C without a system on aarch64"
        if not has_tomllib():
            self.leave_out(sentence, "python3 of 3.11 or later is not at hand")
            return
        archive = self.room / "libbootcore_freestanding.a"
        self.assert_ended(run(TOP / "tools/c_archive", "--source", "--freestanding", archive, env=TOOLS, timeout=1200), 0, None, None)
        driver = self.compiled(TOP / "tests/drivers/cases.c", "-DARENA", archive=archive)
        ran = run(TOP / "tests/drivers/cases", driver, timeout=1800, env={"PYTHONDONTWRITEBYTECODE": "1"})
        lines = ran.out.decode(errors="backslashreplace").splitlines()
        counts = CASES_COUNT.fullmatch(lines[-1]) if lines else None
        self.assertTrue(counts, f"ran: {ran}\n{ran.err[-2000:]!r}\nits last line: {lines[-1:]}")
        boots, loads, differ = map(int, counts.groups())
        self.tally(sentence, boots + loads - differ, differ, "\n".join(line[:300] for line in lines[-20:]))
