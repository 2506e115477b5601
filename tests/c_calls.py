"""the calls of the core for C: which misuse is told, what they need of stack and memory, random inputs, clients"""

import re
import sys
import unittest
from pathlib import Path
from typing import Dict, List, Optional, Tuple

from tests import c_aarch64, examples
from tests.c_core import CC, FREESTANDING, HEADER, WARNINGS, CoreChecks, build_freestanding, libraries, why_left_out
from tests.support import PLAIN, PROGRAM, TOP, has_tomllib, is_at_hand, need_built, run

MODULES = [c_aarch64] if PLAIN else []  # only the plain source makes a library for it
ONE_MINUTE = 60
QUIET = {"PYTHONDONTWRITEBYTECODE": "1"}
NO_TOMLLIB = "python3 of 3.11 or later is not at hand"

CLIENT = """\
version 10000
load 0
ip 100000, cs 10 of type 11
part 3 at 1000, 4096 bytes
part 1 at 100000, 8192 bytes
part 2 at 102000, 4096 bytes
outcome 116
"""


def setUpModule() -> None:
    why = why_left_out()
    if why:
        raise unittest.SkipTest(why.replace("the core for C", "the calls of the core for C"))
    need_built(PROGRAM, "tools/build")


def functions(archive: Path) -> List[List[str]]:
    """The lines of each function of an archive; constants may stand behind code, and not all of them are instructions."""
    code = run("objdump", "-d", "--no-show-raw-insn", archive, timeout=600).out.decode(errors="replace")
    return [block.split("(bad)")[0].splitlines() for block in re.split(r"\n\n", code)]


def instructions(archive: Path) -> List[str]:
    """The lines of an archive's code."""
    return [line for function in functions(archive) for line in function]


def below_stack(function: List[str]) -> List[str]:
    """The instructions that read or write below the stack pointer; `lea` computes an address alone. An index that is added may lead above
    it again, as into an array that is indexed from behind its beginning: it is taken for that in a function that calls another one,
    since the compilers let only a function without calls use what is below."""
    has_calls = any("\tcall" in line for line in function)
    operand = r"-0x[0-9a-f]+\(%rsp\)" if has_calls else r"-0x[0-9a-f]+\(%rsp"
    return [line for line in function if re.search(operand, line) and "lea " not in line]


def constant(name: str, header: str = "bootcore.h") -> int:
    """A number of a header."""
    return int(re.search(rf"\b{name} = (\w+)", (HEADER.parent / header).read_text(encoding="utf-8"))[1], 0)


def said_needs() -> Dict[str, Tuple[int, int]]:
    """What the table of docs/EMBED.md says that calls need of an arena: a small guest, and the largest entry."""
    page = (TOP / "docs/EMBED.md").read_text(encoding="utf-8")
    rows = re.findall(r"^\| `bootcore_(\w+)`.*? \| ([\d,]+) \| ([\d,]+) \|$", page, re.M)
    return {call: (int(guest.replace(",", "")), int(most.replace(",", ""))) for call, guest, most in rows}


def said_beside_table() -> Dict[str, int]:
    """What docs/EMBED.md says below its table: what a walk wants besides twice the image's length, and the reader of a head."""
    page = " ".join((TOP / "docs/EMBED.md").read_text(encoding="utf-8").split())
    said = re.search(r"twice the image's length, .*? besides up to ([\d,]+) bytes, .*?`bootcore_image_head_read` at most ([\d,]+) bytes", page)
    return dict(zip(("beside_image", "image_head_read"), (int(number.replace(",", "")) for number in said.groups())))


def rounded(needs: Dict[Tuple[str, ...], int], call: str) -> Tuple[int, int]:
    """What was measured of a call, in the same way: a digest and a session as a whole are named after the call that begins them."""
    name = {"digest_make": "digest", "session_make": "session"}.get(call, call)
    up = lambda number: -(-number // 1000) * 1000
    guest, most, of_menu = (needs[("arena", name, *of)] for of in (["of", "a", "guest"], [], ["of", "the", "largest", "menu"]))
    return up(guest), up(max(most, of_menu))


class Misuses(CoreChecks):
    def test_orders(self) -> None:
        driver = self.driver("orders", *self.sanitizers())
        if driver is not None:
            ran = run(driver, timeout=600)
            self.ends("of each two misuses of a call from C the first is told, and nothing is changed", ran, 0, "8739 tried, 0 wrong\n")


class Needs(CoreChecks):
    """What calls need of stack, and of an arena."""

    def measured(self, sentence: str, driver: Optional[Path]) -> Dict[Tuple[str, ...], int]:
        """What tests/drivers/needs prints of a driver: the number behind the words of each line."""
        if driver is None:
            return {}
        if not has_tomllib():
            self.leave_out(sentence, NO_TOMLLIB)
            return {}
        ran = run(TOP / "tests/drivers/needs", driver, timeout=1800, env=QUIET)
        with self.check(sentence):
            self.assert_ended(ran, 0, None)
        lines = [line.split(" ") for line in ran.out.decode().splitlines()] if ran.status == 0 else []
        return {tuple(line[:-1]): int(line[-1]) for line in lines}

    def has_stack(self, needs: Dict[Tuple[str, ...], int], archive: str, stated: int) -> None:
        if needs:
            most = needs["stack",]
            with self.check(f"no call of {archive} needs more stack than the {stated} bytes that the header states: at most {most}"):
                self.assertLessEqual(most, stated)

    def test_stack(self) -> None:
        needs = self.measured("the stack of calls is measured over the cases and the largest entries", self.driver("needs"))
        self.has_stack(needs, "libbootcore.a", constant("BOOTCORE_STACK") if PLAIN else 16384)

    def test_arena(self) -> None:
        self.ends("the archive for firmware defines what the headers declare, and wants nothing", build_freestanding())
        if not FREESTANDING.exists():
            return
        driver = self.driver("needs", "-DARENA", archive=FREESTANDING)
        needs = self.measured("the arena of calls is measured over the cases and the largest entries, and just its peak is enough", driver)
        self.has_stack(needs, FREESTANDING.name, constant("BOOTCORE_STACK"))
        if needs:
            most, stated = needs["arena",], constant("BOOTCORE_ARENA", "bootcore_arena.h")
            with self.check(f"no load and no plan needs more of an arena than the {stated} bytes of BOOTCORE_ARENA: at most {most}"):
                self.assertLessEqual(most, stated)
            if PLAIN:
                self.leave_out("docs/EMBED.md says of each call what it needs of an arena", "those numbers are the proved archive's")
                return
            with self.check("docs/EMBED.md says of each call what it needs of an arena, rounded up to a thousand bytes"):
                self.assertEqual(said_needs(), {call: rounded(needs, call) for call in said_needs()})
                self.assertGreater(len(said_needs()), 6, "rows of the table")
            with self.check("docs/EMBED.md says what a walk wants besides twice the image's length, and the reader of a head"):
                for call, said in said_beside_table().items():
                    most = max(needs[("arena", call, *of)] for of in ([], ["of", "a", "guest"], ["of", "the", "largest", "menu"]))
                    self.assertTrue(most <= said <= 2 * most, f"{call}: {most} bytes are needed, of {said}")


class Freestanding(CoreChecks):
    def test_allocator(self) -> None:
        made = self.room / "arena"
        sources = [TOP / "tests/drivers/arena.c", TOP / "c/freestanding/arena.c"]
        words = [*CC, "-std=c99", "-g", "-O2", *WARNINGS, *self.sanitizers(), "-I", HEADER.parent, *sources, "-o", made]
        self.ends("the allocator over an arena is built with its driver", run(*words))
        self.ends("blocks of an arena are apart and keep their bytes, and an arena of the peak's length is enough", run(made))

    def test_bare(self) -> None:
        build_freestanding()
        if not FREESTANDING.exists():
            return
        made = self.room / "bare"
        words = [*CC, "-std=c99", "-O2", *WARNINGS, "-ffreestanding", "-fno-stack-protector", "-fno-pic", "-mno-red-zone"]
        built = run(*words, "-nostdlib", "-static", "-I", HEADER.parent, TOP / "tests/drivers/bare.c", FREESTANDING, "-o", made)
        self.ends("a program that calls all of the archive for firmware is linked with nothing else", built)
        if built.status == 0:
            self.ends("it loads, plans, boots, digests and walks with an arena, and has no memory without one", run(made))

    def test_red_zone(self) -> None:
        """no instruction of the archive for firmware reads or writes below the stack pointer"""
        build_freestanding()
        if not is_at_hand("objdump"):
            self.skipTest("objdump is not at hand")
        if not FREESTANDING.exists():
            self.skipTest("the archive for firmware is not built, as is reported above")
        code = functions(FREESTANDING)
        self.assertGreater(sum("(%rsp)" in line for function in code for line in function), 1000, "operands that begin at the stack pointer")
        self.assertEqual([line for function in code for line in below_stack(function)][:20], [])

    def test_state(self) -> None:
        """no instruction of an archive looks at MXCSR or at the x87's state, or computes with fractions"""
        if not is_at_hand("objdump"):
            self.skipTest("objdump is not at hand")
        build_freestanding()
        of_state = re.compile(r"\t(v?(ldmxcsr|stmxcsr)|f\w+|emms|xsave\w*|xrstor\w*|v?(add|sub|mul|div|sqrt|cvt\w+)[sp][sd])\b")
        for archive in filter(Path.exists, [libraries()[0], FREESTANDING]):
            code = instructions(archive)
            self.assertGreater("\n".join(code).count("%xmm"), 100, "operands that are XMM registers")
            self.assertEqual([line for line in code if of_state.search(line)][:20], [], archive.name)


class Fuzzed(CoreChecks):
    def test_fuzz(self) -> None:
        driver = self.driver("fuzz", *self.sanitizers())
        if driver is None:
            return
        kernels = [self.room / name for name in ("kernel.linux", "kernel.linux64")]
        kernels[0].write_bytes(examples.linux_kernel())
        kernels[1].write_bytes(examples.linux64_kernel())
        sentence = "a minute of random machines, entries and files ends as it should: loads, plans that are carried out, digests, walks"
        if has_tomllib():
            of_cases = self.room / "kernels"
            self.ends("the kernels of the cases are written", run(TOP / "tests/drivers/kernels", of_cases, env=QUIET))
            kernels += sorted(of_cases.iterdir())
        ran = run(driver, str(ONE_MINUTE), "1", self.kernel, *kernels, cwd=self.room, timeout=10 * ONE_MINUTE)
        told = ran.out.decode(errors="replace").strip()
        with self.check(f"{sentence}: {told}" if ran.status == 0 else sentence):
            self.assert_ended(ran, 0, None)
            counts = re.match(r"\d+ inputs from seed 1: (\d+) loaded, (\d+) refused", told)
            self.assertTrue(counts and int(counts[1]) > 100 and int(counts[2]) > 100, told)

    def test_pieces(self) -> None:
        driver = self.driver("pieces", *self.sanitizers())
        if driver is not None:
            ran = run(driver, "200000", "1", timeout=300)
            told = ran.out.decode(errors="replace").strip()
            with self.check("plans at random are carried out over pieces at random as byte by byte"):
                self.assert_ended(ran, 0, None)
                counts = re.fullmatch(r"200000 tried, (\d+) done, (\d+) not", told)
                self.assertTrue(counts and int(counts[1]) > 10000 and int(counts[2]) > 10000, told)

    def test_plans(self) -> None:
        sentence = "entries drawn at random have the plans and the digests that the model computes"
        if not has_tomllib():
            self.leave_out(sentence, NO_TOMLLIB)
            return
        driver = self.driver("plans", *self.sanitizers())
        if driver is not None:
            self.reports(sentence, sys.executable, TOP / "model/fuzz", "300", "1", "--plans", "--program", driver)


class Clients(CoreChecks):
    def test_cxx(self) -> None:
        if not is_at_hand("c++"):
            self.leave_out("a client in C++98 loads a kernel", "c++ is not at hand")
            return
        made = self.room / "client_cc"
        words = ["c++", "-std=c++98", "-O2", *WARNINGS, "-I", HEADER.parent, TOP / "tests/drivers/client.cc", *libraries(), "-o", made]
        self.ends("a client in C++98 is built without a warning", run(*words))
        self.ends("a client in C++98 loads a kernel", run(made), 0, CLIENT)

    def test_rust(self) -> None:
        if not is_at_hand("rustc"):
            self.leave_out("a client in Rust loads a kernel", "rustc is not at hand")
            return
        made, folder = self.room / "client_rs", libraries()[0].parent
        words = ["rustc", "--edition", "2021", "-O", "-D", "warnings", TOP / "tests/drivers/client.rs", "-L", f"native={folder}"]
        self.ends("a client in Rust is built without a warning", run(*words, "-l", "static=bootcore", "-o", made, timeout=300))
        self.ends("a client in Rust loads a kernel", run(made), 0, CLIENT)
