"""the package for Rust: its tests and examples, its numbers, beside the library for C; lints, format, documentation"""

import re
import unittest
from pathlib import Path
from typing import Dict, Iterator, List, Optional, Tuple

from tests import examples
from tests.c import GUEST
from tests.c_core import CC, HEADER, libraries
from tests.support import TOP, Checks, Ran, is_at_hand, run

PACKAGE = TOP / "source/bootcore"
EXAMPLES = TOP / "source/examples"
DRIVER = TOP / "tests/drivers/beside_c"
# the exported workspace, in which the package is whole
WORKSPACE = TOP / "out/source"
TEN_MINUTES = 600.0
# where Debian's packages of crates lie
PACKAGED = Path("/usr/share/cargo/registry")
# of a status what is no misuse, and what no program in Rust can do wrong; errors of their own; sources of steps, which are an enum
STATUSES = "DONE REFUSED WAITING NEXT NO_MEMORY FAILED OUTSIDE NULL BAD_RESERVED SMALL_ROOM BAD_KIND BAD_PROTOCOL NO_SESSION"
UNNAMED = {"BOOTCORE_FAULT_READ_NO_MEMORY", "BOOTCORE_FAULT_WALK_NO_MEMORY"} | {
    f"BOOTCORE_STATUS_{name}" for name in f"{STATUSES} BAD_EFI_BITS BAD_SECURE_BOOT".split()
}
WITH_UNSAFE = {"bootcore/tests/want_of_memory.rs", "examples/freestanding/src/main.rs"}
# what a program without digests rests on
ALONE = re.compile(rb"bootcore v[\d.]+ \([^)]*\)\n\Z")

IN_VM_MEMORY = """\
entered at 100200, boot parameters at 1000
BootParams at 1000, 4096 bytes: [0, 0, 0, 0]
CommandLine at 2000, 4096 bytes: [63, 6f, 6e, 73]
Gdt at 3000, 4096 bytes: [0, 0, 0, 0]
PageTables at 4000, 24576 bytes: [3, 50, 0, 0]
Kernel at 100000, 4096 bytes: [fa, f4, eb, fd]
Initrd at ffff000, 4096 bytes: [68, 65, 6c, 6c]
"""

MANIFEST = """\
[package]
name = "beside_c"
version = "0.0.0"
edition = "2024"

[[bin]]
name = "beside_c"
path = "{driver}/main.rs"

[dependencies]
bootcore = {{ path = "{workspace}/bootcore", features = ["digest"] }}

[profile.dev]
opt-level = 1

[workspace]
"""


def setUpModule() -> None:
    for tool in ("rustc", "cargo"):
        ran = run(tool, "--version")  # a launcher may be at hand without a toolchain
        if ran.status != 0:
            raise unittest.SkipTest(f"the package for Rust: {tool} is not at hand")
    ran = run(TOP / "tools/plain", "--export", timeout=TEN_MINUTES)
    said = ran.err.decode(errors="backslashreplace").strip()
    if ran.status == 127:  # it says which libraries are wanted
        raise unittest.SkipTest(f"the package for Rust: {said}")
    if ran.status != 0:
        raise AssertionError(f"tools/plain --export: status {ran.status}\n{said}")


def source(name: str) -> str:
    return (PACKAGE / name).read_text(encoding="utf-8")


class PackageChecks(Checks):
    def cargo(self, *words: str, cwd: Path = WORKSPACE, env: Optional[Dict[str, str]] = None) -> Ran:
        target = {"CARGO_TARGET_DIR": str(TOP / "out/target")}
        return run("cargo", *words, cwd=cwd, timeout=TEN_MINUTES, env={**target, **(env or {})})

    def assert_good(self, ran: Ran) -> None:
        if ran.status != 0:
            written = (ran.out + ran.err)[-4000:].decode(errors="backslashreplace")
            self.fail(f"ran: {ran}\nstatus {ran.status}, wanted 0\n{written}")


class Declared(PackageChecks):
    """What the package says, without a build."""

    def test_numbers(self) -> None:
        """the numbers of the package are the header's, and it has each that a program in Rust can meet"""
        if not is_at_hand(CC[0]):
            self.skipTest("no compiler of C is at hand")
        asserted = list(numbers())
        self.assertGreater(len(asserted), 80)
        prefixes = "REFUSAL|FAULT|STATUS|PROTOCOL|ROLE|KIND|CHOICE"
        names = set(re.findall(rf"\bBOOTCORE_(?:{prefixes})_\w+(?= = )", HEADER.read_text(encoding="utf-8")))
        self.assertGreater(len(names), 80)
        self.assertEqual(names - UNNAMED - {name for name, _ in asserted}, set(), "numbers that the package lacks")
        file = self.room / "said.c"
        lines = [f'_Static_assert({one} == {other}, "{one}");' for one, other in asserted]
        file.write_text("\n".join(['#include "bootcore.h"', *lines, ""]), encoding="utf-8")
        self.assert_ended(run(*CC, "-std=c11", "-fsyntax-only", "-I", HEADER.parent, file))

    def test_unsafe(self) -> None:
        """no `unsafe` stands in the package; in what is tried beside it, each time below its reason"""
        self.assertIn("#![forbid(unsafe_code)]", source("src/lib.rs"))
        unsafe, found = re.compile(r"\bunsafe\b(?!_)"), set()
        for path in [*PACKAGE.rglob("*.rs"), *EXAMPLES.glob("*/src/*.rs"), *DRIVER.glob("*.rs")]:
            lines = path.read_text(encoding="utf-8").splitlines()
            uses = [at for at, line in enumerate(lines) if unsafe.search(line.split("//")[0]) and "forbid(" not in line]
            self.assertEqual([f"{path}: {lines[at]}" for at in uses if not has_reason(lines, at)], [])
            if uses and path.parent != DRIVER:
                found.add(str(path.relative_to(TOP / "source")))
        self.assertEqual(found, WITH_UNSAFE)

    def test_table(self) -> None:
        """each test that the package's page names for what the core requires is there"""
        named = re.findall(r"\b(\w+): ((?:\w*_\w+(?:, )?)+)", source("README.md"))
        self.assertGreater(len(named), 8)
        for file, names in named:
            for name in names.split(", "):
                self.assertIn(f"fn {name}()", source(f"tests/{file}.rs"))

    def test_alone(self) -> None:
        """the package rests on no other, with digests on sha2 and what that has"""
        tree = ["tree", "--offline", "-p", "bootcore", "--edges", "normal", "--prefix", "none"]
        ran = self.cargo(*tree)
        self.assert_good(ran)
        self.assertRegex(ran.out, ALONE)
        ran = self.cargo(*tree, "--features", "digest", "--depth", "1")
        self.assert_good(ran)
        self.assertEqual(re.findall(rb"(?m)^([\w-]+) v", ran.out), [b"bootcore", b"sha2"])


def snake_case(name: str) -> str:
    return re.sub(r"(?<=[a-z0-9])(?=[A-Z])", "_", name).lower()


def has_reason(lines: List[str], at: int) -> bool:
    """A comment with a reason stands above a line, or above the statement that it ends."""
    while at > 0 and not lines[at - 1].lstrip().startswith("//"):
        at -= 1
        if lines[at].rstrip().endswith((";", "{", "}")) and "unsafe" not in lines[at]:
            return False
    while at > 0 and lines[at - 1].lstrip().startswith("//"):
        at -= 1
        if lines[at].lstrip().startswith("// SAFETY: "):
            return True
    return False


def numbers() -> Iterator[Tuple[str, str]]:
    """The numbers of the header as the package has them: name and value."""
    variant = re.compile(r"(?m)^ +([A-Z]\w+)(?:\([\w, ]+\))? = (\d+),")
    said = {"NO_BYTES": "NULL", "NO64_ENTRY": "NO_64_ENTRY", "UNUSABLE": "BAD"}
    kinds = {"error": "STATUS", "entry": "PROTOCOL", "handoff": "ROLE", "machine": "KIND", "unplaced": "CHOICE", "refusal": "REFUSAL"}
    for file, kind in kinds.items():
        for name, number in variant.findall(source(f"src/{file}.rs")):
            name = snake_case(name).upper()
            yield f"BOOTCORE_{'FAULT' if kind == 'REFUSAL' and int(number) > 70 else kind}_{said.get(name, name)}", number
    for name, value in re.findall(r"(?m)^pub const (\w+): \w+ = (\w+);", source("src/lib.rs")):
        yield f"BOOTCORE_{name}", value


class Built(PackageChecks):
    """The package as it is built."""

    def passed(self, sentence: str, *words: str) -> None:
        ran = self.cargo("test", "--offline", "-p", "bootcore", "--no-fail-fast", *words)
        passed = sum(map(int, re.findall(rb"(?m)^test result: \w+\. (\d+) passed", ran.out)))
        with self.check(f"{sentence}: {passed}"):
            self.assert_good(ran)
            self.assertGreater(passed, 50)

    def test_tests(self) -> None:
        self.passed("the tests and the examples in the documentation of the package pass", "--features", "digest")
        self.passed("the tests of the package pass without its features", "--no-default-features", "--tests")

    def test_guest(self) -> None:
        built = self.cargo("build", "--offline", "-p", "bootcore", "--example", "guest")
        with self.check("the guest loader in Rust is built, and has at most 100 lines"):
            self.assert_good(built)
            self.assertLessEqual(len(source("examples/guest.rs").splitlines()), 100)
        guest = TOP / "out/target/debug/examples/guest"
        if built.status != 0:
            return
        examples.write_modules(self.room)
        ran = run(guest, "multiboot2", "kernel.elf", "k", "settings.cfg", cwd=self.room)
        self.ends("the guest loader in Rust prints how its guest is entered", ran, 0, GUEST)
        ran = run(guest, "multiboot2", "settings.cfg", "k", cwd=self.room)
        words = "refused 4 NoHeader: no Multiboot2 header in the first 32768 bytes, at a multiple of 8, with a right sum\n"
        self.ends("the guest loader in Rust prints which refusal a bad kernel meets", ran, 1, words)

    def test_freestanding(self) -> None:
        """A program without the standard library, whose allocator runs out at its end."""
        for profile in ("debug", "release"):
            words = ["--release"] if profile == "release" else []
            built = self.cargo("build", "--offline", *words, cwd=WORKSPACE / "examples/freestanding")
            with self.check(f"a program without the standard library is built, {profile}"):
                self.assert_good(built)
            if built.status == 0:
                program = TOP / "out/target" / profile / "bootcore-freestanding"
                self.ends(f"a program without the standard library loads a kernel, {profile}", run(program))

    def test_vm_memory(self) -> None:
        sentence = "a Linux kernel is loaded into vm-memory's guest memory"
        if not list(PACKAGED.glob("vm-memory-0.10.*")):
            self.leave_out(sentence, "vm-memory 0.10 is not at hand: Debian's librust-vm-memory-dev has it")
            return
        examples.write_linux(self.room, examples.linux64_kernel())
        from_packages = ["source.crates-io.replace-with='debian'", f"source.debian.directory='{PACKAGED}'"]
        words = [word for value in from_packages for word in ("--config", value)]
        built = self.cargo("build", "--offline", *words, cwd=WORKSPACE / "examples/vm-memory")
        with self.check("the loader into vm-memory's guest memory is built"):
            self.assert_good(built)
        if built.status == 0:
            loader = TOP / "out/target/debug/bootcore-in-vm-memory"
            self.ends(sentence, run(loader, "vmlinuz", "initrd.img", cwd=self.room), 0, IN_VM_MEMORY)

    def test_beside_c(self) -> None:
        """Each call beside that of the library for C, on drawn cases; what both say of each case is equal."""
        sentence, archive = "the package says what the library for C says, call by call", libraries()[0]
        if not archive.exists():
            self.leave_out(sentence, f"{archive.relative_to(TOP)} is not built: ./test c or examples/c/build does it")
            return
        (self.room / "Cargo.toml").write_text(MANIFEST.format(driver=DRIVER, workspace=WORKSPACE), encoding="utf-8")
        settings = WORKSPACE / ".cargo/config.toml"
        words = ["--config", str(settings)] if settings.exists() else []
        env = {"BOOTCORE_EXAMPLES": str(TOP / "examples"), "RUSTFLAGS": f"-D warnings -L native={archive.parent} -l static=bootcore"}
        env["CARGO_TARGET_DIR"] = str(self.room / "target")
        built = self.cargo("build", "--offline", *words, cwd=self.room, env=env)
        with self.check("the driver over both is built"):
            self.assert_good(built)
        if built.status == 0:
            self.reports(sentence, self.room / "target/debug/beside_c", "300")

    def test_documented(self) -> None:
        """rustdoc has nothing to say against the package's documentation"""
        if run("rustdoc", "--version").status != 0:
            self.skipTest("rustdoc is not at hand")
        words = ["doc", "--offline", "--no-deps", "-p", "bootcore", "--features", "digest"]
        self.assert_good(self.cargo(*words, env={"RUSTDOCFLAGS": "-D warnings"}))

    def test_format(self) -> None:
        """rustfmt finds nothing to change in the package, its examples and the drivers"""
        if run("cargo", "fmt", "--version").status != 0:
            self.skipTest("rustfmt is not at hand")
        self.assert_good(run("cargo", "fmt", "--check", "-p", "bootcore", cwd=WORKSPACE))
        others = [*EXAMPLES.glob("*/src/main.rs"), *DRIVER.glob("*.rs")]
        self.assertGreater(len(others), 4)
        self.assert_good(run("rustfmt", "--edition", "2024", "--check", "--config-path", TOP / "source", *others))

    def test_clippy(self) -> None:
        """clippy warns of nothing in the package"""
        if run("cargo", "clippy", "--version").status != 0:
            self.skipTest("clippy is not at hand")
        for words in (["--all-targets", "--features", "digest"], ["--all-targets", "--no-default-features"]):
            self.assert_good(self.cargo("clippy", "--offline", "-p", "bootcore", *words, "--", "-D", "warnings"))

    def test_packed(self) -> None:
        """cargo packs the package, and what it packed is built"""
        self.assert_good(self.cargo("package", "--offline", "--allow-dirty", "-p", "bootcore", "--target-dir", str(self.room)))
