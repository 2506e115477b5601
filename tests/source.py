"""the plain source: exported, built, and compared with the answers of rules and model"""

import os
import re
import shutil
import time
import unittest
from pathlib import Path
from typing import Iterator, List, NamedTuple, Tuple

from tests import plain, tables
from tests.support import STARTED, TOP, Checks, Ran, has_tomllib, is_at_hand, path_with_rust, run

EXPORTER = TOP / "tools/source"
WORKSPACE = TOP / "out/source"  # where tools/plain has it
PLAIN = TOP / "out/plain"
LINTS = TOP / "out/target-lints"
PRODUCTS = ("bootcore", "bootcore-rows", "libbootcore.a", "libbootcore_freestanding.a")
COMPARED = "cases program images told digest c c_calls".split()
PACKAGES = ("bootcore", "bootcore-cli", "bootcore-c", "bootcore-rows")
HALF_AN_HOUR = 1800.0
LATEST = 120 * 60.0  # what is dear takes a quarter of an hour, and CI ends at three
DRAWN = 20000
AARCH64 = "aarch64-unknown-linux-gnu"
# what another compiler than that at hand builds
OTHER = TOP / "out/target-other"
BARE = ("x86_64-unknown-uefi", "x86_64-unknown-none")

# A source that no rule of the exporter knows, or a name that would mean something else in Rust, with what is said of it and its line.
ODD = [
    ("pub trait A {\n    ghost strange { ℕ };\n}\n", 2, "no rule knows this ghost item: ghost strange {"),
    ("fn a() -> u8\n", 2, "the file ends within an item"),
    ("pub struct A {\n    ghost bytes: { ℕ } where,\n}\n", 2, "no rule knows what follows ghost bytes: where"),
    ("const A: u8 = 1\n    requires { ⊤ };\n", 2, "what contracts alone say is left over: requires"),
    ("fn a() -> u8 {\n    let b = 1\n        ensures { ⊤ };\n    b\n}\n", 3, "what contracts alone say is left over: ensures"),
    ("fn a() {\n    b(1;\n}\n", 3, "a bracket is closed that was not opened"),
    ("fn a() {\n", 1, "a bracket is open at the end"),
    ("mod hex;\n", 1, "hex would be taken for the crate's"),
    ("fn a() {\n    shim();\n}\n", 2, "shim would be taken for the shim's"),
    ("fn a<A: CollectWith>() {}\n", 1, "CollectWith would be taken for the shim's"),
    ("fn a(b: Rc<u8>) {}\n", 1, "Rc is neither declared nor imported, and may be another in Rust"),
    ("fn a() {\n    assert!(true);\n}\n", 2, "assert is neither declared nor imported, and may be another in Rust"),
    ("use crate::memory::*;\n", 1, "no rule knows an import of this form"),
    ("use {bl_map::Machine, std::fmt};\n", 1, "a crate within a group of an import: no rule knows its path"),
    ("trait A {}\nimpl A for Vec<u8> {\n    fn len(&self) {}\n}\n", 2, "len of this type would be Rust's, or the shim's"),
    ("struct A;\nimpl Drop for A {\n    fn drop(self) {}\n}\n", 2, "no rule knows this implementation of Drop"),
    ("struct A;\nunsafe impl Sync for A {\n    const B: u8 = 1;\n}\n", 2, "no rule knows this implementation of Sync"),
    ("#[test]\nfn a() {}\n", 1, "no rule knows the attribute test"),
    ("fn a(b: &[u8]) -> Vec<u8> {\n    b.to_vec()\n}\n", 2, "no rule knows to_vec without an allocator, or of another type"),
    ("fn a() -> String {\n    format!(\"\")\n}\n", 2, "a text is formatted without an allocator"),
    ("#[derive(Error)]\nenum A { #[error(\"\")] B, C }\n", 2, "no rule knows the error A: 2 variants, of which 1 have a message"),
    ("const A: &str = r\"\\\";\n", 1, "no rule knows a text or a comment of this form: r\""),
    ("/* a /* b */ c \" */\nfn a() {}\n", 1, "no rule knows a text or a comment of this form: /*"),
    ("fn a()\n    requires { ⊤ -- \"so\n    }\n{\n    b();\n}\n", 2, "no rule knows a text or a comment of this form: --"),
    ("const A: &str = \"a\";\nconst B: &str = \"a \nb\";\n", 2, "no rule knows a text or a comment of this form: \""),
    ("const A: &str = \"{\n\nb\";\n", 1, "no rule knows a text or a comment of this form: \""),
    ("use core::mem::replace;\n", 1, "no rule knows core, of Rust or the shim"),
    ("fn a() -> usize {\n    size_of::<(u8, u32, u8)>()\n}\n", 2, "size_of tells a layout, which is another in Rust"),
    ("fn a(b: u8) -> usize {\n    size_of_val(&b)\n}\n", 2, "size_of_val tells a layout, which is another in Rust"),
    ("fn a(b: &[u8]) -> usize {\n    b.iter().zip(b.iter()).count()\n}\n", 2, "no rule knows zip, of Rust or the shim"),
    ("fn a(b: u8) -> u8 {\n    b.pow(2)\n}\n", 2, "no rule knows pow, of Rust or the shim"),
    ("fn a() -> u8 {\n    u8::from_be(1)\n}\n", 2, "no rule knows from_be, of Rust or the shim"),
    ("use std::mem::forget;\n", 1, "no rule knows forget, of Rust or the shim"),
    ("fn a() {\n    for _ in 250u8.. {}\n}\n", 2, "a range without an end goes on otherwise in Rust"),
    ("fn a() {\n    b((1..).rev());\n}\n", 2, "a range without an end goes on otherwise in Rust"),
    ("trait A {\n    fn isqrt(self) {}\n}\nimpl A for u64 {}\n", 4, "isqrt of this type would be Rust's, or the shim's"),
    ("trait A {}\nimpl<T> A for T {\n    fn now(&self) {}\n}\n", 2, "now of this type would be Rust's, or the shim's"),
    ("fn collect_with() {}\n", 1, "collect_with would be taken for the shim's"),
    ("trait Model {\n    fn a(&self);\n}\n", 1, "Model means something to the rules"),
    ("fn a() -> &'static str {\n    stringify!(a+b)\n}\n", 2, "stringify would be laid out otherwise"),
    ("/// A.\npub fn a()\n    // ```\n    ensures { ⊤ }\n{\n    b();\n}\n", 2, "a clause would end its part of the documentation"),
    ("fn a() {\n    size_of::<u8>();\n}\nfn size_of() {}\n", 2, "size_of tells a layout, which is another in Rust"),
    ("fn a(b: &A) -> A {\n    Clone::clone(b)\n}\nstruct A;\n", 2, "no rule knows clone but as a method"),
    ("fn odd()\n    ensures { ⊤ }\n{}\nmod b {\n    fn odd() {}\n}\n", 5, "a law has the name of a function: odd"),
]

# Files of a crate, with a file of the package and what is to stand in it.
WRITTEN = [
    ({"odd.rt": '#[derive(Error)]\nenum A { #[error("{{0}} {0}")] B(u8) }\n'}, "odd.rs", 'write!(f, "{{0}} {_0}")'),
    ({"odd.rt": "fn a()\n    ensures { ⊤ }\n{}\npub use crate::flat::Flat;\n"}, "odd.rs", "pub use crate::proved::bl_mem::flat::Flat;"),
    ({"odd.rt": 'pub extern "C" fn a()\n    ensures { ⊤ }\n{}\n'}, "odd.rs", 'pub extern "C" fn a()'),
    ({"odd.rt": "mod lib;\n", "odd/lib.rt": "fn a() {}\n"}, "mod.rs", "mod flat;"),
]


class Change(NamedTuple):
    """A planted change of the exporter or of the shim: one text of a file becomes another, and what then is red."""

    name: str
    file: str
    old: str
    new: str
    red: str


def read_changes() -> List[Change]:
    found = []
    for file in sorted((TOP / "source/changes").glob("*.change")):
        keys = dict(line.split(": ", 1) for line in file.read_text(encoding="utf-8").splitlines())
        found.append(Change(file.stem, *(keys[key] for key in ("file", "old", "new", "red"))))
    return found


def setUpModule() -> None:
    for tool in ("cargo", "rustc"):
        if run(tool, "--version").status != 0:  # a launcher may be at hand without a toolchain
            raise unittest.SkipTest(f"the plain source: {tool} is not at hand")


def leave_out_if_late() -> None:
    if os.environ.get("CI") and time.monotonic() - STARTED > LATEST:
        raise unittest.SkipTest("CI ends after three hours, and two of them are over")


class SourceChecks(Checks):
    """Checks of the exporter and of what it writes."""

    def export(self, top: Path, out: Path) -> Ran:
        return run(top / "tools/source", out, timeout=120)

    def tree(self, name: str, changed: str) -> Path:
        """A folder with what the exporter reads, of which this file may be written to."""
        top = self.room / name
        for folder in ("tools", "crates", "source"):
            (top / folder).mkdir(parents=True, exist_ok=True)
        shutil.copy(EXPORTER, top / "tools/source")
        for copied in {Path(line.split()[1]).parts[0] for line in (TOP / "source/copies").read_text(encoding="utf-8").splitlines()}:
            (top / copied).symlink_to(TOP / copied)
        for folder in ("crates", "source"):
            for path in (TOP / folder).iterdir():
                to = top / folder / path.name
                if changed.startswith(f"{folder}/{path.name}/"):
                    shutil.copytree(path, to, ignore=shutil.ignore_patterns("out", "proofs", "specs", "must-fail"))
                else:
                    to.symlink_to(path)
        return top

    def cargo(self, *words: str, workspace: Path = WORKSPACE, target: Path = TOP / "out/target", **settings: str) -> Ran:
        """Cargo in a workspace, where tools/plain says of which registry the libraries are."""
        flags, doc, path = (settings.get(name, "") for name in ("flags", "doc", "path"))
        env = {"CARGO_TARGET_DIR": str(target), "RUSTFLAGS": flags, "RUSTDOCFLAGS": doc, "PATH": path or os.environ["PATH"]}
        return run("cargo", *words, cwd=workspace, timeout=HALF_AN_HOUR, env=env)

    def assert_good(self, ran: Ran) -> None:
        if ran.status != 0:
            told = (ran.out + ran.err).decode(errors="backslashreplace").splitlines()
            shown = [line for line in told if not re.match(r" *(Compiling|Checking|Downloaded|Fresh) ", line)]
            self.fail("\n".join([f"ran: {ran}", f"status {ran.status}, wanted 0", *(line[:300] for line in shown[-60:])]))


class Exporter(SourceChecks):
    def test_odd(self) -> None:
        """what no rule knows"""
        for sentence, why in odd_faults(self, self.tree("odd", "crates/bl_mem/")):
            with self.check(sentence):
                self.assertEqual(why, "")

    def test_written(self) -> None:
        """what a rule writes, where the tree has no such thing"""
        top = self.tree("written", "crates/bl_mem/")
        for number, (files, written, wanted) in enumerate(WRITTEN):
            for path, text in files.items():
                (top / "crates/bl_mem/src" / path).parent.mkdir(exist_ok=True)
                (top / "crates/bl_mem/src" / path).write_text(text, encoding="utf-8")
            with self.check(f"the exporter writes of the odd source {number}: {wanted}"):
                self.assert_ended(self.export(top, top / "out"))
                self.assertIn(wanted, (top / "out/bootcore/src/proved/bl_mem" / written).read_text(encoding="utf-8"))

    def test_counts(self) -> None:
        ran = run(EXPORTER, "--counts", self.room / "counted", timeout=120)
        with self.check("each kind of thing that is taken out, kept as text or rewritten is counted"):
            self.assert_ended(ran, 0, None)
            kinds = set(re.findall(r"^ *[1-9]\d* (.+)$", ran.out.decode(), re.M))
            self.assertGreater(len(kinds), 25, "kinds")
        with self.check("the clauses of a public function stand above it, and each error prints its message"):
            self.assertEqual(contract_fault(self.room / "counted") + message_fault(self.room / "counted"), "")
        again = self.export(TOP, self.room / "again")
        with self.check("two runs write the same files"):
            self.assert_ended(again, 0)
            self.assert_ended(run("diff", "-r", self.room / "counted", self.room / "again"))
        with self.check("the exporter has at most 600 lines, and the core's shim at most 500, without unsafe"):
            shim = (TOP / "source/bootcore/src/shim.rs").read_text(encoding="utf-8")
            self.assertLessEqual(len(EXPORTER.read_text(encoding="utf-8").splitlines()), 600)
            self.assertLessEqual(len(shim.splitlines()), 500)
            self.assertNotRegex(re.sub("//.*", "", shim), r"\bunsafe\b")

    def test_refused(self) -> None:
        for words in ([], ["--wrong"], ["a", "b"]):
            ran = run(EXPORTER, *words)
            self.ends(f"the exporter refuses the words {words}", ran, 64, "", None)


def odd_faults(checks: SourceChecks, top: Path) -> Iterator[Tuple[str, str]]:
    """How the exporter answers each odd source: a sentence, and what is wrong, or nothing."""
    for number, (text, line, why) in enumerate(ODD):
        file = top / "crates/bl_mem/src/odd.rt"
        file.write_text(text, encoding="utf-8")
        ran, out = checks.export(top, top / "out"), top / "out"
        wanted = f"source: crates/bl_mem/src/odd.rt:{line}: {why}\n"
        is_right = (ran.status, ran.err.decode(), out.exists()) == (1, wanted, False)
        told = "" if is_right else f"wanted: {wanted}status {ran.status}: {ran.err.decode()}"
        shutil.rmtree(out, ignore_errors=True)
        yield f"the exporter refuses the odd source {number} and writes nothing: {why}", told


def contract_fault(workspace: Path) -> str:
    """Whether a public function's clauses stand in its documentation."""
    text = (workspace / "bootcore/src/proved/bl_mem/memory.rs").read_text(encoding="utf-8")
    lines = ("/// # Contract", "///", "/// ```text", "/// ensures: result ≡ length (bytes self.now)", "/// ```", "fn size(&self) -> u64;")
    wanted = "\n".join(f"    {line}" for line in lines)
    return "" if wanted in text else f"no contract above size of PhysMem, wanted:\n{wanted}"


def message_fault(workspace: Path) -> str:
    """Whether each error prints the message above its variant, with its fields in their order."""
    missing, found = [], 0
    for file in sorted(TOP.glob("crates/bl_*/src/**/*.rt")):
        crate, path = file.relative_to(TOP / "crates").as_posix().split("/src/")
        written = workspace / "bootcore/src/proved" / crate / path.replace(".rt", ".rs")
        for message, name, fields in re.findall(r'#\[error\((".*")\)\]\n +(\w+)(?:\((.*)\))?,', file.read_text(encoding="utf-8")):
            names = ", ".join(f"_{number}" for number in range(len(fields.split(",")) if fields else 0))
            shown = re.sub(r"\{(\d)", r"{_\1", message)
            wanted = f"::{name}{f'({names})' if names else ''} => write!(f, {shown})"
            found += 1
            if wanted not in written.read_text(encoding="utf-8"):
                missing.append(f"{file.relative_to(TOP)}: {wanted}")
    return "\n".join(missing) if found > 40 else f"{found} messages"


class Built(SourceChecks):
    """What is exported is built, linted, and compared."""

    @classmethod
    def setUpClass(cls) -> None:
        super().setUpClass()
        ran = run(TOP / "tools/plain", *PRODUCTS, timeout=HALF_AN_HOUR)
        if ran.status == 127:
            raise unittest.SkipTest(f"the plain source is not built: {ran.err.decode(errors='replace').strip()}")
        if ran.status != 0:
            raise AssertionError(f"ran: {ran}\n{(ran.out + ran.err).decode(errors='replace')[-4000:]}")

    def test_lints(self) -> None:
        clippy = "clippy --offline --workspace --all-targets -- -Dwarnings"
        for tool, line in (("rustfmt", "fmt --all --check"), ("clippy", clippy)):
            words = line.split()
            with self.check(f"{tool} finds nothing to say of the workspace"):
                if run("cargo", words[0], "--version").status != 0:
                    self.skipTest(f"{tool} is not at hand")
                self.assert_good(self.cargo(*words, target=LINTS))

    def test_documentation(self) -> None:
        with self.check("rustdoc says nothing of the packages"):
            self.assert_good(self.cargo("doc", "--offline", "--workspace", "--no-deps", doc="-Dwarnings", target=LINTS))
        with self.check("the clauses of a public function stand on its page"):
            self.assertEqual(contract_fault(WORKSPACE), "")
            words = "rustdoc --offline -p bootcore --features digest -- --document-private-items"
            self.assert_good(self.cargo(*words.split(), target=self.room / "pages"))
            text = (self.room / "pages/doc/bootcore/proved/bl_mem/memory/trait.PhysMem.html").read_text(encoding="utf-8")
            self.assertIn("Contract", text)
            self.assertIn("ensures: out.new ≡ slice_range (bytes self.now) at (at + length out.old)", text)

    def test_tests(self) -> None:
        ran = self.cargo("test", "--offline", "--workspace", "--features", "bootcore/digest", "--no-fail-fast")
        passed = sum(map(int, re.findall(rb"^test result: \w+\. (\d+) passed", ran.out, re.M)))
        with self.check(f"the tests of the packages, of the shim's functions and of the facade pass: {passed}"):
            self.assert_good(ran)
            self.assertGreater(passed, 50)

    def test_parts(self) -> None:
        """The parts of the test that speak of answers, over what is built of the plain source."""
        if plain.is_chosen():
            self.leave_out("the parts of the test over the plain source", "they are parts of this run, since there is no rt")
            return
        self.compare("the plain source", PLAIN, COMPARED)

    def test_checked(self) -> None:
        """rows and cases over the plain source with sums and assertions checked"""
        leave_out_if_late()
        folder = self.room / "checked"
        folder.mkdir()
        for package in ("bootcore-cli", "bootcore-rows"):
            self.assert_good(self.cargo("build", "--offline", "--profile", "checked", "-p", package))
        for program in PRODUCTS[:2]:
            shutil.copy(TOP / "out/target/checked" / program, folder / program)
        self.compare("the plain source with sums and assertions checked", folder, ["rows", "cases"])

    def compare(self, what: str, folder: Path, parts: List[str]) -> None:
        ran = run(TOP / "test", *parts, timeout=HALF_AN_HOUR, env={"BOOTCORE_PLAIN": str(folder)})
        lines = ran.out.decode(errors="backslashreplace").splitlines()
        counted = re.fullmatch(r"(\d+) passed, (\d+) failed", lines[-1] if lines else "")
        if counted is None:
            with self.check(f"the parts {', '.join(parts)} over {what} end"):
                self.fail(f"ran: {ran}\n" + "\n".join([*lines[-20:], ran.err.decode(errors="replace")[-2000:]]))
            return
        begin = next((at for at, line in enumerate(lines) if line.startswith("FAILED")), 0)
        why = "\n".join(line[:300] for line in lines[begin : begin + 60])
        self.tally(f"checks of the parts {', '.join(parts)} over {what}", int(counted[1]), int(counted[2]), why)
        for line in dict.fromkeys(line for line in lines if line.startswith("skipped ")):
            self.leave_out(*line[len("skipped ") :].split(": ", 1))

    def test_drawn(self) -> None:
        """drawn cases end over the plain program as the model says"""
        leave_out_if_late()
        if not has_tomllib():
            self.skipTest("Python is older than 3.11")
        words = (TOP / "model/fuzz", str(DRAWN), "26", "--program", PLAIN / "bootcore", "--jobs", "2")
        self.reports("drawn cases end over the plain program as the model says", *words, timeout=HALF_AN_HOUR)

    def test_targets(self) -> None:
        for target in (*BARE, AARCH64):
            with self.check(f"the core is compiled for {target}"):
                path = path_with_rust(target)
                if path is None:
                    self.skipTest(f"rustc has no core of {target}: rustup target add {target}")
                words = f"build --offline --release --target {target} -p bootcore --no-default-features --features digest"
                self.assert_good(self.cargo(*words.split(), target=OTHER, path=path))
        with self.check("a target of another order of bytes or width is refused as the core is compiled"):
            text = (TOP / "source/bootcore/src/shim.rs").read_text(encoding="utf-8")
            self.assertRegex(text, r"cfg\(not\(all\(target_pointer_width = \"64\", target_endian = \"little\"\)\)\)\]\ncompile_error!")

    def test_aarch64(self) -> None:
        tools = ("aarch64-linux-gnu-gcc", "qemu-aarch64")
        missing, path = [tool for tool in tools if not is_at_hand(tool)], path_with_rust(AARCH64)
        if missing or path is None:
            why = f"{missing[0]} is not at hand" if missing else f"rustc has no library of {AARCH64}: rustup target add {AARCH64}"
            return self.leave_out("rows and cases on aarch64, by qemu-user", why)
        folder = self.room / "aarch64"
        folder.mkdir()
        for package, program in (("bootcore-cli", "bootcore"), ("bootcore-rows", "bootcore-rows")):
            flags = "-Clinker=aarch64-linux-gnu-gcc"
            words = ("build", "--offline", "--release", "--target", AARCH64, "-p", package)
            self.assert_good(self.cargo(*words, target=OTHER, flags=flags, path=path))
            emulated, made = folder / program, OTHER / AARCH64 / "release" / program
            emulated.write_text(f'#!/bin/sh\nexec qemu-aarch64 -L /usr/aarch64-linux-gnu {made} "$@"\n')
            emulated.chmod(0o755)
        self.compare("the plain source on aarch64, by qemu-user", folder, ["rows", "cases"])


class Planted(SourceChecks):
    """Each planted change of the exporter or of the shim turns this part red."""

    def test_changes(self) -> None:
        """each planted change of the exporter or of the shim is found"""
        changes = read_changes()
        with self.check("at least eight changes are planted"):
            self.assertGreaterEqual(len(changes), 8)
        leave_out_if_late()
        workspace, target = self.room / "workspace", TOP / "out/target-planted"
        by_rows = sorted({change.red for change in changes if change.red.startswith("rows/")})
        with self.check("without a change the rows that are to find one agree"):
            self.assertEqual(self.red_rows(TOP, workspace, target, by_rows), [])
        for change in changes:
            with self.check(f"the planted change {change.name} is found by {change.red}"):
                top = self.tree(change.name, change.file)
                file = top / change.file
                text = file.read_text(encoding="utf-8")
                self.assertEqual(text.count(change.old), 1, f"how often it stands in {change.file}: {change.old}")
                file.write_text(text.replace(change.old, change.new), encoding="utf-8")
                if change.red == "odd sources":
                    top = self.odd_tree(top)
                    self.assertTrue(any(why for _, why in odd_faults(self, top)), "each is refused as before")
                elif change.red in ("contracts", "messages"):
                    self.assert_ended(self.export(top, workspace))
                    fault = contract_fault if change.red == "contracts" else message_fault
                    self.assertNotEqual(fault(workspace), "", f"{change.red} stand as before")
                else:
                    red = self.red_rows(top, workspace, target, [change.red])
                    self.assertEqual(red, [change.red], "tables with a row that differs")

    def odd_tree(self, top: Path) -> Path:
        """The same, with a crate to which an odd source may be written."""
        crate = top / "crates/bl_mem"
        crate.unlink()
        shutil.copytree(TOP / "crates/bl_mem/src", crate / "src")
        return top

    def red_rows(self, top: Path, workspace: Path, target: Path, names: List[str]) -> List[str]:
        """The tables of which a row is answered otherwise by what is exported and built of a tree."""
        self.assert_ended(self.export(top, workspace))
        for name in (".cargo/config.toml", "Cargo.lock"):
            if (WORKSPACE / name).exists() and not (workspace / name).exists():
                (workspace / name).parent.mkdir(exist_ok=True)
                shutil.copy(WORKSPACE / name, workspace / name)
        words = "build --offline --profile planted -p bootcore-rows"
        self.assert_good(self.cargo(*words.split(), workspace=workspace, target=target))
        red = []
        for name in names:
            wanted = (TOP / name).read_bytes()
            ran = run(target / "planted/bootcore-rows", stdin=wanted, timeout=120)
            if ran.status != 0 or tables.compared(name, wanted, ran.out).failed:
                red.append(name)
        return red
