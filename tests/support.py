"""What all parts of the test share: a check with a sentence for its name, runs of programs, and what is not at hand."""

import contextlib
import difflib
import hashlib
import os
import shlex
import shutil
import signal
import subprocess
import tempfile
import time
import unittest
from pathlib import Path
from typing import Iterator, NamedTuple, Optional, Sequence, Set, Union

TOP = Path(__file__).resolve().parent.parent
# The folder of a plain build that is tested in place of what is proved: bootcore, bootcore-rows, and the two archives for C as
# tools/c_archive --source makes them. What is not in it fails as what is not built.
PLAIN = Path(os.environ["BOOTCORE_PLAIN"]).resolve() if os.environ.get("BOOTCORE_PLAIN") else None
PROGRAM = PLAIN / "bootcore" if PLAIN else TOP / "crates/bootcore/out/bootcore"
ROWS_PROGRAM = (PLAIN or TOP / "out/plain") / "bootcore-rows"  # plain Rust, whatever else is tested
C_ARCHIVE = PLAIN / "libbootcore.a" if PLAIN else TOP / "crates/bootcore_c/out/libbootcore_c.a"
STARTED = time.monotonic()  # when ./test began, which imports this first

Text = Union[str, bytes]

# whether checks of a program that is not built are left out (the quick test) or fail (any other)
may_lack_programs = False

# the commands that checks asked for and that are not at hand; the last lines of the test name them
lacking: Set[str] = set()


class Ran(NamedTuple):
    """A run that ended: its words, its status (that of a signal as the shell counts it), and what it wrote."""

    words: Sequence[str]
    folder: Path
    status: int
    out: bytes
    err: bytes

    def __str__(self) -> str:
        where = "" if self.folder == TOP else f"in {self.folder}: "
        return where + " ".join(shlex.quote(word) for word in self.words)


def run(
    *words: Union[str, bytes, Path],
    cwd: Path = TOP,
    stdin: Optional[bytes] = None,
    timeout: float = 60,
    env: Optional[dict] = None,
) -> Ran:
    """Runs words to their end; a run that does not end in time has the status 124, as with timeout(1)."""
    shown = [os.fsdecode(word) for word in words]
    changed = {**os.environ, **env} if env else None
    source = subprocess.DEVNULL if stdin is None else subprocess.PIPE
    how = {"stdin": source, "stdout": subprocess.PIPE, "stderr": subprocess.PIPE, "env": changed}
    try:
        # a session of its own, so that it ends with all that it started
        process = subprocess.Popen(words, cwd=cwd, start_new_session=True, **how)
    except FileNotFoundError as missing:
        return Ran(shown, cwd, 127, b"", f"{missing}\n".encode())
    with process:
        try:
            out, err = process.communicate(stdin, timeout)
            status = process.returncode
        except BaseException as ended:  # also an interrupt
            with contextlib.suppress(ProcessLookupError):
                os.killpg(process.pid, signal.SIGKILL)
            out, err = process.communicate()
            if not isinstance(ended, subprocess.TimeoutExpired):
                raise
            status, err = 124, err + b"it did not end in time\n"
    return Ran(shown, cwd, status if status >= 0 else 128 - status, out, err)


def as_bytes(text: Text) -> bytes:
    return text.encode() if isinstance(text, str) else text


def difference(wanted: Text, came: Text, name: str) -> str:
    """The lines in which two texts differ, as diff(1) shows them."""
    lines = [as_bytes(text).decode(errors="backslashreplace").splitlines() for text in (wanted, came)]
    shown = list(difflib.unified_diff(*lines, f"{name}, wanted", f"{name}, as it came", lineterm="", n=2))
    cut = [line[:300] for line in shown[:60]]
    if len(shown) > 60:
        cut.append(f".. and {len(shown) - 60} lines more")
    return "\n".join(cut)


def sha256(source: Union[Path, bytes]) -> str:
    return hashlib.sha256(source if isinstance(source, bytes) else source.read_bytes()).hexdigest()


def path_with_rust(target: str) -> Optional[str]:
    """PATH with a compiler first that has a core for the target: the one at hand, else Debian's beside it."""
    for folder in ("", "/usr/bin"):
        path = os.pathsep.join(filter(None, [folder, os.environ["PATH"]]))
        ran = run("rustc", "--print", "target-libdir", "--target", target, env={"PATH": path})
        if ran.status == 0 and any(Path(ran.out.decode().strip()).glob("libcore-*.rlib")):
            return path
    return None


def is_at_hand(tool: str) -> bool:
    if shutil.which(tool) is None:
        lacking.add(tool)
        return False
    return True


def has_tomllib() -> bool:
    """Whether the model runs here: it reads TOML with Python's own library, which came with 3.11."""
    try:
        import tomllib  # noqa: F401
    except ImportError:
        return False
    return True


def need_built(program: Path, built_by: str) -> None:
    """Ends a class of tests whose program is not built: left out in the quick test, else failed."""
    if os.access(program, os.R_OK):
        return
    built_by = "tools/plain" if PLAIN else f"./test gate or {built_by}"
    why = f"{os.path.relpath(program, TOP)} is not built: {built_by} does it"
    raise unittest.SkipTest(why) if may_lack_programs else AssertionError(why)


def need_rows_program() -> None:
    """Builds the rows' program. A class of tests that has none is left out where cargo or its libraries are not at hand."""
    if PLAIN:
        return need_built(ROWS_PROGRAM, "tools/plain")
    ran = run(TOP / "tools/plain", "bootcore-rows", timeout=1800)
    told = (ran.out + ran.err).decode(errors="replace").strip()
    if ran.status == 127:
        raise unittest.SkipTest(f"the rows' program, which is plain Rust, is not built: {told}")
    if ran.status != 0:
        raise AssertionError(f"ran: {ran}\n{told[-4000:]}")


class Checks(unittest.TestCase):
    """A test case whose checks are told one by one, each by a full sentence, and whose files lie in a folder of its own."""

    room: Path

    @classmethod
    def setUpClass(cls) -> None:
        super().setUpClass()
        folder = tempfile.mkdtemp(prefix="bootcore-test-")
        cls.addClassCleanup(shutil.rmtree, folder, ignore_errors=True)
        cls.room = Path(folder)

    @contextlib.contextmanager
    def check(self, sentence: str) -> Iterator[None]:
        """One check: what is asserted within it decides, and the next check runs in either case."""
        with self.subTest(sentence):
            yield

    def leave_out(self, what: str, why: str) -> None:
        """Says that a check is left out, and why; the list of these is shown again at the end."""
        with self.subTest(what):
            self.skipTest(why)

    # ---- assertions, each with what was run, what came and what was wanted

    def assert_text(self, ran: object, wanted: Text, came: Text, name: str = "text") -> None:
        if as_bytes(wanted) != as_bytes(came):
            self.fail(f"ran: {ran}\n{difference(wanted, came, name)}")

    def assert_ended(self, ran: Ran, status: int = 0, out: Optional[Text] = "", err: Optional[Text] = "") -> None:
        """A run's status, and what it wrote to the byte; None for a stream that does not matter."""
        faults = []
        if ran.status != status:
            faults.append(f"status {ran.status}, wanted {status}")
        for name, wanted, came in (("standard output", out, ran.out), ("standard error", err, ran.err)):
            if wanted is not None and as_bytes(wanted) != came:
                faults.append(difference(wanted, came, name))
        if faults:
            if out is None or err is None:
                faults.append(f"standard output: {ran.out[-2000:]!r}\nstandard error: {ran.err[-2000:]!r}")
            self.fail("\n".join([f"ran: {ran}", *faults]))

    def ends(self, sentence: str, ran: Ran, status: int = 0, out: Optional[Text] = "", err: Optional[Text] = "") -> None:
        """A check of how a run ended."""
        with self.check(sentence):
            self.assert_ended(ran, status, out, err)

    def passes(self, sentence: str, *words: Union[str, Path], timeout: float = 600, env: Optional[dict] = None) -> None:
        """A check that a command ends with the status 0; what it wrote is shown if it does not."""
        with self.check(sentence):
            ran = run(*words, timeout=timeout, env=env)
            if ran.status != 0:
                told = (ran.out + ran.err).decode(errors="backslashreplace").splitlines()
                self.fail("\n".join([f"ran: {ran}", f"status {ran.status}, wanted 0", *(line[:300] for line in told[-40:])]))

    def reports(self, sentence: str, *words: Union[str, Path], timeout: float = 900) -> None:
        """As passes, of a command whose last line counts what it compared: that line is shown after the sentence."""
        ran = run(*words, timeout=timeout)
        lines = (ran.out + ran.err).decode(errors="backslashreplace").splitlines()
        with self.check(f"{sentence}: {lines[-1][:300]}" if ran.status == 0 and lines else sentence):
            if ran.status != 0:
                self.fail("\n".join([f"ran: {ran}", f"status {ran.status}, wanted 0", *(line[:300] for line in lines[-40:])]))

    def are_same_file(self, sentence: str, wanted: Path, came: Path) -> None:
        """A check that two files have the same bytes."""
        with self.check(sentence):
            self.assert_same_file(wanted, came)

    def assert_same_file(self, wanted: Path, came: Path) -> None:
        for file in (wanted, came):
            self.assertTrue(file.is_file(), f"there is no file {file}")
        first, second = wanted.read_bytes(), came.read_bytes()
        if first != second:
            place = next((at for at, (one, other) in enumerate(zip(first, second)) if one != other), min(len(first), len(second)))
            self.fail(f"{came} ({len(second)} bytes) differs from {wanted} ({len(first)} bytes) at {place:#x}")

    def has_digest(self, sentence: str, digest: str, file: Path) -> None:
        """A check of a file's SHA-256."""
        with self.check(sentence):
            self.assert_digest(digest, file)

    def assert_digest(self, digest: str, file: Path) -> None:
        self.assertTrue(file.is_file(), f"there is no file {file}")
        self.assertEqual(sha256(file), digest, f"the SHA-256 of {file}, {file.stat().st_size} bytes")


class ProgramChecks(Checks):
    """Checks that run the proved program."""

    @classmethod
    def setUpClass(cls) -> None:
        super().setUpClass()
        need_built(PROGRAM, "tools/build")

    def program(self, *words: Union[str, bytes, Path], **how) -> Ran:
        return run(PROGRAM, *words, **how)
