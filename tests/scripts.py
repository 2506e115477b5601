"""scripts: how they are called, shellcheck"""

import ast
import fnmatch
import re
from concurrent.futures import ThreadPoolExecutor
from pathlib import Path
from typing import Callable, Iterable, List, NamedTuple

from tests import repository, runner
from tests.support import TOP, Checks, Ran, has_tomllib, is_at_hand, run

# what has no --help of the form of the others, and why
WITHOUT_USAGE = {
    "bootcore": "the first line of its help is the program's name and version",
    "bench/*.sh": "--help shows the comment at its top",
    "tests/*.py": "the test alone calls it",
}
# what imports the model, which needs Python 3.11
OVER_MODEL = ["model/*", "tests/drivers/*"]
# what shellcheck may find: in sed's words quotes stand beside backslashes, and a key of a description has no blank
SHELLCHECK_EXCLUDES = {"cases/expand": "SC1003,SC2013"}
# rows whose last cell is empty, and an edit's context
WITH_TRAILING_BLANKS = ["rows/*.rows", "crates/*/must-fail/*.edit"]

TRAILING_BLANK = re.compile(r"[ \t\r]$")


class Found(NamedTuple):
    """How many files were looked at, and the places that are wrong."""

    files: int
    places: List[str]


def excepted(name: str, patterns: Iterable[str]) -> bool:
    return any(fnmatch.fnmatchcase(name, pattern) for pattern in patterns)


def side_by_side(call: Callable[[str], Ran], names: List[str]) -> List[Ran]:
    with ThreadPoolExecutor() as pool:
        return list(pool.map(call, names))


class Calls(Checks):
    def test_help(self) -> None:
        names = [name for name in repository.programs() if not excepted(name, WITHOUT_USAGE)]
        if not has_tomllib():
            for name in [name for name in names if excepted(name, OVER_MODEL)]:
                names.remove(name)
                self.leave_out(f"{name} --help prints how it is called", "Python is older than 3.11")
        for name, ran in zip(names, side_by_side(self.help_of, names)):
            with self.check(f"{name} --help prints how it is called"):
                self.assert_ended(ran, 0, None)
                first = ran.out.split(b"\n")[0].decode(errors="replace")
                self.assertRegex(first, "^usage: ", f"ran: {ran}\nthe first line of its output")

    def help_of(self, name: str) -> Ran:
        return run(TOP / name, "--help", cwd=self.room, env={"PYTHONDONTWRITEBYTECODE": "1"})

    def test_help_of_measurements(self) -> None:
        names = [name for name in repository.programs() if fnmatch.fnmatchcase(name, "bench/*.sh")]
        for name, ran in zip(names, side_by_side(self.help_of, names)):
            with self.check(f"{name} --help shows how it is called in the comment at its top"):
                self.assert_ended(ran, 0, None)
                call = rf"^  .*\b{re.escape(Path(name).name)}"
                self.assertRegex(ran.out.decode(), re.compile(call, re.M), f"ran: {ran}\nno line with its call")

    def test_gate(self) -> None:
        """what the gate runs is the test, from any folder"""
        ran = run(TOP / ".ci/run", "--help", cwd=Path("/"))
        self.assert_ended(ran, 0, None)
        self.assert_text(ran, "usage: ./test [PART..]", ran.out.split(b"\n")[0], "first line")

    def test_modules(self) -> None:
        """each module with tests is a part of the test, or one that a part names"""
        parts = [*map(runner.module_of, [*runner.PARTS, "quick_look", "c_aarch64"])]
        named = {each.__name__ for part in parts for each in (part, *getattr(part, "MODULES", ()))}
        sources = [name for name in repository.files() if re.fullmatch(r"(tests|examples/.*/tests)/\w+\.py", name)]
        with_tests = [name for name in sources if re.search(r"^    def test_", (TOP / name).read_text(encoding="utf-8"), re.M)]
        run_by_none = [name for name in with_tests if name[:-3].replace("/", ".") not in named]
        self.assertEqual(run_by_none, [], "modules with tests that no part runs")

    def test_exceptions(self) -> None:
        """each file that is excepted from a check of this part stands"""
        patterns = [*WITHOUT_USAGE, *OVER_MODEL, *SHELLCHECK_EXCLUDES, *WITH_TRAILING_BLANKS]
        stale = [pattern for pattern in patterns if not fnmatch.filter(repository.files(), pattern)]
        self.assertEqual(stale, [], "exceptions without a file")


class Closing(Checks):
    """The last lines of the test, of a part whose checks want what is nowhere."""

    PART = """
import sys, types, unittest
from tests import runner
from tests.support import Checks, is_at_hand

class Wanting(Checks):
    def test_one(self):
        with self.check("one is checked"):
            pass
        if not is_at_hand("no-such-tool"):
            self.leave_out("another is drawn", "what draws it is not at hand")
    def test_other(self):
        self.leave_out("a third is run", "build: the command 'no-other' is not at hand; a package has it")

Wanting.__module__ = "tests.wanting"
sys.modules["tests.wanting"] = part = types.ModuleType("tests.wanting", "a part")
part.Wanting = Wanting
sys.exit(runner.run_parts(["wanting"]))
"""

    def test_left_out(self) -> None:
        """the test's last lines name each check that is left out, why, and each command that is not at hand"""
        ran = run("python3", "-c", self.PART, env={"PYTHONDONTWRITEBYTECODE": "1"})
        self.assert_ended(ran, 0, None)
        closing = """\
What was left out, and why:
skipped another is drawn: what draws it is not at hand
skipped a third is run: build: the command 'no-other' is not at hand; a package has it
What is not at hand here: no-other, no-such-tool
1 passed, 0 failed
"""
        self.assert_text(ran, closing, ran.out[-len(closing) :], "last lines")


class Sources(Checks):
    def test_shellcheck(self) -> None:
        """shellcheck finds nothing in the bash scripts"""
        if not is_at_hand("shellcheck"):
            self.skipTest("shellcheck is not at hand")
        names = repository.bash_scripts()
        for name, ran in zip(names, side_by_side(self.shellchecked, names)):
            self.ends(f"shellcheck finds nothing in {name}", ran)

    @staticmethod
    def shellchecked(name: str) -> Ran:
        exclude = SHELLCHECK_EXCLUDES.get(name)
        return run("shellcheck", "-x", *(["-e", exclude] if exclude else []), name)

    def test_syntax(self) -> None:
        names = repository.bash_scripts()
        ran = side_by_side(lambda name: run("bash", "-n", name), names)
        wrong = [it.err.decode(errors="replace") for it in ran if it.status != 0 or it.err]
        self.count("bash reads each bash script without a fault", Found(len(names), wrong))
        self.count("each Python file compiles, in the syntax of Python 3.8", in_python(repository.python_files()))

    def test_blanks(self) -> None:
        names = list(repository.texts())
        self.count("no text file has a tab", lines_with(names, lambda line: "\t" in line))
        names = [name for name in names if not excepted(name, WITH_TRAILING_BLANKS)]
        found = lines_with(names, lambda line: TRAILING_BLANK.search(line) is not None)
        self.count("no line of a text file ends in a blank, but of the files excepted by name", found)
        ends = [name for name in names if (TOP / name).stat().st_size and repository.lines(name)[-1]]
        self.count("each text file ends in a line feed", Found(len(names), ends))

    def count(self, sentence: str, found: Found) -> None:
        """One check, whose failure shows the places."""
        with self.check(sentence):
            self.assertGreater(found.files, 0, "no file was looked at")
            if found.places:
                self.fail("\n".join([f"of {found.files} files:", *found.places[:40]]))


def lines_with(names: List[str], fault: Callable[[str], bool]) -> Found:
    places = [
        f"{name}:{number}: {line!r:.100}"
        for name in names
        for number, line in enumerate(repository.lines(name), 1)
        if fault(line)
    ]
    return Found(len(names), places)


def in_python(names: List[str]) -> Found:
    """Each file's bytes, compiled; nothing is written beside it."""
    faults = []
    for name in names:
        try:
            compile(ast.parse((TOP / name).read_bytes(), name, feature_version=(3, 8)), name, "exec")
        except (SyntaxError, ValueError) as fault:
            faults.append(f"{name}: {fault}")
    return Found(len(names), faults)
