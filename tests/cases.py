"""the cases: descriptions by their difference from a base, booted in both orders, with the outcome the rules give"""

import os
from concurrent.futures import ThreadPoolExecutor
from pathlib import Path
from typing import Dict, List, NamedTuple

from tests.support import PROGRAM, TOP, Checks, ProgramChecks, Ran, difference, run, sha256

EXPAND = TOP / "cases/expand"
NONE = "-"  # for the SHA-256 of an image where there is none

# a line of a table, and what cases/expand says of it
NOT_CASES = [
    ("A||kernel||0|said|-", "no new name: A"),
    ("a||kernel|0|said|-", "no case: a"),
    ("a||kernel||0|said|-|-", "no case: a"),
    ("a||kernel||zero|said|-", "no case: a"),
    ("a||kernel||0|said|sum", "no case: a"),
    ("a||whole||0|said|-", "no file: a"),
    ("a||nothing||0|said|-", "no base: nothing"),
    ("a||kernel|+nothing|0|said|-", "no base: nothing"),
    ("a||kernel|size|0|said|-", "no change: size"),
    ("a||kernel|-extra|0|said|-", "no key: -extra"),
    ("a||kernel|-nothing:|0|said|-", "no change: -nothing:"),
    ('a||kernel|module.line="m"|0|said|-', 'no change: module.line="m"'),
    ('a||modules|-module module.line="m"|0|said|-', 'no change: module.line="m"'),
    ("a||kernel|kernel:@161=00|0|said|-", "no change of kernel: @161=00"),
    ("a||kernel|kernel:<0,0|0|said|-", "no change of kernel: <0,0"),
    ("a||kernel|regions=4096|0|said|-", "no region: 4096"),
    ("a||kernel|entries=1|0|said|-", "no entry: 1"),
]


class Tables(Checks):
    def test_not_cases(self) -> None:
        table = self.room / "odd.cases"
        for line, why in NOT_CASES:
            table.write_text(f"# a table\n{line}\n", encoding="utf-8")
            ran = run(EXPAND, self.room / "odd", table)
            self.ends(f"cases/expand refuses the line {line}, and tells its place", ran, 1, "", f"{table}:2: {why}\n")


class Case(NamedTuple):
    """A case as cases/expand writes it into a line of `wanted`."""

    name: str
    status: int
    said: str
    image: str

    @property
    def lines(self) -> str:
        """What is said, on both streams, as it is printed."""
        return "".join(f"{line}\n" for line in self.said.split("; ")) if self.said else ""


def read_cases(folder: Path) -> List[Case]:
    """The cases that cases/expand wrote into a folder."""
    rows = (folder / "wanted").read_text(encoding="utf-8").splitlines()
    return [Case(name, int(status), said, image) for name, status, said, image in (row.split("|") for row in rows)]


class Boot(NamedTuple):
    """A boot that ended, what it wrote to both streams as one, and the SHA-256 of its image."""

    ran: Ran
    image: str


def boot(folder: Path, case: Case, *order: str) -> Boot:
    description, image = folder / f"{case.name}.toml", folder / f"{case.name}{'.reverse' if order else ''}.image"
    words = (PROGRAM, "boot", description, "--out", image, *order)
    ran = run("sh", "-c", 'exec "$@" 2>&1', "sh", *words)
    booted = Boot(ran._replace(words=[os.fspath(word) for word in words]), sha256(image) if image.exists() else NONE)
    if image.exists():
        image.unlink()
    return booted


class WrittenCases(ProgramChecks):
    """The cases, each a file of its own in a folder."""

    folder: Path

    @classmethod
    def setUpClass(cls) -> None:
        super().setUpClass()
        cls.folder = cls.room / "cases"

    def write_cases(self) -> None:
        self.ends("cases/expand writes the cases out", run(EXPAND, self.folder))


class Cases(WrittenCases):
    def test_cases(self) -> None:
        self.write_cases()
        names = sorted(file.stem for file in self.folder.glob("*.toml"))
        with self.check("there are 659 cases"):
            self.assertEqual(len(names), 659, f"the files *.toml that {EXPAND} writes")
        cases = read_cases(self.folder)
        with self.check("the file wanted has each case once, and nothing else"):
            self.assertEqual(sorted(case.name for case in cases), names, "the names in the file wanted, and of *.toml")
        with ThreadPoolExecutor(os.cpu_count() or 1) as pool:
            forward = pool.map(lambda case: boot(self.folder, case), cases)
            reverse = pool.map(lambda case: boot(self.folder, case, "--order", "reverse"), cases)
            for case, one, other in zip(cases, forward, reverse):
                self.ends_as_wanted(case, one)
                self.ends_the_same(case, one, other)
        explain_check = TOP / "cases/explain_check"
        self.reports("each case is explained as cases/explained says", explain_check, PROGRAM, self.folder, timeout=900)

    def ends_as_wanted(self, case: Case, booted: Boot) -> None:
        with self.check(f"case {case.name} ends as its table says"):
            self.assert_boot(case, booted, "wanted", case.status, case.lines.encode(), case.image)

    def ends_the_same(self, case: Case, forward: Boot, reverse: Boot) -> None:
        with self.check(f"case {case.name} in reverse order ends the same"):
            self.assert_boot(case, reverse, "in forward order", forward.ran.status, forward.ran.out, forward.image)

    def assert_boot(self, case: Case, booted: Boot, which: str, status: int, said: bytes, image: str) -> None:
        faults = [] if booted.ran.status == status else [f"status {booted.ran.status}, {which} {status}"]
        if booted.ran.out != said:
            faults.append(difference(said, booted.ran.out, "what is said"))
        if booted.image != image:
            faults.append(f"the image's SHA-256 {booted.image}, {which} {image}")
        if faults:
            at_hand = f"cases/expand FOLDER writes FOLDER/{case.name}.toml"
            self.fail("\n".join([f"ran: {booted.ran}", at_hand, f"its row: {self.row_of(case.name)}", *faults]))

    def row_of(self, name: str) -> str:
        """Where a case stands in its table."""
        places: Dict[str, str] = {}
        for table in sorted(TOP.glob("cases/*.cases")):
            lines: List[str] = table.read_text(encoding="utf-8").splitlines()
            places.update({line.split("|")[0]: f"{table.relative_to(TOP)}:{at}" for at, line in enumerate(lines, 1)})
        return places.get(name, "in no table")
