"""pages: links, quoted lines, names, lengths, the manual page"""

import os
import re
import shutil
import textwrap
from functools import lru_cache
from pathlib import Path
from typing import Dict, Iterable, List, Pattern, Set

from tests import repository, tables
from tests.examples import FIRST, SECOND
from tests.support import PROGRAM, TOP, Checks, ProgramChecks, is_at_hand, run

LINK = re.compile(r"\]\(([^)#\s]+)")
LINK_TO_HEADING = re.compile(r"\]\(([^)#\s]*)#([^)\s]+)\)")
CONFLICT = re.compile(r"(<{7}|>{7}) ")
MANUAL_PAGE = TOP / "docs/bootcore.1"

LAID_OUT = ["layers", "session", "frame"]
DRAWN_BY_PROGRAM = ["first", "second", "boot"]
# pictures of what a run showed, which another run would show a bit otherwise: each with the command that makes it
MADE_BY_RUNS = {"console.png": "examples/efi/check --picture"}
MOST_BYTES = 40_000  # of such a picture
TOOLS = [
    ("each link to a definition or a clause names one that its file declares", "tools/pages", "anchors"),
    ("no name is declared more than once but those of tools/checks/names.txt", "tools/pages", "names"),
    ("each quoted line stands in its source", "tools/pages", "quotes"),
    ("each file of definitions or proofs that a crate's page lists is there", "tools/pages", "listed"),
    ("each name that a page uses exists", "tools/pages", "mentioned"),
    ("no table cell of a page has more than 160 characters, no row and no line more than 200 beside links", "tools/pages", "widths"),
    ("no definition that a reader must believe, and no exported clause, uses one of specs/internal", "tools/pages", "believed"),
    ("a reader's hour in docs/THEOREMS.md has the lines that it counts", "tools/pages", "hour"),
    ("SECURITY.md has the lines of what must be right without a proof, and counts each file of those", "tools/pages", "trusted"),
    ("CONTRIBUTING.md lists each place where a refusal and a key stand", "tools/pages", "places"),
    ("each list of refusals has the numbers, the names and the meanings of docs/REFUSALS.md", "tools/refusals", "--check"),
    ("each must-fail edit changes a line that stands once, those of docs/EDITS.md in the function named there", "tools/pages", "edits"),
    ("the completions have the subcommands, options and values of the usage text", "tools/pages", "completions"),
    ("docs/PLANTS.md has a row of each crate, and a reason in each", "tools/plants", "--check"),
]

# what each shell does, the words on the line after `bootcore`, and what is offered for the last of them, sorted
COMPLETIONS = [
    ("completes the subcommand walk", "w", "walk"),
    ("completes the option --order of boot", "boot x --or", "--order"),
    ("completes the order reverse of boot", "boot x --order r", "reverse"),
    ("completes the description of map", "map examples/first.t", "examples/first.toml"),
    ("completes only an option of boot that is not on the line yet", "boot x --order forward --o", "--out"),
    ("offers nothing after the description of map", "map x e", ""),
    ("completes the subcommand convert", "c", "convert"),
    ("completes the image that convert reads", "convert examples/first.i", "examples/first.image.hex"),
    ("offers --out after the image that convert reads", "convert x --", "--out"),
    ("completes the image that convert writes", "convert x --out examples/sec", "examples/second.toml"),
    ("offers nothing after both images of convert", "convert x --out y e", ""),
    ("offers the options of boot before its description", "boot --", "--help --order --out"),
    ("completes the description of boot after the image", "boot --out y examples/first.t", "examples/first.toml"),
    ("completes the subcommand explain", "e", "explain"),
    ("offers --order after the description of explain", "explain x --", "--order"),
    ("completes the order forward of explain", "explain x --order f", "forward"),
    ("offers nothing after the description and the order of explain", "explain x --order forward --", ""),
    ("completes the subcommand digest", "d", "digest"),
    ("offers the options of digest before its file", "digest --", "--help --image"),
    ("completes the file of digest", "digest examples/first.t", "examples/first.toml"),
    ("completes the image of digest behind its flag", "digest --image examples/first.i", "examples/first.image.hex"),
    ("offers --image after the file of digest", "digest x --", "--image"),
    ("offers nothing after the flag of digest and its file", "digest --image x e", ""),
    ("offers the flag of digest once", "digest x --image --", ""),
    ("offers --help where a subcommand may stand", "--", "--help"),
    ("offers nothing after a word that is no subcommand", "foo e", ""),
]
# how each shell prints what it offers for the last of the words that follow
BASH = """\
set -u
source completions/bootcore.bash
COMP_WORDS=("$@")
COMP_CWORD=$(($# - 1))
_bootcore
echo "${COMPREPLY[*]}"
"""
ZSH = """\
zmodload zsh/zpty
rm -f "$ZDOTDIR/offered"
export ON_LINE="$*"
zpty shell zsh -d -i
while zpty -r shell; do :; done >/dev/null
cat "$ZDOTDIR/offered"
"""
FISH = """\
source completions/bootcore.fish
complete -C "$argv"
"""
SHELLS = {"bash": ("-c", BASH, "bash"), "zsh": ("-f", "-c", ZSH, "zsh"), "fish": ("-c", FISH)}
# zsh completes only on a terminal: there it inserts all that it offers
ZSHRC = """\
fpath=(completions $fpath)
autoload -Uz compinit
compinit -u -D
zstyle ':completion:*' completer _all_matches _complete
zstyle ':completion:*' insert true
zle-line-init() {
    BUFFER=$ON_LINE
    zle end-of-line
    zle complete-word
    if [ "$BUFFER" = "$ON_LINE" ]; then BUFFER=; fi
    print -r -- "${BUFFER#${ON_LINE% *}}" >"$ZDOTDIR/offered"
    exit
}
zle -N zle-line-init
"""


class Pages(Checks):
    def finds_none(self, sentence: str, found: Iterable[str]) -> None:
        """A check that nothing wrong is found; else the places are shown."""
        with self.check(sentence):
            places = list(found)
            if places:
                self.fail("\n".join([f"{len(places)} found, none wanted:", *places[:40]]))

    def test_links(self) -> None:
        for page in repository.pages():
            self.finds_none(f"each link of {page} to a file of the repository leads to one", missing_links(page))
        missing = (heading for page in repository.pages() for heading in missing_headings(page))
        self.finds_none("each link of a page to a heading leads to one", missing)

    def test_tools(self) -> None:
        for sentence, tool, *words in TOOLS:
            self.passes(sentence, TOP / tool, *words)

    def test_abi(self) -> None:
        sentence = "include/abi.txt lists what the headers promise to a program that was built, as a compiler says it"
        ran = run(TOP / "tools/abi")
        if ran.status == 127:
            self.leave_out(sentence, "no compiler of C is at hand")
        else:
            self.ends(sentence, ran)

    def test_conflicts(self) -> None:
        found = (
            f"{name}:{number}: {line}"
            for name in repository.texts()
            for number, line in enumerate(repository.lines(name), 1)
            if CONFLICT.match(line)
        )
        self.finds_none("no file has a conflict of a merge", found)

    def test_lengths(self) -> None:
        example = "crates/example_guest/src/guest.rt"
        self.finds_none(f"the example {example} has at most 60 lines", longer_files([example], 60))
        sources = [
            name for name in repository.files() if re.fullmatch(r"crates/[^/]+/(src/.*\.rt|specs/.*\.antt)", name)
        ]
        self.finds_none("no line of a source or a definition has more than 100 characters", longer_lines(sources, 100))
        self.finds_none("no source and no file of definitions has more than 200 lines", longer_files(sources, 200))
        self.finds_none("README.md has at most 130 lines", longer_files(["README.md"], 130))
        self.finds_none("no line of README.md has more than 140 characters", longer_lines(["README.md"], 140))
        self.finds_none("docs/DECISIONS.md has at most 60 short paragraphs", what_is_too_much("docs/DECISIONS.md", 60, 1000))

    def test_index(self) -> None:
        """docs/README.md leads to each page, and says how many minutes it takes to read, at 180 words a minute"""
        told = told_minutes()
        pages = [it for it in repository.pages() if not it.startswith("crates/") and it != "docs/README.md"]
        self.assertEqual([it for it in pages if it not in told], [], "pages that docs/README.md should lead to")
        wrong = [
            f"docs/README.md says that {page} takes {minutes} minutes: it has {words_of(page)} words"
            for page, minutes in told.items()
            if minutes and abs(minutes * 180 - words_of(page)) > max(360, words_of(page) / 6)
        ]
        self.assertEqual(wrong, [])

    def test_measurements(self) -> None:
        """docs/MEASUREMENTS.md has a row of each bench in its one table, and names each in the text below"""
        page = (TOP / "docs/MEASUREMENTS.md").read_text(encoding="utf-8")
        rows = [line for line in page.splitlines() if line.startswith("| ")]
        self.assertEqual([line for line in rows if line.startswith("| What ")], rows[:1], "the heads of tables")
        scripts = [it for it in repository.files() if re.fullmatch(r"bench/\w+\.sh", it)]
        benches = [it for it in scripts if re.search(f"^#   .*{it}", "\n".join(repository.lines(it)[:20]), re.M)]
        self.assertIn("bench/run.sh", benches)
        in_rows = "\n".join(rows)
        missing = [it for it in benches if f"`{it}`" not in in_rows or page.count(it) == in_rows.count(it)]
        self.assertEqual(missing, [], "benches without a row or without a text")

    def test_statuses(self) -> None:
        """The program's statuses in the manual page are those of docs/FORMATS.md, with the words that the program has for them."""
        source = "crates/bootcore/src/program.rt"
        said = re.findall(r"^        (\d+) => Some\(\"(.*)\"\),$", (TOP / source).read_text(encoding="utf-8"), re.M)
        manual = MANUAL_PAGE.read_text(encoding="utf-8").split(".SH EXIT STATUS")[1].split("\n.SH")[0]
        statuses = dict(re.findall(r"^\.TP\n\.B (\d+)\n(.*?)(?=^\.(?:TP|PP)$)", manual, re.M | re.S))
        page = (TOP / "docs/FORMATS.md").read_text(encoding="utf-8")
        table = page.split("| Status | When |")[1].split("\n\n")[0]
        found = {number for cell in re.findall(r"^\| ([\d, ]+) \|", table, re.M) for number in cell.split(", ")}
        with self.check("the manual page has the statuses that docs/FORMATS.md has"):
            self.assertEqual(sorted(statuses), sorted(found))
        with self.check(f"the manual page and docs/FORMATS.md have the words of each status in {source}"):
            self.assertTrue(said)
            missing = [f"{place}: {number}, {words}" for number, words in said for place, text in (
                ("docs/bootcore.1", statuses.get(number, "")),
                ("docs/FORMATS.md", "".join(re.findall(rf"^\| {number} \|.*$", table, re.M))),
            ) if words not in text]
            self.assertEqual(missing, [])

    def test_pictures(self) -> None:
        drawn = run(TOP / "tools/pictures", "--help").out.decode().split("] [")[1].split(" ..]")[0].split("|")
        with self.check("each picture of docs/pictures is one that tools/pictures draws or that a run makes, and no page shows another one"):
            allowed = sorted([*(f"{name}.svg" for name in drawn), *MADE_BY_RUNS])
            there = [it.name for it in (TOP / "docs/pictures").iterdir() if it.suffix != ".memory"]
            self.assertEqual(sorted(there), allowed)
            texts = {page: "\n".join(repository.lines(page)) for page in repository.pages()}
            shown = {page: re.findall(r"!\[[^]]*\]\(([^)]*)\)", text) for page, text in texts.items()}
            others = [(page, it) for page, links in shown.items() for it in links if Path(it).name not in allowed]
            self.assertEqual(others, [])
        for name, command in MADE_BY_RUNS.items():
            with self.check(f"docs/pictures/{name} is small, and a page that shows it says that {command} makes it"):
                self.assertLessEqual((TOP / "docs/pictures" / name).stat().st_size, MOST_BYTES)
                showing = [page for page, links in shown.items() if name in map(os.path.basename, links)]
                self.assertTrue([page for page in showing if command in texts[page]], f"pages that show it: {showing}")
                script, option = command.split()
                self.assertIn(option, run(TOP / script, "--help").out.decode().split(), f"{script} --help has no {option}")
        from_sources = [name for name in drawn if name not in DRAWN_BY_PROGRAM + LAID_OUT]
        self.passes("each picture that needs no program is what tools/pictures draws", TOP / "tools/pictures", "--check", *from_sources)

    def test_graphs(self) -> None:
        ran = run(TOP / "tools/pictures", "--check", *LAID_OUT)
        if ran.status == 127 and ran.out:  # no `dot`, or another one
            self.ends("each graph is what tools/pictures draws, wherever its boxes stand", ran, 127, None)
            self.leave_out("the boxes of each graph stand where `dot` has them", ran.out.decode().splitlines()[0])
        else:
            self.ends("each graph is what tools/pictures draws, and its boxes stand where `dot` has them", ran)

    def test_copies(self) -> None:
        with self.check("HANDLES is its one line"):
            self.assertEqual((TOP / "HANDLES").read_bytes(), b"Handles allowed: none.\n", "the bytes of HANDLES")
        self.are_same_file(
            "the description of the program's stored run is the first example",
            TOP / "examples/first.toml",
            TOP / "crates/bootcore/data/first.toml",
        )

    def test_counts(self) -> None:
        """README tells how many edits, rows, cases and changed images there are"""
        edits = len([name for name in repository.files() if name.endswith(".edit")])
        rows = sum(map(tables.rows_of, tables.all_tables()))
        cases = sum(lines_of_table(table) for table in sorted(TOP.glob("cases/*.cases")))
        images = sum(lines_of_table(TOP / table) for table in ("cases/images", "cases/told_images"))
        told = " ".join((TOP / "README.md").read_text(encoding="utf-8").split())
        wanted = (f" {edits} mistakes", f" {rows:,} calls", f" {cases} boot descriptions", f" {images} corrupted images")
        self.assertEqual([it for it in wanted if it not in told], [], "what README.md should tell, and does not")

    def test_examples_of_refusals(self) -> None:
        """each case that docs/REFUSALS.md names as an example of an entry's refusal ends with that number"""
        lines = [line.split("|") for table in sorted(TOP.glob("cases/*.cases")) for line in repository.lines(str(table.relative_to(TOP)))]
        said = {cells[0]: cells[-2] for cells in lines if len(cells) > 2}
        page = (TOP / "docs/REFUSALS.md").read_text(encoding="utf-8")
        rows = re.findall(r"^\| (\d+) \| .* \| `(\w+)` \| [^|]* \|$", page.split("## Of an entry")[1].split("\n## ")[0], re.M)
        self.assertGreater(len(rows), 20)
        wrong = [f"{name} is no example of {number}: {said.get(name)}" for number, name in rows if f" {number};" not in said.get(name, "")]
        self.assertEqual(wrong, [])

    def test_hour(self) -> None:
        """README and SECURITY tell how long it takes to read what must be believed, as docs/THEOREMS.md counts it"""
        headline = first_match(r"^\| What every boot has \| \d+ \| (\d+) \|$", "docs/THEOREMS.md")
        whole = int(first_match(r"^\| The four together \| \d+ \| (\d+) \|$", "docs/THEOREMS.md"))
        hours = {2: "two hours", 3: "three hours", 4: "four hours"}[round(whole / 60)]
        for page, words in (("README.md", f"(headline {headline} minutes, all {hours})"), ("SECURITY.md", f", {hours} in all.")):
            self.assertIn(words, (TOP / page).read_text(encoding="utf-8"), page)

    def test_version(self) -> None:
        ran = run(TOP / "tools/version")
        newest = first_match(r"^## (.+)$", "docs/CHANGES.md")
        self.ends("tools/version prints the newest version of docs/CHANGES.md", ran, 0, newest + "\n")
        source = "crates/bootcore/src/program.rt"
        usage = first_match(r"^bootcore (.+)$", source)
        self.ends(f"tools/version prints the version of the usage text in {source}", ran, 0, usage + "\n")

    def test_usage(self) -> None:
        """The manual page and docs/FORMATS.md describe each subcommand of the usage text with its options, and no other."""
        usage = (TOP / "crates/bootcore/src/program.rt").read_text(encoding="utf-8")
        calls = re.findall(r"^(?:usage:)? +bootcore ([a-z]+)(.*)$", usage, re.M)
        wanted: Dict[str, Set[str]] = {name: set() for name, _ in calls}
        for name, rest in calls:
            wanted[name].update(re.findall(r"--\w+", rest))
        manual = MANUAL_PAGE.read_text(encoding="utf-8").replace("\\-", "-")
        described, options = manual.split(".SH DESCRIPTION")[1].split(".SH EXIT STATUS")[0].split(".SH OPTIONS")
        with self.check("the manual page has a paragraph of each subcommand, and of each option"):
            self.assertEqual(sorted(re.findall(r"^\.TP\n\.B (\w+)$", described, re.M)), sorted(wanted))
            told = set(re.findall(r"^\.TP\n\.B\w* (--\w+)", options, re.M))
            self.assertEqual(sorted(told), sorted(set().union(*wanted.values(), {"--help"})))
        with self.check("docs/FORMATS.md has a row of each subcommand with its options"):
            page = (TOP / "docs/FORMATS.md").read_text(encoding="utf-8")
            found: Dict[str, Set[str]] = {name: set() for name in wanted}
            for name, row in re.findall(r"^\| `bootcore ([a-z]+) (.*)$", page, re.M):
                found.setdefault(name, set()).update(re.findall(r"--\w+", row))
            self.assertEqual(found, wanted)

    def test_completions(self) -> None:
        (self.room / ".zshrc").write_text(ZSHRC)
        env = {name: str(self.room) for name in ("HOME", "XDG_CONFIG_HOME", "XDG_DATA_HOME", "ZDOTDIR")}
        for shell, words in SHELLS.items():
            if not is_at_hand(shell):
                self.leave_out(f"{shell} completes the command line", f"{shell} is not at hand")
                continue
            for sentence, line, offered in COMPLETIONS:
                ran = run(shell, *words, "bootcore", *line.split(" "), env={**env, "TERM": "dumb"})
                with self.check(f"{shell} {sentence}"):
                    self.assert_ended(ran, 0, None)
                    without_descriptions = re.sub("\t.*", "", ran.out.decode())
                    self.assert_text(ran, offered, " ".join(sorted(without_descriptions.split())), "offered")


class ChangedRule(Checks):
    def test_rows(self) -> None:
        """a model in which a machine has 64 regions at most prints for rows/machine.rows what CONTRIBUTING.md says"""
        shutil.copytree(TOP / "model", self.room / "model", ignore=shutil.ignore_patterns("__pycache__"))
        (self.room / "rows").mkdir()
        shutil.copy(TOP / "rows/machine.rows", self.room / "rows")
        rule = self.room / "model/rules/machine.py"
        text = rule.read_text(encoding="utf-8")
        self.assertEqual(text.count("MAX_REGIONS = 128\n"), 1, f"the rule that CONTRIBUTING.md changes, in {rule}")
        rule.write_text(text.replace("MAX_REGIONS = 128\n", "MAX_REGIONS = 64\n"), encoding="utf-8")
        page = textwrap.dedent((TOP / "CONTRIBUTING.md").read_text(encoding="utf-8").replace("\n   ", "\n"))
        command, wanted = re.findall(r"^\$ (model/rows .*)\n((?:.*\n)*?)```$", page, re.M)[0]
        ran = run(*command.split(), cwd=self.room)
        self.assert_ended(ran, 1, None)
        self.assertRegex(ran.out.decode(), lines_like(wanted), f"ran: {ran}\nstandard output")


class ManualPage(Checks):
    def test_mandoc(self) -> None:
        """mandoc warns of nothing in the manual page"""
        if not is_at_hand("mandoc"):
            self.skipTest("mandoc is not at hand")
        self.assert_ended(run("mandoc", "-T", "lint", MANUAL_PAGE))

    def test_groff(self) -> None:
        """groff warns of nothing in the manual page"""
        if not is_at_hand("groff"):
            self.skipTest("groff is not at hand")
        self.assert_ended(run("groff", "-man", "-ww", "-z", MANUAL_PAGE))


class BesideProgram(ProgramChecks):
    def test_pictures(self) -> None:
        sentence = "each picture of a boot is what tools/pictures draws by the program"
        self.passes(sentence, TOP / "tools/pictures", "--check", *DRAWN_BY_PROGRAM, env={"BOOTCORE": str(PROGRAM)})
        for name in ("first", "second"):
            drawn = self.room / f"{name}.svg"
            with self.check(f"examples/picture draws docs/pictures/{name}.svg of the {name} example"):
                words = [TOP / "examples/picture", TOP / f"examples/{name}.toml", drawn]
                self.assert_ended(run(*words, cwd=self.room, env={"BOOTCORE": str(PROGRAM)}))
                self.assert_same_file(TOP / f"docs/pictures/{name}.svg", drawn)

    def test_picture_of_another_image(self) -> None:
        """tools/draw refuses the image of another boot than the explained one"""
        (self.room / "map").write_bytes(self.program("map", FIRST).out)
        (self.room / "explained").write_bytes(self.program("explain", FIRST).out)
        self.program("boot", SECOND, "--out", self.room / "image")
        words = ["--map", "map", "--explain", "explained", "--image", "image", "--out", "none.svg"]
        ran = run(TOP / "tools/draw", *words, cwd=self.room)
        self.assert_ended(ran, 1, "", None)
        said = ran.err.decode()
        self.assertRegex(said, "^draw: the image is not of the explained boot:", f"ran: {ran}\nstandard error")
        self.assertFalse((self.room / "none.svg").exists(), f"ran: {ran}\nit wrote a picture")

    def test_synopsis(self) -> None:
        """the synopsis of the manual page is the usage text of the program"""
        if not is_at_hand("groff"):
            self.skipTest("groff is not at hand")
        usage = self.program("--help").out.decode().split("\n", 1)[1]
        ran = run("groff", "-man", "-Tascii", "-P-c", MANUAL_PAGE)
        page = re.sub(".\b", "", ran.out.decode())  # without what is struck twice
        synopsis = page[page.index("\nSYNOPSIS") : page.index("\nDESCRIPTION")]
        calls = [line for line in synopsis.split("\n") if re.match(" +bootcore", line)]
        wanted = re.sub(" +", " ", usage.replace("usage: ", " ", 1))
        self.assert_text(ran, wanted, re.sub(" +", " ", "\n".join([*calls, ""])), "synopsis")


class Guide(ProgramChecks):
    """The commands of docs/GUIDE.md print what stands below them; `..` is any number of lines."""

    BLOCK = re.compile(r"^```\n(\$ .*?)^```$", re.M | re.S)
    NOT_HERE = ("mkdir", "qemu.sh", "linux.sh", "ramdisk.sh")  # the folder is made otherwise; ./test qemu and program have the others

    def test_commands(self) -> None:
        for name in ("examples", "cases", "tools", "crates", "model"):
            (self.room / name).symlink_to(TOP / name)
        folder = self.room / "trial"
        folder.mkdir()
        (folder / "first.toml").write_bytes(FIRST.read_bytes())
        env = {"PATH": f"{PROGRAM.parent}:{os.environ['PATH']}", "BOOTCORE": str(PROGRAM)}
        page = (TOP / "docs/GUIDE.md").read_text(encoding="utf-8")
        asked = [each.partition("\n") for block in self.BLOCK.findall(page) for each in re.split(r"^\$ ", block, flags=re.M)[1:]]
        with self.check("the guide has a command for each of its steps at least"):
            steps = re.findall(r"^## \d+\. ", page, re.M)
            self.assertTrue(0 < len(steps) <= len(asked), f"{len(steps)} steps, {len(asked)} commands")
        for command, _, wanted in asked:
            if any(word in command for word in self.NOT_HERE):
                continue
            sentence = f"the guide's command prints what the guide says: {command}"
            if re.match("(as|ld) ", command) and not is_at_hand(command[:2]):
                self.leave_out(sentence, f"{command[:2]} is not at hand")
                continue
            with self.check(sentence):
                ran = run("bash", "-c", command, cwd=folder, env=env)
                self.assertNotEqual(ran.status, 124, f"ran: {ran}\nit did not end in time")
                self.assertRegex(ran.out.decode(), lines_like(wanted), f"ran: {ran}\nstandard output")


def lines_like(wanted: str) -> Pattern[str]:
    """These lines; `..` stands for any number of them."""
    lines = "".join(r"(?:.*\n)*" if line == ".." else re.escape(line) + r"\n" for line in wanted.splitlines())
    return re.compile(rf"\A{lines}\Z")


def missing_links(page: str) -> List[str]:
    folder = (TOP / page).parent
    links = (link for line in repository.lines(page) for link in LINK.findall(line))
    return [f"{page}: there is no {it}" for it in links if not re.match("[a-z]+:", it) and not (folder / it).exists()]


@lru_cache(maxsize=None)
def headings(page: Path) -> Set[str]:
    """The names by which links lead to a page's headings; of headings that are alike only the first one counts."""
    without_code = re.sub("^```.*?^```", "", page.read_text(encoding="utf-8"), flags=re.M | re.S)
    found = re.findall("^#+ +(.+)$", without_code, re.M)
    return {re.sub(r"[^\w\- ]", "", re.sub(r"\]\([^)]*\)", "", it).strip().lower()).replace(" ", "-") for it in found}


def missing_headings(page: str) -> List[str]:
    """The links of a page to headings that there are not, of its own or of another page."""
    found = ((path, name) for line in repository.lines(page) for path, name in LINK_TO_HEADING.findall(line))
    own = [((TOP / page).parent / path if path else TOP / page, name) for path, name in found if "://" not in path]
    led = [(target, name) for target, name in own if target.suffix == ".md"]
    return [
        f"{page}: {target.relative_to(TOP)} has no heading {name}"
        for target, name in led
        if not target.is_file() or name not in headings(target)
    ]


def longer_lines(names: Iterable[str], most: int) -> List[str]:
    return [
        f"{name}:{number}: {len(line)} characters"
        for name in names
        for number, line in enumerate(repository.lines(name), 1)
        if len(line) > most
    ]


def longer_files(names: Iterable[str], most: int) -> List[str]:
    lengths = ((name, (TOP / name).read_bytes().count(b"\n")) for name in names)
    return [f"{name}: {length} lines" for name, length in lengths if length > most]


def what_is_too_much(name: str, most: int, longest: int) -> List[str]:
    """The entries of a page that begin with a bold sentence: too many of them, or those that are too long."""
    entries = [it for it in (TOP / name).read_text(encoding="utf-8").split("\n\n") if it.startswith("**")]
    found = [f"{name}: {len(entries)} entries"] if len(entries) > most else []
    return found + [f"{name}: {len(it)} characters: {it[:60]}.." for it in entries if len(it) > longest]


def told_minutes() -> Dict[str, int]:
    """The minutes that docs/README.md says of each page; 0 where it says none, or one number of many pages."""
    told = {}
    for row in repository.lines("docs/README.md"):
        cells = row.strip("|").split(" | ")
        minutes = re.fullmatch(r"(?:all )?(\d+)(?: each)?", cells[-1].strip()) if len(cells) == 5 else None
        for path in LINK.findall(cells[1]) if len(cells) == 5 else ():
            page = os.path.relpath(TOP / "docs" / path, TOP)
            if not (TOP / page).is_file():
                page += "/README.md"
            told[page] = int(minutes[1]) if minutes and (TOP / page).exists() else 0
    return told


def words_of(page: str) -> int:
    """The words that a reader reads: without comments and without what links lead to."""
    text = (TOP / page).read_text(encoding="utf-8")
    text = re.sub(r"\]\([^)]*\)", "]", re.sub(r"<!--.*?-->", "", text, flags=re.S))
    return len(re.findall(r"[A-Za-z0-9][\w'./:-]*", text))


def lines_of_table(table: Path) -> int:
    """The lines of a table of cases or of images, without comments."""
    return sum(bool(line) and not line.startswith("#") for line in table.read_text(encoding="utf-8").splitlines())


def first_match(pattern: str, name: str) -> str:
    """The group of the first line of a file that the pattern matches."""
    found = re.search(pattern, (TOP / name).read_text(encoding="utf-8"), re.M)
    if found is None:
        raise AssertionError(f"{name} has no line '{pattern}'")
    return found[1]
