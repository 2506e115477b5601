"""What docs/MEASURED.md says."""

import re
from typing import Dict

from examples.measured.tests.checker import CHECKER, CheckerChecks
from tests.examples import SECOND
from tests.support import PROGRAM, TOP, need_built, run

REFUSED_ENTRY = '[[entry]]\ntitle = "no kernel"\nprotocol = "linux"\nkernel = "none"\n'


class Page(CheckerChecks):
    """The commands of docs/MEASURED.md that need no machine print what the page says."""

    BLOCK = re.compile(r"^```\n(\$ .*?)^```$", re.M | re.S)
    NOT_HERE = ("qemu.sh", "<part")  # ./test qemu has the script

    def test_commands(self) -> None:
        need_built(PROGRAM, "tools/build")
        (self.room / "examples").symlink_to(TOP / "examples")
        (self.room / "bootcore").symlink_to(PROGRAM)
        page = (TOP / "docs/MEASURED.md").read_text(encoding="utf-8")
        asked = [each.partition("\n") for block in self.BLOCK.findall(page) for each in re.split(r"^\$ ", block, flags=re.M)[1:]]
        before = ""  # a command may set a variable for the next one
        for command, _, wanted in asked:
            if any(word in command for word in self.NOT_HERE):
                continue
            ran = run("bash", "-c", f"{before}\n{command}", cwd=self.room)
            before = command if "=" in command and not wanted else ""
            self.ends(f"the page's command prints what the page says: {command[:60]}", ran, 0, wanted)

    def test_words(self) -> None:
        """what the page says that the checker says, it says"""
        page = (TOP / "docs/MEASURED.md").read_text(encoding="utf-8")
        sources = "".join(path.read_text(encoding="utf-8") for path in CHECKER.glob("*.py"))
        (table,) = re.findall(r"^\| What was changed \| It says \|\n((?:\|.*\n)+)", page, re.M)
        told = [words for row in table.splitlines() for words in re.findall("`([^`]+)`", row.split("|")[2])]
        self.assertGreater(len(told), 5)
        self.assertEqual([words for words in told if words not in sources], [], "words that the checker has not")

    # the rows of the page's table of changes, by their first words: what is changed of the second example
    CHANGES = {
        "`line =": [("ttyS0", "ttyS1")],
        "the ramdisk's": [("68656c6c6f", "68656c6c70")],
        "8 MiB": [("size = 0x400000", "size = 0x800000"), ("length = 0x300000", "length = 0x700000")],
        "`fill = 0`": [("fill = 0xA5", "fill = 0\nfallback = [1]"), ("[[entry]]", REFUSED_ENTRY + "[[entry]]")],
    }

    def digests(self, text: str, *words: str) -> Dict[str, str]:
        """The lines of an image by their first words, but for the image's length."""
        (self.room / "second.toml").write_text(text, encoding="utf-8")
        booted = run(PROGRAM, "boot", "second.toml", "--out", "second.image", *words, cwd=self.room)
        ran = run(TOP / "examples/digests.sh", "second.image", cwd=self.room)
        self.assertEqual((booted.status, ran.status), (0, 0), f"ran: {booted}, {ran}")
        return {line.split()[0]: line for line in ran.out.decode().splitlines()}

    def test_changes(self) -> None:
        need_built(PROGRAM, "tools/build")
        second = SECOND.read_text(encoding="utf-8")
        plain = self.digests(second)
        page = (TOP / "docs/MEASURED.md").read_text(encoding="utf-8")
        for begin, changes in self.CHANGES.items():
            (row,) = re.findall(rf"^\| ({re.escape(begin)}.*) \| (.*) \| (.*) \|$", page, re.M)
            with self.check(f"the second example changes as the page says: {row[0]}"):
                text = second
                for old, new in changes:
                    self.assertIn(old, text)
                    text = text.replace(old, new, 1)
                came = self.digests(text, "--order", "reverse")
                differ = [word for word in plain if came[word] != plain[word] and word != "image"]
                self.assertEqual(sorted(differ), sorted(re.findall("`([a-z]+)`", row[1])), "the lines that differ")
                found = re.fullmatch(r"`([0-9a-f]{12})\.\.`", row[2])
                self.assertTrue(came["image"].split()[4].startswith(found[1] if found else plain["image"].split()[4]))
