"""a run without a proof says and writes what the proved program does, or says why there is none"""

import importlib.machinery
import importlib.util
import os
import re
import shutil
from pathlib import Path
from typing import Dict, List, Optional, Tuple

from tests import look_script
from tests.changed_images import image_by_hand
from tests.examples import EXAMPLES, FIRST, multiboot2_kernel
from tests.support import PROGRAM, TOP, Checks, ProgramChecks, is_at_hand, run

MODULES = [look_script]
_spec = importlib.util.spec_from_loader("look", importlib.machinery.SourceFileLoader("look", str(TOP / "tools/look")))
look = importlib.util.module_from_spec(_spec)
_spec.loader.exec_module(look)

# why there is no look, and words of which there is none; {} is the last of them
NO_WORDS: Dict[str, List[str]] = {
    "{} is no regular file that can be read": ["map none.toml", "explain fifo", "digest folder"],
    "the words are not as bootcore --help has them": [
        "boot files.toml --out=a", "boot files.toml --out a --out b", "map a.toml b.toml", "translate files.toml", "digest --image",
    ],
    "{} is no regular file that can be written": [f"boot files.toml --out {it}" for it in ("folder", "none/new", "/dev/null")],
    "{} is also a file that is read": [f"boot files.toml --out {it}" for it in ("soft.toml", "./kernel.elf", "missing.mod")],
}
# why there is no look, and lines of a description; {} is the file that is named
NO_FILES: Dict[str, List[str]] = {
    "the description's file {} is not near: not below this folder, nor the description's": [
        "kernel = '../x'", "initrd = 'folder/../x'", "module = [{ file = '/etc/passwd' }]", "kernel = '/dev/stdin'",
    ],
    "the description's file {} is no regular file that can be read": ["kernel = 'folder'", "kernel = 'fifo'"],
    "the description's file {} has a name that rt keeps for itself": ["kernel = './stdin'", "kernel = 'a=b'"],
    "the description has names with escapes or of several lines": ['kernel = "a\\tb"', 'kernel="""x"""', '"\\u006bernel" = "x"'],
}
COPY = ["--data", "kernel.elf={}/kernel.elf"]
# the words, what rt is handed, and the words that it is given; {} is the folder
PLANS: List[Tuple[str, List[str], str]] = [
    ("boot files.toml --order reverse --out new", COPY, "boot {}/files.toml --order reverse --out TO"),
    ("explain folder/../soft.toml", COPY, "explain {}/soft.toml"),
    ("map files.toml", [], "map {}/files.toml"),
    ("digest files.toml --image", [], "digest {}/files.toml --image"),
    ("convert kernel.elf --out new", [], "convert {}/kernel.elf --out TO"),
]
# the words, and the status with which the program ends of them
WORDS: List[Tuple[str, int]] = [
    *((f"boot {it}.toml --out new.image", 0) for it in ("first", "second", "menu", "relative")),
    ("boot --out new.image relative.toml --order reverse", 0), ("boot missing.toml --out new.image", 1),
    ("boot bad.toml --out new.image", 2), ("boot first.toml", 64), ("map first.toml", 0), ("walk old.image", 0),
    ("walk first.toml", 2), ("convert old.image --out new.image", 0), ("explain relative.toml", 0),
    ("explain missing.toml --order reverse", 1), ("explain first.toml --order up", 64),
    ("digest relative.toml", 0), ("digest old.image --image", 0),
]


class Plans(Checks):
    """Of which words there is a look."""

    def test_plans(self) -> None:
        room = self.room.resolve()
        (room / "files.toml").write_text("kernel = 'kernel.elf'\ninitrd = \"missing.mod\"\nfile = ''\n")
        (room / "soft.toml").symlink_to("files.toml")
        for name in ("kernel.elf", "a=b"):
            (room / name).write_bytes(b"a kernel")
        (room / "folder").mkdir()
        os.mkfifo(room / "fifo")
        self.addCleanup(os.chdir, os.getcwd())
        os.chdir(room)
        for why, rows in NO_WORDS.items():
            for words in rows:
                self.refused(words, why.format(words.split()[-1]))
        for why, lines in NO_FILES.items():
            for line in lines:
                (room / "desc.toml").write_text(f"{line}\n")
                self.refused("explain desc.toml", why.format(re.split("['\"]", line)[1]))
        for words, handed, planned in PLANS:
            with self.check(f"rt runs the program as by `{words}`, with copies of its files, and an image elsewhere"):
                plan = look.plan_of(words.split(), "TO")
                wanted = [word.format(room) for word in handed], planned.format(room).split()
                self.assertEqual((plan.handed, plan.words), wanted)
        (room / "whole.toml").write_text(f"kernel = '{room}/kernel.elf'\n")
        examples = [*EXAMPLES.glob("*.toml"), *EXAMPLES.glob("kernels/*.toml")]
        with self.check("there is a look of each example, and of a file beside its description, which is named by its whole path"):
            self.assertGreater(len(examples), 10)
            for description in (room / "whole.toml", *examples):
                for folder in (TOP, description.parent):
                    os.chdir(folder)
                    look.plan_of(["boot", str(description), "--out", str(room / "new")], "TO")

    def refused(self, words: str, why: str) -> None:
        with self.check(f"there is no look by `{words}`: {why}"):
            with self.assertRaises(look.NoLook) as raised:
                look.plan_of(words.split(), "TO")
            self.assertEqual(str(raised.exception), why)


class SameAsProved(ProgramChecks):
    """Both programs, of the same words in the same folder; the one without a proof is compiled once, for all words."""

    def test_words(self) -> None:
        if not is_at_hand("rt"):
            self.skipTest("the toolchain's command rt, which runs it without proof, is not on the PATH")
        folder, cases = self.room / "a room", self.room / "cases"
        write_room(folder)
        cases.mkdir()
        self.addCleanup(os.chdir, os.getcwd())
        os.chdir(folder)
        handed: Dict[str, None] = {}
        for number, (words, _) in enumerate(WORDS):
            plan = look.plan_of(words.split(), str(self.room / f"{number:02}"))
            handed.update(dict.fromkeys(plan.handed[1::2]))
            (cases / f"{number:02}").touch()  # its standard input
            (cases / f"{number:02}.args").write_text("".join(f"{word}\n" for word in plan.words), encoding="utf-8")
        copies = [word for copy in handed for word in ("--data", copy)]
        ran = run("rt", "try", "--steps", "1", "--seconds", "120", *copies, "--cases", cases, cwd=look.CRATE, timeout=1200)
        out = re.split(rb"^== (\S+)\n", ran.out, flags=re.M)
        wrote = dict(zip(out[1::2], out[2::2]))
        # the lines on standard error come before the case's own
        err = re.split(rb"^case=(\S+) (?:run=ended status=(\d+))?.*\n", ran.err, flags=re.M)
        said = {name: (int(status or -1), before) for before, name, status in zip(err[0::3], err[1::3], err[2::3])}
        for number, (words, status) in enumerate(WORDS):
            name = f"{number:02}".encode()
            with self.check(f"a run without a proof of `{words}` says and writes what the proved program does"):
                proved = run(PROGRAM, *words.split(), cwd=folder)
                self.assertEqual(proved.status, status, f"ran: {proved}\nthe proved program's status")
                wanted = (proved.status, proved.err, proved.out, taken(folder / "new.image"))
                came = (*said.get(name, (ran.status, ran.err[-2000:])), wrote.get(name, b""), taken(self.room / name.decode()))
                self.assertEqual(came, wanted, f"ran: {proved}\nstatus, both outputs and image: without a proof, and proved")


class PlainSameAsProved(ProgramChecks):
    """The program of the plain source, by which the look is where cargo is at hand, and the proved one, in the same folder."""

    def test_words(self) -> None:
        if not is_at_hand("cargo"):
            self.skipTest("cargo is not at hand")
        folder, plain = self.room / "a room", TOP / "out/plain/bootcore"
        self.ends("cargo builds the program of the plain source", run(TOP / "tools/plain", "bootcore", timeout=1200), 0, "", None)
        write_room(folder)
        for words, status in WORDS:
            with self.check(f"the plain program says and writes of `{words}` what the proved program does"):
                proved = run(PROGRAM, *words.split(), cwd=folder)
                wanted = (status, proved.out, proved.err, taken(folder / "new.image"))
                came = run(plain, *words.split(), cwd=folder)
                told = (came.status, came.out, came.err, taken(folder / "new.image"))
                self.assertEqual(told, wanted, f"ran: {proved}\nstatus, both outputs and image: by the plain source, and proved")


def taken(file: Path) -> Optional[bytes]:
    """A file's bytes, if it is there; then it is taken away."""
    if not file.is_file():
        return None
    found = file.read_bytes()
    file.unlink()
    return found


def write_room(folder: Path) -> None:
    """The files that the words name, but one that is not to be there."""
    (folder / "sub dir").mkdir(parents=True)
    for name in ("first.toml", "second.toml", "menu.toml"):
        shutil.copy(EXAMPLES / name, folder)
    (folder / "old.image").write_bytes(image_by_hand())
    (folder / "sub dir/f1 elf").write_bytes(multiboot2_kernel())
    (folder / "m.bin").write_bytes(b"hello")
    # the first example with the paths of files in the place of those that it has within itself
    text = re.sub(r"\[\[file\]\]\nname = .*\nhex = .*\n\n", "", FIRST.read_text(encoding="utf-8"))
    text = text.replace('"f1.elf"', '"sub dir/f1 elf"')
    for name, old, new in (("relative", "m.bin", "./m.bin"), ("missing", "m.bin", "none.bin"), ("bad", "size =", "sise =")):
        (folder / f"{name}.toml").write_text(text.replace(old, new), encoding="utf-8")
