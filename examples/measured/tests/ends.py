"""How the checker ends where something fails, what it takes of time and memory, and what it shows."""

import json
import os
import signal
import subprocess
import sys
import time
from pathlib import Path
from typing import List

from examples.measured.tests import boots, cases
from examples.measured.tests.boots import FILES, POLICY
from examples.measured.tests.cases import BOTH, GOOD, PARTLY, UNREADABLE, WRONG, Case
from examples.measured.tests.checker import CHECKER, CheckerChecks
from tests.support import Ran, run

# what a run and all that it started took of memory, in KiB
MEASURING = "import resource, subprocess, sys; subprocess.run(sys.argv[1:]); print(resource.getrusage(resource.RUSAGE_CHILDREN)[2])"
ENTRY = '\n[[entry]]\ntitle = "E{0}"\nprotocol = "efi"\nline = "{0}"\n'
EVIL = "\x1b[2J\x07\x7f\x9b\u202e\n"


class Ends(CheckerChecks):
    def shell(self, folder: Path, command: str) -> Ran:
        """The checker by a shell's words, in which CHECK stands for it."""
        words = "--log log --pcrs pcrs --known known --policy policy --unsigned"
        text = command.replace("CHECK", f"'{sys.executable}' '{CHECKER}/check' {words}")
        return run("bash", "-c", text, cwd=folder, env=self.env)

    def fails(self, sentence: str, ran: Ran, said: str, is_told: bool) -> None:
        """Status 2, words or JSON for it, and nothing of Python's."""
        with self.check(sentence):
            self.assertEqual(ran.status, UNREADABLE, f"ran: {ran}\n{ran.out!r}\n{ran.err!r}")
            self.assertNotIn(b"Traceback", ran.err)
            self.assertNotIn(b"Exception", ran.err)
            if is_told:
                told = json.loads(ran.out)
                self.assertEqual((told["status"], told["verdict"]), (UNREADABLE, "unreadable"))
                self.assertIn(said, told["why"])
            else:
                self.assertIn(said, ran.err.decode())

    def test_fails(self) -> None:
        folder = self.folder("fails", Case("", ""))
        (folder / "wrong").write_text(POLICY.replace("vda1", "vda2"), encoding="utf-8")
        for sentence, command, said in (
            ("a full disk for what is said", "CHECK >/dev/full", "standard output: No space left on device"),
            ("a full disk for JSON", "CHECK --json >/dev/full", "standard output: No space left on device"),
            ("a full disk for a bad verdict", "CHECK --policy wrong --known known >/dev/full", "standard output: No space left"),
            ("an output that is closed", "CHECK >&-", "standard output: Bad file descriptor"),
            ("all that is closed", "CHECK <&- >&- 2>&-", ""),
            ("a reader that has gone", "set -o pipefail; (sleep 0.1; CHECK --json) | true", "standard output: Broken pipe"),
        ):
            self.fails(f"{sentence} ends with 2", self.shell(folder, command), said, False)
        for sentence, command, said in (
            ("a disk that takes no file", "ulimit -f 0; CHECK --json", "No usable temporary directory"),
            ("a disk that takes a part of a file", "ulimit -f 1; CHECK --json", "File too large"),
            ("too little memory", "ulimit -v 40000; CHECK --json", "out of memory"),
            ("a log that is cut", "head -c 900 log >cut; CHECK --json --log cut", "the log ends too early"),
        ):
            if "memory" in sentence:
                (folder / "policy").write_text(POLICY + "# " + "x" * 15_000_000, encoding="utf-8")
            ran = self.shell(folder, command)
            (folder / "policy").write_text(POLICY, encoding="utf-8")
            self.fails(f"{sentence} ends with 2, and JSON says it", ran, said, True)
        ran = self.shell(folder, "CHECK --nonsense 2>/dev/full")
        with self.check("bad words that can't be answered end with 64"):
            self.assertEqual((ran.status, ran.out, ran.err), (cases.BAD_WORDS, b"", b""))
        ran = self.shell(folder, "CHECK --help >/dev/full")
        self.fails("help that can't be shown ends with 2", ran, "standard output: No space left on device", False)

    def test_interrupted(self) -> None:
        folder = self.folder("interrupted", Case("", ""))
        (folder / "program").write_text("#!/bin/sh\necho >started\nexec sleep 60\n")
        (folder / "program").chmod(0o755)
        words = ["--log", "log", "--pcrs", "pcrs", "--known", "known", "--policy", "policy", "--json"]
        for number in (signal.SIGINT, signal.SIGTERM):
            env = {**os.environ, **self.env, "BOOTCORE": str(folder / "program"), "TMPDIR": str(folder)}
            how = {"cwd": folder, "env": env, "stdout": subprocess.PIPE, "stderr": subprocess.PIPE}
            with subprocess.Popen([sys.executable, str(CHECKER / "check"), *words], **how) as process:
                while not list(folder.glob("tmp*/started")):
                    time.sleep(0.02)
                process.send_signal(number)
                out, err = process.communicate(timeout=30)
            self.fails(f"an interrupt by {number.name} ends with 2", Ran(words, folder, process.returncode, out, err), "interrupted", True)
            with self.check(f"after {number.name} nothing is left of the image's files"):
                self.assertEqual(list(folder.glob("tmp*")), [])

    def test_no_files(self) -> None:
        """What might never begin or end is not waited for."""
        folder = self.folder("pipes", Case("", ""))
        os.mkfifo(folder / "pipe")
        (folder / "known/zero").symlink_to("/dev/zero")
        os.mkfifo(folder / "known/pipe")
        (folder / "known/folder").mkdir()
        for name in ("pipe", "zero", "folder"):
            for key in ("managers", "drivers", "files"):
                text = POLICY.replace('["BOOTX64.EFI"]', f'["BOOTX64.EFI", "{name}"]') if key == "managers" else POLICY
                text = cases.with_key("drivers", name) if key == "drivers" else text
                text = POLICY.replace('["menu.txt"]', f'["menu.txt", "{name}"]') if key == "files" else text
                (folder / "policy").write_text(text, encoding="utf-8")
                ran = self.checker(folder)
                said = f"known/{name}: Is a directory" if name == "folder" else f"known/{name} is no regular file"
                self.says(f"a {name} among the {key} is refused", ran, UNREADABLE, said)
        (folder / "policy").write_text(POLICY, encoding="utf-8")
        for option in ("log", "pcrs", "policy"):
            ran = self.checker(folder, **{option: "pipe"})
            self.says(f"a pipe in place of the {option} is refused", ran, UNREADABLE, "pipe is no regular file")

    def test_shown(self) -> None:
        """Names of a policy and of files, texts of a log: none of them moves a terminal's cursor."""
        name = f"menu{EVIL}.txt"
        spelled = "".join(f"\\u{ord(c):04x}" for c in EVIL)
        policy = POLICY.replace('"menu.txt"', f'"menu{spelled}.txt"')
        folder = self.folder("shown", Case("", "", policy=policy, known={name: FILES["menu.txt"]}))
        (folder / name).write_text(policy.replace("BOOTX64.EFI", f"{spelled}.efi"), encoding="utf-8")
        (folder / "title").write_text(policy.replace('title = "Kernel"\nprotocol', f'title = "{spelled}"\nprotocols'), encoding="utf-8")
        (folder / "log2").write_bytes((folder / "log").read_bytes().replace(b"bootcore/menu.txt", b"\x1b[2J\x07ore/menu.txt"))
        (folder / "key").write_text(f'"{spelled}" = 1\n' + policy, encoding="utf-8")
        lacking = policy.replace(f'["menu{spelled}.txt"]', "[]")
        (folder / "lacking").write_text(lacking, encoding="utf-8")
        for sentence, named, status in (
            ("a file's name in a good verdict", {}, GOOD),
            ("a policy's own name, and that of a file that is not there", {"policy": name}, UNREADABLE),
            ("a title with an unknown key", {"policy": "title"}, UNREADABLE),
            ("an unknown key", {"policy": "key"}, UNREADABLE),
            ("a path of the log's", {"log": "log2", "policy": "lacking"}, WRONG),
            ("an argument", {"log": EVIL}, UNREADABLE),
        ):
            for words in ([], ["--json"]):
                ran = self.checker(folder, *words, **named)
                with self.check(f"no control character is shown of {sentence}, {'in JSON' if words else 'in words'}"):
                    self.assertEqual(ran.status, status, f"ran: {ran}\n{ran.out!r} {ran.err!r}")
                    told = (ran.out + ran.err).decode()
                    self.assertEqual([c for c in told if not c.isprintable() and c != "\n"], [])
                    self.assertEqual(told.count("\n"), len([line for line in told.split("\n") if line]))
        ran = self.checker(folder, f"--{EVIL}")
        with self.check("no control character is shown of an unknown option"):
            self.assertEqual([c for c in ran.err.decode() if not c.isprintable() and c != "\n"], [])

    def test_many_files(self) -> None:
        """Ten thousand of 100 KiB: a gigabyte is hashed, and little of it held."""
        names = [f"f{i}" for i in range(10_000)]
        policy = POLICY.replace('"menu.txt"', '"menu.txt", ' + ", ".join(f'"{name}"' for name in names))
        folder = self.folder("many", Case("", "", policy=policy))
        for i, name in enumerate(names):
            with open(folder / "known" / name, "wb") as file:  # a hole, but for its first bytes
                file.write(b"%d" % i)
                file.truncate(100 << 10)
        words = [f"{CHECKER}/check", "--log", "log", "--pcrs", "pcrs", "--known", "known", "--policy", "policy", "--unsigned"]
        ran = run(sys.executable, "-c", MEASURING, sys.executable, *words, cwd=folder, env=self.env, timeout=120)
        with self.check("ten thousand files of 100 KiB are known in 64 MB of memory"):
            self.assertIn("\nas it should be\n", ran.out.decode(), f"ran: {ran}\n{ran.err!r}")
            self.assertLess(int(ran.out.split()[-1]), 64_000)

    def test_many_attempts(self) -> None:
        """Of entries and attempts the numbers add up, and are not multiplied."""
        chosen = [event for i in range(45_000) for event in self.attempt(i % 10_000)]
        happened = cases.at(8, 0, lambda it: [*chosen, it])
        policy = POLICY + "".join(ENTRY.format(i) for i in range(10_000))
        folder = self.folder("attempts", Case("", "", policy=policy, happened=happened))
        began = time.process_time(), os.times().children_user
        ran = self.checker(folder)
        took = os.times().children_user - began[1]
        self.says("45,000 attempts against 10,000 entries are judged", ran, GOOD, "remarks more")
        with self.check("they are judged in five seconds of the processor"):
            self.assertLess(took, 5)

    def attempt(self, number: int) -> List[boots.Event]:
        return [boots.text_told(f"{word}{number}\0".encode()) for word in ("bootcore_choice: E", "kernel_cmdline: ")]


class Policies(CheckerChecks):
    """Several policies, each with its files: of a new version and the one before."""

    def test_versions(self) -> None:
        newer = {"vmlinuz": FILES["vmlinuz"] + b"newer", "initrd.img": b"newer"}
        folder = self.folder("versions", Case("", ""))
        other = self.folder("newer", Case("", "", booted=newer, known=newer))
        (folder / "next").write_text(POLICY.replace("# ", ""), encoding="utf-8")
        both = ["--policy", "next", "--known", str(other / "known")]
        for where, it, alone in (("before", folder, GOOD), ("after", other, WRONG)):
            named = {"log": str(it / "log"), "pcrs": str(it / "pcrs")}
            self.says(f"the boot {where}, by the first policy alone", self.checker(folder, **named), alone, "")
            told = "policy    policy" if alone == GOOD else "policy    next"
            self.says(f"the boot {where}, by both policies", self.checker(folder, *both, **named), GOOD, told)
        ran = self.checker(folder, *both[:3], "none", log=str(other / "log"), pcrs=str(other / "pcrs"))
        self.says("a second policy whose files are not there", ran, UNREADABLE, "No such file")
        ran = self.checker(folder, *both[:3], "known", log=str(other / "log"), pcrs=str(other / "pcrs"))
        self.says("a boot that no policy allows is refused by each", ran, WRONG, "policy: PCR 9, event 17: no known file is what was")
        self.assertIn(b"; next: PCR 9, event 17: no known file", ran.out)

    def test_mixed(self) -> None:
        """The kernel of one and the ramdisk of another policy is neither's."""
        newer = {"vmlinuz": FILES["vmlinuz"] + b"newer", "initrd.img": b"newer"}
        folder = self.folder("mixed", Case("", "", booted={"vmlinuz": newer["vmlinuz"]}))
        other = self.folder("mixed newer", Case("", "", known=newer))
        ran = self.checker(folder, "--policy", "policy", "--known", str(other / "known"))
        self.says("a boot of one version's kernel and the other one's ramdisk", ran, WRONG, "no known file is what was measured")

    def test_statuses(self) -> None:
        """What is known by one bank alone has a status of its own, and so has that where nobody has signed."""
        folder = self.folder("statuses", cases.PARTLY_SO[1]._replace(banks=cases.TWO))
        self.says("what one bank alone knows", self.checker(folder), PARTLY, "menu.txt is known by sha256, not by sha384")
        self.says("the same, where nobody has signed", self.checker(folder, unsigned=None), BOTH, "menu.txt is known by sha256")
        told = json.loads(self.checker(folder, "--json").out)
        with self.check("JSON names what one bank alone knows"):
            self.assertEqual((told["status"], told["partly"]), (PARTLY, ["menu.txt is known by sha256, not by sha384"]))
        (folder / "known/menu.txt").write_bytes(FILES["menu.txt"])
        (folder / "whole").write_text(POLICY, encoding="utf-8")
        ran = self.checker(folder, "--policy", "whole", "--known", "known", policy="policy")
        self.says("of two policies that counts which knows all banks", ran, GOOD, cases.LINUX_SAID)
