"""The script bootcore and tools/look in a folder of their own, where what they call are stand-ins; tools/build beside a look"""

import os
import shutil
import signal
import subprocess
import sys
import time
from pathlib import Path
from typing import List, Optional, Tuple

from tests.examples import FIRST
from tests.program_checks import version
from tests.support import TOP, Checks, Ran, is_at_hand, run

# rt, tools/build and the program: each does what ACT_ and its name says, in bash, with these functions.
STAND_IN = r"""#!/usr/bin/env bash
name=${0##*/}
note() { echo "$name" >>"$CALLS"; }
image() { # TEXT WORDS..: writes TEXT to the file behind --out
    while [ "$2" != --out ]; do set -- "$1" "${@:3}"; done
    printf %s "$1" >"$3"
}
end() { # STATUS [LINE [LAST]]: as rt says how the program ended; its interpreter can't run one that reads its words
    echo "interpreter: no-answer: the run did not finish within 1 step: the program may loop forever" >&2
    printf '%s\n' "${2-checked: ended status=$1}" "${3-run=ended status=$1 runners=1 proved=no}" >&2
    exit "$1"
}
until_gone() { while [ -e "$1" ]; do sleep 0.02; done; }
stay() { echo $$ >"$STAYS.new" && mv "$STAYS.new" "$STAYS" && exec sleep 90; } # until a signal ends it
make() { note && mkdir -p "${BUILT%/*}" && cp "$0" "$BUILT"; }
act=ACT_$name
eval "${!act}"
"""
OUT = "booted 0 row one\n"
BOOTS = 'note; echo "booted 0 row one"; image "an image" "$@"'
ACTS = {"rt": f"{BOOTS}; end 0", "build": 'until_gone "$2"; make', "bootcore": BOOTS}

COMPILES = "look: compiling the program without a proof, which takes one to two minutes\n"
LOOKED = "look: nothing is proved yet: this was a run of the program without a proof, under the address sanitizer\n"
NONE = "look: no run without a proof: "
BUILDS = "bootcore: building for the first time: every crate below it is proved, 15 to 60 minutes\n"
BUILDS_CHANGED = "bootcore: building what changed: what it touches is proved again, seconds to minutes\n"
PROVED = "bootcore: proved and built; "
SAME = f"{PROVED}the proved program reported and wrote the same\n"

# what of the proved program's run differs from the look that ACTS has, what it does in its place, what it reports, and its image
DIFFERENCES: List[Tuple[str, str, str, str, int, Optional[str]]] = [
    ("standard output", 'note; echo "booted 1 row two"; image "an image" "$@"', "booted 1 row two\n", "", 0, "an image"),
    ("standard error", f"{BOOTS}; echo a line >&2", OUT, "a line\n", 0, "an image"),
    ("status (0 before, 1 now), image", f"{BOOTS}; exit 1", OUT, "", 1, None),
    ("image", 'note; echo "booted 0 row one"; image "another image" "$@"', OUT, "", 0, "another image"),
]
# where there is cargo: tools/plain is a stand-in too, which makes the plain program, another stand-in, unless that stands
MAKES_PLAIN = 'if [ "$1" = --needed ]; then [ ! -e "$PLAIN" ]; else note; mkdir -p "${PLAIN%/*}" && cp "$0" "$PLAIN"; fi'
BUILDS_PLAIN = "bootcore: without 'rt' cargo builds the program of the plain source, in about a minute\n"
RUNS_PLAIN = "bootcore: nothing was proved here: this is the program of the plain source\n"
COMPILES_PLAIN = "look: cargo builds the program of the plain source, which takes up to a minute\n"
LOOKED_PLAIN = "look: nothing is proved yet: this was a run of the program of the plain source, which cargo built\n"

LIMIT = "checked: no-answer: the program did not end within the time limit"
# which look is not reported, what rt does, and what is said
NO_ANSWERS: List[Tuple[str, str, str]] = [
    ("at a limit of rt try", f'{BOOTS}; end 6 "{LIMIT}" "run=no-answer proved=no"', f"rt try has no answer: {LIMIT}"),
    ("of a program that rt refuses", "end 1 'error: a reason' 'run=none proved=no'", "rt try has no answer: error: a reason"),
    ("of an rt that says nothing", "exit 0", "rt try has no answer: it says nothing"),
    ("that ends for want of memory", f"{BOOTS}; end 4", "it ended with status 4, as the proved program may not"),
    ("that wrote no image", "end 0", "it ended with status 0 and no image, as the proved program may not"),
]


# what the scripts and the stand-ins call
TOOLS = (
    "bash cat cmp cp dirname env find grep id kill ln mkdir mktemp mv printf ps python3 readlink realpath rm sed setsid sleep stat touch"
).split()


class StandInChecks(Checks):
    """The script in a clone of its own, beside what it calls."""

    BOOT = ("boot", "first.toml", "--out", "new.image")

    @classmethod
    def setUpClass(cls) -> None:
        super().setUpClass()
        cls.top, cls.folder, cls.temporary = cls.room / "a clone", cls.room / "folder", cls.room / "temporary"
        for made in (cls.top / "tools", cls.top / "crates/bootcore/src", cls.folder, cls.temporary, cls.room / "bin"):
            made.mkdir(parents=True)
        for name in ("bootcore", "crates.txt", "tools/look", "crates/bootcore/src/program.rt"):
            shutil.copy2(TOP / name, cls.top / name)
        write_script(cls.top / "tools/build", STAND_IN)
        write_script(cls.room / "bin/rt", STAND_IN)
        shutil.copy(FIRST, cls.folder)
        (cls.room / "bare").mkdir()
        for tool in filter(shutil.which, TOOLS):
            (cls.room / "bare" / tool).symlink_to(sys.executable if tool == "python3" else str(shutil.which(tool)))
        cls.calls, cls.stays = cls.room / "calls", cls.room / "stays"
        cls.built, cls.image = cls.top / "crates/bootcore/out/bootcore", cls.folder / "new.image"

    def setUp(self) -> None:
        """All as before the first run."""
        shutil.rmtree(self.built.parent, ignore_errors=True)
        self.calls.write_text("")
        for file in (self.image, self.stays):
            if file.exists():
                file.unlink()

    def env(self, acts: dict) -> dict:
        told = {f"ACT_{name}": act for name, act in {**ACTS, **acts}.items()}
        told.update(CALLS=str(self.calls), STAYS=str(self.stays), BUILT=str(self.built), TMPDIR=str(self.temporary))
        # a cargo that is at hand is not on this PATH
        return {**told, "PATH": f"{self.room / 'bin'}:{self.room / 'bare'}"}

    def script(self, *words: str, **acts: str) -> Ran:
        """Runs the script as it would be called from another folder."""
        return run(self.top / "bootcore", *words, cwd=self.folder, env=self.env(acts))

    def interrupted(self, *words: str, **acts: str) -> Ran:
        """The same as from a terminal, with an interrupt once a stand-in stays."""
        how = {"stdin": subprocess.DEVNULL, "stdout": subprocess.PIPE, "stderr": subprocess.PIPE, "start_new_session": True}
        # what a shell starts in the background ignores the interrupt, and so does all that it starts
        how.update(env={**os.environ, **self.env(acts)}, preexec_fn=lambda: signal.signal(signal.SIGINT, signal.SIG_DFL))
        process = subprocess.Popen([self.top / "bootcore", *words], cwd=self.folder, **how)
        until = time.monotonic() + 20
        while not self.stays.exists() and process.poll() is None and time.monotonic() < until:
            time.sleep(0.05)
        os.killpg(process.pid, signal.SIGINT)
        out, err = process.communicate(timeout=60)
        return Ran(["bootcore", *words], self.folder, process.returncode, out, err)

    def did(self, sentence: str, called: str, image: Optional[str] = "an image") -> None:
        """A check of which stand-ins were called, and that nothing is left of the runs but IMAGE."""
        with self.check(sentence):
            self.assertEqual(self.calls.read_text().split(), called.split(), "what was called, in this order")
            self.assertEqual(os.listdir(self.temporary), [], f"what is left in {self.temporary}")
            self.assertEqual(self.image.read_text() if self.image.exists() else None, image, f"what is in {self.image}")


class StandIns(StandInChecks):
    """What the script does with words, by what those that it calls do."""

    def test_both(self) -> None:
        ran = self.script(*self.BOOT, rt=f"{BOOTS}; echo a line >&2; end 0", bootcore=f"{BOOTS}; echo a line >&2")
        err = f"{COMPILES}a line\n{LOOKED}{BUILDS}{SAME}"
        self.ends("what both runs report the same is written once, with what kind of run it was", ran, 0, OUT, err)
        self.did("the look comes first, then the proof, then the program", "rt build bootcore")
        for which, act, out, err, status, image in DIFFERENCES:
            self.setUp()
            ran = self.script(*self.BOOT, bootcore=act)
            said = f"{COMPILES}{LOOKED}{BUILDS}{PROVED}THE RUNS DIFFER: {which}; the proved program's lines follow\n{err}"
            self.ends(f"that both runs differ in their {which} is reported", ran, status, f"{OUT}{out}", said)
            self.did(f"IMAGE is the proved program's, or none, after runs that differ in their {which}", "rt build bootcore", image)

    def test_proof_fails(self) -> None:
        ran = self.script(*self.BOOT, build='until_gone "$2"; note; exit 1')
        err = f"{COMPILES}{LOOKED}{BUILDS}bootcore: the program could not be built\n"
        self.ends("after a proof that fails the status is 127", ran, 127, OUT, err)
        self.did("after a proof that fails no file is left but IMAGE", "rt build")

    def test_beside(self) -> None:
        build = 'if [ "$(ps -o sid= -p $$)" -eq $$ ]; then touch "$STAYS"; fi; until_gone "$2"; make'
        ran = self.script(*self.BOOT, build=build, rt=f'until [ -e "$STAYS" ]; do sleep 0.02; done; {BOOTS}; end 0')
        sentence = "the proof begins beside the look, in a session of its own, and says nothing before that has ended"
        self.ends(sentence, ran, 0, OUT, f"{COMPILES}{LOOKED}{BUILDS}{SAME}")

    def test_interrupt(self) -> None:
        ran = self.interrupted(*self.BOOT, build='until_gone "$2"; note; stay')
        self.ends("an interrupt during the proof has the status 130", ran, 130, OUT, f"{COMPILES}{LOOKED}{BUILDS}")
        self.did("an interrupt during the proof leaves no file but IMAGE", "rt build")
        with self.check("an interrupt ends the proof"):
            self.assertRaises(ProcessLookupError, os.kill, int(self.stays.read_text()), 0)
        self.setUp()
        ran = self.interrupted(*self.BOOT, build="exec sleep 20", rt="note; stay")
        self.ends("an interrupt during the look ends both with the status 130", ran, 130, "", COMPILES)
        self.did("an interrupt during the look leaves no file", "rt", None)

    def test_look(self) -> None:
        self.ends("--look ends after the run without a proof", self.script("--look", *self.BOOT), 0, OUT, f"{COMPILES}{LOOKED}")
        self.did("--look proves and builds nothing", "rt")
        for status, err in ((1, ""), (2, "bad description\n"), (64, "bad command line\n")):
            ran = self.script("--look", *self.BOOT, rt=f"echo a line; printf '{err}' >&2; end {status}")
            self.ends(f"--look reports the program's lines, its status {status}, no line of rt", ran, status, "a line\n", COMPILES + err + LOOKED)

    def test_no_answer(self) -> None:
        for what, act, why in NO_ANSWERS:
            self.image.write_text("an older image")
            ran = self.script("--look", *self.BOOT, rt=act)
            self.ends(f"a look {what} has the status 127", ran, 127, "", f"{COMPILES}{NONE}{why}\n")
            with self.check(f"a look {what} leaves an older IMAGE as it was"):
                self.assertEqual(self.image.read_text(), "an older image")
        ran = self.script(*self.BOOT, rt=NO_ANSWERS[0][1])
        err = f"{COMPILES}{NONE}{NO_ANSWERS[0][2]}\n{BUILDS}"
        self.ends("after a look that has no answer the proved program alone reports", ran, 0, OUT, err)

    def test_none(self) -> None:
        ran = self.script("boot", "none.toml", "--out", "new.image")
        err = f"{NONE}none.toml is no regular file that can be read\n{BUILDS}"
        self.ends("where there is no look, that is said and the build comes at once", ran, 0, OUT, err)
        self.did("where there is no look the program is built, and runs once", "build bootcore")
        self.setUp()
        self.ends("--no-look runs the words after the proof", self.script("--no-look", *self.BOOT), 0, OUT, BUILDS)
        self.did("--no-look never calls rt", "build bootcore")

    def test_built(self) -> None:
        source = self.top / "crates/bootcore/src"
        newest = max(file.stat().st_mtime for file in (self.top / "crates.txt", source, source / "program.rt"))
        for seconds, options in ((60, []), (60, ["--look"]), (60, ["--no-look"]), (-60, [])):
            self.setUp()
            self.built.parent.mkdir()
            write_script(self.built, STAND_IN)
            os.utime(self.built, (newest + seconds,) * 2)
            which, called = ("newer", "bootcore") if seconds > 0 else ("older", "build bootcore")
            sentence = f"a program {which} than its sources is run{'' if seconds > 0 else ' once it is built anew'}, with {options}"
            ran = self.script(*options, *self.BOOT, build='until_gone "$2"; touch "${BUILT%/out/*}/src"; sleep 0.1; make')
            self.ends(sentence, ran, 0, OUT, "" if seconds > 0 else BUILDS_CHANGED)
            self.did(f"{sentence}, without a look", called)
        self.ends("what is edited during a build is built by the next call", self.script(*self.BOOT), 0, OUT, BUILDS_CHANGED)

    def test_without_rt(self) -> None:
        bare = {"PATH": str(self.room / "bare")}
        err = "bootcore: the command 'rt' of the Rattle toolchain is not on the PATH; without a proof cargo serves too\n"
        for words in (["boot"], ["--look", "map", "first.toml"], ["--no-look", "map", "first.toml"]):
            ran = run(self.top / "bootcore", *words, cwd=self.folder, env=bare)
            self.ends(f"with no rt and no cargo on the PATH `bootcore {' '.join(words)}` says so", ran, 127, "", err)
        ran = run(self.top / "bootcore", "--look", "--help", env=bare)
        with self.check("--help prints the program's words, also where it is not built, and the script's options"):
            self.assert_ended(ran, 0, None)
            form = rf"bootcore {version()}\nusage: bootcore boot DESC .*\noptions of the script .*\n +--look +.*\n +--no-look +.*\n"
            self.assertRegex(ran.out.decode(), f"(?s)^{form}$")


class ByCargo(StandInChecks):
    """The same where there is cargo, with `rt` or without."""

    @classmethod
    def setUpClass(cls) -> None:
        super().setUpClass()
        write_script(cls.room / "bin/cargo", STAND_IN)
        write_script(cls.top / "tools/plain", STAND_IN)
        cls.rt, cls.plain = cls.room / "bin/rt", cls.top / "out/plain/bootcore"
        cls.hidden = cls.rt.rename(cls.room / "rt")

    def setUp(self) -> None:
        super().setUp()
        shutil.rmtree(self.plain.parent, ignore_errors=True)

    def env(self, acts: dict) -> dict:
        return {**super().env({"plain": MAKES_PLAIN, **acts}), "PLAIN": str(self.plain)}

    def test_without_rt(self) -> None:
        for option in ([], ["--look"]):
            self.setUp()
            ran = self.script(*option, *self.BOOT)
            self.ends(f"without rt cargo builds the plain program, and it runs, with {option}", ran, 0, OUT, BUILDS_PLAIN + RUNS_PLAIN)
            self.did(f"without rt nothing else is called, with {option}", "plain bootcore")
        ran = self.script(*self.BOOT, bootcore=f"{BOOTS}; echo a line >&2; exit 1")
        self.ends("what stands is run at once, with its status", ran, 1, OUT, f"{RUNS_PLAIN}a line\n")
        self.setUp()
        ran = self.script(*self.BOOT, plain='[ "$1" = --needed ] || { echo "plain: why" >&2; exit 127; }')
        self.ends("that cargo builds nothing is told", ran, 127, "", f"{BUILDS_PLAIN}plain: why\n")
        why = "bootcore: the command 'rt' of the Rattle toolchain is not on the PATH; without a proof cargo serves too\n"
        self.ends("--no-look wants a proof", self.script("--no-look", *self.BOOT), 127, "", why)

    def test_look(self) -> None:
        shutil.copy2(self.hidden, self.rt)
        self.addCleanup(self.rt.unlink)
        ran = self.script("--look", *self.BOOT)
        self.ends("--look is by cargo, where it is at hand", ran, 0, OUT, COMPILES_PLAIN + LOOKED_PLAIN)
        self.did("a look by cargo calls no rt", "plain bootcore")
        ran = self.script("--look", *self.BOOT, bootcore="echo a line >&2; exit 2")
        self.ends("it has the program's status", ran, 2, "", f"a line\n{LOOKED_PLAIN}")
        self.setUp()
        err = f"{COMPILES_PLAIN}{LOOKED_PLAIN}{BUILDS}{SAME}"
        self.ends("a proof follows a look by cargo, and the runs are compared", self.script(*self.BOOT), 0, OUT, err)
        self.did("the proved program runs after a look by cargo", "plain bootcore build bootcore")
        self.setUp()
        other = f'{BOOTS}; case $0 in */plain/*) ;; *) image "another" "$@" ;; esac'
        ran = self.script(*self.BOOT, bootcore=other)
        said = f"{COMPILES_PLAIN}{LOOKED_PLAIN}{BUILDS}{PROVED}THE RUNS DIFFER: image; the proved program's lines follow\n"
        self.ends("that the proved program writes another image than the plain one is reported", ran, 0, OUT * 2, said)
        self.setUp()
        ran = self.script("--look", *self.BOOT, plain='[ "$1" = --needed ] || { echo "plain: why" >&2; exit 1; }')
        self.ends("where cargo builds nothing the look is by rt", ran, 0, OUT, f"{COMPILES_PLAIN}plain: why\n{COMPILES}{LOOKED}")
        self.did("where cargo builds nothing rt is called", "rt")
        self.setUp()
        ran = self.script("boot", "first.toml", "--out", "first.toml")
        err = f"{COMPILES_PLAIN}{NONE}first.toml is also a file that is read\n{BUILDS}"
        self.ends("there is no look of words that change what is read", ran, 0, OUT, err)


class Beside(Checks):
    """tools/build of two crates, one after the other, where rt notes the priorities that it has."""

    RT = r"""#!/usr/bin/env bash
crate=${PWD##*/}
if [ "$crate" = b ]; then timeout 20 sh -c 'until grep -q "nice 0$" /proc/self/autogroup; do sleep 0.1; done'; fi
{ ps -o cls= -p $$ && sed 's/.*nice/nice/' "/proc/$$/autogroup"; } >"$NOTES/$crate"
rm -f "$NOTES/looking"
mkdir -p out
"""

    def test_beside(self) -> None:
        if not is_at_hand("chrt") or run("chrt", "--idle", "0", "true").status != 0 or not Path("/proc/self/autogroup").exists():
            self.skipTest("chrt is not at hand or may not be called, or this Linux has no autogroup")
        for name in ("tools", "crates/a/src", "crates/b/src"):
            (self.room / name).mkdir(parents=True)
        shutil.copy2(TOP / "tools/build", self.room / "tools")
        for name, text in {"tools/build.seconds": "a 1\nb 1\n", "crates.txt": "a:\nb: a\n", "HANDLES": "", "looking": ""}.items():
            (self.room / name).write_text(text)
        write_script(self.room / "rt", self.RT)
        env = {"PATH": f"{self.room}:{os.environ['PATH']}", "NOTES": str(self.room)}
        own = run("ps", "-o", "cls=", "-p", str(os.getpid())).out.split()
        ran = run(self.room / "tools/build", "--beside", self.room / "looking", "b", env=env)  # in a session of its own
        with self.check("what is proved beside a look has the lowest priority, what begins later the usual one"):
            self.assert_ended(ran, 0, None, None)
            came = [(self.room / name).read_bytes().split() for name in ("a", "b")]
            self.assertEqual(came, [[b"IDL", b"nice", b"19"], [*own, b"nice", b"0"]], f"ran: {ran}")


def write_script(file: Path, text: str) -> None:
    file.write_text(text, encoding="utf-8")
    file.chmod(0o755)
