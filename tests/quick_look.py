"""The first example by a run without a proof, which compiles the program as it stands and takes one to two minutes"""

import atexit
import shutil
import subprocess
import tempfile
from pathlib import Path
from typing import List

from tests.examples import FIRST, FIRST_IMAGE
from tests.look_script import COMPILES, LOOKED, OUT
from tests.support import TOP, Checks, Ran, is_at_hand

_begun: List[subprocess.Popen] = []


def begin() -> None:
    """Starts the run in the background, once, if rt is there for it; the test waits for its end."""
    if _begun or not is_at_hand("rt"):
        return
    room = tempfile.mkdtemp(prefix="bootcore-test-")
    atexit.register(shutil.rmtree, room, ignore_errors=True)
    # by the script that ./bootcore --look calls, so that it is this run also where a proved program stands
    words = [str(TOP / "tools/look"), "--by", "rt", "boot", str(FIRST), "--out", f"{room}/first.image"]
    how = {"stdin": subprocess.DEVNULL, "stdout": subprocess.PIPE, "stderr": subprocess.PIPE}
    _begun.append(subprocess.Popen(words, **how))
    atexit.register(_begun[0].wait)
    atexit.register(_begun[0].terminate)  # on which it ends what it started too


class QuickLook(Checks):
    def test_first(self) -> None:
        """the first example boots by a run without a proof"""
        begin()
        if not _begun:
            self.skipTest("the toolchain's command rt, which runs it without a proof, is not on the PATH")
        out, err = _begun[0].communicate(timeout=600)  # the compiler is slow where other things run beside it
        ran = Ran(_begun[0].args, TOP, _begun[0].returncode, out, err)
        self.ends("a run of the first example without a proof boots it, and says what it is", ran, 0, OUT, COMPILES + LOOKED)
        self.has_digest("its image by a run without a proof is the expected one", FIRST_IMAGE[1], Path(ran.words[-1]))
