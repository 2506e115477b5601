"""what can be checked in five minutes, of the proved programs if they stand; it proves nothing"""

import os
import time

from tests import quick_look, runner, support

REMARK = (
    "quick: this run proved nothing. ./test is the whole: it proves each crate, tries the edits that the prover must refuse,",
    "quick: and runs all parts; ./test --list has them.",
)


def run() -> int:
    """Runs the parts that need no proof; what the toolchain compiles without one is begun first, and looked at last."""
    support.may_lack_programs = True
    began = time.monotonic()
    if support.PLAIN or os.access(support.PROGRAM, os.X_OK):
        parts = ["docs", "scripts", "rows", "cases", "program", "images", "digest", "model"]
        which = "the programs of the plain source in out/plain" if support.PLAIN else "the proved programs in crates/*/out"
        of_what = f"quick: cases, images and the program's runs are those of {which}"
    else:
        quick_look.begin()
        parts = ["docs", "scripts", "rows", "model", "quick_look"]
        of_what = "quick: no proved program stands: one example ran without a proof, cases and images did not"
    took = lambda: f"quick: {time.monotonic() - began:.0f} seconds"
    return runner.run_parts(parts, lambda: (took(), of_what, *REMARK))
