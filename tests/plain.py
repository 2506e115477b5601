"""Which programs are tested where there is no toolchain: those of the plain source, which cargo builds"""

import os
import shutil
import subprocess
import sys
from pathlib import Path
from typing import List

TOP = Path(__file__).resolve().parent.parent
PROVED = TOP / "crates/bootcore/out/bootcore"
PRODUCTS = ["bootcore", "bootcore-rows", "libbootcore.a", "libbootcore_freestanding.a"]
# what is about a proof, or about what only the proved source makes
PARTS_LEFT_OUT = {
    "gate": "the command 'rt' of the Rattle toolchain, which proves, is not at hand",
    "look": "it compares a run without a proof with the proved program",
}


def is_chosen() -> bool:
    return bool(os.environ.get("BOOTCORE_PLAIN"))


def choose(words: List[str]) -> None:
    """Builds the plain source's programs, where neither `rt` nor a proved program is at hand, but cargo, and names their folder."""
    if words in (["--help"], ["--list"]) or is_chosen() or PROVED.exists() or shutil.which("rt"):
        return
    if shutil.which("cargo") is None:
        return
    print("test: without rt the programs of the plain source are tested, which cargo builds in a minute or two", flush=True)
    for product in PRODUCTS[:2] if words == ["quick"] else PRODUCTS:
        if subprocess.run([TOP / "tools/plain", product]).returncode != 0:
            print(f"test: {product} of the plain source is not built", file=sys.stderr)
            break
    os.environ["BOOTCORE_PLAIN"] = str(TOP / "out/plain")
    os.environ["BOOTCORE_NO_PROOF"] = "yes"


def why_left_out(part: str) -> str:
    """Why a part is left out of a test without rt; nothing if it is not."""
    return PARTS_LEFT_OUT.get(part, "") if os.environ.get("BOOTCORE_NO_PROOF") else ""
