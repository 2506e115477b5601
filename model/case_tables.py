"""What stands in the tables of cases/: rows, descriptions, changed images."""

import os
import subprocess
from typing import Dict, Iterator, List, Tuple

from program import TOP
from rules import booting, image

IMAGES = [os.path.join(TOP, "cases", table) for table in ("images", "told_images")]
# The descriptions whose images are changed, by the name that the tables have for them.
BASES = {"first": ("examples", "first"), "second": ("examples", "second"),
         "told": ("cases", "base", "firmware"), "told_linux": ("cases", "base", "firmware_linux")}


def read_lines(path: str) -> List[str]:
    with open(path, encoding="utf-8") as file:
        return file.read().splitlines()


def descriptions(folder: str) -> Iterator[Tuple[str, str, bytes]]:
    """Each case, as cases/expand writes it into a folder: its name, what is wanted, its text."""
    subprocess.run([os.path.join(TOP, "cases", "expand"), folder], check=True)
    for row in read_lines(os.path.join(folder, "wanted")):
        name, wanted = row.split("|", 1)
        with open(os.path.join(folder, name + ".toml"), "rb") as file:
            yield name, wanted, file.read()


def changed_images() -> Iterator[Tuple[str, bytes]]:
    """Each row of the tables of images with its image."""
    bases = base_images()
    for row in (row for table in IMAGES for row in read_lines(table)):
        if not row.startswith("#"):
            _, base, changes, _ = row.split("|", 3)
            yield row, changed(bases[base], changes)


def base_images() -> Dict[str, bytes]:
    """The images of these descriptions, in both versions."""
    bases = {}
    for name, path in BASES.items():
        with open(os.path.join(TOP, *path) + ".toml", "rb") as file:
            run = booting.boot(file.read(), booting.paths_from(TOP))
        for version in (image.OLD, image.WRITTEN):
            bases[f"{name}.{version}"] = image.spell(run.handover, version)
    return bases


def changed(data: bytes, changes: str) -> bytes:
    """@OFFSET=BYTES puts bytes over it, <LENGTH cuts it, other BYTES are appended."""
    new = bytearray(data)
    for change in changes.split():
        if change.startswith("@"):
            at, digits = change[1:].split("=")
            over = bytes.fromhex(digits)
            new[int(at, 16):int(at, 16) + len(over)] = over
        elif change.startswith("<"):
            del new[int(change[1:], 16):]
        else:
            new += bytes.fromhex(change)
    return bytes(new)
