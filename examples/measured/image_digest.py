"""The digest that the image of a description must have: the proved program says it."""

import os
import re
import shutil
import tempfile
from pathlib import Path
from typing import Dict, List

from description import Described, Module, written
from known import covered_bytes
from limits import BOOTCORE_SECONDS, FILE_BYTES
from reading import BadInput, fault, opened, pieces
from running import ran

BUILT = Path(__file__).resolve().parent.parent.parent / "crates/bootcore/out/bootcore"
UNREAD = (1, 2)  # refusals of a file that the program could not read
OFF = 2  # Secure Boot, as a description has it


def image_digest(described: Described, files: List[Path]) -> bytes:
    """Of the description's machine and entry with these files, the kernel first. Their names decide nothing of an image, and the
    paths that were measured may lead anywhere here: so the files have other names."""
    modules = [Module(f"module{i}", module.line) for i, module in enumerate(described.modules)]
    held = {"kernel": files[:1], **{module.file: [file] for module, file in zip(modules, files[1:])}}
    named = described._replace(kernel="kernel", modules=modules)
    if described.initrd is not None:
        named = named._replace(initrd="ramdisk")
        held["ramdisk"] = files[1:]
    return program_digest(written(named), held, kernel_bytes(described, files[0]))


def kernel_bytes(described: Described, kernel: Path) -> int:
    """Where Secure Boot is on, the boot manager cuts a Linux kernel's file where its last section ends."""
    is_off = described.firmware.tables.get("efi", {}).get("secure_boot", OFF) == OFF
    return FILE_BYTES if is_off or described.protocol == "multiboot2" else covered_bytes(kernel)


def program_digest(description: bytes, held: Dict[str, List[Path]], kernel_length: int = FILE_BYTES) -> bytes:
    """Where several files are held in the place of one, each begins at a multiple of 4, behind zeros, as ramdisks do."""
    named = os.environ.get("BOOTCORE") or (str(BUILT) if BUILT.exists() else "bootcore")
    program = shutil.which(named) or named
    if named == program == "bootcore":
        raise BadInput("the program bootcore is not at hand: tools/build makes it, BOOTCORE names it")
    with tempfile.TemporaryDirectory() as folder:
        for name, paths in held.items():
            join(Path(folder, name), paths, kernel_length if name == "kernel" else FILE_BYTES)
        Path(folder, "description").write_bytes(description)
        status, out, err = ran([os.path.abspath(program), "digest", "description"], Path(folder), BOOTCORE_SECONDS)
    refused = re.search(rb"^refused 0 (\d+)$", out, re.M)
    if refused and int(refused[1]) not in UNREAD:
        fault(f"bootcore refuses this entry on this machine, by the number {refused[1].decode()} of docs/REFUSALS.md")
    if status == 2:
        fault("bootcore refuses the machine or the entry of its description")
    told = re.search(rb"^image +- +- +\d+ ([0-9a-f]{64})$", out, re.M)
    if status != 0 or not told:
        raise BadInput(f"{program} ends with the status {status}, and tells no digest: {err.decode(errors='replace').strip()}")
    return bytes.fromhex(told[1].decode())


def join(whole: Path, paths: List[Path], most: int) -> None:
    with open(whole, "wb") as made:
        for path in paths:
            made.write(bytes(-made.tell() % 4))
            with opened(path, FILE_BYTES) as file:
                for piece in pieces(file, 0, most):
                    made.write(piece)
