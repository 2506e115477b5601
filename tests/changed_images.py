"""The images of two examples in both versions and of two cases, and the tables of cases/: what a walk and a conversion say of them, changed."""

from pathlib import Path
from typing import Dict, Iterable, Iterator, NamedTuple, Optional, Tuple

from tests.examples import EXAMPLES
from tests.support import TOP, run

TABLES = (TOP / "cases/images", TOP / "cases/told_images")
DESCRIPTIONS = {
    "first": EXAMPLES / "first.toml",
    "second": EXAMPLES / "second.toml",
    "told": TOP / "cases/base/firmware.toml",
    "told_linux": TOP / "cases/base/firmware_linux.toml",
}
LENGTH_OF_HEAD = {1: 104, 2: 272}  # without the records of the parts

# The head of the second example's image in version 1; what follows the head is the same in both versions.
SECOND_HEAD_1 = bytes.fromhex(
    "424c494d414745000100000002000000"  # magic, version, protocol
    "0000100000000000000000000000000000000000"  # EIP to EDX
    "00100000000000000000000000000000"  # ESI to ESP
    "0200000011000000"  # EFLAGS, CR0
    "100000001800000018000000180000001800000018000000"  # CS to SS
    "003000001f000000010000000500000000000000"  # GDT base, GDT limit, A20, five parts, a zero word
)


class ChangedImage(NamedTuple):
    """A row of cases/images: an image by its difference from an example's, and what is wanted of it."""

    name: str
    base: str  # an example and a version of images, such as first.1
    changes: Tuple[str, ...]
    status: int  # of a walk, and what it prints
    lines: str
    new: str  # what a conversion writes, as a SHA-256, or the line that it blames

    @property
    def out(self) -> str:
        """The standard output of a walk."""
        return self.lines if self.status == 0 else ""

    @property
    def err(self) -> str:
        """The standard error of a walk."""
        return "" if self.status == 0 else self.lines

    @property
    def blame(self) -> Optional[str]:
        """The standard error of a conversion that is refused, which has the status 2."""
        return self.new + "\n" if self.new.startswith("bad image ") else None

    @property
    def digest(self) -> Optional[str]:
        """The SHA-256 of the image that a conversion writes."""
        return None if self.blame else self.new

    def __str__(self) -> str:
        return f"{self.base} with '{self.name}'"


def changed_images(tables: Iterable[Path] = TABLES) -> Iterator[ChangedImage]:
    """The rows of cases/images and cases/told_images, in their order."""
    for table in tables:
        for number, line in enumerate(table.read_text(encoding="utf-8").splitlines(), 1):
            if line.startswith("#"):
                continue
            try:
                name, base, changes, status, lines, new = line.split("|")
            except ValueError:
                raise ValueError(f"{table}:{number}: not six fields: {line}") from None
            yield ChangedImage(name, base, tuple(changes.split()), int(status), lines.replace("; ", "\n") + "\n", new)


def change(data: bytes, words: Iterable[str]) -> bytes:
    """The bytes after changes in their order: `@OFFSET=BYTES` over them, `<LENGTH` cuts them, other BYTES are appended.

    All are hexadecimal digits. A place behind the end is a mistake of the table.
    """
    for word in words:
        if word.startswith("@"):
            offset, _, digits = word[1:].partition("=")
            first, part = int(offset, 16), bytes.fromhex(digits)
            if not part or first + len(part) > len(data):
                raise ValueError(f"{word}: no bytes, or bytes behind the end of {len(data):#x} bytes")
            data = data[:first] + part + data[first + len(part) :]
        elif word.startswith("<"):
            length = int(word[1:], 16)
            if length >= len(data):
                raise ValueError(f"{word}: cuts nothing of {len(data):#x} bytes")
            data = data[:length]
        else:
            data += bytes.fromhex(word)
    return data


def image_by_hand() -> bytes:
    """The first example's image of version 1, written by hand from docs/FORMATS.md."""
    return bytes.fromhex((EXAMPLES / "first.image.hex").read_text(encoding="ascii"))


def base_images(folder: Path, program: Path) -> Dict[str, Path]:
    """The images that the tables start from, as `folder`/NAME.image; the program writes those of version 2."""
    images = {name: folder / f"{name}.image" for name in ("first.1", "first.2", "second.1", "second.2", "told.2", "told_linux.2")}
    for name, description in DESCRIPTIONS.items():
        ran = run(program, "boot", description, "--out", images[f"{name}.2"])
        if ran.status != 0:
            raise AssertionError(f"ran: {ran}\nstatus {ran.status}, wanted 0\n{ran.err.decode(errors='replace')}")
    images["first.1"].write_bytes(image_by_hand())
    images["second.1"].write_bytes(SECOND_HEAD_1 + images["second.2"].read_bytes()[LENGTH_OF_HEAD[2] :])
    return images
