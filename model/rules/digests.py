"""SHA-256 of an image, of its head and of each part. FORMATS.md "What the program says", the lines
of `digest`; FIPS 180-4."""

import hashlib
from typing import Iterable, List, Tuple

from . import image
from .handover import PART_NAMES, Handover


def digest(chunks: Iterable[bytes]) -> Tuple[int, str]:
    """How many bytes there are, and their SHA-256."""
    length, hasher = 0, hashlib.sha256()
    for chunk in chunks:
        length += len(chunk)
        hasher.update(chunk)
    return length, hasher.hexdigest()


def line(part: str, index: str, address: str, chunks: Iterable[bytes]) -> str:
    """Five words in fields, the first at the left of its own; a longer word stands whole."""
    length, sha256 = digest(chunks)
    return f"{part:<11} {index:>5} {address:>8} {length:>10} {sha256:>64}"


def lines(handover: Handover) -> List[str]:
    """Of the image in the version that is written: all of it, its head with the records, each
    part."""
    parts = [line(PART_NAMES[part.role], str(part.index), f"{part.address:08x}",
                  image.part_chunks(part)) for part in handover.parts]
    return [line("image", "-", "-", image.chunks(handover)),
            line("head", "-", "-", [image.head(handover)]), *parts]
