"""What may have been measured: known by its bytes, and so by each bank's digest, or by digests of some banks alone. Of an EFI
application a firmware measures, into PCR 4, what "Windows Authenticode Portable Executable Signature Format" says: not its signature."""

import os
import re
from pathlib import Path
from typing import BinaryIO, Dict, Iterable, List, NamedTuple, Optional, Tuple

from event_log import BANKS, HASHES, SIZES, STRONG, Event
from limits import FILE_BYTES, HEADER_BYTES
from reading import BadInput, Fields, opened, pieces

Digests = Dict[str, bytes]  # by bank
Range = Tuple[int, int]  # start and end in a file

BY_SIZE = {SIZES[bank]: bank for bank in reversed(list(BANKS.values()))}  # of equally long ones that of SHA-2
WORD = re.compile(r"(?:([a-z][a-z0-9_]*):)?((?:[0-9a-fA-F]{2}){20,})")
SECURITY = 4  # of the header's directories that of signatures; a file may have fewer


def digest_word(word: str, where: str) -> Optional[Tuple[str, bytes]]:
    """A bank and its digest; None of another word. A digest without its bank's name is of SHA-1 or SHA-2, by its length."""
    found = WORD.fullmatch(word)
    if found is None:
        return None
    held = bytes.fromhex(found[2])
    bank = found[1] or BY_SIZE.get(len(held), "")
    if SIZES.get(bank) != len(held):
        raise BadInput(f"{where} has {word[:140]!r}, which is a digest of no bank: they are {', '.join(SIZES)}")
    return bank, held


def spelled(bank: str, came: bytes) -> str:
    return came.hex() if BY_SIZE.get(len(came)) == bank else f"{bank}:{came.hex()}"


class Known(NamedTuple):
    name: str  # a path in the folder of known files, or a digest, as a policy has it
    digests: Digests  # of the log's banks; not of all of them where its bytes are not known
    is_here: bool

    def is_of(self, event: Event) -> bool:
        """By each digest that is known. One of SHA-1 alone says nothing."""
        return any(bank in self.digests for bank in STRONG) and self.digests.items() <= event.digests.items()


class KnownSet:
    def __init__(self, listed: Iterable[Known]) -> None:
        self.found: Dict[Tuple[str, bytes], List[Known]] = {}
        for known in listed:
            for key in known.digests.items():
                same = self.found.setdefault(key, [])
                if all(known.digests != it.digests for it in same):
                    same.append(known)

    def of(self, event: Event) -> Optional[Known]:
        """Of several the one with digests of the most banks."""
        found = [it for key in event.digests.items() for it in self.found.get(key, []) if it.is_of(event)]
        return max(found, key=lambda it: len(it.digests), default=None)


def digests_of(file: BinaryIO, ranges: List[Range], banks: Iterable[str]) -> Digests:
    """They are hashed as they are read: a folder may have more bytes than memory has."""
    hashes = {bank: HASHES[bank](b"") for bank in banks}
    for start, end in ranges:
        for piece in pieces(file, start, end):
            for made in hashes.values():
                made.update(piece)
    return {bank: made.digest() for bank, made in hashes.items()}


def file_digests(path: Path, banks: Iterable[str]) -> Digests:
    with opened(path, FILE_BYTES) as file:
        return digests_of(file, [(0, FILE_BYTES)], banks)


def application_digests(path: Path, banks: Iterable[str]) -> Digests:
    with opened(path, FILE_BYTES) as file:
        ranges = measured_ranges(file.read(HEADER_BYTES), os.fstat(file.fileno()).st_size, str(path))
        return digests_of(file, ranges, banks)


def covered_bytes(path: Path) -> int:
    """Up to the end of an application's last section; of another file all."""
    with opened(path, FILE_BYTES) as file:
        try:
            return measured_ranges(file.read(HEADER_BYTES), os.fstat(file.fileno()).st_size, str(path))[-1][0]
        except BadInput:
            return FILE_BYTES


def measured_ranges(held: bytes, length: int, name: str) -> List[Range]:
    """The headers but for checksum and the directory of signatures, the sections in the order of their places, and
    what lies behind them up to the signatures."""

    def at(offset: int, size: int) -> int:
        return Fields(held, f"the application {name}", "little", offset).number(size)

    if held[:2] != b"MZ":
        raise BadInput(f"{name} is no EFI application")
    head = at(0x3C, 4)
    optional = head + 24
    magic = at(optional, 2)
    if held[head : head + 4] != b"PE\0\0" or magic not in (0x10B, 0x20B):
        raise BadInput(f"{name} is no EFI application")
    checksum = optional + 64
    directories = optional + (96 if magic == 0x10B else 112)
    security = directories + SECURITY * 8
    header_end = at(optional + 60, 4)
    ranges, signatures = [(0, checksum), (checksum + 4, header_end)], 0
    if at(directories - 4, 4) > SECURITY:
        ranges[1:] = [(checksum + 4, security), (security + 8, header_end)]
        signatures = at(security + 4, 4)
    table = optional + at(head + 20, 2)
    sections = [table + 40 * i for i in range(at(head + 6, 2))]
    places = sorted((at(it + 20, 4), at(it + 16, 4)) for it in sections)
    ranges += [(start, start + size) for start, size in places if size]
    covered = header_end + sum(size for _, size in places)
    return [*ranges, (covered, length - signatures)]
