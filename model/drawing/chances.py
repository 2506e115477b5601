"""Small draws: chances, numbers near edges, bytes, changes of bytes."""

from random import Random
from typing import List

EDGES = [0, 1, 2, 7, 8, 15, 16, 0x7F, 0x80, 0xFF, 0x100, 0xFFF, 0x1000, 0x1001, 0x7FFF, 0x8000,
         0x9F000, 0xA0000, 0xFFFFF, 0x100000, 0x100001, 0x7FFFFFFF, 0x80000000, 0xFFFFF000,
         0xFFFFFFFE, 0xFFFFFFFF, 1 << 32, (1 << 32) + 1, (1 << 52) - 1, 1 << 52, (1 << 52) + 1,
         (1 << 63) - 1, 1 << 63, (1 << 64) - 1]


def chance(rng: Random, percent: float) -> bool:
    return rng.random() * 100 < percent


def some_bytes(rng: Random, count: int) -> bytes:
    return rng.getrandbits(8 * count).to_bytes(count, "little") if count else b""


def length(rng: Random) -> int:
    """Of a file: near the edges of frames, or small."""
    return rng.choice([0, 1, 2, rng.randrange(200), rng.randrange(9000), 4095, 4096, 4097, 8191,
                       8192, 8193, 12288])


def copy(rng: Random, wild: float) -> bytes:
    """A copy of an RSDP; so many of a hundred have a length that no entry may have."""
    if chance(rng, wild):
        return some_bytes(rng, rng.choice([0, 0, 257, 257, 300, rng.randrange(257, 600)]))
    return some_bytes(rng, rng.choice([1, 20, 20, 36, 36, 255, 256, rng.randrange(1, 257)]))


def number(rng: Random, bits: int) -> int:
    """Of so many bits: an edge, a small one, or any."""
    value = rng.choice([rng.choice(EDGES), rng.randrange(64), rng.getrandbits(bits),
                        rng.choice(EDGES) + rng.randrange(-3, 4)])
    return value % (1 << bits)


def near(rng: Random, value: int, bits: int) -> int:
    """A number near another one."""
    return (value + rng.choice([-4096, -8, -4, -1, 1, 4, 8, 4096])) % (1 << bits)


def changed(rng: Random, data: bytes, places: List[int], resized: float = 40) -> bytes:
    """One change of some bytes, in three of four at one of the places; so many of a hundred changes
    make it shorter or longer."""
    data = bytearray(data)
    at = rng.choice(places) if places and chance(rng, 75) else rng.randrange(len(data) + 1)
    at = min(at, max(len(data) - 1, 0))
    if not chance(rng, resized):
        if not data:
            return b""
        if chance(rng, 15):  # a bit
            data[at] ^= 1 << rng.randrange(8)
            return bytes(data)
        size = rng.choice([1, 2, 4, 4, 8])  # a field
        old = int.from_bytes(data[at:at + size], "little")
        new = rng.choice([number(rng, 8 * size), near(rng, old, 8 * size)])
        data[at:at + size] = new.to_bytes(size, "little")[:len(data) - at]
        return bytes(data)
    what = rng.randrange(4)
    if what == 0:
        return bytes(data[:at])
    if what == 1:
        return bytes(data[:len(data) - rng.randrange(5)])
    if what == 2:
        return bytes(data[:at] + some_bytes(rng, rng.choice([1, 2, 4, 8, 16])) + data[at:])
    return bytes(data[:at] + data[at + rng.choice([1, 2, 4, 8]):])
