"""Linux kernels: whole or changed."""

from random import Random

from rules.numbers import long, word

from .chances import chance, changed, number, some_bytes
from .headers import short

MIB = 1 << 20


def draw(rng: Random, line_length: int) -> bytes:
    """A kernel that takes the line, mostly; one in three is changed."""
    sectors = rng.choice([0, 1, 1, 1, 2, 4])
    file = bytearray(rng.choice([bytes, lambda count: some_bytes(rng, count)])(
        512 * ((sectors or 4) + 1)))
    is_relocatable = chance(rng, 60)
    pref = rng.choice([MIB, MIB, MIB, MIB + 0x1000, MIB + 1, 2 * MIB])
    if is_relocatable:
        pref = rng.choice([pref, pref, 0, 0x1000, 1 << 32, number(rng, 64)])
    elif chance(rng, 6):
        pref = rng.choice([MIB - 1, 0, 1 << 32, 0xFFFFFFFF, number(rng, 64)])
    alignment = rng.choice([0x1000, 0x1000, 1, 0x10000, 0x100000, 0x200000])
    if chance(rng, 6):
        alignment = rng.choice([0, 3, 0x1800, 0x80000000, number(rng, 32)])
    most = rng.choice([0x37FFFFFF, 0xFFFFFFFF, 0x7FFFFFFF, 3 * MIB - 1, 2 * MIB, 0x8FFFF])
    size = rng.choice([255, 2047, line_length, 0xFFFFFFFF])
    if chance(rng, 6):
        size = max(line_length - 1, 0)
    init_size = rng.choice([0, 0x1000, 0x3000, 0x5432, 0x10000, MIB, rng.randrange(0x8000)])
    if chance(rng, 2):
        init_size = number(rng, 32)
    fields = [
        (0x1F1, bytes([sectors])), (0x1FA, some_bytes(rng, 2)), (0x1FE, b"\x55\xaa\xeb"),
        (0x201, bytes([rng.choice([0x62, 0x66, 0x66, 0x6A, 0x8E, 0x8F, 0xFF])])),
        (0x202, b"HdrS"),
        (0x206, short(rng.choice([0x20A, 0x20B, 0x20C, 0x20F, 0x300]))),
        (0x211, bytes([rng.choice([1, 1, 0x81, 0xFF])])),
        (0x22C, word(most)), (0x230, word(alignment)),
        (0x234, bytes([rng.choice([1, 1, 2, 0xFF]) if is_relocatable else 0])),
        (0x236, short(rng.choice([1, 1, 1, 3, 0x7F, 0, 2, number(rng, 16)]))),
        (0x238, word(size)), (0x258, long(pref)), (0x260, word(init_size)),
    ]
    for at, value in fields:
        file[at:at + len(value)] = value
    payload = rng.choice([1, 0x1FF, 0x200, 0x201, 0x400, 0x1000, 0x1001, rng.randrange(1, 0x3000)])
    kernel = bytes(file) + some_bytes(rng, payload)
    if chance(rng, 33):
        for _ in range(rng.choice([1, 1, 2])):
            kernel = changed(rng, kernel, [at for at, _ in fields] + [len(file), len(file) - 1], 25)
    return kernel
