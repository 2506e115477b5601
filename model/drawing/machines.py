"""Machines: maps with holes, of a few MiB mostly, and pools of a few frames."""

from random import Random
from typing import List

from rules.machine import MAX_REGIONS, Machine, Region, usable_ranges
from rules.numbers import FRAME, round_down, round_up

from . import firmware
from .chances import chance, number

MIB = 1 << 20


def draw(rng: Random) -> Machine:
    """A machine without fault, in nineteen of twenty. Of half of them firmware tells something."""
    size = MIB * rng.choice([1, 2, 2, 3, 4, 4, 4, 8, 16, 16, 64, 4096])
    if chance(rng, 20):
        size = min(size + FRAME * rng.randrange(256), 4096 * MIB)
    regions = draw_regions(rng, size)
    pool = draw_pool(rng, Machine(size, regions, (0, 0)))
    machine = Machine(size, regions, pool)
    machine = machine._replace(firmware=firmware.draw(rng, machine))
    return broken(rng, machine) if chance(rng, 5) else machine


def draw_regions(rng: Random, size: int) -> List[Region]:
    """The map of a usual machine, with holes and in pieces."""
    low = rng.choice([0x9F000, 0x9FC00, 0xA0000, 0x80000, 0x6000])
    regions = [Region(0, low, 1), Region(0xF0000, 0x10000, 2)]
    if chance(rng, 10):
        regions = [Region(0, min(size, 3 * MIB), 1)]
    if size > MIB or chance(rng, 50):
        regions += pieces(rng, MIB, rng.choice([size, size, size, size + MIB, size - FRAME]))
    for _ in range(rng.choice([0, 0, 0, 1, 1, 2, 3, 6])):
        regions.append(draw_hole(rng, size))
    if chance(rng, 4):
        regions += comb(rng)
    if chance(rng, 70):
        rng.shuffle(regions)
    return regions


def pieces(rng: Random, start: int, end: int) -> List[Region]:
    """Usable memory in one to three regions, which adjoin or overlap."""
    if end <= start:
        return []
    if chance(rng, 60):
        return [Region(start, end - start, 1)]
    cut = start + rng.randrange(end - start)
    overlap = rng.choice([0, 0, 1, FRAME])
    return [Region(start, min(cut + overlap, end) - start, 1), *pieces(rng, cut, end)]


def draw_hole(rng: Random, size: int) -> Region:
    """Some memory of another kind, mostly of whole frames and near the places that matter."""
    base = rng.choice([0x1000, 0x2000, 0x3000, 0x9E000, MIB, MIB + 0x1000, MIB + 0x10000,
                       rng.randrange(size), rng.randrange(size), size - 0x10000])
    count = rng.choice([0, 1, 2, 8, 64]) * FRAME
    if chance(rng, 30):
        base, count = base + rng.randrange(FRAME), rng.randrange(2 * FRAME)
    else:
        base = round_down(base, FRAME)
    return Region(base, count, rng.choice([1, 2, 2, 3, 4, 5]))


def comb(rng: Random) -> List[Region]:
    """Many regions that do not adjoin: near the most runs for Linux, or the most regions."""
    count = rng.choice([40, 61, 62, 63, 64, 120, MAX_REGIONS - 2])
    return [Region(0x200000 + 0x2000 * i, 0x1000, 2) for i in range(count)]


def draw_pool(rng: Random, machine: Machine):
    """Some frames, all of them usable if there are any."""
    ranges = [(round_up(start, FRAME), round_down(end, FRAME))
              for start, end in usable_ranges(machine)]
    ranges = [(start, end) for start, end in ranges if start < end]
    if not ranges or chance(rng, 2):
        at = FRAME * rng.randrange(2048)
        return at, at
    start, end = rng.choice(ranges + [max(ranges, key=lambda range_: range_[1] - range_[0])] * 8)
    frames = (end - start) // FRAME
    few = [1, 2, 3, 4, 5, 6, 7, 8]
    count = min(frames, rng.choice(few if chance(rng, 18) else [16, 20, 32, 64, 256]))
    skipped = rng.choice([0, frames - count, rng.randrange(frames - count + 1)])
    return start + skipped * FRAME, start + (skipped + count) * FRAME


def broken(rng: Random, machine: Machine) -> Machine:
    """With a change that may be a fault."""
    what = rng.randrange(5)
    if what == 0:
        return machine._replace(size=rng.choice([
            0, MIB - FRAME, machine.size + 1, (1 << 32) + FRAME, number(rng, 62)]))
    if what == 1:
        far = Region(number(rng, 62), number(rng, 62), rng.randrange(1, 6))
        return machine._replace(regions=[*machine.regions, far])
    if what == 2:
        more = MAX_REGIONS + rng.randrange(2) - len(machine.regions)
        return machine._replace(regions=machine.regions + [Region(0, 0, 1)] * more)
    start, end = machine.pool
    if what == 3:
        return machine._replace(pool=(end, start))
    shift = rng.choice([1, 2048, FRAME, -FRAME])
    return machine._replace(pool=(start, max(end + shift, 0)))
