"""Changes of bytes, drawn by lot: of any bytes, and of a log's events."""

import random
import struct
from typing import Callable, List

from examples.measured.tests import boots

DIGITS = b"0123456789abcdef"
INTERESTING = [0, 1, 2, 0x7F, 0x80, 0xFE, 0xFF]
NUMBERS = [0, 1, 3, 0xFF, 0xFFFF, 0x7FFFFFFF, 0x80000000, 0xFFFFFFFF]


def bit(held: bytearray, lot: random.Random) -> None:
    held[lot.randrange(len(held))] ^= 1 << lot.randrange(8)


def byte(held: bytearray, lot: random.Random) -> None:
    held[lot.randrange(len(held))] = lot.choice(INTERESTING + [lot.randrange(256)])


def number(held: bytearray, lot: random.Random) -> None:
    if len(held) >= 4:
        struct.pack_into(lot.choice(["<I", ">I"]), held, lot.randrange(len(held) - 3), lot.choice(NUMBERS))


def gone(held: bytearray, lot: random.Random) -> None:
    at = lot.randrange(len(held))
    del held[at : at + lot.choice([1, 2, 4, 32, 100, len(held)])]


def twice(held: bytearray, lot: random.Random) -> None:
    at = lot.randrange(len(held))
    held[at:at] = held[at : at + lot.choice([1, 4, 32, 100])]


def added(held: bytearray, lot: random.Random) -> None:
    at = lot.randrange(len(held) + 1)
    held[at:at] = bytes(lot.randrange(256) for _ in range(lot.choice([1, 2, 4, 20])))


def moved(held: bytearray, lot: random.Random) -> None:
    at, length = lot.randrange(len(held)), lot.choice([1, 4, 32, 100])
    taken = held[at : at + length]
    del held[at : at + length]
    to = lot.randrange(len(held) + 1)
    held[to:to] = taken


def digit(held: bytearray, lot: random.Random) -> None:
    """Another number in a text, which keeps its form."""
    places = [place for place, each in enumerate(held) if each in DIGITS]
    if places:
        held[lot.choice(places)] = lot.choice(DIGITS)


def ended(held: bytearray, lot: random.Random) -> None:
    held += lot.choice([b"\0", b"\xff", b"\n", bytes(64), b"\xff" * 64, b"x"])


ANY: List[Callable[[bytearray, random.Random], None]] = [bit, bit, byte, byte, number, gone, twice, added, moved, ended, digit, digit]


def changed(held: bytes, lot: random.Random) -> bytes:
    made = bytearray(held)
    for _ in range(lot.choice([1, 1, 1, 2, 4])):
        if made:
            lot.choice(ANY)(made, lot)
    return bytes(made)


def with_events_changed(log: bytes, lot: random.Random) -> bytes:
    """Whole events left out, doubled, moved; their PCRs, kinds and data changed, and their digests kept."""
    first, parts = boots.parted(log)
    events = [event for _, event in parts]
    for _ in range(lot.choice([1, 1, 2, 3])):
        lot.choice(OF_EVENTS)(events, lot.randrange(len(events)), lot)
    return first + b"".join(events)


def event_gone(events: List[bytes], at: int, lot: random.Random) -> None:
    if len(events) > 1:
        del events[at]


def event_twice(events: List[bytes], at: int, lot: random.Random) -> None:
    events.insert(lot.randrange(len(events) + 1), events[at])


def event_moved(events: List[bytes], at: int, lot: random.Random) -> None:
    events.insert(lot.randrange(len(events)), events.pop(at))


def event_of_pcr(events: List[bytes], at: int, lot: random.Random) -> None:
    events[at] = struct.pack("<I", lot.choice([0, 2, 4, 5, 7, 8, 9, 10, 12, 23, 24])) + events[at][4:]


def event_of_kind(events: List[bytes], at: int, lot: random.Random) -> None:
    kind = lot.choice([0, 3, 4, 6, 0xD, 0x80000003, 0x80000004, 0x80000007])
    events[at] = events[at][:4] + struct.pack("<I", kind) + events[at][8:]


def event_data(events: List[bytes], at: int, lot: random.Random) -> None:
    put_data(events, at, changed(data_of(events[at]), lot))


def event_number(events: List[bytes], at: int, lot: random.Random) -> None:
    """Another digit in the longest text, which is a description."""
    longest = max(range(len(events)), key=lambda it: len(events[it]))
    data = bytearray(data_of(events[longest]))
    digit(data, lot)
    put_data(events, longest, bytes(data))


def data_of(event: bytes) -> bytes:
    return event[boots.data_start(event) + 4 :]


def put_data(events: List[bytes], at: int, data: bytes) -> None:
    events[at] = events[at][: boots.data_start(events[at])] + struct.pack("<I", len(data)) + data


OF_EVENTS: List[Callable[[List[bytes], int, random.Random], None]] = [
    event_gone,
    event_twice,
    event_moved,
    event_of_pcr,
    event_of_kind,
    event_data,
    event_number,
]
