"""The segment registers whole, as a processor has loaded them from the descriptors. BOOT-RULES.md
"Entry state"; Intel SDM volume 3A, 3.4.3, 3.4.5."""

from typing import List, NamedTuple

from . import boot_params, paging
from .handover import LINUX64, Handover
from .numbers import u64

NAMES = ["CS", "DS", "ES", "FS", "GS", "SS"]
FLAGS = {"s": 44, "p": 47, "avl": 52, "l": 53, "db": 54, "g": 55}  # with the bit of each


class SegmentRegister(NamedTuple):
    selector: int
    base: int
    limit: int  # the offset of the last byte
    type: int
    dpl: int
    flags: List[str]  # those that are set


def descriptors(protocol: int) -> bytes:
    """Those that the kernel is handed. Multiboot2 hands over none, and wants flat code and data of
    32 bits (MB2 3.3), which are those of Linux."""
    return paging.gdt64() if protocol == LINUX64 else boot_params.gdt()


def loaded(selector: int, descriptor: int) -> SegmentRegister:
    """What a descriptor is loaded as; that sets its accessed bit, the lowest of the type."""
    flags = [name for name, bit in FLAGS.items() if descriptor >> bit & 1]
    limit = descriptor & 0xFFFF | (descriptor >> 48 & 0xF) << 16
    if "g" in flags:
        limit = limit << 12 | 0xFFF
    base = descriptor >> 16 & 0xFFFFFF | (descriptor >> 56) << 24
    return SegmentRegister(selector, base, limit, descriptor >> 40 & 0xF | 1,
                           descriptor >> 45 & 3, flags)


def segment(handover: Handover, name: str) -> SegmentRegister:
    """The one that its selector names."""
    selector = handover.registers[name]
    return loaded(selector, u64(descriptors(handover.protocol), selector))
