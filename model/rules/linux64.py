"""What the 64-bit entry of a Linux kernel has beside the 32-bit one. BOOT-RULES.md "A Linux
kernel's file", "Places", "Entry state"; LBP "64-bit Boot Protocol"."""

from typing import Dict

from . import paging
from .bzimage import Setup
from .handover import LINUX64, PAGE_TABLES, Part, Piece, registers_of
from .places import GIB4, Planner
from .refusals import refuse

ENTRY_AT = 0x200  # in the payload
LEAST_VERSION = 0x020C


def check_entry(setup: Setup) -> None:
    """Whether the kernel has such an entry: refused with 30, or with 17 if its payload ends before
    the entry."""
    if setup.version < LEAST_VERSION or setup.xloadflags % 2 == 0:
        refuse(30)
    if setup.payload_length <= ENTRY_AT:
        refuse(17)


def page_tables(planner: Planner) -> Part:
    at = planner.part(PAGE_TABLES).lowest(paging.LENGTH, paging.FRAME, 0x1000, GIB4)
    return Part(PAGE_TABLES, 0, at, paging.LENGTH, [Piece(0, paging.tables(at))])


def registers(kernel: int, params: int, gdt_base: int, tables: int) -> Dict[str, int]:
    """With the addresses of these parts."""
    return {**registers_of(LINUX64), "RIP": kernel + ENTRY_AT, "RSI": params, "CR3": tables,
            "GDT base": gdt_base}
