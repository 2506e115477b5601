"""A Linux entry to its parts. BOOT-RULES.md "A Linux kernel's file", "Places"."""

from typing import Optional

from . import boot_params, bzimage, linux64, paging
from .handover import (BOOT_PARAMETERS, COMMAND_LINE, GDT, INITRD, KERNEL, LINUX, LINUX64, Handover,
                       Origin, Part, Piece, in_order, registers_of)
from .machine import Machine, normal_map
from .numbers import FRAME, frames
from .places import GIB4, MIB, Planner
from .refusals import refuse

LINE_LIMIT = 0xA0000


def prepare(machine: Machine, kernel_file: bytes, line: bytes, initrd: Optional[bytes],
            protocol: int = LINUX) -> Handover:
    """Steps 5 to 9, of the 32-bit entry or of the 64-bit one; an initrd of no byte is as none."""
    is_wide = protocol == LINUX64
    setup = bzimage.read(kernel_file)
    if is_wide:
        linux64.check_entry(setup)
    runs = normal_map(machine.regions)
    if setup.cmdline_size < len(line):
        refuse(27)
    if len(runs) > boot_params.MAX_ENTRIES:
        refuse(29)
    planner = Planner(machine)
    payload = kernel_file[setup.payload_at:]
    kernel = linux_kernel(planner, setup, payload)
    params_at = planner.part(BOOT_PARAMETERS).lowest(FRAME, FRAME, 0x1000, GIB4)
    line_at = planner.part(COMMAND_LINE).lowest(FRAME, FRAME, 0x1000, LINE_LIMIT)
    gdt_at = planner.part(GDT).lowest(FRAME, FRAME, 0x1000, GIB4)
    tables = linux64.page_tables(planner) if is_wide else None
    disk = initrd or b""
    disk_at, disk_length = 0, frames(len(disk)) * FRAME
    if disk:
        disk_at = planner.part(INITRD).highest(disk_length, FRAME, 0x1000,
                                               setup.initrd_addr_max + 1)
    told = machine.firmware
    params = boot_params.spell(setup.header, boot_params.Params(
        kernel.address, disk_at, len(disk), line_at, runs, told.screen, told.rsdp,
        told.efi and told.efi.info))
    parts = [
        kernel,
        Part(BOOT_PARAMETERS, 0, params_at, FRAME, [Piece(0, params)]),
        Part(COMMAND_LINE, 0, line_at, FRAME, [Piece(0, line)]),
        Part(GDT, 0, gdt_at, FRAME,
             [Piece(0, paging.gdt64() if is_wide else boot_params.gdt())]),
    ]
    if disk:
        parts.append(Part(INITRD, 0, disk_at, disk_length, [Piece(0, disk, Origin(1, 0))]))
    if tables is not None:
        parts.append(tables)
        registers = linux64.registers(kernel.address, params_at, gdt_at, tables.address)
    else:
        registers = {**registers_of(LINUX), "EIP": kernel.address, "ESI": params_at,
                     "GDT base": gdt_at}
    return Handover(protocol, registers, in_order(parts))


def linux_kernel(planner: Planner, setup: bzimage.Setup, payload: bytes) -> Part:
    planner.part(KERNEL)
    if setup.is_relocatable:
        length = max(len(payload), setup.init_size)
        at = planner.lowest(length, setup.kernel_alignment, max(MIB, setup.pref_address), GIB4)
    else:
        end = max(MIB + len(payload), setup.pref_address + setup.init_size)
        length = end - MIB
        at = planner.fixed(MIB, end)
    return Part(KERNEL, 0, at, length, [Piece(0, payload, Origin(0, setup.payload_at))])
