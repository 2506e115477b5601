"""What a kernel sees in an image. FORMATS.md, the tables of `walk`; REFUSALS.md "Of an image".

Of several faults any may be told, so `faults` gives all that stand.
"""

from typing import List, NamedTuple, Optional, Set, Tuple, Union

from . import boot_params, information, paging
from .boot_params import Params
from .firmware import EfiInfo, EfiTables, Screen, Smbios
from .handover import KERNEL, LINUX, LINUX64, MULTIBOOT2, PROTOCOL_NAMES, registers_of
from .image import Image
from .information import Information
from .machine import Run
from .numbers import u32
from .refusals import Refused, refuse
from .told_lines import told_lines

OUTSIDE, BAD_INFO, BAD_STATE = 81, 82, 83
ADDRESSES = {MULTIBOOT2: ["EIP", "EBX"], LINUX: ["EIP", "ESI", "GDT base"],
             LINUX64: ["RIP", "RSI", "GDT base", "CR3"]}


class SeenModule(NamedTuple):
    start: int
    data: bytes
    line: bytes


class Seen(NamedTuple):
    protocol: int
    entry: int
    line: bytes
    kernel: List[Tuple[int, int]]  # address and length of each part, in address order
    modules: List[SeenModule]
    initrd: Optional[Tuple[int, bytes]]  # address and bytes
    runs: List[Run]
    rsdp_old: Optional[bytes] = None
    rsdp_new: Optional[bytes] = None
    screen: Optional[Screen] = None
    rsdp: Optional[int] = None
    efi: Union[EfiInfo, EfiTables, None] = None
    smbios: Optional[Smbios] = None


def faults(image: Image) -> Set[int]:
    """Those of 81, 82, 83 that stand. What is led to by bytes that are refused is not followed."""
    checks = [check_registers, check_entry]
    if image.protocol == MULTIBOOT2:
        checks += [modules_of]
    else:
        checks += [check_descriptors, line_of, initrd_of]
    if image.protocol == LINUX64:
        checks += [check_page_tables]
    found = set()
    for check in checks:
        try:
            check(image)
        except Refused as refused:
            found.add(refused.number)
    return found


def see(image: Image) -> Seen:
    """What a kernel sees in an image without faults."""
    entry = entry_of(image)
    kernel = [(p.address, len(p.data)) for p in image.parts if p.role == KERNEL]
    if image.protocol == MULTIBOOT2:
        told = information_of(image)
        return Seen(MULTIBOOT2, entry, told.line, kernel, modules_of(image), None, told.runs,
                    told.old_rsdp, told.new_rsdp, told.screen, None, told.efi, told.smbios)
    params = params_of(image)
    return Seen(image.protocol, entry, line_of(image), kernel, [], initrd_of(image), params.runs,
                None, None, params.screen, params.rsdp, params.efi)


# ---- the registers and what they lead to


def check_registers(image: Image) -> None:
    """Each register that holds no address has its protocol's number."""
    for name, value in registers_of(image.protocol).items():
        if name not in ADDRESSES[image.protocol] and image.registers[name] != value:
            refuse(BAD_STATE)


def entry_of(image: Image) -> int:
    return image.registers[ADDRESSES[image.protocol][0]]


def check_entry(image: Image) -> None:
    entry = entry_of(image)
    if not any(p.role == KERNEL and p.address <= entry < p.address + len(p.data)
               for p in image.parts):
        refuse(OUTSIDE)


def check_descriptors(image: Image) -> None:
    """A Linux kernel's GDT."""
    wanted = paging.gdt64() if image.protocol == LINUX64 else boot_params.gdt()
    if follow(image, image.registers["GDT base"], 32) != wanted:
        refuse(BAD_STATE)


def check_page_tables(image: Image) -> None:
    """By those of the 64-bit entry each page below 4 GiB leads to itself."""
    base = image.registers["CR3"]
    if not paging.is_identity(follow(image, base, paging.LENGTH), base):
        refuse(BAD_STATE)


def follow(image: Image, at: int, length: int) -> bytes:
    """The bytes of a range, which lies in one part, of whatever role; none are nowhere."""
    if length == 0:
        return b""
    for part in image.parts:
        if part.address <= at and at + length <= part.address + len(part.data):
            return part.data[at - part.address:at - part.address + length]
    refuse(OUTSIDE)


def information_of(image: Image) -> Information:
    """The information at EBX."""
    at = image.registers["EBX"]
    total_size = u32(follow(image, at, 4), 0)
    if total_size < 16:
        refuse(BAD_INFO)
    data = follow(image, at, total_size)
    try:
        return information.read(data)
    except Refused:
        refuse(BAD_INFO)


def modules_of(image: Image) -> List[SeenModule]:
    """The modules that the information names, and their bytes."""
    return [SeenModule(m.start, follow(image, m.start, m.end - m.start), m.line)
            for m in information_of(image).modules]


def params_of(image: Image) -> Params:
    """The boot parameters at ESI or RSI."""
    at = image.registers[ADDRESSES[image.protocol][1]]
    data = follow(image, at, boot_params.LENGTH)
    try:
        return boot_params.read(data)
    except Refused:
        refuse(BAD_INFO)


def initrd_of(image: Image) -> Optional[Tuple[int, bytes]]:
    """The initrd that the boot parameters name; one of no bytes is none, wherever it is."""
    params = params_of(image)
    if params.ramdisk_size == 0:
        return None
    return params.ramdisk_image, follow(image, params.ramdisk_image, params.ramdisk_size)


def line_of(image: Image) -> bytes:
    """The bytes before the first zero byte, which is in the part that holds the line's start."""
    at = params_of(image).cmd_line_ptr
    for part in image.parts:
        if part.address <= at < part.address + len(part.data):
            rest = part.data[at - part.address:]
            if b"\0" not in rest:
                refuse(BAD_INFO)
            return rest[:rest.index(b"\0")]
    refuse(OUTSIDE)


# ---- what `bootcore walk` says


def lines(seen: Seen) -> List[str]:
    said = ["protocol " + PROTOCOL_NAMES[seen.protocol],
            f"entry {seen.entry:08x}",
            f"line {text_word(seen.line)}"]
    said += [f"kernel {address:08x} {length}" for address, length in seen.kernel]
    said += [f"module {m.start:08x} {len(m.data)} {text_word(m.line)}" for m in seen.modules]
    if seen.initrd is not None:
        said.append(f"initrd {seen.initrd[0]:08x} {len(seen.initrd[1])}")
    said += [f"map {run.start:016x} {run.end:016x} {run.kind}" for run in seen.runs]
    if seen.rsdp_old is not None:
        said.append(f"rsdp-old {text_word(seen.rsdp_old)}")
    if seen.rsdp_new is not None:
        said.append(f"rsdp-new {text_word(seen.rsdp_new)}")
    return said + told_lines(seen.screen, seen.rsdp, seen.efi, seen.smbios)


def text_word(text: bytes) -> str:
    """How many bytes it has and, if there are any, a space and their digits."""
    return f"{len(text)} {text.hex()}" if text else "0"
