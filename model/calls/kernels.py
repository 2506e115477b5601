"""elf, header, read_setup, setup_fault, read_params, gdt64, page_tables, translate: what is read of
kernels, and told Linux."""

from typing import List

from language import demand, fields, number, numbers, only, pair, single, spell
from rules import boot_params, bzimage, elf as elves, multiboot2, paging
from rules.numbers import u16, u32, u64
from rules.refusals import Refused

from . import ALL_BYTES, BYTES_OF, Call
from .firmware import told_words
from .machines import run_word


def fault_text(refused: Refused) -> str:
    return "fault " + refusal_text(refused)


def refusal_text(refused: Refused) -> str:
    """The number in decimal, what is told with it in hexadecimal digits."""
    return " ".join(["%d" % refused.number] + ["%x" % told for told in refused.data])


def segment_word(segment) -> str:
    return "%x,%x,%x,%x" % tuple(segment)


def elf(table, line):
    try:
        read = elves.read(line.data)
    except Refused as refused:
        return fault_text(refused)
    segments = ";".join(segment_word(segment) for segment in read.segments) or "none"
    return segments + (" entry fault 16" if read.entry is None else " entry %x" % read.entry)


def header(table, line):
    """`screen` before ` of `: on a machine that has one."""
    demand(line.words in ([], ["screen"]))
    try:
        read = multiboot2.read(line.data, bool(line.words))
    except Refused as refused:
        return fault_text(refused)
    words = ["at %x" % read.place]
    if read.segment is not None:
        words.append("segment " + segment_word(read.segment))
    if read.entry is not None:
        words.append("entry %x" % read.entry)
    if read.relocation is not None:
        words.append("move %x..%x align %x preference %x" % tuple(read.relocation))
    return " ".join(words)


# The fields of a setup header that rows tell: name, place, width. LBP "The Real-Mode Kernel
# Header".
SECTS = [("setup_sects", 0x1F1, 1)]
FIELDS = [("version", 0x206, 2), ("loadflags", 0x211, 1), ("initrd_addr_max", 0x22C, 4),
          ("kernel_alignment", 0x230, 4), ("relocatable_kernel", 0x234, 1),
          ("xloadflags", 0x236, 2),
          ("cmdline_size", 0x238, 4), ("pref_address", 0x258, 8), ("init_size", 0x260, 4)]
READERS = {1: lambda data, at: data[at], 2: u16, 4: u32, 8: u64}


def field_words(data: bytes, told) -> List[str]:
    return ["%s=%x" % (name, READERS[width](data, at)) for name, at, width in told]


def read_setup(table, line):
    try:
        setup = bzimage.read(line.data)
    except Refused as refused:
        return fault_text(refused)
    payload = "payload=%x+%x" % (setup.payload_at, len(line.data) - setup.payload_at)
    words = field_words(line.data, SECTS + FIELDS)
    return " ".join(words + ["header=%x" % len(setup.header), payload])


def fault_alone(read, data: bytes) -> str:
    """The fault of what is read, or `none`."""
    try:
        read(data)
    except Refused as refused:
        return fault_text(refused)
    return "none"


def setup_fault(table, line):
    return fault_alone(bzimage.read, line.data)


def read_params(table, line):
    try:
        read = boot_params.read(line.data)
    except Refused as refused:
        return fault_text(refused)
    words = ["code32_start=%x" % read.code32_start,
             "ramdisk=%x+%x" % (read.ramdisk_image, read.ramdisk_size),
             "cmd_line_ptr=%x" % read.cmd_line_ptr]
    words += field_words(line.data, FIELDS)
    words += ["run=" + run_word(run) for run in read.runs]
    return " ".join(words + told_words(read))


def gdt64(table, line):
    demand(not line.words)
    return paging.gdt64().hex()


def page_tables(table, line):
    """`base=N frame=N bytes=A..B`."""
    named, bare = fields(line.words)
    only(named, "base", "frame", "bytes")
    demand(not bare)
    base, frame = (number(single(named, name)) for name in ("base", "frame"))
    start, end = pair(single(named, "bytes"), "..")
    demand(base % paging.FRAME == 0 and base + paging.FRAMES * paging.FRAME <= 1 << 32)
    demand(frame < paging.FRAMES and start <= end <= paging.FRAME)
    return spell(paging.frame(base, frame)[start:end])


def translate(table, line):
    """`base=N at=ADDRESS,.. of BYTES`."""
    named, bare = fields(line.words)
    only(named, "base", "at")
    demand(not bare)
    base = number(single(named, "base"))
    found = [paging.translate(line.data, base, at) for at in numbers(single(named, "at"))]
    return "; ".join("none" if to is None else "%x" % to for to in found)


CALLS = {
    "elf": Call(elf, ALL_BYTES),
    "header": Call(header, ALL_BYTES),
    "read_setup": Call(read_setup, ALL_BYTES),
    "setup_fault": Call(setup_fault, ALL_BYTES),
    "read_params": Call(read_params, ALL_BYTES),
    "gdt64": Call(gdt64),
    "page_tables": Call(page_tables),
    "translate": Call(translate, BYTES_OF),
}
