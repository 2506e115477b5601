"""For the test: whether the boot manager's own code, run on the host, writes each description in its one form. What it should
be is written here a second time, by addresses one after the other and characters as Python has them.

    python3 descriptions.py ./describe

It prints what is wrong, or how much was compared."""

import random
import re
import subprocess
import sys
from typing import Iterable, List, Tuple

Region = Tuple[int, int, int]
Avoided = Tuple[int, int]
Machine = Tuple[int, List[Region], List[Avoided]]
KINDS = ["", "usable", "reserved", "acpi", "nvs", "bad"]
OLD = bytes(range(20))
TOLD = """
[firmware]
rsdp = 0x7e014

[firmware.screen]
base = 0x8000000000
pitch = 0x1400
width = 0x500
height = 0x320
depth = 0x20
red = [0x10, 0x8]
green = [0x8, 0x7]
blue = [0x0, 0x5]

[firmware.efi]
bits = 0x40
system_table = 0x7f6018
map = "0001feff"
map_address = 0x7e0000
descriptor_size = 0x30
descriptor_version = 0x1
secure_boot = 0x2

[firmware.smbios]
major = 0x3
minor = 0x0
tables = "7f040a"
"""  # as host/describe.c has it
# as it is measured: a Linux image has of UEFI's map its size and address, and nothing of SMBIOS
MEASURED = TOLD.replace('map = "0001feff"', "map_size = 0x4").replace('tables = "7f040a"', "tables_size = 0x3")
MEASURED_LINUX = MEASURED[: MEASURED.index("\n[firmware.smbios]")]
NEW = bytes(36 if i == 20 else 0 if 21 <= i <= 23 else i * 17 & 255 for i in range(36))


def kind_at(regions: List[Region], address: int) -> int:
    return max([kind for base, length, kind in regions if base <= address < base + length], default=0)


def runs(regions: List[Region]) -> List[Region]:
    """Between two edges all addresses have one kind."""
    edges = sorted({edge for base, length, _ in regions for edge in (base, base + length)})
    found: List[Region] = []
    for start, end in zip(edges, edges[1:]):
        kind = kind_at(regions, start)
        if found and found[-1][2] == kind:
            found[-1] = (found[-1][0], end - found[-1][0], kind)
        else:
            found.append((start, end - start, kind))
    return [run for run in found if run[2]]


def pool(size: int, regions: List[Region], avoided: List[Avoided]) -> Tuple[int, int]:
    best = (0, 0)
    for base, length, kind in runs(regions + [(base, length, 5) for base, length in avoided]):
        start = -(-max(base, 0x1000) // 4096) * 4096
        end = min(base + length, size, 0xFFFFF000) // 4096 * 4096
        if kind == 1 and end - start > best[1] - best[0]:
            best = (start, end)
    return best


def machine_text(size: int, regions: List[Region], avoided: List[Avoided]) -> str:
    start, end = pool(size, regions, avoided)
    text = f"size = {size:#x}\npool = [{start:#x}, {end:#x}]\n"
    for base, length, kind in runs(regions):
        text += f'\n[[region]]\nbase = {base:#x}\nlength = {length:#x}\nkind = "{KINDS[kind]}"\n'
    return text


def avoided_text(avoided: List[Avoided]) -> str:
    return "".join(f"\n[[avoid]]\nbase = {base:#x}\nlength = {length:#x}\n" for base, length in avoided)


def quoted(text: str) -> str:
    text = text.replace("\\", "\\\\").replace('"', '\\"')
    return '"' + re.sub("[\0-\x1f\x7f]", lambda it: f"\\u{ord(it[0]):04x}", text) + '"'


def describe(program: str, words: Iterable[object], menu: bytes) -> Tuple[int, bytes]:
    ran = subprocess.run([program, *map(str, words)], input=menu, stdout=subprocess.PIPE, stderr=subprocess.STDOUT)
    return ran.returncode, ran.stdout


def machines() -> Iterable[Machine]:
    yield 0x100000, [], []
    yield 1 << 32, [(0xFFF00000, 0x200000, 1), (0, 0x1000, 1)], []  # beyond what is usable, and below it
    yield 1 << 32, [((1 << 52) - 4096, 4096, 1)], []
    yield 0x100000, [(0x9000, 0x2000, 1), (0x3000, 0x2000, 1)], []  # two pools of one length
    yield 0x100000, [(0x3000, 0x9000, 1)], [(0x5801, 0x10)]  # which ends a frame within
    yield 0x100000, [(0x3000, 0x9000, 1)], [(0, 1 << 52)]
    yield 0x100000, [(i * 8192, 4096, 1 + i % 5) for i in range(128)], [(i * 7000, 3000) for i in range(128)]
    draw = random.Random(7)
    for _ in range(100):
        grain = draw.choice([1, 0x800, 0x1000])  # small, so that regions overlap, adjoin, and have no byte
        size = draw.choice([0x100000, 0x40000000, 1 << 32])
        first = draw.choice([0, size - 24 * grain, 0xFFFFF000 - 12 * grain, 1 << 33])
        regions = [
            (first + draw.randrange(24) * grain, draw.randrange(8) * grain, draw.choice([1, 1, 1, 2, 3, 4, 5]))
            for _ in range(draw.randrange(12))
        ]
        edges = sorted(draw.sample(range(24), 2 * draw.randrange(4)))
        avoided = [(first + start * grain, (end - start) * grain) for start, end in zip(edges[::2], edges[1::2])]
        yield size, regions, avoided
        yield size, draw.sample(regions, len(regions)), avoided


LINES = [b"", b"a line", b'a="b" \\c\x7f\x01\t.', "é€\ud7ff\ue000\U00010000\U0010ffff".encode(), b"x" * 999]
NO_UTF8 = rb"""\xff \x80 \xc0\xaf \xc1\xbf \xc3 \xe2\x82 \xe0\x9f\xbf \xed\xa0\x80 \xf0\x8f\xbf\xbf \xf0\x90\x80 \xf4\x90\x80\x80
\xf5\x80\x80\x80 \xc3\xa9\xa9 \xe2\x82\xc3""".split()


def entries() -> Iterable[Tuple[bytes, str]]:
    """A menu, and what is said of its entry; nothing: it has no description."""
    for line in LINES:
        told = quoted(line.decode())
        menu = b"title T\nprotocol linux\nkernel //a/k k\n" + (b"line " + line if line else b"")
        head = f'\n[[entry]]\ntitle = "T"\nprotocol = "linux"\nkernel = "a/k k"\nline = {told}\n'
        yield menu, head
        yield menu + b"\nramdisk /r\n", head + 'initrd = "r"\n'
        yield menu + b"\nramdisk r0", head
        yield menu + b'\nramdisk q0\nramdisk "\nramdisk r0', head + 'initrd = "q0\\u000a\\"\\u000ar0"\n'
        yield menu.replace(b"linux", b"linux64"), head.replace("linux", "linux64")
    title = 'A "title" \\ é\t' + "x" * 60
    text = f"\n[[entry]]\ntitle = {quoted(title.replace('é', '??')[:64].replace(chr(9), '?'))}\n"
    text += f'protocol = "multiboot2"\nkernel = "k"\nline = ""\nrsdp_old = "{OLD.hex()}"\nrsdp_new = "{NEW.hex()}"\n'
    menu = b"title " + title.encode() + b"\nprotocol multiboot2\nkernel k\n"
    yield menu, text
    modules = b"".join(b"module m%d %s\n" % (i, line) for i, line in enumerate(LINES))
    for i, line in enumerate(LINES):
        told = quoted(line.decode())
        text += f'\n[[entry.module]]\nfile = "m{i}"\nline = {told}\n'
    yield menu + modules, text
    guid = "01234567-89ab-cdef-0123-456789abcdef"
    menu = f"title T\nprotocol linux64\npartition {guid.upper()}\nkernel //a/k\nramdisk r\nramdisk s t\n".encode()
    head = f'\n[[entry]]\ntitle = "T"\nprotocol = "linux64"\nkernel = "{guid}/a/k"\nline = ""\n'
    yield menu, head + f'initrd = "{guid}/r\\u000a{guid}/s t"\n'
    for bad in NO_UTF8:
        bad = bad.decode().encode("latin-1").decode("unicode_escape").encode("latin-1")
        yield b"title T\nprotocol linux\nkernel k\nline a" + bad, ""
        yield b"title T\nprotocol linux\nkernel k\nramdisk a\nramdisk " + bad + b".", ""
        yield b"title T\nprotocol multiboot2\nkernel " + bad, ""
        yield b"title T\nprotocol multiboot2\nkernel k\nmodule m" + bad + b" a", ""


def main(program: str) -> int:
    compared = 0
    for size, regions, avoided in machines():
        words = [size, *(word for region in regions for word in region), *(word for each in avoided for word in (*each, 0))]
        for told, text in (([], ""), (["--told"], TOLD), (["--measured", "--told"], MEASURED_LINUX)):
            status, came = describe(program, [*told, *words], b"title T\nprotocol linux\nkernel k")
            wanted = (machine_text(size, regions, avoided) + text + avoided_text(avoided)).encode()
            if status or came.partition(b"\n[[entry]]")[0] != wanted.rstrip(b"\n") + b"\n":
                print(f"{words}: {came.decode(errors='replace')}, and not {wanted.decode()}")
                return 1
            compared += 1
    machine = 0x100000, [(0x1000, 0x9000, 1)], [(0x3000, 0x1000)]
    for menu, text in entries():
        for told in (["--told"], ["--measured", "--told"]):
            words = [*told, machine[0], *machine[1][0], *machine[2][0], 0]
            firmware = TOLD if len(told) == 1 else MEASURED if b"multiboot2" in menu else MEASURED_LINUX
            wanted = (machine_text(*machine) + firmware + avoided_text(machine[2]) + text if text else "not described\n").encode()
            status, came = describe(program, words, menu)
            if status or came != wanted or (text and describe(program, ["--cut", *words], menu)[0]):
                print(f"{menu!r}: {came.decode(errors='replace')}, and not {wanted.decode()}")
                return 1
            compared += 1
    print(f"{compared} descriptions")
    return 0


if __name__ == "__main__":
    sys.exit(main(sys.argv[1]))
