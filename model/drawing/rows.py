"""Rows: calls of the libraries, in the language of the tables; what they answer is not drawn."""

from random import Random
from typing import List

from rules.firmware import Firmware
from rules.machine import KIND_NAMES

from . import descriptions, images, kernels, linux_kernels, machines
from .chances import chance, changed, copy, length, number, some_bytes
from .headers import MIB


def draw(rng: Random, count: int) -> List[str]:
    """So many rows; each few are on a machine of their own."""
    drawers = [elf, header, setup, info, info, params, params, image, image, walk, convert, convert,
               prepare, prepare, prepare, plan, description, menu, registers]
    rows = []
    while len(rows) < count:
        rows.append(machine(rng))
        for _ in range(min(12, count - len(rows))):
            rows.append(rng.choice(drawers)(rng))
    return [f"row {i} | {row} |" for i, row in enumerate(rows)]


def machine(rng: Random) -> str:
    drawn = machines.draw(rng)
    regions = [f" region={r.base:x}+{r.length:x}:{KIND_NAMES[r.kind]}" for r in drawn.regions]
    start, end = drawn.pool
    told = [" " + word for word in firmware_words(drawn.firmware)]
    return f"machine size={drawn.size:x} pool={start:x}..{end:x}" + "".join(regions + told)


def firmware_words(firmware: Firmware) -> List[str]:
    words = [f"avoid={start:x}..{end:x}" for start, end in firmware.avoided]
    if firmware.screen is not None:
        words.append("screen=" + ",".join(
            [f"{n:x}" for n in firmware.screen[:5]] + [f"{c.position:x}+{c.size:x}"
                                                       for c in firmware.screen[5:]]))
    if firmware.rsdp is not None:
        words.append(f"rsdp={firmware.rsdp:x}")
    if firmware.efi is not None:
        efi = firmware.efi
        told = [*efi[:3], *efi[4:]]
        words.append("efi=" + ",".join(f"{n:x}" for n in told) + ":" + efi.map.hex())
    if firmware.smbios is not None:
        smbios = firmware.smbios
        words.append(f"smbios={smbios.major:x},{smbios.minor:x}:{smbios.tables.hex()}")
    return words


def digits(data: bytes) -> str:
    return data.hex() or ">0"


def elf(rng: Random) -> str:
    return "elf " + digits(kernel(rng))


def header(rng: Random) -> str:
    return rng.choice(["header ", "header screen of "]) + digits(kernel(rng))


def kernel(rng: Random) -> bytes:
    file = kernels.draw_multiboot2(rng)
    return changed(rng, file, [*range(0, min(len(file), 300), 2)]) if chance(rng, 30) else file


def setup(rng: Random) -> str:
    return rng.choice(["read_setup ", "setup_fault "]) + digits(linux_kernels.draw(rng, 5))


def info(rng: Random) -> str:
    """The information of an image, whole or damaged."""
    told = next(part for part in images.draw_multiboot2(rng).parts if part.role == 3).pieces[0].data
    for _ in range(rng.choice([0, 1, 1, 2])):
        told = images.damaged(rng, told) if len(told) >= 16 else told
    return "read_info " + digits(told)


def params(rng: Random) -> str:
    told = next(part for part in images.draw_linux(rng).parts if part.role == 4).pieces[0].data
    for _ in range(rng.choice([0, 1, 1, 2])):
        told = changed(rng, told, [*range(0x1E8, 0x300), *images.TOLD_AT], 3)
    return "read_params " + digits(told)


def image(rng: Random) -> str:
    return "image_fault " + digits(images.mutated(rng, images.draw(rng)))


def walk(rng: Random) -> str:
    data = images.draw(rng)
    return "walk " + digits(images.mutated(rng, data) if chance(rng, 60) else data)


def convert(rng: Random) -> str:
    data = images.draw(rng)
    data = images.mutated(rng, data) if chance(rng, 50) else data
    words = ""
    if chance(rng, 30):
        words += f" limit={rng.choice([len(data), length(rng)]):x}"
    if chance(rng, 30):
        words += f" takes={rng.choice([1, 7, 0x100]):x}"
    if chance(rng, 30):
        words += f" step=1 fail={rng.randrange(1, len(data) + 10):x}"
    return f"convert{words} of {digits(data)}"


def line(rng: Random) -> str:
    return rng.choice(["", "6b", "6b" * 255, "6b" * rng.randrange(300), "6b00"] + ["6b"] * 9)


def prepare(rng: Random) -> str:
    told = line(rng)
    if chance(rng, 50):
        modules = [f" module={some_bytes(rng, length(rng)).hex()}:{line(rng)}"
                   for _ in range(rng.choice([0, 0, 1, 2, 3]))]
        copies = [f" {key}={copy(rng, 3).hex()}" for key in ("rsdp_old", "rsdp_new")
                  if chance(rng, 30)]
        words = "".join(modules + copies)
        return f"prepare multiboot2 line={told}{words} of {digits(kernel(rng))}"
    disk = f" initrd={some_bytes(rng, length(rng)).hex()}" if chance(rng, 70) else ""
    file = linux_kernels.draw(rng, len(told) // 2)
    protocol = rng.choice(["linux", "linux64"])
    return f"prepare {protocol} line={told}{disk} of {digits(file)}"


def registers(rng: Random) -> str:
    """Those of an entry as it is prepared."""
    return "registers " + prepare(rng).partition(" ")[2]


def menu(rng: Random) -> str:
    """Of a few entries, some with copies; each kernel is the file 0."""
    words = []
    for _ in range(rng.choice([1, 1, 2, 3])):
        if chance(rng, 20):
            words.append(rng.choice(["entry=linux:0:", "entry=linux64:0:"]))
            continue
        words.append("entry=multiboot2:0:" + rng.choice(["", "", "*1f", "*20"]))
        if chance(rng, 20):
            words.append(rng.choice(["modules=1", "modules=40", "modules=41"]))
        words += [f"{key}={copy(rng, 10).hex()}" for key in ("rsdp_old", "rsdp_new")
                  if chance(rng, 40)]
    if chance(rng, 30):
        words.append(f"default={rng.choice([0, 1, 2, 40]):x}")
    if chance(rng, 30):
        words.append("fallback=" + rng.choice(["0", "1", "2,0", "0,0"]))
    return "menu " + " ".join(words)


def plan(rng: Random) -> str:
    return "plan " + "; ".join(step(rng) for _ in range(rng.randrange(1, 8)))


def step(rng: Random) -> str:
    if chance(rng, 10):
        return "taken"
    if chance(rng, 25):
        start = rng.choice([0x1000, MIB, rng.randrange(3 * MIB), number(rng, 34)])
        return f"take {start:x}..{start + rng.choice([1, 0x50, 0x1000, 0x2345]):x}"
    size = rng.choice([1, 0x50, 0x1000, 0x3000, MIB, max(number(rng, 33), 1)])
    align = rng.choice([1, 3, 0x1000, 0x1000, 0x10000, 0x200000, max(number(rng, 33), 1)])
    low = rng.choice([0, 0x1000, 0x1000, MIB, number(rng, 33)])
    high = rng.choice([1 << 32, 1 << 32, 0xA0000, 2 * MIB, number(rng, 33)])
    limits = f"len={size:x} align={align:x} low={low:x} high={high:x}"
    if chance(rng, 30):
        asked = rng.choice([MIB, low, low + align, rng.randrange(4 * MIB) // align * align])
        return f"prefer at={asked:x} {limits}"
    return f"place {limits} {rng.choice(['lowest', 'highest'])}"


def description(rng: Random) -> str:
    """Its map, or its boot without any file beside it."""
    return rng.choice(["map of ", "boot of "]) + digits(descriptions.draw(rng).text)
