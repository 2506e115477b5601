"""Descriptions: a machine, a menu, files inline and at paths; as a text of TOML."""

from random import Random
from typing import Dict, List, NamedTuple, Tuple

from rules.firmware import Color, Firmware
from rules.keys import BYTE, root_keys
from rules.machine import KIND_NAMES, Machine

from . import kernels, linux_kernels, machines
from .chances import chance, copy, length, some_bytes

NAMES = ["a", "kernel.elf", "b.bin", "folder/none", "with blank", "é", "f\tg"]


class Drawn(NamedTuple):
    text: bytes
    paths: Dict[str, bytes]  # files that stand in the current folder


class Menu(NamedTuple):
    default: int
    fallbacks: List[int]
    files: Dict[str, bytes]
    entries: List[list]  # pairs of key and value, in order


def draw(rng: Random) -> Drawn:
    machine = machines.draw(rng)
    menu = draw_menu(rng)
    paths = {}
    for name in list(menu.files):
        if "/" not in name and "\t" not in name and chance(rng, 10):
            paths[name] = menu.files.pop(name)
    text = spelled(rng, machine, menu)
    if chance(rng, 6):
        text = damaged(rng, text)
    return Drawn(text.encode("utf-8", "surrogateescape"), paths)


def draw_menu(rng: Random) -> Menu:
    files: Dict[str, bytes] = {}
    entries = [draw_entry(rng, i, files) for i in range(rng.choice([1, 1, 2, 3, 4]))]
    count = len(entries)
    fallbacks = [i for i in range(1, count)] if chance(rng, 60) else [
        rng.randrange(count) for _ in range(rng.randrange(5))]
    default = 0 if chance(rng, 60) else rng.randrange(count)
    if chance(rng, 2):
        default = count
    for name in list(files):  # a file that is missing
        if chance(rng, 1):
            del files[name]
    return Menu(default, fallbacks, files, entries)


def named(rng: Random, files: Dict[str, bytes], data: bytes) -> str:
    """A new name for a file, or one that another file has already."""
    if files and chance(rng, 8):
        return rng.choice(list(files))
    name = f"f{len(files)}" if chance(rng, 80) else rng.choice(NAMES) + str(len(files))
    files[name] = data
    return name


def draw_line(rng: Random) -> str:
    if chance(rng, 2):
        return "x" * rng.choice([4095, 4096])
    if chance(rng, 2):
        return rng.choice(["\0", "a\0", "\0" * 4096])
    return rng.choice(["", "k", "console=ttyS0 quiet", "é\t\"'\\ \n", "y" * rng.randrange(300)])


def draw_entry(rng: Random, index: int, files: Dict[str, bytes]) -> list:
    title = rng.choice([f"entry {index}", "~" * 64, " ", '"quoted" \\'])
    line = draw_line(rng)
    pairs: List[Tuple[str, object]] = [("title", title)]
    if chance(rng, 60):
        kernel = kernels.draw_multiboot2(rng)
        pairs += [("protocol", "multiboot2"), ("kernel", named(rng, files, kernel))]
        if chance(rng, 3):
            pairs[1] = ("protocol", rng.choice(["linux", "linux64"]))
        else:
            modules = [draw_module(rng, files) for _ in range(rng.choice([0, 0, 1, 1, 2, 3, 6]))]
            if modules or chance(rng, 5):
                pairs.append(("module", modules))
            pairs += draw_copies(rng, 25)
    else:
        kernel = linux_kernels.draw(rng, len(line.encode("utf-8")))
        protocol = rng.choice(["linux", "linux64"])
        pairs += [("protocol", protocol), ("kernel", named(rng, files, kernel))]
        if chance(rng, 70):
            pairs.append(("initrd", named(rng, files, some_bytes(rng, length(rng)))))
        pairs += draw_copies(rng, 1)
    if line or chance(rng, 50):
        pairs.append(("line", line))
    return pairs


def draw_copies(rng: Random, percent: float) -> List[Tuple[str, object]]:
    """Copies of the RSDP, so many of a hundred of each; some are none."""
    return [(key, draw_copy(rng)) for key in ("rsdp_old", "rsdp_new") if chance(rng, percent)]


def draw_copy(rng: Random) -> object:
    digits = hexed(rng, copy(rng, 4))
    if chance(rng, 3):
        return rng.choice([0, [digits], digits + "0", digits[1:], digits + " ", "0x" + digits,
                           digits[:-1] + "g", digits.title()])
    return digits


def draw_module(rng: Random, files: Dict[str, bytes]) -> list:
    pairs: List[Tuple[str, object]] = [("file", named(rng, files, some_bytes(rng, length(rng))))]
    line = draw_line(rng)
    return pairs + ([("line", line)] if line or chance(rng, 50) else [])


# ---- as a text


def spelled(rng: Random, machine: Machine, menu: Menu) -> str:
    """The tables in some order; the keys above all of them come first."""
    pairs: List[Tuple[str, object]] = [("size", machine.size), ("pool", list(machine.pool))]
    for key in root_keys(len(menu.entries)):
        if key.allowed is BYTE and chance(rng, 70):
            pairs.append((key.name, rng.randrange(256)))
    if menu.default or chance(rng, 20):
        pairs.append(("default", menu.default))
    if menu.fallbacks or chance(rng, 20):
        pairs.append(("fallback", menu.fallbacks))
    rng.shuffle(pairs)
    tables = [[("base", r.base), ("length", r.length), ("kind", KIND_NAMES[r.kind])]
              for r in machine.regions]
    blocks = [("region", tables)]
    told = firmware_pairs(rng, machine.firmware)
    if told and chance(rng, 15):
        pairs.append(("firmware", told))
    elif told or chance(rng, 5):
        blocks.append(("firmware", told))
    blocks.append(("avoid", [[("base", start), ("length", end - start)]
                             for start, end in machine.firmware.avoided]))
    blocks.append(("file", [[("name", name), ("hex", hexed(rng, data))]
                            for name, data in menu.files.items()]))
    blocks.append(("entry", menu.entries))
    rng.shuffle(blocks)
    text = keys(rng, pairs)
    for name, content in blocks:
        if name == "firmware":
            text += spelled_tables(rng, name, content)
            continue
        for table in content:
            text += spelled_table(rng, name, table)
    return text.replace("\n", "\r\n") if chance(rng, 3) else text


def firmware_pairs(rng: Random, firmware: Firmware) -> list:
    """Keys and values, those of tables as pairs too."""
    pairs: List[Tuple[str, object]] = []
    if firmware.rsdp is not None:
        pairs.append(("rsdp", firmware.rsdp))
    if firmware.screen is not None:
        names = ["base", "pitch", "width", "height", "depth", "red", "green", "blue"]
        pairs.append(("screen", [(name, list(value) if isinstance(value, Color) else value)
                                 for name, value in zip(names, firmware.screen)]))
    if firmware.efi is not None:
        told = firmware.efi._asdict()
        told["map"] = hexed(rng, told["map"])
        if told["secure_boot"] == 0 and chance(rng, 50):
            del told["secure_boot"]
        pairs.append(("efi", list(told.items())))
    if firmware.smbios is not None:
        told = firmware.smbios._asdict()
        told["tables"] = hexed(rng, told["tables"])
        pairs.append(("smbios", list(told.items())))
    rng.shuffle(pairs)
    return pairs


def is_table(value) -> bool:
    return isinstance(value, list) and bool(value) and isinstance(value[0], tuple)


def spelled_tables(rng: Random, name: str, pairs: list) -> str:
    """A table and those within it, each with its own head or within a line."""
    inner = [(key, value) for key, value in pairs if is_table(value) and chance(rng, 80)]
    outer = [pair for pair in pairs if pair not in inner]
    texts = [f"\n[{name}]\n" + keys(rng, outer)] if outer or not inner or chance(rng, 30) else []
    texts += [f"\n[{name}.{key}]\n" + keys(rng, value) for key, value in inner]
    rng.shuffle(texts)
    return "".join(texts)


def spelled_table(rng: Random, name: str, pairs: list) -> str:
    inner = [(key, value) for key, value in pairs if key == "module" and chance(rng, 80)]
    text = f"\n[[{name}]]\n" + keys(rng, [pair for pair in pairs if pair not in inner])
    for key, modules in inner:
        for module in modules:
            text += spelled_table(rng, f"{name}.{key}", module)
    return text


def keys(rng: Random, pairs: list) -> str:
    return "".join(f"{key} = {spelled_value(rng, value)}\n" for key, value in pairs)


def spelled_value(rng: Random, value) -> str:
    if isinstance(value, int):
        return rng.choice([str, hex, hex, lambda n: f"{n:_}", oct])(value)
    if isinstance(value, str):
        return spelled_text(rng, value)
    if is_table(value):
        return "{" + ", ".join(f"{key} = {spelled_value(rng, v)}" for key, v in value) + "}"
    return "[" + ", ".join(spelled_value(rng, v) for v in value) + "]"


def spelled_text(rng: Random, value: str) -> str:
    """A basic string, or a literal one if it can be."""
    if chance(rng, 20) and not any(c in "'\n" or ord(c) < 32 for c in value):
        return f"'{value}'"
    escapes = {'"': '\\"', "\\": "\\\\", "\n": "\\n", "\t": rng.choice(["\\t", "\t"])}
    return '"' + "".join(escapes.get(c, f"\\u{ord(c):04x}" if ord(c) < 32 else c)
                         for c in value) + '"'


def hexed(rng: Random, data: bytes) -> str:
    return data.hex() if chance(rng, 90) else data.hex().upper()


def damaged(rng: Random, text: str) -> str:
    """With one change, which leaves a description, or a text of TOML, or neither."""
    lines = text.split("\n")
    at = rng.randrange(len(lines))
    what = rng.randrange(7)
    if what == 0:
        del lines[at]
    elif what == 1:
        lines.insert(at, lines[rng.randrange(len(lines))])
    elif what == 2:
        lines.insert(at, rng.choice([
            "extra = 1", "line = 1", "initrd = 'f0'", "module = []", "[x]", "fill = 256", "= 1",
            "fill = -1", "fill = 1.0", "fill = true", "# a comment", "fallback = [[0]]", "\t",
            "default = '0'", "size = 9223372036854775808", "region = []", "file = {}",
            "rsdp_old = '00'", "rsdp_new = ''", "[firmware]", "[[avoid]]", "rsdp = 0", "avoid = {}",
            "secure_boot = 4", "bits = 16", "red = [0]"]))
    elif what == 3:
        lines[at] = lines[at].replace(" = ", rng.choice([" = 1", " == ", " = [", " = \"", " "]), 1)
    elif what == 4 and lines[at]:
        i = rng.randrange(len(lines[at]))
        letter = chr(rng.choice([0, 9, 34, 39, 61, 91, 0xDC80]))
        lines[at] = lines[at][:i] + letter + lines[at][i + 1:]
    elif what == 5:
        lines[at] += rng.choice([" ", " # a comment", " x", "\"", "0", "\r", "\0"])
    else:
        del lines[at:]
    return "\n".join(lines)
