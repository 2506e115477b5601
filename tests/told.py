"""what firmware tells, as others read it: the compiler's Linux headers, structs of Multiboot2, a parser that knows the standard alone"""

import hashlib
import re
import unittest
from pathlib import Path
from typing import Dict, List, NamedTuple

from tests.c_core import CC
from tests.support import TOP, Checks, ProgramChecks, Ran, has_tomllib, is_at_hand, run

HEAD, RECORD = 272, 24  # bytes of an image of version 2 before its records, and of each
INFORMATION, PARAMETERS = 3, 4  # roles of parts
COLORS = ("red", "green", "blue")
LAYOUTS = [f"crates/bl_params/src/{name}.rt" for name in ("fields", "screen_fields", "efi_fields")] + ["crates/bl_bzimage/src/fields.rt"]
WHOLE = {"boot_params", "e820_entry"}  # structs, whose sizes the program over the headers prints too


class Case(NamedTuple):
    """A description by its difference from one of cases/base: keys of its tables with other values."""

    name: str
    base: str
    changes: Dict[str, str]


LINUX = [
    Case("all that firmware may tell", "firmware_linux", {}),
    Case("a screen above 4 GiB", "firmware_linux", {"base = 0xfd000000": "base = 0x380001000000"}),
    Case("pixels of 16 bits", "firmware_linux", {"depth = 32": "depth = 16", "red = [16, 8]": "red = [11, 5]", "green = [8, 8]": "green = [5, 6]"}),
    Case("UEFI of 32 bits", "firmware_linux", {"bits = 64": "bits = 32"}),
    Case("a system table above 4 GiB", "firmware_linux", {"0x7e9ec018": "0x123456789ab"}),
]
MULTIBOOT2 = [
    Case("all that firmware may tell", "firmware", {}),
    Case("a screen above 4 GiB", "firmware", {"base = 0xfd000000": "base = 0x380001000000"}),
    Case("UEFI of 32 bits", "firmware", {"bits = 64": "bits = 32"}),
    Case("another version of SMBIOS", "firmware", {"major = 3": "major = 2", "minor = 0": "minor = 255"}),
]


def part(image: bytes, role: int) -> bytes:
    """The bytes of the first part of a role, by the records of an image of version 2."""
    count = int.from_bytes(image[HEAD - 8:HEAD - 4], "little")
    at = HEAD + RECORD * count
    for record in range(HEAD, at, RECORD):
        length = int.from_bytes(image[record + 16:record + 24], "little")
        if int.from_bytes(image[record:record + 4], "little") == role:
            return image[at:at + length]
        at += length
    raise AssertionError(f"the image has no part of role {role}")


class Compiled(Checks):
    def compiled(self, name: str, what: str) -> Path:
        """A program of tests/drivers; where it can't be compiled, what it compares is left out."""
        if not is_at_hand(CC[0]):
            self.leave_out(what, f"there is no compiler {CC[0]}")
            raise unittest.SkipTest(what)
        program = self.room / name
        ran = run(*CC, "-Wall", "-Werror", "-o", program, TOP / f"tests/drivers/{name}.c")
        if ran.status != 0 and b"No such file or directory" in ran.err:
            self.leave_out(what, "there are no Linux headers for C")
            raise unittest.SkipTest(what)
        with self.check(f"tests/drivers/{name}.c compiles without a warning"):
            self.assert_ended(ran)
        return program


class Layout(Compiled):
    def test_fields(self) -> None:
        ran = run(self.compiled("zero_page", "the fields of boot parameters by the compiler's Linux headers"))
        self.assert_ended(ran, 0, None)
        fields = {name.lower(): (int(at, 16), int(size, 16)) for name, at, size in map(str.split, ran.out.decode().splitlines())}
        told, wrong = set(), []
        page = (TOP / "docs/FORMATS.md").read_text(encoding="utf-8").split("\n## Boot parameters\n")[1].split("\n## ")[0]
        for at, name, bits in re.findall(r"^\| 0x(\w+) \| ([a-z]\w+) \| (?:u(\d+)\b)?", page, re.M):
            told.add(name.lower())
            place, size = fields.get(name.lower(), (None, None))
            if place != int(at, 16) or (bits and size * 8 != int(bits)):
                wrong.append(f"docs/FORMATS.md: {name} at 0x{at}, of {bits} bits; the headers have {size} bytes at {place}")
        for source in LAYOUTS:
            for name, at in re.findall(r"^pub const (\w+): (?:usize|u64) = 0x(\w+);$", (TOP / source).read_text(encoding="utf-8"), re.M):
                field = name.lower().replace("_is_vga", "_isvga")
                told.add(field)
                if field in fields and fields[field][0] != int(at, 16):
                    wrong.append(f"{source}: {name} is 0x{at}; the headers have {fields[field]}")
        with self.check("each field of boot parameters stands in docs/FORMATS.md and in the core where the compiler's Linux headers have it"):
            self.assertEqual(wrong, [], "fields that stand elsewhere")
            self.assertEqual(sorted(set(fields) - told - WHOLE), [], "fields that neither the page nor the core names")


class Told(Compiled, ProgramChecks):
    @classmethod
    def setUpClass(cls) -> None:
        super().setUpClass()
        if not has_tomllib():
            raise unittest.SkipTest("what is told is compared with a description that Python 3.11 or later reads")

    def booted(self, case: Case, role: int) -> bytes:
        """The part of this role of the case's image."""
        text = (TOP / f"cases/base/{case.base}.toml").read_text(encoding="utf-8")
        for old, new in case.changes.items():
            text, count = re.subn(re.escape(old), new, text)
            self.assertEqual(count, 1, f"{case.base}.toml has '{old}' once")
        description, image = self.room / "desc.toml", self.room / "told.image"
        description.write_text(text, encoding="utf-8")
        ran = self.program("boot", description, "--out", image)
        self.assertEqual(ran.status, 0, f"ran: {ran}\n{ran.out!r} {ran.err!r}")
        return part(image.read_bytes(), role)

    def facts(self) -> dict:
        """What the description told that was booted last."""
        import tomllib

        return tomllib.loads((self.room / "desc.toml").read_text(encoding="utf-8"))

    def test_linux(self) -> None:
        reader = self.compiled("told_linux", "boot parameters by the compiler's Linux headers")
        for case in LINUX:
            ran = run(reader, stdin=self.booted(case, PARAMETERS))
            sentence = f"the compiler's Linux headers read of boot parameters what was told: {case.name}"
            self.ends(sentence, ran, 0, lines(linux_words(self.facts())))

    def test_multiboot2(self) -> None:
        reader = self.compiled("told_multiboot2", "boot information by structs of the standard")
        for case in MULTIBOOT2:
            information = self.booted(case, INFORMATION)
            ran = run(reader, stdin=information)
            sentence = f"structs of the standard read of boot information what was told: {case.name}"
            self.ends(sentence, ran, 0, lines(multiboot2_words(self.facts()["firmware"])))

    def test_parser(self) -> None:
        for case in MULTIBOOT2:
            ran = run(TOP / "tests/information_parser.py", stdin=self.booted(case, INFORMATION))
            with self.check(f"a parser that knows the standard alone reads of boot information what was told: {case.name}"):
                self.assert_parsed(ran, self.facts()["firmware"])

    def assert_parsed(self, ran: Ran, told: dict) -> None:
        self.assert_ended(ran, 0, None)
        screen, efi, smbios = told["screen"], told["efi"], told["smbios"]
        printed = ran.out.decode().splitlines()
        types = [int(line.split()[1]) for line in printed if line.startswith("tag ")]
        self.assertEqual(types, [1, 2, 4, 6, 8, 11 if efi["bits"] == 32 else 12, 13, 17, 0], "the types in their order")
        wanted = [f"framebuffer_addr {screen['base']:#x}", *(f"framebuffer_{key} {screen[key]}" for key in ("pitch", "width", "height"))]
        wanted += [f"framebuffer_bpp {screen['depth']}", "framebuffer_type 1", "reserved 0"]
        for color in COLORS:
            wanted += [f"{color}_field_position {screen[color][0]}", f"{color}_mask_size {screen[color][1]}"]
        digest = hashlib.sha256(bytes.fromhex(efi["map"])).hexdigest()
        wanted += [f"pointer {efi['system_table']:#x}", f"major {smbios['major']}", f"minor {smbios['minor']}", "reserved 6 bytes 000000000000"]
        wanted += [f"tables {len(smbios['tables']) // 2} bytes {smbios['tables']}", f"descriptor_size {efi['descriptor_size']}"]
        wanted += [f"descriptor_version {efi['descriptor_version']}", f"efi_memory_map {len(efi['map']) // 2} bytes {digest}"]
        told_lines = [line.strip() for line in printed[printed.index(next(line for line in printed if line.startswith("tag 8 "))):]]
        self.assertEqual([line for line in told_lines if not line.startswith(("tag ", "descriptor type"))], wanted, "the fields")


def lines(words: List[str]) -> str:
    return "".join(f"{word}\n" for word in words)


def linux_words(description: dict) -> List[str]:
    """What the program over the Linux headers prints of a description."""
    told = description["firmware"]
    screen, efi = told["screen"], told["efi"]
    words = ["is a screen of EFI 1", "has no quirks 1", f"has a high base {int(screen['base'] >= 1 << 32)}", f"base {screen['base']}"]
    words += [f"size {screen['pitch'] * screen['height']}", *(f"{key} {screen[key]}" for key in ("width", "height", "depth"))]
    words += [f"linelength {screen['pitch']}", "pages 1"]
    for color in COLORS:
        words += [f"{color} size {screen[color][1]}", f"{color} position {screen[color][0]}"]
    words += ["reserved size 0", "reserved position 0", f"rsdp {told['rsdp']}", f"signature EL{efi['bits']}"]
    words += [f"system table {efi['system_table']}", f"map address {efi['map_address']}", f"map size {len(efi['map']) // 2}"]
    words += [f"descriptor size {efi['descriptor_size']}", f"descriptor version {efi['descriptor_version']}"]
    return words + [f"secure boot {efi['secure_boot']}", f"entries {len(description['region'])}"]


def multiboot2_words(told: dict) -> List[str]:
    """What the program over the structs of the standard prints of what firmware tells."""
    screen, efi, smbios = told["screen"], told["efi"], told["smbios"]
    words = ["screen tag 38", *(f"{key} {screen[key]}" for key in ("base", "pitch", "width", "height", "depth")), "type 1", "reserved 0"]
    for color in COLORS:
        words += [f"{color} position {screen[color][0]}", f"{color} size {screen[color][1]}"]
    words += [f"{efi['bits']}-bit system table tag {8 + efi['bits'] // 8}", f"system table {efi['system_table']}"]
    words += [f"SMBIOS tag {16 + len(smbios['tables']) // 2}", f"major {smbios['major']}", f"minor {smbios['minor']}"]
    words += ["reserved 000000000000", f"tables {smbios['tables']}", f"map tag {16 + len(efi['map']) // 2}"]
    return words + [f"descriptor size {efi['descriptor_size']}", f"descriptor version {efi['descriptor_version']}", f"map {efi['map']}"]
