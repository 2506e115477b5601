"""the core for C: header, statuses, examples, walks, and the cases by way of it"""

import hashlib
import re
import shutil
import subprocess
import time
import unittest
from pathlib import Path
from typing import List, Optional, Tuple

from tests import examples
from tests.c_core import CC, FREESTANDING, HEADER, WARNINGS, CoreChecks, build, build_freestanding, libraries, why_left_out
from tests.changed_images import change, changed_images
from tests.support import PLAIN, PROGRAM, TOP, Checks, Ran, has_tomllib, is_at_hand, need_built, run

OVMF = Path("/usr/share/ovmf/OVMF.fd")

DISK = """\
entry 0 refused 2 1
entry 1 ip 100010 bx 1000
part 3 0 at 1000, 4096 bytes
part 1 0 at 100000, 80 bytes
part 2 0 at 101000, 40960 bytes
19 answers
memory as after bootcore_boot
"""

# places by the table of docs/BOOT-RULES.md: information lowest, the module from the next frame after the kernel on
GUEST = """\
bits 32
ip 100010 ax 36d76289 bx 1000 si 0
cr0 11 cr3 0 cr4 0 efer 0 gdt 0
cs 10 base 0 limit ffffffff type b s 1 dpl 0 p 1 avl 0 l 0 db 1 g 1
ds 18 base 0 limit ffffffff type 3 s 1 dpl 0 p 1 avl 0 l 0 db 1 g 1
es 18 base 0 limit ffffffff type 3 s 1 dpl 0 p 1 avl 0 l 0 db 1 g 1
fs 18 base 0 limit ffffffff type 3 s 1 dpl 0 p 1 avl 0 l 0 db 1 g 1
gs 18 base 0 limit ffffffff type 3 s 1 dpl 0 p 1 avl 0 l 0 db 1 g 1
ss 18 base 0 limit ffffffff type 3 s 1 dpl 0 p 1 avl 0 l 0 db 1 g 1
part 3 0 at 1000, 4096 bytes
part 1 0 at 100000, 80 bytes
part 2 0 at 101000, 4096 bytes
"""

# the guest of examples/c/digest.c
DIGESTED = """\
size = 0x400000
pool = [0x200000, 0x400000]
region = [{{ base = 0, length = 0x9F000, kind = "usable" }}, {{ base = 0x100000, length = 0x300000, kind = "usable" }}]
[[entry]]
title = "a guest"
protocol = "{}"
kernel = "{}"
line = "quiet"
{}
"""

# of cases/base/firmware.toml and firmware_linux.toml, whose machine and facts are those of examples/c/firmware.c
SCREEN = "screen at fd000000: 1024 by 768 of 32 bits, 4096 bytes a line, red 16+8 green 8+8 blue 0+8\n"
EFI = "efi of 64 bits at 7e9ec018, secure boot {}; its map: 5 descriptors of 48 bytes and version 1, {}\n"
TOLD_MULTIBOOT2 = SCREEN + EFI.format(0, "a copy") + "smbios 3.0: a copy of 36 bytes\n"
TOLD_LINUX = SCREEN + "rsdp at e0000\n" + EFI.format(2, "at f8000")

SEEN = "a kernel sees: entry 100010, line of 1 bytes, 1 modules, 3 runs\n"

CASES_COUNT = re.compile(r"(\d+) boots and (\d+) loads of \d+ cases, (\d+) differ")


def setUpModule() -> None:
    why = why_left_out()
    if why:
        raise unittest.SkipTest(why)
    need_built(PROGRAM, "tools/build")


class Built(Checks):
    def test_build(self) -> None:
        """the core for C and its examples are built"""
        ran = build()
        if ran.status != 0:
            written = (ran.out + ran.err)[-4000:].decode(errors="backslashreplace")
            self.fail(f"ran: {ran}\nstatus {ran.status}, wanted 0\n{written}")


class Header(CoreChecks):
    def reads(self, sentence: str, compiler: List[str], standard: str, language: str) -> None:
        """A check that a compiler accepts the header alone, without a warning."""
        words = [*compiler, f"-std={standard}", *WARNINGS, "-fsyntax-only", "-x", language, HEADER]
        self.ends(sentence, run(*words))

    def test_c(self) -> None:
        for compiler in dict.fromkeys([" ".join(CC), "gcc", "clang"]):
            if not is_at_hand(compiler.split()[0]):
                self.leave_out(f"include/bootcore.h is accepted by {compiler} as C99 and C11 without a warning", f"{compiler} is not at hand")
                continue
            for standard in ("c99", "c11"):
                sentence = f"include/bootcore.h is accepted by {compiler} as {standard.upper()} without a warning"
                self.reads(sentence, compiler.split(), standard, "c")

    def test_cxx(self) -> None:
        for compiler in ("c++", "clang++"):
            if not is_at_hand(compiler):
                self.leave_out(f"include/bootcore.h is accepted by {compiler} as C++98 and C++11 without a warning", f"{compiler} is not at hand")
                continue
            for standard in ("c++98", "c++11"):
                sentence = f"include/bootcore.h is accepted by {compiler} as {standard.upper()} without a warning"
                self.reads(sentence, [compiler], standard, "c++")

    def test_uefi(self) -> None:
        sentence = "include/bootcore.h is accepted for UEFI, where calls have another convention, without a warning"
        if not is_at_hand("clang"):
            self.leave_out(sentence, "clang is not at hand")
            return
        self.reads(sentence, ["clang", "--target=x86_64-unknown-windows", "-ffreestanding"], "c99", "c")

    def test_processors(self) -> None:
        wanted = b'error: #error "bootcore is for x86-64'
        for compiler, *words in (["gcc", "-m32"], ["clang", "-m32"], ["clang", "--target=aarch64-linux-gnu"], ["clang", "--target=s390x-linux-gnu"]):
            sentence = f"include/bootcore.h refuses a processor that the archive is not for, and says so: {' '.join([compiler, *words])}"
            if not is_at_hand(compiler):
                self.leave_out(sentence, f"{compiler} is not at hand")
                continue
            ran = run(compiler, *words, "-ffreestanding", "-fsyntax-only", "-x", "c", HEADER)
            with self.check(sentence):
                self.assertNotEqual(ran.status, 0, f"ran: {ran}")
                self.assertIn(wanted, ran.err.replace(b'error: "', b'error: #error "'), f"ran: {ran}")

    def test_processors_from_source(self) -> None:
        words = ["-DBOOTCORE_FROM_SOURCE", "-ffreestanding", *WARNINGS, "-fsyntax-only", "-x", "c", HEADER]
        for target, status in (("aarch64-linux-gnu", 0), ("aarch64-none-elf", 0), ("x86_64-linux-gnu", 0), ("aarch64_be-linux-gnu", 1), ("riscv64", 1)):
            sentence = f"include/bootcore.h beside an archive of the plain source {'refuses' if status else 'is for'} {target}"
            if is_at_hand("clang"):
                self.ends(sentence, run("clang", f"--target={target}", *words), status, "", None if status else "")
            else:
                self.leave_out(sentence, "clang is not at hand")

    def test_abi(self) -> None:
        for compiler in ("gcc", "clang"):
            sentence = f"include/abi.txt is what {compiler} says of the headers"
            if is_at_hand(compiler):
                self.ends(sentence, run(TOP / "tools/abi", env={"CC": compiler}))
            else:
                self.leave_out(sentence, f"{compiler} is not at hand")

    def test_length(self) -> None:
        """include/bootcore.h has at most 540 lines beside the numbers of refusals and faults, of at most 100 columns"""
        lines = HEADER.read_text(encoding="utf-8").splitlines()
        self.assertLessEqual(sum(not re.match(r"    BOOTCORE_(REFUSAL|FAULT)_", line) for line in lines), 540)
        self.assertEqual([line for line in lines if len(line) > 100], [])


class Archives(CoreChecks):
    """What an archive has for a linker to see."""

    def sees_functions(self, sentence: str, archive: Path, headers: List[str]) -> None:
        """A check that the archive's global symbols are the functions of these headers, and hidden."""
        text = "".join((HEADER.parent / header).read_text(encoding="utf-8") for header in headers)
        declared = re.findall(r"^BOOTCORE_(?:CALL|CHECKED) [^(]*[ *](bootcore_\w+)\(", text, re.M)
        ran = run("readelf", "-sW", archive)
        symbols = [line.split() for line in ran.out.decode().splitlines()]
        seen = {it[7]: it[5] for it in symbols if len(it) == 8 and it[4] in ("GLOBAL", "WEAK", "UNIQUE") and it[6] != "UND"}
        with self.check(sentence):
            self.assertGreater(len(declared), 20, "functions of the headers")
            self.assertEqual(seen, dict.fromkeys(declared, "HIDDEN"), f"ran: {ran}")

    def test_symbols(self) -> None:
        parts = ["bootcore.h", "bootcore_image.h", "bootcore_digest.h"]
        sentence = "the functions of the headers are the only global symbols of {}, and hidden"
        self.sees_functions(sentence.format("libbootcore.a"), libraries()[0], parts)
        if build_freestanding().status == 0:
            self.sees_functions(sentence.format(FREESTANDING.name), FREESTANDING, [*parts, "bootcore_arena.h"])

    def test_versions(self) -> None:
        """two shared objects with archives of two versions, in one process, each have their own"""
        if PLAIN:
            self.skipTest("the core of the plain source is not kept beside its archive")
        other = self.room / "other"
        for part in ("c", "include", "tools/c_archive", "crates/bootcore_c/out/libbootcore_c.a"):
            (other / part).parent.mkdir(parents=True, exist_ok=True)
            (shutil.copytree if (TOP / part).is_dir() else shutil.copy)(TOP / part, other / part)
        header = other / "include/bootcore.h"
        text, count = re.subn(r"(#define BOOTCORE_VERSION) \d+", r"\1 10203", header.read_text(encoding="utf-8"))
        self.assertEqual(count, 1)
        header.write_text(text, encoding="utf-8")
        self.assert_ended(run(other / "tools/c_archive", other / "libbootcore.a", timeout=300))
        source, made = TOP / "tests/drivers/versions.c", []
        for name, archive in (("one", libraries()[0]), ("other", other / "libbootcore.a")):
            made.append(self.room / f"{name}.so")
            words = [*CC, "-std=c99", "-DLIBRARY", "-fPIC", "-shared", *WARNINGS, "-I", HEADER.parent, source, archive]
            self.assert_ended(run(*words, "-o", made[-1]))
        program = self.room / "versions"
        self.assert_ended(run(*CC, "-std=c99", *WARNINGS, "-I", HEADER.parent, source, "-ldl", "-o", program))
        number = re.search(r"#define BOOTCORE_VERSION (\d+)", HEADER.read_text(encoding="utf-8"))[1]
        self.assert_ended(run(program, *made), 0, f"{number} 1 71\n10203 1 71\n")
        self.assert_ended(run(program, *reversed(made)), 0, f"10203 1 71\n{number} 1 71\n")


class Texts(CoreChecks):
    """Refusals in words."""

    SAID = re.compile(rb"(?m)^(refused (\d+) \w+(?:\((0x)?(\w+)(?:, (\d+))?\))?: .*)$")
    BAD_IMAGES = {
        "71 0 0": "bad image 71 BadMagic: the first eight bytes are not BLIMAGE and a zero byte",
        "74 3 0": "bad image 74 BadPart(3): record i is bad: its role, its address, its length or its end;"
        " role 8 is allowed with protocol 3 alone",
        "90 1 2": "bad image 90: no refusal has this number",
    }

    def test_texts(self) -> None:
        made = self.room / "texts"
        words = [*CC, "-std=c99", "-O2", *WARNINGS, "-I", HEADER.parent, TOP / "tests/drivers/texts.c", *libraries()]
        self.ends("the driver that prints refusals in words is built", run(*words, "-o", made))
        if not made.exists():
            return
        expanded = self.room / "expanded"
        self.ends("the cases' descriptions are written", run(TOP / "cases/expand", expanded), 0, None)
        wanted, asked = [], []
        for description in sorted(expanded.glob("*.toml")):
            explained = self.program("explain", description)
            for line, number, is_offset, first, second in self.SAID.findall(explained.out):
                if line not in wanted:
                    wanted.append(line)
                    asked.append(f"{int(number)} {int(first or b'0', 16 if is_offset else 10)} {int(second or b'0')}")
        numbers = {line.split()[0] for line in asked}
        with self.check("the cases are refused with at least 25 of the 30 numbers"):
            self.assertGreaterEqual(len(numbers), 25, f"numbers: {sorted(map(int, numbers))}")
        ran = run(made, stdin="\n".join([*asked, *self.BAD_IMAGES]).encode())
        said = b"\n".join([*wanted, *map(str.encode, self.BAD_IMAGES.values()), b""]).decode()
        self.ends("bootcore_refusal_line says of each refusal of the cases what explain says", ran, 0, said)


class Statuses(CoreChecks):
    def test_statuses(self) -> None:
        for sentence, ran, tried in [
            ("each answer of a load, a preparation and a plan from C has its status, and each status its words", self.example("statuses"), 570),
            ("each end of a boot from C has its status", self.example("menu", self.kernel), 33),
            ("each answer of a session's calls from C has its status", self.example("sessions"), 138),
            ("each end of a walk from C has its status", self.example("walks", self.images["first.2"]), 23),
        ]:
            self.ends(sentence, ran, 0, f"{tried} tried, 0 wrong\n")


class Walks(CoreChecks):
    # the lines of tables that a kernel has as copies: the walk from C prints the bytes, of which the program says the SHA-256
    COPIES = re.compile(rb"(?m)^(efi-map - .* |smbios .* )([0-9a-f]+)$")

    def walked_by_both(self, image: Path) -> Tuple[Ran, Ran]:
        walked = self.example("walked", image)
        digested = self.COPIES.sub(lambda line: line[1] + hashlib.sha256(bytes.fromhex(line[2].decode())).hexdigest().encode(), walked.out)
        return self.program("walk", image), walked._replace(out=digested)

    def test_walks(self) -> None:
        linux = self.booted("linux", "linux.sh", kernel=examples.linux_kernel())
        linux64 = self.booted("linux64", "linux.sh", "linux64", kernel=examples.linux64_kernel())
        for name, image in [
            ("the first example's image of version 1", self.images["first.1"]),
            ("the first example's image of version 2", self.images["first.2"]),
            ("the second example's image of version 1", self.images["second.1"]),
            ("the second example's image of version 2", self.images["second.2"]),
            ("the image of a Multiboot2 kernel that is told all that firmware may tell", self.images["told.2"]),
            ("the image of a Linux kernel that is told so", self.images["told_linux.2"]),
            ("the image of a user's kernel and modules", self.modules / "modules.image"),
            ("the image of a Linux kernel by its 32-bit entry", linux / "linux.image"),
            ("the image of a Linux kernel by its 64-bit entry", linux64 / "linux.image"),
            ("an image that is absent", self.room / "absent.image"),
        ]:
            wanted, came = self.walked_by_both(image)
            self.ends(f"a walk from C reports of {name} what the program does", came, *wanted[2:])

    def test_changed(self) -> None:
        image = self.room / "changed.image"
        bases = {name: path.read_bytes() for name, path in self.images.items()}
        same, faults = 0, []
        for changed in changed_images():
            image.write_bytes(change(bases[changed.base], changed.changes))
            wanted, came = self.walked_by_both(image)
            try:
                self.assert_ended(came, *wanted[2:])
                same += 1
            except AssertionError as fault:
                faults.append(f"{changed}:\n{fault}")
        sentence = "a walk from C reports of each changed image what the program does"
        self.assertGreater(same + len(faults), 0, "cases/images has no row")
        self.tally(sentence, same, len(faults), "\n".join(faults[:8]))


class Examples(CoreChecks):
    def test_disk(self) -> None:
        """a disk that answers in no order, twice, and with a fault, boots the fallback"""
        self.assert_ended(self.example("disk", self.kernel), 0, DISK)

    def test_measured(self) -> None:
        machine, module, changed = (self.room / name for name in ("first.map", "m.bin", "changed.image"))
        machine.write_bytes(self.program("map", examples.FIRST).out)
        module.write_bytes(b"hello")
        changed.write_bytes(change(self.images["first.2"].read_bytes(), ["@116c=ff"]))

        def measured(image: Path) -> Ran:
            return self.example("measured", "0x400000", machine, image, "multiboot2", "k", self.kernel, module, "m")

        self.ends(
            "the checker of measured boots computes the image of the first example from its machine and files",
            measured(self.images["first.2"]),
            0,
            "equal\n" + SEEN,
        )
        self.ends(
            "the checker of measured boots finds the byte that was changed in an image",
            measured(changed),
            1,
            "differs: memory at 0x100014\n" + SEEN,
        )

    def test_first(self) -> None:
        folder = self.room / "first"
        folder.mkdir()
        examples.write_linux(folder, examples.linux_kernel())
        entered = self.example("first", "vmlinuz", "initrd.img", cwd=folder)
        self.ends("the first program of docs/EMBED.md loads its guest", entered, 0, "entered at 100000, boot parameters at 1000\n")

    def test_firmware(self) -> None:
        folder = self.room / "firmware"
        folder.mkdir()
        (folder / "hello").write_bytes(b"hello")
        (folder / "first").write_bytes(examples.multiboot2_kernel())
        (folder / "second").write_bytes(examples.linux_kernel())
        if not has_tomllib():
            self.leave_out("a kernel is told from C what firmware tells", "python3 of 3.11 or later is not at hand")
            return
        multiboot2, linux = self.described(folder, "firmware"), self.described(folder, "firmware_linux")
        (folder / "linux64").write_bytes(changed_for_64((folder / "linux").read_bytes()))
        rows = (TOP / "cases/told.cases").read_text(encoding="utf-8")
        of_case = lambda name: re.search(rf"^{name}\|.*\|([0-9a-f]{{64}})$", rows, re.M)[1]
        first, second = examples.FIRST_IMAGE[1], examples.SECOND_IMAGE[1]
        for what, words, told, wanted in [
            ("a Multiboot2 kernel", ["all", "image", *multiboot2], TOLD_MULTIBOOT2, of_case("told_all")),
            ("a Multiboot2 kernel", ["none", "image", *multiboot2], "", of_case("told_nothing")),
            ("a Linux kernel", ["all", "image", *linux], TOLD_LINUX, of_case("linux_told_all")),
            ("a Linux kernel", ["none", "image", *linux], "", of_case("linux_told_nothing")),
            ("a Linux kernel, by its 64-bit entry,", ["all", "image", "linux64", "linux64", *linux[2:]], TOLD_LINUX, of_case("linux64_told_all")),
            ("a Linux kernel, by its 64-bit entry,", ["none", "image", "linux64", "linux64", *linux[2:]], "", of_case("linux64_told_nothing")),
            ("the first example", ["none", "image", "multiboot2", "first", "k", "map", "tables", "hello", "m"], "", first),
            ("the second example", ["none", "image", "linux", "second", "console=ttyS0", "map", "tables", "hello", ""], "", second),
        ]:
            self.ends(f"{what} is told from C of firmware: {words[0]}", self.example("firmware", *words, cwd=folder), 0, told)
            with self.check(f"and the image of {what} is the one that is kept: {words[0]}"):
                self.assert_digest(wanted, folder / "image")

    @staticmethod
    def described(folder: Path, base: str) -> List[str]:
        """The words for the entry of a base of cases, whose files are put into a folder, and so is what firmware tells."""
        import tomllib

        told = tomllib.loads((TOP / f"cases/base/{base}.toml").read_text(encoding="utf-8"))
        entry, firmware = told["entry"][0], told["firmware"]
        kernel, initrd = entry["protocol"], entry.get("initrd")
        for file in told["file"]:
            (folder / (kernel if file["name"] == entry["kernel"] else file["name"])).write_bytes(bytes.fromhex(file["hex"]))
        (folder / "map").write_bytes(bytes.fromhex(firmware["efi"]["map"]))
        (folder / "tables").write_bytes(bytes.fromhex(firmware["smbios"]["tables"]))
        return [entry["protocol"], kernel, entry["line"], "map", "tables", *([initrd, ""] if initrd else [])]

    def test_digest(self) -> None:
        folder = self.room / "digested"
        folder.mkdir()
        examples.write_modules(folder)
        examples.write_linux(folder, examples.linux_kernel())
        (folder / "vmlinuz64").write_bytes(examples.linux64_kernel())
        module = 'module = [{ file = "ramdisk.img", line = "ramdisk.img" }, { file = "settings.cfg", line = "settings.cfg" }]'
        for protocol, kernel, said, files in [
            ("multiboot2", "kernel.elf", module, ["ramdisk.img", "settings.cfg"]),
            ("linux", "vmlinuz", 'initrd = "initrd.img"', ["initrd.img"]),
            ("linux64", "vmlinuz64", "", []),
        ]:
            description, image = folder / f"{protocol}.toml", folder / f"{protocol}.image"
            description.write_text(DIGESTED.format(protocol, kernel, said), encoding="utf-8")
            self.assert_ended(run(PROGRAM, "boot", description, "--out", image, cwd=folder), 0, None)
            wanted = run(TOP / "examples/digests.sh", image).out.decode()
            self.assertGreater(wanted.count("\n"), 4, "lines of examples/digests.sh")
            ran = self.example("digest", "0x400000", protocol, kernel, "quiet", *files, cwd=folder)
            self.ends(f"digests from a guest's files, by {protocol}, are those of its image", ran, 0, wanted)
        refused = self.example("digest", "0x400000", "multiboot2", "settings.cfg", "quiet", cwd=folder)
        self.ends("digests of a bad kernel are its refusal", refused, 1, "refused 4 NoHeader: no Multiboot2 header in the first 32768 bytes, at a multiple of 8, with a right sum\n")

    def test_guest(self) -> None:
        entered = self.example("guest", "multiboot2", "kernel.elf", "k", "settings.cfg", cwd=self.modules)
        self.ends("the guest loader prints how its guest is entered", entered, 0, GUEST)
        refused = self.example("guest", "multiboot2", "settings.cfg", "k", cwd=self.modules)
        self.ends("the guest loader prints which refusal a bad kernel meets", refused, 1, "refused 4 NoHeader: no Multiboot2 header in the first 32768 bytes, at a multiple of 8, with a right sum\n")


def changed_for_64(kernel: bytes) -> bytes:
    """The bzImage of cases/base/firmware_linux.toml with its 64-bit entry, as the case linux64_told_all has it."""
    return kernel[:0x236] + b"\x01" + kernel[0x237:] + b"\xcc" * 512


class Cases(CoreChecks):
    def test_cases(self) -> None:
        self.run_cases(
            "each case ends as wanted by way of C, by a boot and a session, a load and a plan carried out in three ways,"
            " with its digests, at once and fed, also with each growth of memory refused in turn",
            self.driver("cases", *self.sanitizers(), "-Wl,--wrap=malloc,--wrap=realloc"),
        )

    def test_freestanding(self) -> None:
        self.ends("the archive for firmware is built", build_freestanding())
        if FREESTANDING.exists():
            driver = self.driver("cases", "-DARENA", archive=FREESTANDING)
            self.run_cases("each case ends as wanted by way of C for firmware", driver)
            self.link_for_windows()

    def link_for_windows(self) -> None:
        """By tools/coff the archive for firmware is an object for a linker of PE/COFF: what that links does in firmware what it does here."""
        sentence = "a program of UEFI is linked with the archive for firmware by a linker of PE/COFF"
        missing = [tool for tool in ("ar", "clang", "lld-link") if shutil.which(tool) is None]
        if missing:
            self.leave_out(sentence, f"{missing[0]} is not at hand")
            return
        folder, source = self.room / "pe", TOP / "tests/drivers/coff.c"
        boot = folder / "disk/EFI/BOOT"
        boot.mkdir(parents=True)
        numbers = ", ".join(map(str, examples.multiboot2_kernel()))
        (folder / "kernel.h").write_text(f"static const unsigned char kernel[] = {{{numbers}}};\n", encoding="utf-8")
        flags = ["-std=c99", *WARNINGS, "-I", str(HEADER.parent), "-I", str(folder), *(["-DBOOTCORE_FROM_SOURCE"] if PLAIN else [])]
        alone = ["--target=x86_64-unknown-windows", "-ffreestanding", "-mno-red-zone", "-fno-stack-protector"]
        for words in [
            [TOP / "tools/coff", FREESTANDING, "bootcore.obj"],
            ["clang", *alone, *flags, "-c", source, "-o", "app.obj"],
            ["lld-link", "/subsystem:efi_application", "/entry:efi_main", "/nodefaultlib", f"/out:{boot}/BOOTX64.EFI", "app.obj", "bootcore.obj"],
        ]:
            ran = run(*words, cwd=folder)
            if ran.status != 0:
                break
        self.ends(sentence, ran, 0)
        self.run_in_firmware(folder, run(*CC, *flags, source, FREESTANDING, "-o", folder / "here"))

    def run_in_firmware(self, folder: Path, built: Ran) -> None:
        sentence = "that program prints under OVMF what it prints here"
        if not is_at_hand("qemu-system-x86_64") or not OVMF.exists():
            self.leave_out(sentence, "qemu-system-x86_64 with OVMF is not at hand")
            return
        self.assert_ended(built)
        here, log = run(folder / "here"), folder / "log"
        machine = "-m 256 -display none -net none -no-reboot -global isa-debugcon.iobase=0x402".split()
        disk = ["-drive", f"file=fat:rw:{folder}/disk,format=raw", "-debugcon", f"file:{log}"]
        with subprocess.Popen(["qemu-system-x86_64", "-bios", OVMF, *machine, *disk], stdout=subprocess.DEVNULL, stderr=subprocess.DEVNULL) as emulated:
            told, ends = "", time.monotonic() + 120
            while "the end\n" not in told and time.monotonic() < ends:
                time.sleep(0.5)
                told = log.read_text(encoding="utf-8", errors="replace") if log.exists() else ""
            emulated.kill()
        with self.check(sentence):
            self.assertRegex(here.out.decode(), r"\Aversion (?s:.*)\nthe end\n\Z")
            self.assertIn(here.out.decode(), told)

    def run_cases(self, sentence: str, driver: Optional[Path]) -> None:
        if driver is None:
            return
        if not has_tomllib():
            self.leave_out(sentence, "python3 of 3.11 or later is not at hand")
            return
        ran = run(TOP / "tests/drivers/cases", driver, timeout=900, env={"PYTHONDONTWRITEBYTECODE": "1"})
        lines = ran.out.decode(errors="backslashreplace").splitlines()
        counts = CASES_COUNT.fullmatch(lines[-1]) if lines else None
        if counts is None or ran.err or (ran.status == 0) != (counts[3] == "0"):
            with self.check(sentence):
                self.assert_ended(ran, 0, None)
                self.fail(f"ran: {ran}\nits last line is no count of boots and loads: {lines[-1:]}")
            return
        boots, loads, differ = map(int, counts.groups())
        self.tally(sentence, boots + loads - differ, differ, "\n".join(line[:300] for line in lines[-20:]))
