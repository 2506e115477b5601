"""kernels in QEMU: what each was handed, and told of firmware; the bytes of the stub and of the kernels beside their sources"""

import os
import re
import subprocess
import sys
import unittest
from collections import Counter
from pathlib import Path
from typing import Dict, List, NamedTuple, Optional

from tests.firmware_tables import PAGE, acpi, efi, efi_map
from tests.support import PROGRAM, TOP, Checks, Ran, has_tomllib, is_at_hand, need_built, run

COLORS = ("red", "green", "blue")
PAINTED = "examples/kernels/screen.toml"


class Kernels(Checks):
    def test_kernels(self) -> None:
        """each small kernel is handed in QEMU what its image says"""
        if not is_at_hand("qemu-system-x86_64"):
            self.skipTest("qemu-system-x86_64 is not at hand")
        need_built(PROGRAM, "tools/build")
        self.passes("each small kernel is handed in QEMU what its image says", TOP / "tests/qemu_check", PROGRAM)

    def test_bytes(self) -> None:
        """the bytes of stub and kernels are those of their sources"""
        if not self.has_assembler():
            self.skipTest("as and ld for x86-64 are not at hand")
        self.passes("the bytes of stub and kernels are those of their sources", TOP / "examples/kernels/bytes")

    def has_assembler(self) -> bool:
        assembled = run("as", "--64", "-o", self.room / "object", "/dev/null")
        return assembled.status == 0 and b"elf_x86_64" in run("ld", "-V").out


class Seen(NamedTuple):
    """What a kernel wrote, and what was on QEMU's screen then: three bytes a pixel, red, green and blue."""

    ran: Ran
    written: str
    picture: Path
    width: int
    height: int
    pixels: bytes


class ScreenChecks(Checks):
    """Checks of a kernel that runs on a machine with a screen."""

    @classmethod
    def setUpClass(cls) -> None:
        if not is_at_hand("qemu-system-x86_64"):
            raise unittest.SkipTest("qemu-system-x86_64 is not at hand")
        need_built(PROGRAM, "tools/build")
        super().setUpClass()

    def image_of(self, name: str, text: str) -> Path:
        """The image of a description, which stands beside it."""
        description = self.room / f"{name}.toml"
        description.write_text(text, encoding="utf-8")
        image = description.with_suffix(".image")
        self.assert_ended(run(PROGRAM, "boot", description, "--out", image), 0, None)
        return image

    def seen(self, image: Path, machine: Path, last: str, *options: str) -> Seen:
        """What an image's kernel writes on the machine of a description up to its last line, and the screen then."""
        picture = self.room / "screen.ppm"
        picture.unlink(missing_ok=True)
        words = [str(TOP / "examples/qemu.sh"), "--seconds", "300", str(image), str(machine), "--", "-no-shutdown", *options]
        lines: List[bytes] = []
        with subprocess.Popen(words, stdin=subprocess.PIPE, stdout=subprocess.PIPE, stderr=subprocess.STDOUT) as process:
            for line in process.stdout or ():
                lines.append(line)
                if last.encode() in line:
                    # Ctrl-A C: from the serial port to the monitor
                    process.communicate(f'\1cscreendump "{picture}"\nquit\n'.encode(), timeout=60)
                    break
        written = b"".join(lines).replace(b"\r", b"")
        ran = Ran(words, TOP, process.returncode, written, b"")
        head = re.match(rb"P6\s(\d+)\s(\d+)\s255\s", picture.read_bytes()) if picture.exists() else None
        if head is None:
            self.fail(f"ran: {ran}\nstatus {ran.status}; no picture of the screen after these lines:\n{written[-2000:]!r}")
        pixels = picture.read_bytes()[head.end():]
        return Seen(ran, written.decode(errors="backslashreplace"), picture, int(head[1]), int(head[2]), pixels)


# ---- a small kernel, which paints

# modes of QEMU's VGA, by their differences from that of screen.toml
MODES: Dict[str, Dict[str, str]] = {
    "of 32 bits": {},
    "of 24 bits": {"depth = 32": "depth = 24", "pitch = 2816": "pitch = 1968", "base = 0xFD000000": "base = 0xE1000000"},
    "of 16 bits": {
        "depth = 32": "depth = 16", "pitch = 2816": "pitch = 2048", "width = 640": "width = 800", "height = 400": "height = 600",
        "red = [16, 8]": "red = [11, 5]", "green = [8, 8]": "green = [5, 6]", "blue = [0, 8]": "blue = [0, 5]",
        "bits = 64": "bits = 32", "0x123456789A8": "0x3456789A",
    },
    "of 15 bits": {
        "depth = 32": "depth = 15", "pitch = 2816": "pitch = 640", "width = 640": "width = 320", "height = 400": "height = 200",
        "red = [16, 8]": "red = [10, 5]", "green = [8, 8]": "green = [5, 5]", "blue = [0, 8]": "blue = [0, 5]",
    },
}  # fmt: skip
# compares a picture of the screen with what the kernel paints
LOOKS = TOP / "examples/efi/host/screen.py"


class Painted(ScreenChecks):
    def test_modes(self) -> None:
        if not has_tomllib():
            self.leave_out("a small kernel paints QEMU's screen", "Python is older than 3.11")
            return
        import tomllib

        for name, changes in MODES.items():
            text = (TOP / PAINTED).read_text(encoding="utf-8")
            for old, new in changes.items():
                self.assertEqual(text.count(old), 1, f"{PAINTED} has '{old}' once")
                text = text.replace(old, new)
            told = tomllib.loads(text)["firmware"]
            image = self.image_of("painted", text)
            seen = self.seen(image, image.with_suffix(".toml"), "ended")
            with self.check(f"a small Multiboot2 kernel is told of a screen {name}, of UEFI and SMBIOS what the description says"):
                self.assert_text(seen.ran, "\n".join([*told_lines(told), "ended", ""]), seen.written)
            sentence = f"and each pixel of QEMU's screen {name} is as the kernel painted it"
            self.passes(sentence, sys.executable, LOOKS, "painted", seen.picture, image.with_suffix(".toml"))


def told_lines(told: dict) -> List[str]:
    """What the kernel writes of what firmware tells: numbers with two digits a byte, then bytes."""
    screen, efi, smbios = told["screen"], told["efi"], told["smbios"]
    lines = [f"screen {screen['base']:016x}", *(f"{key} {screen[key]:08x}" for key in ("pitch", "width", "height"))]
    lines += [f"depth {screen['depth']:02x}", "type 01", "reserved 0000", f"colors {bytes(sum((screen[color] for color in COLORS), [])).hex()}"]
    lines += [f"system table of {efi['bits']}-bit UEFI {efi['system_table']:0{efi['bits'] // 4}x}"]
    lines += [f"SMBIOS {smbios['major']:02x}", f"minor {smbios['minor']:02x}", f"reserved and tables {'00' * 6 + smbios['tables']}"]
    lines += [f"map of UEFI, by descriptors of {efi['descriptor_size']:08x}", f"version {efi['descriptor_version']:08x}"]
    return [*lines, f"bytes {efi['map']}"]


# ---- Linux


def table(name: str, **keys: object) -> str:
    return "\n".join([name, *(f"{key} = {value}" for key, value in keys.items()), ""])


ACPI_AT, EFI_AT = 0xFFFD000, 0xFFFE000
EFI_MAP = efi_map(EFI_AT, ACPI_AT)
REGIONS = [(0, 0x9F000, "usable"), (0x100000, ACPI_AT - 0x100000, "usable"), (ACPI_AT, 0x3000, "acpi")]
MACHINE = table("", size=0x10000000, pool=[0x4000000, 0x8000000]) + "".join(
    table("[[region]]", base=base, length=length, kind=f'"{kind}"') for base, length, kind in REGIONS
)
RSDP = table("[firmware]", rsdp=ACPI_AT)
SCREEN = table(
    "[firmware.screen]", base=0xFD000000, pitch=3072, width=640, height=480, depth=32, red=[16, 8], green=[8, 8], blue=[0, 8]
)
EFI = table(
    "[firmware.efi]", bits=64, system_table=EFI_AT, map=f'"{EFI_MAP.hex()}"', map_address=EFI_AT + 0x400,
    descriptor_size=48, descriptor_version=1, secure_boot=3,
)  # fmt: skip
# What Linux writes. Of a screen: a driver of frame buffers has it, or one of DRM; the first tells what it was told
HAS_SCREEN = [r"\bfb0: (EFI VGA|simple|simpledrmdrmfb) frame buffer device"]
EFIFB = [
    r"efifb: framebuffer at 0xfd000000, using 1440k, total 1440k",
    r"efifb: mode is 640x480x32, linelength=3072, pages=1",
    r"efifb: Truecolor: size=0:8:8:8, shift=0:16:8:0",
]
# of the RSDP: where it lies, its length and revision; then that of its tables one was used
HAS_RSDP = [r"ACPI: RSDP 0x0*FFFD000 0*24 \(v02 BOOTC *\)", r"ACPI: Using ACPI \(MADT\) for SMP configuration information"]
# of UEFI: the system table, each range of the memory map, the runtime services, the state of secure boot
HAS_UEFI = [
    r"efi: EFI v2\.70? by bootcore",
    r"efi: mem00: \[Conventional.*range=\[0x0{16}-0x0{11}9efff\]",
    r"efi: mem01: \[Conventional.*range=\[0x0{10}100000-0x0{9}fffcfff\]",
    r"efi: mem02: \[ACPI Reclaim.*range=\[0x0{9}fffd000-0x0{9}fffdfff\]",
    r"efi: mem03: \[Runtime Data *\|RUN.*range=\[0x0{9}fffe000-0x0{9}fffefff\]",
    r"efi: mem04: \[Runtime Code *\|RUN.*range=\[0x0{9}ffff000-0x0{9}fffffff\]",
    r"Secure boot enabled",
]


def linux_at_hand() -> Optional[Path]:
    """The file KERNEL, else the newest kernel of this system."""
    if os.environ.get("KERNEL"):
        return Path(os.environ["KERNEL"]).resolve()
    found = [file for file in Path("/boot").glob("vmlinuz*") if os.access(file, os.R_OK)]
    return max(found, key=lambda file: [int(number) for number in re.findall(r"\d+", file.name)], default=None)


class Linux(ScreenChecks):
    """On one machine, with a screen and tables of ACPI and UEFI in memory, Linux has of them what it is told."""

    kernel: Path

    @classmethod
    def setUpClass(cls) -> None:
        super().setUpClass()
        kernel = linux_at_hand()
        if kernel is None:
            raise unittest.SkipTest("there is no kernel in /boot that can be read, and KERNEL names none")
        cls.kernel = kernel

    def booted(self, protocol: str, told: str) -> Seen:
        line = "console=tty0 console=ttyS0 efi=debug panic=0"  # without a disk its end is a panic
        entry = table("[[entry]]", title='"Linux"', protocol=f'"{protocol}"', kernel=f'"{self.kernel}"', line=f'"{line}"')
        machine, left = self.room / "machine.toml", self.room / "left"
        machine.write_text(MACHINE + SCREEN, encoding="utf-8")
        left.write_bytes(acpi(ACPI_AT).ljust(PAGE, b"\0") + efi(EFI_AT, EFI_MAP))
        loader = f"loader,file={left},addr={ACPI_AT:#x},force-raw=on"
        image = self.image_of("linux", MACHINE + told + entry)
        # its clock goes by instructions, so that a busy machine is only slower
        clock = ["-icount", "shift=2,sleep=off", "-rtc", "base=2026-01-01,clock=vm"]
        return self.seen(image, machine, "end Kernel panic", "-device", loader, *clock)

    def assert_says(self, seen: Seen, patterns: List[str], wanted: bool = True) -> None:
        wrong = [pattern for pattern in patterns if bool(re.search(pattern, seen.written)) != wanted]
        if wrong:
            lines = [line for line in seen.written.splitlines() if re.search(r"ACPI|efi|fb|drm|[Ss]ecure|panic", line)]
            self.fail("\n".join([f"ran: {seen.ran}", *(f"{'no' if wanted else 'a'} line with {pattern}" for pattern in wrong), *lines]))

    def test_all(self) -> None:
        seen = self.booted("linux64", RSDP + SCREEN + EFI)
        with self.check("Linux, told of a screen, has a frame buffer"):
            self.assert_says(seen, HAS_SCREEN + (EFIFB if "efifb: mode" in seen.written else []))
        with self.check("and its lines stand on QEMU's screen, one below the other"):
            # of 30 rows of cells half begin with one cell, that of the bracket before the time
            cells = Counter(self.first_cell(seen, row) for row in range(30))
            most = max((count for cell, count in cells.items() if any(cell)), default=0)
            self.assertGreaterEqual(most, 15, f"ran: {seen.ran}\nrows with the same first cell")
        with self.check("Linux, told of the RSDP, finds the tables of ACPI without acpi_rsdp= in its line"):
            self.assert_says(seen, HAS_RSDP)
        with self.check("Linux, told of UEFI, has its system table, each range of its memory map, and the state of secure boot"):
            self.assert_says(seen, HAS_UEFI)

    @staticmethod
    def first_cell(seen: Seen, row: int) -> bytes:
        """The leftmost 8 pixels of 16 lines: the letter that stands there."""
        starts = [line * seen.width * 3 for line in range(row * 16, row * 16 + 16)]
        return b"".join(seen.pixels[start:start + 8 * 3] for start in starts)

    def test_screen(self) -> None:
        seen = self.booted("linux", SCREEN)
        with self.check("Linux by its 32-bit entry, told of a screen, has a frame buffer"):
            self.assert_says(seen, HAS_SCREEN)
        with self.check("Linux, told of neither, finds no table of ACPI and none of UEFI on the same machine"):
            self.assert_says(seen, HAS_RSDP + HAS_UEFI, False)

    def test_rsdp(self) -> None:
        seen = self.booted("linux", RSDP)
        with self.check("Linux by its 32-bit entry, told of the RSDP, finds the tables of ACPI"):
            self.assert_says(seen, HAS_RSDP)
        with self.check("Linux, not told of a screen, has no frame buffer on the same machine, and paints nothing"):
            self.assert_says(seen, HAS_SCREEN, False)
            self.assertFalse(any(seen.pixels), f"ran: {seen.ran}\nsomething is painted")
