"""the monitor in C under KVM: its ACPI tables, small kernels on this machine's KVM, and Linux on one that QEMU emulates"""

import fcntl
import os
import re
import unittest
from pathlib import Path
from typing import Dict, List, Optional

from tests.c_core import CC, OUT, WARNINGS, libraries, working_sanitizers
from tests.support import PROGRAM, TOP, Checks, Ran, need_built, run

MONITOR = TOP / "examples/kvm/run"
MADE = TOP / "examples/kvm/out"
NOT_AT_HAND = 127  # the status of a script that has not what it needs
KVM_CREATE_VM = 0xAE01
TABLES, TABLES_END, FACS = 0xE0000000, 0xE0001000, 0xE0000FC0  # where ACPI's tables lie
MOST_PROCESSORS = 64

# the words of a small kernel's protocol, and what it writes first
KERNELS = {
    "multiboot2": (["--multiboot2"], "a Multiboot2 kernel"),
    "linux": (["--linux32"], "a Linux kernel, by its 32-bit entry"),
    "linux64": ([], "a Linux kernel, by its 64-bit entry"),
}
FILE = b"the bytes of a file"
PROCESSORS = f"vmm: the number of processors is from 1 to {MOST_PROCESSORS}"
REGISTER = re.compile(r"^(\w+) +([0-9a-f]{16})$", re.M)
# of the registers that examples/c/guest prints, the names that a kernel writes: with 64 bits R in place of E
PRINTED = re.compile(r"\b(ip|ax|bx|si|cr[034]|efer|gdt|[c-gs]s) ([0-9a-f]+)")


def setUpModule() -> None:
    if not libraries()[0].exists():
        raise unittest.SkipTest("the core for C is not built: examples/c/build does it")


def why_no_kvm() -> Optional[str]:
    """Why this machine's KVM makes no machine, if it makes none."""
    try:
        kvm = os.open("/dev/kvm", os.O_RDWR | os.O_CLOEXEC)
        try:
            os.close(fcntl.ioctl(kvm, KVM_CREATE_VM, 0))
        finally:
            os.close(kvm)
    except OSError as fault:
        return f"/dev/kvm does not serve: {fault.strerror}"
    return None


def assert_restarted(checks: Checks, ran: Ran) -> None:
    """The last instructions are a fault of a fault of a fault; a KVM that is itself emulated may not know them."""
    if not (ran.status == 3 and b"at an instruction that it does not emulate" in ran.err):
        checks.assert_ended(ran, 0, None, "vmm: the guest restarted, by a fault of a fault of a fault\n")


class MonitorChecks(Checks):
    """Checks of what a small kernel writes, by what the loader of examples/c prints of the same machine."""

    file: Path
    sanitizers: List[str]

    @classmethod
    def setUpClass(cls) -> None:
        super().setUpClass()
        built = run(TOP / "examples/kvm/build", env={"CFLAGS": "-Werror", "CORE_LIBRARIES": str(libraries()[0])})
        if built.status == NOT_AT_HAND:
            raise unittest.SkipTest(built.err.decode(errors="replace").strip())
        if built.status != 0:
            raise AssertionError(f"ran: {built}\nstatus {built.status}, wanted 0\n{built.err.decode(errors='replace')}")
        cls.file = cls.room / "file"
        cls.file.write_bytes(FILE)
        cls.sanitizers = working_sanitizers(cls.room)

    @classmethod
    def build_state(cls) -> Path:
        """tests/drivers/kvm_state.c over the files of the monitor, under the sanitizers."""
        state, monitor = cls.room / "kvm_state", TOP / "examples/kvm"
        sources = [TOP / "tests/drivers/kvm_state.c", *(monitor / f"{name}.c" for name in ("acpi", "load", "machine", "memory"))]
        built = run(
            *CC, "-std=c99", "-g", "-O2", *WARNINGS, *cls.sanitizers, f"-I{TOP / 'include'}", f"-I{monitor}", f"-I{MADE / 'acpi'}",
            *sources, libraries()[0], "-o", state,
        )  # fmt: skip
        if built.status != 0:
            raise AssertionError(f"ran: {built}\n{built.err.decode(errors='replace')}")
        return state

    def registers(self, name: str) -> Dict[str, int]:
        """How the kernel is to be entered; each register that the loader does not print is 0, but for the flags."""
        ran = run(OUT / "guest", name, MADE / name, self.line(name), self.file)
        self.assert_ended(ran, 0, None)
        letter = "R" if name == "linux64" else "E"
        printed = {key.upper(): int(value, 16) for key, value in PRINTED.findall(ran.out.decode())}
        wide = {f"{letter}{key}": printed.pop(key) for key in ("IP", "AX", "BX", "SI")}
        return {**wide, **printed, f"{letter}FLAGS": 2}

    @staticmethod
    def line(name: str) -> str:
        return f"the line of {name}.toml"

    def assert_told(self, ran: object, name: str, written: str) -> None:
        greeting = KERNELS[name][1]
        begin = f"{greeting}\nline {self.line(name)}\nfile {FILE.decode()}\n"
        self.assert_text(ran, begin, "".join(written.splitlines(True)[:3]), "first lines")
        self.assertTrue(written.endswith("\nended\n"), f"ran: {ran}\nits last line is not 'ended'\n{written[-300:]}")
        told = {key: int(value, 16) for key, value in REGISTER.findall(written)}
        limit = told.pop("limit")
        wanted = self.registers(name)
        self.assertEqual(told, {key: wanted.get(key, 0) for key in told}, f"ran: {ran}\nregisters")
        self.assertEqual(set(wanted) - set(told), set(), f"ran: {ran}\nregisters that are not told")
        self.assertEqual(limit > 0, wanted["GDT"] > 0, f"ran: {ran}\nthe limit of the GDT is {limit}")


class Words(MonitorChecks):
    """What fails before a machine is made, so that it needs no KVM."""

    def test_words(self) -> None:
        none = self.room / "none"
        for what, words, status, said in [
            ("a file that is no kernel", ["--multiboot2", self.file], 1, "vmm: refused 4 NoHeader: "),
            ("a kernel that is not there", [none], 2, f"vmm: {none}: No such file or directory\n"),
            ("a ramdisk that is no file", [MADE / "linux64", self.room], 2, f"vmm: {self.room} is no regular file\n"),
            ("a memory of 1 MiB", ["--memory", "1", MADE / "linux64"], 64, "vmm: memory in MiB is from 2 to 1048576, not '1'\n"),
            ("no processor", ["--processors", "0", MADE / "linux64"], 64, f"{PROCESSORS}, not '0'\n"),
            ("too many processors", ["--processors", "65", MADE / "linux64"], 64, f"{PROCESSORS}, not '65'\n"),
            ("a number that is none", ["--processors", "2x", MADE / "linux64"], 64, f"{PROCESSORS}, not '2x'\n"),
            ("two ramdisks", [MADE / "linux64", self.file, self.file, "k"], 64, "vmm: there are too many files\n"),
            ("an option that there is not", ["--foo", MADE / "linux64"], 64, "usage: "),
        ]:
            ran = run(MONITOR, *words)
            with self.check(f"the monitor says in words that it is given {what}"):
                self.assert_ended(ran, status, "", None)
                self.assertTrue(ran.err.decode().startswith(said), f"ran: {ran}\nstandard error: {ran.err!r}")


class Tables(MonitorChecks):
    """ACPI's tables in the page of the guest's memory that has them. The sections are those of ACPI 6.5."""

    page: bytes

    def at(self, address: int, length: int) -> bytes:
        self.assertTrue(TABLES <= address and address + length <= TABLES_END, f"{address:#x} and {length} bytes on lie in no table")
        return self.page[address - TABLES : address - TABLES + length]

    def number(self, address: int, length: int) -> int:
        return int.from_bytes(self.at(address, length), "little")

    def table(self, address: int, signature: bytes) -> bytes:
        """A table with the header of 5.2.6, whose bytes sum to 0."""
        table = self.at(address, self.number(address + 4, 4))
        self.assertEqual(table[:4], signature, "signature")
        self.assertEqual(sum(table) % 256, 0, f"sum of {signature!r}")
        return table

    def found(self) -> Dict[str, bytes]:
        """The tables, found as a kernel finds them."""
        rsdp = self.at(TABLES, 36)  # 5.2.5.3
        self.assertEqual((rsdp[:8], rsdp[15], rsdp[16:24]), (b"RSD PTR ", 2, bytes([0, 0, 0, 0, 36, 0, 0, 0])), "RSDP")
        self.assertEqual((sum(rsdp[:20]) % 256, sum(rsdp) % 256), (0, 0), "sums of the RSDP")
        place = {"xsdt": self.number(TABLES + 24, 8)}
        xsdt = self.table(place["xsdt"], b"XSDT")
        self.assertEqual(len(xsdt), 36 + 2 * 8, "length of the XSDT")  # 5.2.8
        place["facp"], place["apic"] = (self.number(place["xsdt"] + offset, 8) for offset in (36, 44))
        facp = self.table(place["facp"], b"FACP")
        self.assertEqual((len(facp), facp[8], facp[131]), (276, 6, 1), "length and revision of the FADT")  # 5.2.9
        place["dsdt"] = self.number(place["facp"] + 140, 8)
        self.assertEqual(self.number(place["facp"] + 40, 4), place["dsdt"], "the DSDT's other address")
        facs = self.number(place["facp"] + 36, 4)
        self.assertEqual((facs, self.at(facs, 8)), (FACS, b"FACS" + bytes([64, 0, 0, 0])), "FACS")  # 5.2.10: no checksum
        tables = {name: self.table(address, name.upper().encode()) for name, address in place.items()}
        taken = sorted([(TABLES, TABLES + 36), (facs, facs + 64), *((at, at + len(tables[name])) for name, at in place.items())])
        for (_, end), (begin, _) in zip(taken, taken[1:]):
            self.assertLessEqual(end, begin, f"tables overlap: {taken}")
            self.assertFalse(any(self.at(end, begin - end)), f"there are bytes between {end:#x} and {begin:#x}")
        return {**tables, "facs": self.at(facs, 64)}

    def test_tables(self) -> None:
        state = self.build_state()
        for count in (1, 3, MOST_PROCESSORS):
            ran = run(state, "tables", str(count))
            with self.check(f"ACPI's tables of a machine with {count} processors name them, each at its place and with its checksum"):
                self.assert_ended(ran, 0, None)
                self.assertEqual(len(ran.out), TABLES_END - TABLES)
                self.page = ran.out
                tables = self.found()
                # 5.2.12: where the local APICs are, that a PIC is there too; the I/O APIC; the processors
                wanted = [b"\0\0\xe0\xfe\1\0\0\0", bytes([1, 12, 0, 0]) + b"\0\0\xc0\xfe\0\0\0\0"]
                wanted += [bytes([0, 8, number, number, 1, 0, 0, 0]) for number in range(count)]
                self.assertEqual(tables["apic"][36:], b"".join(wanted), "MADT")
            with self.check(f"iasl reads each of these tables without a warning, and compiles what it read to the same bytes: {count} processors"):
                for name, table in tables.items():
                    self.assert_read(name, table)

    def assert_read(self, name: str, table: bytes) -> None:
        folder = self.room / "read"
        folder.mkdir(exist_ok=True)
        (folder / f"{name}.aml").write_bytes(table)
        read = run("iasl", "-d", f"{name}.aml", cwd=folder)
        self.assertFalse(re.search(rb"warning|error|incorrect", read.out + read.err, re.I), f"ran: {read}\n{read.out!r}\n{read.err!r}")
        compiled = run("iasl", "-we", "-p", f"{name}_again", f"{name}.dsl", cwd=folder)
        self.assert_ended(compiled, 0, None, None)
        self.assert_same_file(folder / f"{name}.aml", folder / f"{name}_again.aml")


class OnThisKvm(MonitorChecks):
    @classmethod
    def setUpClass(cls) -> None:
        why = why_no_kvm()
        if why:
            raise unittest.SkipTest(why)
        super().setUpClass()

    def boots(self, name: str, *more: str) -> None:
        ran = run(MONITOR, *more, *KERNELS[name][0], MADE / name, self.file, self.line(name), timeout=120)
        self.assert_told(ran, name, ran.out.decode(errors="replace"))
        assert_restarted(self, ran)

    def test_kernels(self) -> None:
        for name in KERNELS:
            with self.check(f"the small kernel {name} is handed under KVM what the loader of examples/c prints"):
                self.boots(name)

    def test_processors(self) -> None:
        """a small kernel runs on the first of three processors, in the monitor under the sanitizers"""
        made = self.room / "made"
        env = {"CFLAGS": " ".join(["-Werror", "-g", *self.sanitizers]), "CORE_LIBRARIES": str(libraries()[0])}
        built = run(TOP / "examples/kvm/build", made, env=env)
        self.assert_ended(built, 0, None)
        ran = run(made / "vmm", "linux64", "512", "3", self.line("linux64"), MADE / "linux64", self.file, timeout=120)
        self.assert_told(ran, "linux64", ran.out.decode(errors="replace"))
        assert_restarted(self, ran)

    def test_high_memory(self) -> None:
        """a small kernel runs under KVM in 5 GiB, of which 2 GiB are above 4 GiB"""
        ran = run(MONITOR, "--memory", "5120", MADE / "linux64", self.file, "k", timeout=120)
        self.assertTrue(ran.out.endswith(b"\nended\n"), f"ran: {ran}\n{ran.out[-300:]!r}\n{ran.err!r}")


class FirstInstruction(MonitorChecks):
    """What KVM says of processor and memory, before the first instruction, beside the image of the same machine's boot."""

    state: Path

    @classmethod
    def setUpClass(cls) -> None:
        why = why_no_kvm()
        if why:
            raise unittest.SkipTest(why)
        need_built(PROGRAM, "./bootcore")
        super().setUpClass()
        cls.state = cls.build_state()

    def described(self, name: str, mebibytes: int) -> Path:
        """The machine of the monitor and its entry, as docs/KVM.md tells them."""
        low = min(mebibytes << 20, 0xC0000000)
        high = (mebibytes << 20) - low
        tables = [(TABLES, FACS - TABLES, "acpi"), (FACS, TABLES_END - FACS, "nvs")]
        ranges = [(0, 0x9F000, "usable"), (0x100000, low - 0x100000, "usable"), *tables, *([(1 << 32, high, "usable")] if high else [])]
        regions = [f'[[region]]\nbase = {base}\nlength = {length}\nkind = "{kind}"\n' for base, length, kind in ranges]
        regions.append(f"[firmware]\nrsdp = {TABLES}\n")
        module = f'[[entry.module]]\nfile = "{self.file}"\nline = "{self.file}"'
        rsdp = (MADE / "acpi/rsdp.aml").read_bytes().hex()
        file = f'rsdp_new = "{rsdp}"\n{module}' if name == "multiboot2" else f'initrd = "{self.file}"'
        entry = f'[[entry]]\ntitle = "{name}"\nprotocol = "{name}"\nkernel = "{MADE / name}"\nline = "{self.line(name)}"\n{file}\n'
        description = self.room / f"{name}-{mebibytes}.toml"
        description.write_text("\n".join([f"size = {low}\npool = [0x800000, 0x900000]\n", *regions, entry]))
        return description

    def test_state(self) -> None:
        for name in KERNELS:
            for mebibytes in (512, 5120):
                image = self.room / f"{name}-{mebibytes}.image"
                booted = run(PROGRAM, "boot", self.described(name, mebibytes), "--out", image)
                ran = run(self.state, "image", name, str(mebibytes), self.line(name), MADE / name, self.file)
                with self.check(f"before {name}'s first instruction KVM has registers and memory as the image of {mebibytes} MiB, to the byte"):
                    self.assert_ended(booted, 0, None)
                    self.assert_ended(ran, 0, None, None)
                    self.assertEqual(ran.out, image.read_bytes(), f"ran: {ran}")
                with self.check(f"and of {name} in {mebibytes} MiB it has each segment whole, with the accessed bits that VMX wants"):
                    wide = name == "linux64"
                    whole = "base 0 limit 0xffffffff type {} s 1 dpl 0 p 1 avl 0 l {} db {} g 1"
                    code, data = whole.format(11, int(wide), int(not wide)), whole.format(3, 0, 1)
                    told = [f"cs 0x10 {code}", *(f"{segment} 0x18 {data}" for segment in ("ds", "es", "fs", "gs", "ss"))]
                    self.assert_text(ran, "\n".join(told) + "\n", ran.err)


class OnEmulatedKvm(MonitorChecks):
    """A processor with SVM, which QEMU emulates, a kernel with kvm-amd on it, and the monitor on that."""

    ran: Ran

    @classmethod
    def setUpClass(cls) -> None:
        super().setUpClass()
        root = os.environ.get("KVM_ROOT")
        over = {"CORE_LIBRARIES": str(libraries()[0])}
        cls.ran = run(TOP / "tests/kvm_nested", *([root] if root else []), env=over, timeout=1200)
        if cls.ran.status == NOT_AT_HAND:
            raise unittest.SkipTest(cls.ran.err.decode(errors="replace").strip())

    def test_kernels(self) -> None:
        written = self.ran.out.decode(errors="replace").replace("\r", "")
        for name in KERNELS:
            with self.check(f"the small kernel {name} is handed under a KVM that QEMU emulates what the loader of examples/c prints"):
                part = re.search(rf"^begin {name}\n(.*?)^vmm: [^\n]*\nended {name} 0$", written, re.M | re.S)
                self.assertIsNotNone(part, f"ran: {self.ran}\nstatus {self.ran.status}\n{written[-2000:]}")
                self.assert_told(self.ran, name, part[1])

    def test_linux(self) -> None:
        written = self.ran.out.decode(errors="replace").replace("\r", "")
        linux = written.partition("\nbegin kernel\n")[2]
        with self.check("a Linux kernel under a KVM that QEMU emulates finds ACPI's tables by the address that it is told"):
            for line in (
                f"ACPI: RSDP {TABLES:#018X} 000024 (v02 BTCORE)".replace("0X", "0x"),
                "ACPI: Core revision ",
                "ACPI: Using ACPI (MADT) for SMP configuration information",
                "ACPI: 1 ACPI AML tables successfully acquired and loaded",
                "ACPI: Using IOAPIC for interrupt routing",
            ):
                self.assert_written(linux, rf"^\[ *[0-9.]+\] {re.escape(line)}")
            self.assert_written(linux, r"^tables APIC +DSDT +FACP +FACS\b")
        with self.check("of these tables it complains of nothing"):
            found = re.findall(r"^.*(?:ACPI(?: BIOS)? (?:Error|Warning|Exception)|Firmware (?:Bug|Warn)|ACPI:? .*(?:[Ii]nvalid|[Ff]ailed)).*$", linux, re.M)
            self.assertEqual(found, [], f"ran: {self.ran}")
        with self.check("it starts the second processor, and its first program sees both"):
            self.assert_written(linux, r"^\[ *[0-9.]+\] smp: Brought up 1 node, 2 CPUs$")
            self.assert_written(linux, r"^processors 2$")
        with self.check("it switches the machine off, which ends the monitor"):
            self.assertTrue(re.search(r"\nvmm: the guest switched off\nended kernel 0\n", linux), f"ran: {self.ran}\n{linux[-2000:]}")

    def assert_written(self, text: str, line: str) -> None:
        self.assertTrue(re.search(line, text, re.M), f"ran: {self.ran}\nstatus {self.ran.status}, no line {line}\n{text[-3000:]}")
