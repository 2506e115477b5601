"""the program on real files, devices and command lines, and the examples with their scripts"""

import gzip
import os
import re
import shutil
from pathlib import Path
from typing import Sequence

from tests import examples
from tests.examples import EXAMPLES, FIRMWARE, FIRST, FIRST_MAP, SECOND
from tests.program_checks import ImageChecks, static_busybox, version
from tests.support import PLAIN, PROGRAM, TOP, Ran, is_at_hand, run, sha256

BOOTED = "booted 0 row one\n"
REFUSED_1 = "refused 0 1\nno entry left\n"


class Examples(ImageChecks):
    def test_first(self) -> None:
        self.ends("the first example boots", self.boot(FIRST, "first.image"), 0, BOOTED)
        self.is_expected("the first example's image", examples.FIRST_IMAGE, self.first)
        ran = self.boot(self.described("fill", "0"), "zero.image")
        self.ends("the first example boots over zeros", ran, 0, BOOTED)
        self.has_same_image("the image of the first example over zeros is the same as over 0xA5", "zero.image")
        ran = self.boot(FIRST, "reverse.image", "--order", "reverse")
        self.ends("the first example boots with its pieces in reverse order", ran, 0, BOOTED)
        same = "the image of the first example with its pieces in reverse order is the same as in forward order"
        self.has_same_image(same, "reverse.image")

    def test_second(self) -> None:
        image = self.room / "second.image"
        ran = self.boot(SECOND, image)
        self.ends("the second example, a Linux entry, boots", ran, 0, "booted 0 a small Linux\n")
        self.is_expected("the second example's image", examples.SECOND_IMAGE, image)
        page = (TOP / "docs/MEASURED.md").read_text(encoding="utf-8")
        digests = "".join(re.findall(r"^(image +- .*?\n)```$", page, re.M | re.S))
        ran = run(EXAMPLES / "digests.sh", image)
        self.ends("the parts of the second example's image have the digests of docs/MEASURED.md", ran, 0, digests)
        with self.check("the digest of the ramdisk in docs/MEASURED.md is that of its file, with zeros up to a frame"):
            ramdisks = [line.split()[4] for line in digests.splitlines() if line.startswith("initrd ")]
            self.assertEqual(ramdisks, [sha256(b"hello" + bytes(4091))], "the SHA-256 of each initrd")

    def test_menu(self) -> None:
        for order in ("forward", "reverse"):
            image = f"menu.{order}.image"
            ran = self.boot(EXAMPLES / "menu.toml", image, "--order", order)
            menu = f"the example of a menu, with its pieces in {order} order,"
            self.ends(f"{menu} falls back", ran, 0, "refused 0 8\nbooted 1 row one\n")
            self.has_same_image(f"{menu} has the image of the entry alone", image)

    def test_firmware(self) -> None:
        image = self.room / "firmware.image"
        ran = self.boot(FIRMWARE, image)
        self.ends("the example of what firmware tells boots its Multiboot2 kernel", ran, 0, "booted 0 told by tags\n")
        self.ends("tags tell that kernel what firmware tells", self.program("walk", image), 0, examples.FIRMWARE_WALK)
        self.is_expected("the image of that kernel", examples.FIRMWARE_IMAGE, image)
        text = FIRMWARE.read_text(encoding="utf-8")
        ran = self.boot(self.written(text.replace("\ndefault = 0\n", "\ndefault = 1\n")), image)
        self.ends("with another default it boots its Linux kernel", ran, 0, "booted 1 told by boot parameters\n")
        seen = self.program("walk", image)
        self.ends("boot parameters tell that one what firmware tells", seen, 0, examples.FIRMWARE_LINUX_WALK)
        self.is_expected("the image of the Linux kernel", examples.FIRMWARE_LINUX_IMAGE, image)

    def test_maps(self) -> None:
        for sentence, name, wanted in (
            ("map prints the runs of the first example", "first", FIRST_MAP),
            ("the map of the example of Linux is that of a machine of 512 MiB", "linux", examples.LINUX_MAP),
            ("the example of a machine by hand has its map", "machine", examples.MACHINE_MAP),
        ):
            self.ends(sentence, self.program("map", EXAMPLES / f"{name}.toml"), 0, wanted)

    def test_script(self) -> None:
        if PLAIN:
            self.leave_out("the script ./bootcore starts the built program at once", "it is the proved one")
            return
        # The PATH has no rt: a program that is older than its sources is then reported, and not proved anew in a test.
        tools = self.room / "tools"
        tools.mkdir()
        for name in ("bash", "dirname", "realpath", "find"):
            (tools / name).symlink_to(shutil.which(name) or name)
        ran = run(TOP / "bootcore", "map", FIRST, cwd=self.room, env={"PATH": str(tools)})
        self.ends("the script ./bootcore starts the built program at once", ran, 0, FIRST_MAP)


class OwnFiles(ImageChecks):
    """The examples for a user's own files, each in a folder with small files of those names."""

    def folder(self, name: str) -> Path:
        folder = self.room / name
        folder.mkdir()
        return folder

    def script(self, folder: Path, name: str, *words: str) -> Ran:
        """An example's script, run in a folder, with the program under test."""
        return run(EXAMPLES / name, *words, cwd=folder, env={"BOOTCORE": str(PROGRAM)})

    def lacks(self, sentence: str, folder: Path, script: str, file: str) -> None:
        """A check that a script reports the file that is not there."""
        why = f"{script}: there is no '{file}' in the current folder; this script says where to find one\n"
        self.ends(sentence, self.script(folder, script), 1, "", why)

    def walks(self, sentence: str, image: Path, wanted: str) -> None:
        self.ends(sentence, self.program("walk", image), 0, wanted)

    def test_modules(self) -> None:
        folder = self.folder("modules")
        image = folder / "modules.image"
        (folder / "kernel.elf").write_bytes(examples.multiboot2_kernel())
        self.lacks("the script for modules reports which file is missing", folder, "modules.sh", "ramdisk.img")
        examples.write_modules(folder)
        ran = self.script(folder, "modules.sh")
        self.ends("the example of a user's own kernel and modules boots", ran, 0, "booted 0 kernel and modules\n")
        self.walks("a walk of the example of modules reports both modules", image, examples.MODULES_WALK)
        self.is_expected("the image of the example of modules", examples.MODULES_IMAGE, image)

    def test_linux(self) -> None:
        folder = self.folder("linux")
        image = folder / "linux.image"
        self.lacks("the script for Linux reports which file is missing", folder, "linux.sh", "vmlinuz")
        examples.write_linux(folder, examples.linux_kernel())
        ran = self.script(folder, "linux.sh")
        self.ends("the example of a user's own Linux kernel boots", ran, 0, "booted 0 Linux\n")
        self.walks("a walk of the example of Linux reports its initial ramdisk", image, examples.LINUX_WALK)
        self.is_expected("the image of the example of Linux", examples.LINUX_IMAGE, image)
        by_32 = image.rename(self.room / "linux.32.image")
        ran = self.script(folder, "linux.sh", "linux64")
        booted = "refused 0 30\nbooted 1 Linux, 32-bit entry\n"
        self.ends("a kernel without a 64-bit entry falls back to the 32-bit one", ran, 0, booted)
        self.are_same_file("the image of a kernel without a 64-bit entry is the one of the 32-bit entry", by_32, image)

    def test_linux64(self) -> None:
        folder = self.folder("linux64")
        image = folder / "linux.image"
        examples.write_linux(folder, examples.linux64_kernel())
        ran = self.script(folder, "linux.sh", "linux64")
        self.ends("a kernel with a 64-bit entry boots by it", ran, 0, "booted 0 Linux, 64-bit entry\n")
        self.walks("a walk of a kernel with a 64-bit entry reports where it is entered", image, examples.LINUX64_WALK)
        self.is_expected("the image of a kernel with a 64-bit entry", examples.LINUX64_IMAGE, image)

    def test_xen(self) -> None:
        folder = self.folder("xen")
        # The plain kernel in the place of Xen, with any two files
        (folder / "xen").write_bytes(examples.multiboot2_kernel())
        self.lacks("the script for Xen reports which file is missing", folder, "xen.sh", "vmlinuz")
        (folder / "vmlinuz").write_bytes(b"hello")
        (folder / "initrd.img").write_bytes(b"world")
        self.ends("the example of Xen boots", self.script(folder, "xen.sh"), 0, "booted 0 Xen\n")
        self.is_expected("the image of the example of Xen", examples.XEN_IMAGE, folder / "xen.image")

    def test_ramdisk(self) -> None:
        if not (static_busybox() and is_at_hand("cpio")):
            self.leave_out("a ramdisk is made", "a busybox that is linked statically, or cpio, is not at hand")
            return
        folder = self.folder("ramdisk")
        ramdisk = folder / "initrd.img"
        self.ends("a ramdisk is made", self.script(folder, "ramdisk.sh"))
        with self.check("a ramdisk holds the start and the prompt"):
            listed = run("cpio", "-t", "--quiet", stdin=gzip.decompress(ramdisk.read_bytes()))
            wanted = {"init", "bin/busybox", "bin/sh", "etc/inittab", "etc/start", "etc/prompt"}
            held = sorted(wanted & set(listed.out.decode().splitlines()))
            self.assertEqual(held, sorted(wanted), f"ran: {listed}\nthe files of the start and the prompt")
        made = ramdisk.rename(self.room / "made.img")
        self.script(folder, "ramdisk.sh")
        self.are_same_file("a ramdisk is the same if it is made again", made, ramdisk)
        why = "ramdisk.sh: there is an 'initrd.img' in the current folder already\n"
        self.ends("a ramdisk that is there already is kept", self.script(folder, "ramdisk.sh"), 1, "", why)


class Files(ImageChecks):
    """What is no regular file that can be read is no file."""

    def is_no_file(self, sentence: str, path: str) -> None:
        self.ends(sentence, self.boot(self.described("kernel", f'"{path}"'), "none.image"), 1, REFUSED_1)

    def test_no_file(self) -> None:
        self.is_no_file("a missing kernel is no file", "none.elf")
        self.is_absent("no image is made of an entry whose kernel is missing", self.room / "none.image")
        pipe = self.room / "pipe"
        os.mkfifo(pipe)
        for what, path in (
            ("the root folder", "/"),
            ("/dev/zero", "/dev/zero"),
            ("/dev/null", "/dev/null"),
            ("a pipe", str(pipe)),
            ("an empty path", ""),
        ):
            self.is_no_file(f"{what} as a kernel is no file", path)
        self.is_no_file("a path with a zero byte is no file", r"a\u0000b")

    def test_paths(self) -> None:
        here, there = self.room / "here", self.room / "there"
        for folder in (here, there):
            folder.mkdir()
        (here / "f1.elf").write_bytes(examples.multiboot2_kernel())
        ran = self.boot(self.described("kernel", f'"{here}/f1.elf"'), "path.image")
        self.ends("a kernel on disk boots", ran, 0, BOOTED)
        self.has_same_image("the image of a kernel on disk is that of the first example", "path.image")
        text = FIRST.read_text(encoding="utf-8")
        self.written(re.sub(r"^\[\[file\]\]\n.*?^hex[^\n]*\n", "", text, count=1, flags=re.M | re.S))
        ran = self.program("boot", "../desc.toml", "--out", "../near.image", cwd=here)
        self.ends("a path is read from the current folder", ran, 0, BOOTED)
        self.has_same_image("the image of a kernel of the current folder is that of the first example", "near.image")
        ran = self.program("boot", "../desc.toml", "--out", "../none.image", cwd=there)
        self.ends("a path from another folder than its file's is no file", ran, 1, REFUSED_1)
        self.is_absent("no image is made of a path from another folder", self.room / "none.image")

    def test_lengths(self) -> None:
        big = self.room / "big"
        for sentence, length, refusal in (
            ("a kernel above 2^30 bytes is too long, and not read", 0x40000001, 3),
            ("a kernel of 2^30 bytes is read, and needs more frames than the pool has", 0x40000000, 21),
        ):
            with open(big, "wb") as file:
                file.truncate(length)
            ran = self.boot(self.described("kernel", f'"{big}"'), "none.image")
            self.ends(sentence, ran, 1, f"refused 0 {refusal}\nno entry left\n")
        big.unlink()
        self.is_absent("no image is made of a kernel of 2^30 bytes or more", self.room / "none.image")


class ImageFile(ImageChecks):
    """IMAGE: created, or an older one emptied, at the first write, and only if an entry was booted."""

    def test_older(self) -> None:
        older, kept = self.room / "older.image", self.room / "kept.image"
        for file in (older, kept):
            file.write_bytes(bytes(9999))
        self.boot(self.described("kernel", '"none.elf"'), kept)
        self.are_same_file("a refused entry leaves an older image as it was", older, kept)
        self.boot(FIRST, older)
        self.has_same_image("a booted entry empties an older image", "older.image")

    def test_faults(self) -> None:
        self.ends("a full device as IMAGE is a file fault", self.boot(FIRST, "/dev/full"), 3, "", "file fault\n")
        absent = self.room / "absent/first.image"
        self.ends("an image that can't be written is a file fault", self.boot(FIRST, absent), 3, "", "file fault\n")
        ran = self.boot(self.described("kernel", '"none.elf"'), absent)
        self.ends("an image that can't be written is no fault if the entry was refused", ran, 1, REFUSED_1)

    def test_without_standard_output(self) -> None:
        run("bash", "-c", 'exec "$@" >&-', "bash", PROGRAM, "boot", FIRST, "--out", self.room / "shut.image")
        self.has_same_image("without standard output the image is the same", "shut.image")


class Descriptions(ImageChecks):
    def test_bad(self) -> None:
        bad = self.described("size", "1.5")
        fault = "bad description\n"
        self.ends("a bad description is refused", self.boot(bad, "none.image"), 2, "", fault)
        self.is_absent("no image is made of a bad description", self.room / "none.image")
        self.ends("a bad description is refused by map too", self.program("map", bad), 2, "", fault)
        why = "bad description: size is a float; it must be a number of 0 or more\n"
        self.ends("explain refuses a bad description, and prints why", self.program("explain", bad), 2, why, fault)

    def test_unreadable(self) -> None:
        absent, none = self.room / "absent.toml", self.room / "none.image"
        missing = f"{absent}: No such file or directory (os error 2)"
        for sentence, words, why in (
            ("explain prints that a description is missing", ["explain", absent], missing),
            ("explain prints that a description is a folder", ["explain", self.room], f"{self.room}: no regular file"),
            ("a description that can't be read is a file fault", ["boot", absent, "--out", none], ""),
            ("a folder in the place of a description is a file fault", ["map", self.room], ""),
        ):
            self.ends(sentence, self.program(*words), 3, "", f"file fault: {why}\n" if why else "file fault\n")
        self.is_absent("no image is made of a description that can't be read", none)

    def test_explained(self) -> None:
        self.ends(
            "explain prints which file is missing",
            self.program("explain", self.described("kernel", '"none.elf"')),
            1,
            "entry 0 row one\nno file 0 none.elf\nfile 1 5 1 m.bin\n"
            "refused 1 NoFile(0): the file can't be read: it is missing, or no regular file\nno entry left\n",
            "file fault: none.elf: No such file or directory (os error 2)\n",
        )
        big = self.room / "big"
        with open(big, "wb") as file:
            file.truncate(0x40000001)
        self.ends(
            "explain prints which file is too long",
            self.program("explain", self.described("kernel", f'"{big}"')),
            1,
            f"entry 0 row one\nfile 0 1073741825 262145 {big}\nfile 1 5 1 m.bin\n"
            "refused 3 FileTooLong(0): the file is too long: it has more than 0x40000000 bytes\nno entry left\n",
        )
        big.unlink()
        with self.check("explain prints the handover"):
            ran = self.program("explain", FIRST, "--order", "reverse")
            lines = ran.out.decode(errors="replace").splitlines()
            wanted = "part kernel 0 00100000 80 from file 0 at 112, 48 bytes"
            self.assertIn(wanted, lines, f"ran: {ran}\nstatus {ran.status}, the lines of standard output")


class CommandLines(ImageChecks):
    def is_refused(self, sentence: str, words: Sequence) -> None:
        self.ends(sentence, self.program(*words), 64, "", "bad command line\n")

    def test_refused(self) -> None:
        none = self.room / "none.image"
        for sentence, words in (
            ("a command line without a description is refused", ["boot"]),
            ("a subcommand that does not exist is refused", ["translate", self.first]),
            ("a conversion to no image is refused", ["convert", self.first]),
            ("a conversion of no image is refused", ["convert", "--out", none]),
            ("an order of a conversion is refused", ["convert", self.first, "--out", none, "--order", "forward"]),
            ("a walk of no image is refused", ["walk"]),
            ("digests of no file are refused", ["digest"]),
            ("digests of two images are refused", ["digest", "--image", self.first, self.first]),
            ("the flag of digests twice is refused", ["digest", "--image", self.first, "--image"]),
            ("a walk with the flag of digests is refused", ["walk", "--image", self.first]),
            ("a command line of no words is refused", []),
            ("words that are no text are refused", ["boot", FIRST, "--out", b"\xff"]),
        ):
            self.is_refused(sentence, words)
        self.is_absent("no image is made of a command line that is refused", none)

    def test_help(self) -> None:
        wanted = f"""\
bootcore {version()}
usage: bootcore boot DESC --out IMAGE [--order forward|reverse]
       bootcore map DESC
       bootcore walk IMAGE
       bootcore convert IMAGE --out NEW
       bootcore explain DESC [--order forward|reverse]
       bootcore digest DESC
       bootcore digest --image IMAGE
"""
        self.ends("help is name, version and a usage text", self.program("--help"), 0, wanted)
