"""digests: what `bootcore digest` prints of each case and each image, against hashlib over the expected image"""

import os
import struct
import unittest
from concurrent.futures import ThreadPoolExecutor
from pathlib import Path
from typing import Iterator, List, NamedTuple, Optional, Sequence, Union

from tests.cases import NONE, Case, WrittenCases, read_cases
from tests.changed_images import LENGTH_OF_HEAD, ChangedImage, base_images, change, changed_images
from tests.examples import EXAMPLES, FIRST, SECOND
from tests.program_checks import ImageChecks
from tests.support import PLAIN, PROGRAM, TOP, Ran, is_at_hand, run, sha256

# what the table calls a part of each role, from 1 on: docs/FORMATS.md
NAMES = ["kernel", "module", "information", "parameters", "line", "gdt", "initrd", "tables"]
RECORD = struct.Struct("<IIQQ")  # role, index, address, length
COUNT_AT = 264  # where the head of version 2 has the number of records


def line(name: str, index: str, address: str, data: bytes) -> str:
    return f"{name:<11} {index:>5} {address:>8} {len(data):>10} {sha256(data)}\n"


def lines_of(image: bytes) -> Iterator[str]:
    """The lines of an image of version 2, which has its parts in the order of their records."""
    (count,) = struct.unpack_from("<I", image, COUNT_AT)
    head = LENGTH_OF_HEAD[2] + RECORD.size * count
    yield line("image", "-", "-", image)
    yield line("head", "-", "-", image[:head])
    offset = head
    for number in range(count):
        role, index, address, length = RECORD.unpack_from(image, LENGTH_OF_HEAD[2] + RECORD.size * number)
        yield line(NAMES[role - 1], str(index), f"{address:08x}", image[offset : offset + length])
        offset += length
    if offset != len(image):
        raise AssertionError(f"an image of {len(image)} bytes, of which head, records and parts are {offset}")


def table(image: Union[Path, bytes]) -> str:
    return "".join(lines_of(image if isinstance(image, bytes) else image.read_bytes()))


class DigestChecks(ImageChecks):
    def digest(self, *words: Union[str, Path], **how) -> Ran:
        return self.program("digest", *words, **how)

    def digest_image(self, image: Union[str, Path]) -> Ran:
        return self.program("digest", "--image", image)


class Tried(NamedTuple):
    """What the program prints of a case, and of the image that a boot wrote."""

    of_boot: Ran
    image: Optional[bytes]
    of_image: Optional[Ran]


class Cases(DigestChecks, WrittenCases):
    """The image of a case is wanted by its SHA-256, so what a boot wrote with that SHA-256 is the wanted image."""

    def test_cases(self) -> None:
        self.write_cases()
        cases = read_cases(self.folder)
        with self.check("some cases are booted, some refused, and some descriptions are bad"):
            self.assertEqual(sorted({case.status for case in cases}), [0, 1, 2], "the statuses of the cases")
        with ThreadPoolExecutor(os.cpu_count() or 1) as pool:
            for case, tried in zip(cases, pool.map(self.tried, cases)):
                with self.check(f"digest of case {case.name} prints what boot does, and the table of the image"):
                    self.assert_case(case, tried)

    def tried(self, case: Case) -> Tried:
        description, file = self.folder / f"{case.name}.toml", self.folder / f"{case.name}.image"
        run(PROGRAM, "boot", description, "--out", file)
        image = file.read_bytes() if file.exists() else None
        of_image = None if image is None else self.digest_image(file)
        file.unlink(missing_ok=True)
        return Tried(self.digest(description), image, of_image)

    def assert_case(self, case: Case, tried: Tried) -> None:
        digest = NONE if tried.image is None else sha256(tried.image)
        self.assertEqual(digest, case.image, "the SHA-256 of the image that boot writes")
        wanted = "" if tried.image is None else table(tried.image)
        if case.status == 2:
            self.assert_ended(tried.of_boot, 2, "", case.lines)
        else:
            self.assert_ended(tried.of_boot, case.status, case.lines + wanted)
        if tried.of_image is not None:
            self.assert_ended(tried.of_image, 0, wanted)


class Images(DigestChecks):
    """The rows of cases/images: the image that one is converted to is wanted by its SHA-256, or the fault of reading."""

    def test_rows(self) -> None:
        base = base_images(self.room, PROGRAM)
        rows = list(changed_images())
        images: List[Path] = []
        for number, row in enumerate(rows):
            images.append(self.room / f"changed.{number}.image")
            images[-1].write_bytes(change(base[row.base].read_bytes(), row.changes))
        with ThreadPoolExecutor(os.cpu_count() or 1) as pool:
            for row, image, ran in zip(rows, images, pool.map(self.digest_image, images)):
                with self.check(f"digest of {row} prints the table of the converted image, or blames it as convert"):
                    self.assert_row(row, image, ran)

    def assert_row(self, row: ChangedImage, image: Path, ran: Ran) -> None:
        if row.blame:
            self.assert_ended(ran, 2, "", row.blame)
            return
        new = self.room / "new.image"
        self.assert_ended(self.program("convert", image, "--out", new))
        self.assert_digest(str(row.digest), new)
        self.assert_ended(ran, 0, table(new))

    def test_versions(self) -> None:
        base = base_images(self.room, PROGRAM)
        for name in ("first", "second"):
            wanted = table(base[f"{name}.2"])
            for version in (1, 2):
                sentence = f"digest of the {name} example's image of version {version} prints the table of version 2"
                self.ends(sentence, self.digest_image(base[f"{name}.{version}"]), 0, wanted)
        image = base["first.1"]
        self.ends("the flag of digest may come last", self.digest(image, "--image"), 0, table(base["first.2"]))
        named = self.room / "--image"
        named.write_bytes(image.read_bytes())
        ran = self.digest("--image", "--", "--image", cwd=self.room)
        self.ends("an image that is named as the flag is digested", ran, 0, table(base["first.2"]))

    def test_faults(self) -> None:
        for sentence, image in (
            ("digest of an image that is missing is a file fault", self.room / "absent.image"),
            ("digest of a folder as an image is a file fault", self.room),
            ("digest of a device as an image is a file fault", "/dev/zero"),
        ):
            self.ends(sentence, self.digest_image(image), 3, "", "file fault\n")
        self.ends("digest of a description as an image blames it", self.digest_image(FIRST), 2, "", "bad image 71\n")


class Examples(DigestChecks):
    """digests.sh, which knows nothing of the program, and the program print the same of each example that boots."""

    def test_script(self) -> None:
        kernels = sorted((EXAMPLES / "kernels").glob("*.toml"))
        for description in (FIRST, SECOND, EXAMPLES / "menu.toml", EXAMPLES / "firmware.toml", *kernels):
            name = description.stem
            image = self.room / f"{name}.image"
            booted = self.boot(description, image)
            script, ran = run(EXAMPLES / "digests.sh", image), self.digest(description)
            with self.check(f"digest of the example {name} prints the lines of boot, and those of digests.sh"):
                self.assert_ended(booted, 0, None)
                self.assert_ended(script, 0, table(image))
                self.assert_ended(ran, 0, booted.out + script.out)


class Descriptions(DigestChecks):
    def test_files(self) -> None:
        for sentence, kernel, lines in (
            ("a missing kernel", "none.elf", "refused 0 1\nno entry left\n"),
            ("a device as a kernel", "/dev/zero", "refused 0 1\nno entry left\n"),
            ("a kernel above 2^30 bytes", self.sparse("above", 0x40000001), "refused 0 3\nno entry left\n"),
            ("a kernel of more frames than the pool has", self.sparse("large", 0x100001), "refused 0 21\nno entry left\n"),
        ):
            wanted = self.boot(self.described("kernel", f'"{kernel}"'), "none.image")
            ran = self.digest(self.room / "desc.toml")
            with self.check(f"digest refuses {sentence} as boot does"):
                self.assert_ended(wanted, 1, lines)
                self.assert_ended(ran, 1, lines)

    def sparse(self, name: str, length: int) -> Path:
        file = self.room / name
        with open(file, "wb") as begun:
            begun.truncate(length)
        return file

    def test_faults(self) -> None:
        absent = self.room / "absent.toml"
        for sentence, description in (("that is missing", absent), ("that is a folder", self.room)):
            sentence = f"digest of a description {sentence} is a file fault"
            self.ends(sentence, self.digest(description), 3, "", "file fault\n")
        bad = self.described("size", "1.5")
        self.ends("digest refuses a bad description", self.digest(bad), 2, "", "bad description\n")

    def test_alone(self) -> None:
        folder = self.room / "alone"
        folder.mkdir()
        ran = self.digest(FIRST, cwd=folder)
        with self.check("digest writes no file"):
            self.assert_ended(ran, 0, None)
            self.assertEqual(os.listdir(folder), [], f"ran: {ran}\nthe files in its folder")
        for key, value in (("fill", "255"), ("title", '"another title"')):
            changed = self.digest(self.described(key, value))
            with self.check(f"digest prints the same table of another {key}"):
                self.assert_ended(changed, 0, None)
                tables = [printed.split(b"\n", 1)[1] for printed in (ran.out, changed.out)]
                self.assert_text(changed, tables[0], tables[1], "table")


class Memory(DigestChecks):
    """The program with 64 MiB of addresses: room for itself, a small kernel and the table, and for no machine."""

    def within(self, *words: Union[str, Path]) -> Ran:
        return run("bash", "-c", 'ulimit -v 65536 && exec "$@"', "bash", PROGRAM, "digest", *words)

    def test_machines(self) -> None:
        wanted = self.digest(FIRST)
        for mebibytes in (64, 1024, 4096):
            ran = self.within(self.described("size", str(mebibytes << 20)))
            sentence = f"digest takes no memory of the machine's size, {mebibytes} MiB"
            self.ends(sentence, ran, 0, wanted.out)

    def test_no_memory(self) -> None:
        kernel = self.room / "kernel"
        kernel.write_bytes(b"")
        os.truncate(kernel, 256 << 20)
        ran = self.within(self.described("kernel", f'"{kernel}"'))
        self.ends("digest of a boot has no memory for a kernel", ran, 4, "", "no memory\n")
        image = self.room / "large.image"
        image.write_bytes(self.with_last_part(256 << 20))
        os.truncate(image, 257 << 20)
        self.ends("digest of an image has no memory for a part", self.within("--image", image), 4, "", "no memory\n")

    def with_last_part(self, length: int) -> bytes:
        """The first example's image, whose last record says another length."""
        image = bytearray(self.first.read_bytes())
        (count,) = struct.unpack_from("<I", image, COUNT_AT)
        record = LENGTH_OF_HEAD[2] + RECORD.size * (count - 1)
        role, index, address, _ = RECORD.unpack_from(image, record)
        RECORD.pack_into(image, record, role, index, address, length)
        return bytes(image)


class Growths(DigestChecks):
    """Each growth of the program's memory refused in turn, by a library that is loaded before the C library."""

    library: Path

    @classmethod
    def setUpClass(cls) -> None:
        super().setUpClass()
        if PLAIN:
            raise unittest.SkipTest("of the plain source's program, the libraries of others end the process where memory runs out")
        if not is_at_hand("cc"):
            raise unittest.SkipTest("cc is not at hand")
        cls.library = cls.room / "refuse.so"
        how = "-std=c99 -Wall -Wextra -Wpedantic -Wconversion -Werror -O1 -shared -fPIC".split()
        ran = run("cc", *how, "-o", cls.library, TOP / "tests/drivers/refuse.c", "-ldl")
        if ran.status != 0:
            raise AssertionError(f"ran: {ran}\n{ran.err.decode(errors='replace')}")

    def refusing(self, number: int, words: Sequence[Union[str, Path]]) -> Ran:
        told = self.room / "growths" if number == 0 else os.devnull
        env = {"LD_PRELOAD": str(self.library), "REFUSED": str(number), "GROWTHS": str(told)}
        return self.digest(*words, env=env)

    def test_refused(self) -> None:
        missing = self.room / "missing.toml"
        missing.write_bytes(self.described("kernel", '"none.elf"').read_bytes())
        bad = self.described("size", "1.5")
        for sentence, words, status in (
            ("digest of a boot", [FIRST], 0),
            ("digest of a boot of Linux", [SECOND], 0),
            ("digest of a boot that is refused", [missing], 1),
            ("digest of a bad description", [bad], 2),
            ("digest of an image", ["--image", self.first], 0),
            ("digest of a bad image", ["--image", FIRST], 2),
        ):
            with self.check(f"with each growth refused in turn {sentence} ends in out of memory, and nothing is printed"):
                self.assert_refusals(words, status)

    def assert_refusals(self, words: Sequence[Union[str, Path]], status: int) -> None:
        whole = self.refusing(0, words)
        self.assert_ended(whole, status, None, None)
        growths = int((self.room / "growths").read_text())
        self.assertGreater(growths, 50, f"ran: {whole}\nthe growths")
        with ThreadPoolExecutor(os.cpu_count() or 1) as pool:
            ran = list(pool.map(lambda number: self.refusing(number, words), range(1, growths + 1)))
        # the words of the command line are asked room for once more where that was refused
        again = [it for it in ran if (it.status, it.out, it.err) == (whole.status, whole.out, whole.err)]
        self.assertLessEqual(len(again), 1, f"ran: {whole}\nthe growths without which it does the same")
        for it in ran:
            if it not in again:
                self.assert_ended(it, 4, "", "no memory\n")
