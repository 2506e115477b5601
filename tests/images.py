"""what a walk prints of an image, and conversions, also of changed images"""

import os
from concurrent.futures import ThreadPoolExecutor
from pathlib import Path
from typing import Dict, NamedTuple, Optional, Union

from tests import examples
from tests.changed_images import LENGTH_OF_HEAD, ChangedImage, base_images, change, changed_images
from tests.program_checks import ImageChecks
from tests.support import PROGRAM, Ran

OLDER = bytes(9999)  # an older file in the place of a new image, longer than the first example's


class BaseChecks(ImageChecks):
    """Checks of the two examples' images in both versions."""

    base: Dict[str, Path]

    @classmethod
    def setUpClass(cls) -> None:
        super().setUpClass()
        cls.base = base_images(cls.room, PROGRAM)

    def walk(self, image: Union[str, Path]) -> Ran:
        return self.program("walk", image)

    def convert(self, image: Union[str, Path], new: Union[str, Path]) -> Ran:
        return self.program("convert", image, "--out", new)


class Versions(BaseChecks):
    """The images of version 1. That of the first example is written by hand; of the second one the head is."""

    def test_by_hand(self) -> None:
        self.has_length("the image by hand has 8448 bytes", 8448, self.base["first.1"])
        by_hand, written = self.room / "by_hand.behind", self.room / "written.behind"
        by_hand.write_bytes(self.base["first.1"].read_bytes()[LENGTH_OF_HEAD[1] :])
        written.write_bytes(self.base["first.2"].read_bytes()[LENGTH_OF_HEAD[2] :])
        same = "the first example's image has the records and the parts of the image by hand"
        self.are_same_file(same, by_hand, written)

    def test_second(self) -> None:
        what = "the second example's image of version 1"
        self.is_expected(what, examples.SECOND_IMAGE_1, self.base["second.1"])


class Walks(BaseChecks):
    def test_what_a_kernel_sees(self) -> None:
        seen = self.walk(self.base["first.2"])
        self.ends("a walk prints what a kernel sees in the first example's image", seen, 0, examples.FIRST_WALK)
        seen = self.walk(self.base["first.1"])
        self.ends("a walk prints the same of the image by hand, of version 1", seen, 0, examples.FIRST_WALK)
        with self.check("a walk prints protocol and entry of a Linux kernel"):
            ran = self.walk(self.base["second.2"])
            wanted = [b"protocol linux", b"entry 00100000"]
            self.assertEqual(ran.out.splitlines()[:2], wanted, f"ran: {ran}\nthe first two lines of standard output")

    def test_no_image(self) -> None:
        for sentence, image in (
            ("a walk of an image that is missing is a file fault", self.room / "absent.image"),
            ("a walk of a folder is a file fault", self.room),
        ):
            self.ends(sentence, self.walk(image), 3, "", "file fault\n")


class Conversions(BaseChecks):
    """Images are converted to the version that is written, version 2."""

    def test_converted(self) -> None:
        for what, old, wanted in (
            ("the image by hand", "first.1", "first.2"),
            ("the first example's image of version 2", "first.2", "first.2"),
            ("the second example's image of version 1", "second.1", "second.2"),
        ):
            new = self.room / "new.image"
            self.ends(f"{what} is converted", self.convert(self.base[old], new))
            self.are_same_file(f"{what}, converted, is the image that is written", self.base[wanted], new)
            new.unlink(missing_ok=True)

    def test_where(self) -> None:
        new, old, wanted = self.room / "new.image", self.base["first.1"], self.base["first.2"]
        new.write_bytes(OLDER)
        self.ends("the option of a conversion may come first", self.program("convert", "--out", new, old))
        self.are_same_file("a conversion empties an older image", wanted, new)
        new.write_bytes(old.read_bytes())
        self.ends("an image is converted in its place", self.convert(new, new))
        self.are_same_file("an image that is converted in its place is whole", wanted, new)

    def test_faults(self) -> None:
        none, absent = self.room / "none.image", self.room / "absent/new.image"
        old, cut = self.base["first.1"], self.room / "cut.image"
        cut.write_bytes(old.read_bytes()[:8447])
        for sentence, image, new in (
            ("an image to convert that is missing is a file fault", self.room / "absent.image", none),
            ("a folder to convert is a file fault", self.room, none),
            ("a device to convert is a file fault", "/dev/zero", none),
            ("a full device is a file fault of a conversion", old, "/dev/full"),
            ("a new image that can't be written is a file fault", old, absent),
        ):
            self.ends(sentence, self.convert(image, new), 3, "", "file fault\n")
        self.is_absent("no image is made of what can't be read to be converted", none)
        ran = self.convert(cut, absent)
        self.ends("a new image that can't be written is no fault if the image is refused", ran, 2, "", "bad image 75\n")


class Tried(NamedTuple):
    """What the program makes of a changed image."""

    walked: Ran
    converted: Ran
    new: Path
    walked_new: Optional[Ran]  # of an image that is converted


class Changed(BaseChecks):
    """The rows of cases/images, whose wanted lines and digests were computed from the rules."""

    older: Path

    @classmethod
    def setUpClass(cls) -> None:
        super().setUpClass()
        cls.older = cls.room / "older.image"
        cls.older.write_bytes(OLDER)

    def test_rows(self) -> None:
        rows = list(changed_images())
        with self.check("cases/images has rows, and none twice"):
            self.assertTrue(rows, "there is no row")
            self.assertEqual(len({str(row) for row in rows}), len(rows), "the rows by base and name")
        with ThreadPoolExecutor(os.cpu_count()) as pool:
            for row, tried in zip(rows, pool.map(self.tried, range(len(rows)), rows)):
                self.check_walk(f"a walk of {row} ends as cases/images says", row, tried.walked)
                self.check_conversion(row, tried)

    def tried(self, number: int, row: ChangedImage) -> Tried:
        image, new = self.room / f"changed.{number}.image", self.room / f"new.{number}.image"
        image.write_bytes(change(self.base[row.base].read_bytes(), row.changes))
        new.write_bytes(OLDER)
        walked, converted = self.walk(image), self.convert(image, new)
        return Tried(walked, converted, new, None if row.blame else self.walk(new))

    def check_walk(self, sentence: str, row: ChangedImage, walked: Ran) -> None:
        self.ends(sentence, walked, row.status, row.out, row.err)

    def check_conversion(self, row: ChangedImage, tried: Tried) -> None:
        if row.blame:
            self.ends(f"a conversion of {row} is refused as cases/images says", tried.converted, 2, "", row.blame)
            self.are_same_file(f"a refused conversion of {row} leaves an older image as it was", self.older, tried.new)
        else:
            self.ends(f"a conversion of {row} ends well", tried.converted)
            self.has_digest(f"a conversion of {row} is the image of cases/images", row.digest, tried.new)
            self.check_walk(f"a walk of {row}, converted, ends as that of what was converted", row, tried.walked_new)
