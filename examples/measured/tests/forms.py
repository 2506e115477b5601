"""The one form of a description."""

import random
import re
from typing import Optional

from examples.measured.tests import cases
from examples.measured.tests.boots import LINUX, MULTIBOOT2, with_firmware
from examples.measured.tests.checker import Within
from examples.measured.tests.other_forms import OTHER_FORMS

TOLD = [with_firmware(LINUX), with_firmware(MULTIBOOT2)]


def zeros(told: "re.Match[bytes]") -> bytes:
    return told[1] + b' = "%s"' % (int(told[2], 16) % 0x10000 * b"00")


class Form(Within):
    """The one form of a description, by the checker's own reader and writer."""

    def described(self, text: bytes) -> Optional[object]:
        """What a text says, if it is in its one form."""
        try:
            return self.description.read_description(text)
        except (self.reading.BadInput, self.reading.Fault):
            return None

    def described_by_model(self, text: bytes) -> Optional[object]:
        """Of a whole description; the sizes of what a text has no bytes of are told beside."""
        sized = re.sub(rb"^(map|tables)_size = (0x[0-9a-f]+)$", zeros, text, flags=re.M)
        try:
            return self.model.read(sized)
        except self.model.BadDescription:
            return None

    def test_accepted(self) -> None:
        """descriptions in their one form are read, and the writer makes them of what they say"""
        for text in (LINUX, MULTIBOOT2, *TOLD, cases.OTHER_MAP, cases.NO_ROOM, cases.TOO_HIGH, cases.ODD_TEXT):
            described = self.described(text.encode())
            self.assertIsNotNone(described, text)
            self.assert_text("the writer", text, self.description.written(described))

    def test_refused(self) -> None:
        """each description in another form is refused"""
        for old, new in OTHER_FORMS:
            texts = [text for text in (LINUX, MULTIBOOT2, *TOLD) if old in text]
            self.assertTrue(texts, f"no description has {old!r}")
            for text in texts:
                described = self.described(text.replace(old, new, 1).encode())
                self.assertIsNone(described, f"{new!r} in place of {old!r} is accepted")

    def test_pools(self) -> None:
        """the pool is the longest run of usable frames that are not avoided, the lowest of equally long ones"""
        usable = [(0, 0x1000), (0x1800, 0x3000), (0x6000, 0x2000), (0x9000, 0x2000), (0xFFFF0000, 0x20000)]
        for size, listed, wanted in (
            (1 << 32, [], (0, 0)),
            (1 << 32, usable[:1], (0, 0)),
            (1 << 32, [(0, 0x1FFF)], (0, 0)),
            (1 << 32, [(0, 0x2000)], (0x1000, 0x2000)),
            (1 << 32, usable[:2], (0x2000, 0x4000)),
            (1 << 32, usable[1:4], (0x2000, 0x4000)),
            (1 << 32, usable[2:4], (0x6000, 0x8000)),
            (1 << 32, usable, (0xFFFF0000, 0xFFFFF000)),
            (0x8000, usable, (0x2000, 0x4000)),
            (0x3000, usable, (0x2000, 0x3000)),
        ):
            regions = [self.description.Region(base, length, "usable") for base, length in listed]
            self.assertEqual(self.description.pool_of(size, regions, []), wanted, f"{size:#x}, {listed}")
        regions = [self.description.Region(0x1000, 0x7000, "usable"), self.description.Region(0x9000, 0x3000, "usable")]
        for ranges, wanted in (
            ([(0, 0x1000), (0x8000, 0x1000)], (0x1000, 0x8000)),
            ([(0x4000, 0x1000)], (0x1000, 0x4000)),
            ([(0x3800, 0x10)], (0x4000, 0x8000)),
            ([(0x2000, 1), (0x4000, 1), (0x6000, 0x3000)], (0x9000, 0xC000)),
            ([(0x7FFF, 0x1002)], (0x1000, 0x7000)),
            ([(0, 1 << 52)], (0, 0)),
        ):
            avoided = [self.description.Region(base, length, "") for base, length in ranges]
            self.assertEqual(self.description.pool_of(1 << 32, regions, avoided), wanted, f"{ranges}")

    def test_changed(self) -> None:
        """a description with another byte is refused, or says something else by the model too"""
        chances = random.Random(1)
        for text in (LINUX.encode(), MULTIBOOT2.encode(), *(text.encode() for text in TOLD)):
            described = self.described_by_model(text)
            for place, byte in enumerate(text):
                drawn = {byte ^ 1, byte ^ 0x20, chances.choice(b'0123456789abcdefx "\\\n#='), chances.randrange(256)}
                for other in drawn - {byte}:
                    changed = text[:place] + bytes([other]) + text[place + 1 :]
                    if self.described(changed) is not None:
                        self.assertNotEqual(self.described_by_model(changed), described, repr(changed))
