"""What the checks of the program share: the first example changed, its image, and images that are to be written."""

import re
import shutil
from pathlib import Path
from typing import Optional, Tuple, Union

from tests.examples import FIRST
from tests.support import PROGRAM, TOP, ProgramChecks, Ran, is_at_hand, run


def version() -> str:
    """The version in the help text, by the script that has it for all that print one."""
    script = TOP / "tools/version"
    if not script.exists():
        return "1.0"
    ran = run(script)
    if ran.status != 0:
        raise AssertionError(f"ran: {ran}\nstatus {ran.status}, wanted 0\n{ran.err.decode(errors='replace')}")
    return ran.out.decode().strip()


def static_busybox() -> Optional[str]:
    """The busybox of the PATH if it is linked statically: of a library that it needs, ldd ends with the status 0."""
    busybox = shutil.which("busybox") if is_at_hand("busybox") else None
    return busybox if busybox and run("ldd", busybox).status != 0 else None


class ImageChecks(ProgramChecks):
    """Checks of the images that the program writes, and of descriptions that are the first example changed."""

    first: Path  # the first example's image

    @classmethod
    def setUpClass(cls) -> None:
        super().setUpClass()
        cls.first = cls.room / "first.image"
        run(PROGRAM, "boot", FIRST, "--out", cls.first)

    def boot(self, description: Union[str, Path], image: Union[str, Path], *words: str, **how) -> Ran:
        """Boots a description into an image of the checks' folder."""
        return self.program("boot", description, "--out", self.room / image, *words, **how)

    def described(self, key: str, value: str) -> Path:
        """The first example with another value of a key."""
        text = FIRST.read_text(encoding="utf-8")
        changed, count = re.subn(f"^{key} = .*$", lambda _: f"{key} = {value}", text, flags=re.M)
        self.assertGreater(count, 0, f"{FIRST} has no key '{key}'")
        return self.written(changed)

    def written(self, text: str) -> Path:
        description = self.room / "desc.toml"
        description.write_text(text, encoding="utf-8")
        return description

    def is_expected(self, what: str, wanted: Tuple[int, str], image: Path) -> None:
        """Checks of an image's length and of its SHA-256."""
        length, digest = wanted
        self.has_length(f"{what} has {length} bytes", length, image)
        self.has_digest(f"{what} is the expected one", digest, image)

    def has_same_image(self, sentence: str, image: str) -> None:
        """A check that an image of the checks' folder is that of the first example."""
        self.are_same_file(sentence, self.first, self.room / image)

    def has_length(self, sentence: str, length: int, file: Path) -> None:
        """A check of a file's length."""
        with self.check(sentence):
            self.assertTrue(file.is_file(), f"there is no file {file}")
            self.assertEqual(file.stat().st_size, length, f"the bytes of {file}")

    def is_absent(self, sentence: str, file: Path) -> None:
        """A check that there is no such file."""
        with self.check(sentence):
            if file.exists():
                self.fail(f"there is a file {file}, of {file.stat().st_size} bytes, and none is wanted")
