"""the model, which computes each row and each case anew from the rules, and compares what it draws at random"""

import sys
import unittest

from tests.support import PROGRAM, ROWS_PROGRAM, TOP, Checks, has_tomllib, need_built, need_rows_program


class ModelChecks(Checks):
    """The model runs on the Python that runs the test."""

    @classmethod
    def setUpClass(cls) -> None:
        super().setUpClass()
        if not has_tomllib():
            raise unittest.SkipTest("the model wants Python 3.11 or later, whose own library reads TOML")

    def model(self, sentence: str, command: str, *words: str) -> None:
        self.reports(sentence, sys.executable, TOP / "model" / command, *words, timeout=900)


class Alone(ModelChecks):
    """What needs the tables alone, and no program."""

    def test_rows(self) -> None:
        self.model("the model computes the same answer for each row of rows/", "rows")

    def test_cases(self) -> None:
        self.model("the model computes the same outcome for each case", "cases")


class WithProgram(ModelChecks):
    """What compares the proved program, or that of the plain source, with the model."""

    @classmethod
    def setUpClass(cls) -> None:
        super().setUpClass()
        need_built(PROGRAM, "tools/build")

    def test_program(self) -> None:
        program = ["--program", str(PROGRAM)]
        self.model("the program does as the model with what is drawn at random", "fuzz", "300", "1", *program)
        self.model("the program does as the model with descriptions changed in a key", "fuzz_keys", "900", *program)
        self.model("the program explains each case in the model's words", "explain", *program)
        sentence = "the program prints the digests that the model computes, of each case and of each changed image"
        self.model(sentence, "digests", *program)


class WithRows(ModelChecks):
    """What compares the rows' program with the model."""

    @classmethod
    def setUpClass(cls) -> None:
        super().setUpClass()
        need_rows_program()

    def test_rows(self) -> None:
        program = ["--program", str(ROWS_PROGRAM)]
        self.model("the core answers as the model in rows drawn at random", "fuzz", "300", "1", "--rows", *program)
