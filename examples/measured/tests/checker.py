"""What the tests share: the checker over a folder of files, and its modules in this process."""

import importlib
import os
import sys
import unittest
from pathlib import Path
from typing import Dict, List, Optional
from unittest import mock

from examples.measured.tests import boots
from examples.measured.tests.boots import FILES, LINUX, MULTIBOOT2
from examples.measured.tests.cases import BOTH, GOOD, PARTLY, UNSIGNED, WRONG, Case
from tests.support import PROGRAM, TOP, Checks, Ran, has_tomllib, run

CHECKER = TOP / "examples/measured"
# the last line of what is told on standard output
LAST = {
    GOOD: "^as it should be$",
    WRONG: "^not as it should be: ",
    UNSIGNED: "^as it should be, if these are the TPM's values: nobody has signed them$",
    PARTLY: "^as it should be, by the digests of some banks alone$",
    BOTH: "^as it should be, by the digests of some banks alone, if these are the TPM's values: nobody has signed them$",
}


class CheckerChecks(Checks):
    """Checks that run the checker, with the proved program, or without one with the model in its place."""

    env: Dict[str, str]

    @classmethod
    def setUpClass(cls) -> None:
        super().setUpClass()
        if not has_tomllib():
            raise unittest.SkipTest("Python is older than 3.11")
        program = PROGRAM
        if not PROGRAM.exists():
            program = cls.room / "bootcore"
            program.write_text(f'#!/bin/sh\nexec "{sys.executable}" "{TOP}/tests/digest_stand_in.py" "$@"\n')
            program.chmod(0o755)
        cls.env = {"BOOTCORE": str(program), "PYTHONDONTWRITEBYTECODE": "1"}

    def folder(self, name: str, case: Case) -> Path:
        """What the checker is given: log, values, known files, policy."""
        folder = self.room / name
        (folder / "known").mkdir(parents=True)
        booted = {**FILES, **case.booted}
        text = case.text or (LINUX if case.boot == "linux" else MULTIBOOT2)
        happened = case.happened((boots.linux_boot if case.boot == "linux" else boots.multiboot2_boot)(booted, text))
        pcrs = case.values(boots.pcrs_of(happened, case.banks))
        for name_, held in {**FILES, **case.known}.items():
            if held is not None:
                (folder / "known" / name_).write_bytes(held)
        (folder / "log").write_bytes(boots.log_of(case.logged(happened), case.log_banks or case.banks))
        (folder / "pcrs").write_text(boots.pcrread(pcrs))
        (folder / "policy").write_text(case.policy, encoding="utf-8")
        return folder

    def checker(self, folder: Path, *words: str, env: Optional[Dict[str, str]] = None, **named: Optional[str]) -> Ran:
        """The checker over a folder's files, some of them named otherwise; None leaves an option out, and an empty word gives one
        that has no value. Values that nobody has signed are wanted, but where `unsigned` is None."""
        paths = {"log": "log", "pcrs": "pcrs", "known": "known", "policy": "policy", "unsigned": "", **named}
        options = [word for option, path in paths.items() if path is not None for word in (f"--{option}", path)[: 2 if path else 1]]
        return run(CHECKER / "check", *options, *words, cwd=folder, env={**self.env, **(env or {})})

    def says(self, sentence: str, ran: Ran, status: int, said: str) -> None:
        """A check of the status and of words on the stream where they belong; the other one is empty."""
        with self.check(sentence):
            told, other = (ran.out, ran.err) if status in LAST else (ran.err, ran.out)
            self.assertEqual((ran.status, other), (status, b""), f"ran: {ran}\n{told.decode(errors='replace')}")
            self.assertIn(said, told.decode(), f"ran: {ran}")
            if status in LAST:
                self.assertRegex(told.decode().splitlines()[-1], LAST[status], f"ran: {ran}")


class Within(CheckerChecks):
    """Checks that call the checker's modules, and the model."""

    @classmethod
    def setUpClass(cls) -> None:
        super().setUpClass()
        sys.path[:0] = [str(CHECKER), str(TOP / "model")]
        try:
            for name in ("description", "event_log", "image_digest", "policy", "reading", "report", "running", "verdict"):
                setattr(cls, name, importlib.import_module(name))
            cls.model = importlib.import_module("rules.description")
            cls.booting = importlib.import_module("rules.booting")
            cls.model_lines = staticmethod(importlib.import_module("program").lines)
        finally:
            del sys.path[:2]
        asked: Dict[tuple, bytes] = {}
        program_digest = cls.image_digest.program_digest

        def digest_once(description: bytes, held: Dict[str, List[Path]], kernel_length: int) -> bytes:
            """The same files have the same image: the program is asked once."""
            key = (description, kernel_length, *sorted((name, *map(str, paths)) for name, paths in held.items()))
            if key not in asked:
                asked[key] = program_digest(description, held, kernel_length)
            return asked[key]

        for changed in (mock.patch.dict(os.environ, cls.env), mock.patch.object(cls.image_digest, "program_digest", digest_once)):
            changed.start()
            cls.addClassCleanup(changed.stop)
