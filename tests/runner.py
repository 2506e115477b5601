"""Runs parts of the test: a line for each check as it ends, then what was left out and what failed, then the count."""

import importlib
import os
import re
import sys
import textwrap
import time
import unittest
from typing import Callable, Iterable, List, Tuple

from tests import plain, support

PARTS = (
    "gate rows cases model program images told digest docs scripts look c c_calls rust source qemu efi measured kvm install".split()
)


LATEST = 150 * 60.0  # no part takes longer than what CI has left then, which ends after three hours


class Result(unittest.TestResult):
    """Counts checks. A test without checks of its own is one check, named by the first line of its docstring."""

    def __init__(self) -> None:
        super().__init__()
        self.passed = 0
        self.failed: List[str] = []
        self.left_out: List[Tuple[str, str]] = []
        self.checked_within = False

    def name_of(self, test: unittest.TestCase) -> str:
        message = getattr(test, "_message", None)
        if isinstance(message, str):
            return message
        prepared = re.fullmatch(r"setUp(?:Class|Module) \((?:[\w.]*\btests\.)?(\w+)(?:\.(\w+))?\)", str(test))
        if prepared:  # what its checks share could not be made
            part, group = prepared.groups()
            return f"the checks of {part}" + (f", {group}" if group else "")
        return test.shortDescription() or str(test)

    def good(self, name: str, count: int = 1) -> None:
        self.passed += count
        print(f"ok      {name}", flush=True)

    def bad(self, name: str, why: str, count: int = 1) -> None:
        self.failed.extend([name] * count)
        print(f"FAILED  {name}", flush=True)
        print(textwrap.indent(why.rstrip(), "        "), flush=True)

    def startTest(self, test: unittest.TestCase) -> None:
        super().startTest(test)
        self.checked_within = False
        test.tally = self.tally  # type: ignore[attr-defined]

    def tally(self, sentence: str, passed: int, failed: int = 0, why: str = "") -> None:
        """Many checks at once, such as the rows of a table."""
        self.checked_within = True
        if failed:
            self.passed += passed
            self.bad(f"{sentence}: {failed} of {passed + failed} differ", why, failed)
        else:
            self.good(f"{sentence}: {passed}", passed)

    def why_of(self, test: unittest.TestCase, err) -> str:
        if isinstance(err[1], AssertionError):
            return str(err[1])
        return self._exc_info_to_string(err, test)  # type: ignore[attr-defined]

    def addSubTest(self, test, subtest, err) -> None:
        self.checked_within = True
        if err is None:
            self.good(self.name_of(subtest))
        else:
            self.bad(self.name_of(subtest), self.why_of(test, err))

    def addSuccess(self, test) -> None:
        if not self.checked_within:
            self.good(self.name_of(test))

    def addFailure(self, test, err) -> None:
        self.bad(self.name_of(test), self.why_of(test, err))

    addError = addFailure

    def addSkip(self, test, reason: str) -> None:
        self.checked_within = True
        self.leave_out(self.name_of(test), reason)

    def leave_out(self, name: str, reason: str) -> None:
        self.left_out.append((name, reason))
        support.lacking.update(re.findall(r"(?:^|: |command ')([\w.+-]+)'? is not at hand", reason))  # as scripts say it
        print(f"skipped {name}: {reason}", flush=True)


class InOrder(unittest.TestLoader):
    """Tests run in the order of their lines."""

    def getTestCaseNames(self, testCaseClass) -> List[str]:
        def line(name: str) -> int:
            return getattr(testCaseClass, name).__code__.co_firstlineno

        return sorted(super().getTestCaseNames(testCaseClass), key=line)

    def loadTestsFromModule(self, module, *args, **kwargs):
        # a part's checks stand in its module, or in those that it names
        found = [
            it
            for each in (module, *getattr(module, "MODULES", ()))
            for it in vars(each).values()
            if isinstance(it, type) and issubclass(it, unittest.TestCase) and it.__module__ == each.__name__
        ]
        return self.suiteClass(self.loadTestsFromTestCase(it) for it in found)


def module_of(part: str):
    return importlib.import_module(f"tests.{part}")


def says(part: str) -> str:
    """What a part checks: the first line of its module."""
    return (module_of(part).__doc__ or "").strip().splitlines()[0]


def run_parts(parts: Iterable[str], remarks: Callable[[], Iterable[str]] = tuple) -> int:
    """Runs these parts; the last line counts all, and the status is 0 where nothing failed."""
    sys.stdout.reconfigure(errors="backslashreplace")  # a failure may show bytes that are no text
    result = Result()
    for part in parts:
        began = time.monotonic()
        print(f"---- {part}: {says(part)}", flush=True)
        before, left_out = result.passed + len(result.failed), len(result.left_out)
        why = plain.why_left_out(part)
        if os.environ.get("CI") and time.monotonic() - support.STARTED > LATEST:
            why = why or "CI ends after three hours, and two and a half are over"
        if why:
            result.leave_out(f"the part {part}", why)
        else:
            InOrder().loadTestsFromModule(module_of(part)).run(result)
        if (before, left_out) == (result.passed + len(result.failed), len(result.left_out)):
            result.bad(f"{part} checks something", "no check ran, and none was left out")
        took = time.monotonic() - began
        print(f"---- {part}: {result.passed + len(result.failed) - before} checks in {took:.0f} seconds", flush=True)
    for remark in remarks():
        print(remark)
    if result.left_out:
        print("What was left out, and why:")
        for name, why in result.left_out:
            print(f"skipped {name}: {why}")
        if support.lacking:
            print(f"What is not at hand here: {', '.join(sorted(support.lacking))}")
    if result.failed:
        print("What failed:")
        for name in dict.fromkeys(result.failed):
            print(f"FAILED  {name}")
    print(f"{result.passed} passed, {len(result.failed)} failed", flush=True)
    sys.stdout.flush()
    return 1 if result.failed else 0
