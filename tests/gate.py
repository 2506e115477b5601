"""the toolchain's gate: every proof, the edits that must be refused, the stored runs"""

import os
import re
import statistics
import subprocess
import sys
import threading
from pathlib import Path
from typing import List, Optional, Tuple

from tests.support import TOP, Checks, is_at_hand, run

BETWEEN_MEASURES = 5 * 60  # two units of one gate may differ by a third, so a few make a mean
CHECK_BYTES = 4 << 30  # what the largest checks take of memory

# A refused edit whose proof cites what the edited code no longer has, as where a call was replaced: a right body would be refused too.
MISFIT = re.compile(
    rb"must-fail (\S+): refused, as it must be: \S+: error: (?:`[^`]*`: )?(?:record `|module `|`goal\.[^`]*`: module )"
)


def seconds_of(words: List[str], stdout=subprocess.DEVNULL) -> Tuple[int, float]:
    """A command's status and the processor seconds that it and all that it started took."""
    process = subprocess.Popen(words, cwd=TOP, stdin=subprocess.DEVNULL, stdout=stdout, stderr=subprocess.STDOUT)
    _, status, usage = os.wait4(process.pid, 0)
    process.returncode = os.waitstatus_to_exitcode(status) if hasattr(os, "waitstatus_to_exitcode") else status >> 8
    return process.returncode, usage.ru_utime + usage.ru_stime


def number_in(path: str, pattern: str) -> Optional[int]:
    """The first number that the pattern finds in a file of the kernel; None where there is none, or no such file."""
    try:
        found = re.search(pattern, Path(path).read_text(encoding="ascii"), re.M)
    except OSError:
        return None
    return int(found[1]) if found else None


def checks_at_once() -> Optional[int]:
    """One for each processor, of a container within what its control group (version 2 or 1) allows; None where memory may not hold so many."""
    group = "/sys/fs/cgroup"
    processors = len(os.sched_getaffinity(0))
    for quota, period in (
        (number_in(f"{group}/cpu.max", r"^(\d+)"), number_in(f"{group}/cpu.max", r" (\d+)")),
        (number_in(f"{group}/cpu/cpu.cfs_quota_us", r"^(\d+)"), number_in(f"{group}/cpu/cpu.cfs_period_us", r"^(\d+)")),
    ):
        if quota and period:
            processors = max(1, min(processors, quota // period))
    free = (number_in("/proc/meminfo", r"^MemAvailable: +(\d+)") or 0) << 10
    for limit in (number_in(f"{group}/memory.max", r"^(\d+)"), number_in(f"{group}/memory/memory.limit_in_bytes", r"^(\d+)")):
        if limit:
            free = min(free, limit)
    return processors if free >= processors * CHECK_BYTES else None


class MeasuredBeside(threading.Thread):
    """What `rt selftest` costs while something else runs, every five minutes: a machine may be half as fast again an hour later."""

    def __init__(self) -> None:
        super().__init__(daemon=True)
        self.ended = threading.Event()
        self.took: List[float] = []

    def run(self) -> None:
        while not self.ended.wait(BETWEEN_MEASURES):
            status, seconds = seconds_of(["rt", "selftest"])
            if status == 0 and not self.ended.is_set():
                self.took.append(seconds)


class Gate(Checks):
    def test_gate(self) -> None:
        """the command rt of the Rattle toolchain is on the PATH"""
        if not is_at_hand("rt"):
            self.fail("the command 'rt' is not on the PATH; README says what it is")
        # the toolchain's example: what it costs on this machine is the unit for what the gate costs
        status, before = seconds_of(["rt", "selftest"])
        with self.check("rt selftest proves and runs the toolchain's own example"):
            self.assertEqual(status, 0, "the status of rt selftest")
        print("gate: rt ci takes half an hour to one and a half on four cores, up to two and a half on two", flush=True)
        beside = MeasuredBeside()
        beside.start()
        status, seconds, last, misfits = self.gate()
        beside.ended.set()
        counts = re.fullmatch(r"(\d+) passed, (\d+) failed", last)
        with self.check("rt ci ends in a count, and its status is that of the count"):
            self.assertIsNotNone(counts, f"the last line of rt ci is {last!r}")
            self.assertEqual(status == 0, counts[2] == "0", f"rt ci: status {status}, last line {last!r}")
        if counts:
            self.tally("rt ci: proofs, edits, tests and runs", int(counts[1]), int(counts[2]), "its own lines above name them")
        with self.check("no edit is refused only since its proof cites what the edited code lacks"):
            self.assertEqual(misfits, [], "such an edit")
        with self.check("README names the toolchain with which all of this was proved"):
            version = run("rt", "version").out.decode().strip()
            self.assertIn(f"`{version}`", (TOP / "README.md").read_text(encoding="utf-8"), "README")
        self.tell_cost(before, beside.took, seconds)

    def gate(self) -> Tuple[int, float, str, List[str]]:
        """Runs rt ci and shows its lines; its status, its processor seconds, its last line, and the edits that show nothing."""
        # Without a number rt ci gives a proof up to four jobs, each of which loads all libraries below once more, and lets edits
        # wait meanwhile. With one, each check has one job, and edits fill what proofs leave free. Then it does not look at memory any
        # more, so where that may not do, it is left to itself.
        checks = checks_at_once()
        jobs = {"RT_JOBS": str(checks)} if checks else {}
        gate = subprocess.Popen(
            ["rt", "ci"],
            cwd=TOP,
            env={**jobs, **os.environ},
            stdin=subprocess.DEVNULL,
            stdout=subprocess.PIPE,
            stderr=subprocess.STDOUT,
        )
        times = subprocess.Popen(["tests/gate_times"], cwd=TOP, stdin=subprocess.PIPE, stdout=sys.stdout)
        last, misfits = b"", []
        assert gate.stdout is not None and times.stdin is not None
        for line in gate.stdout:
            times.stdin.write(line)
            times.stdin.flush()
            last = line
            misfits += [it.decode() for it in MISFIT.findall(line)]
        times.stdin.close()
        _, status, usage = os.wait4(gate.pid, 0)
        gate.returncode = status >> 8 if os.WIFEXITED(status) else 128 + os.WTERMSIG(status)
        times.wait()
        return gate.returncode, usage.ru_utime + usage.ru_stime, last.decode(errors="replace").strip(), misfits

    @staticmethod
    def tell_cost(before: float, beside: List[float], seconds: float) -> None:
        """The gate's cost in units of rt selftest; of a run that ends within five minutes the unit is the one before it.

        rt selftest takes a job for each processor, and each loads the libraries: on two a unit is a fifth smaller than on four.
        """
        unit = statistics.mean(beside) if beside else before
        which = "beside it" if beside else "before it"
        measured = " ".join(f"{it:.0f}" for it in beside) or "none"
        print(
            f"rt ci took {seconds:.0f} processor seconds, {seconds / unit:.1f} times what rt selftest took {which}:"
            f" before it {before:.0f}, {measured} beside it, on {len(os.sched_getaffinity(0))} processors",
            flush=True,
        )
