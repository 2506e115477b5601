"""Logs, and the boots that they tell of."""

from concurrent.futures import ThreadPoolExecutor
from typing import Dict

from examples.measured.tests import boots, cases
from examples.measured.tests.boots import FILES, LINUX
from examples.measured.tests.cases import GOOD, PARTLY, UNREADABLE, WRONG, Case
from examples.measured.tests.checker import CheckerChecks, Within
from tests.support import is_at_hand, run


class Bytes(Within):
    """Each byte of a log is told by a PCR, or does not matter."""

    def status(self, log: bytes, values: Dict[str, Dict[int, bytes]], policy: object) -> int:
        try:
            self.verdict.verdict(self.event_log.read_log(log), values, policy)
        except self.reading.Fault:
            return WRONG
        except self.reading.BadInput:
            return UNREADABLE
        return GOOD

    def test_bytes(self) -> None:
        folder = self.folder("bytes", Case("", ""))
        events = boots.linux_boot(FILES)
        pcrs = boots.pcrs_of(events, ["sha256"])
        values = {"sha256": dict(enumerate(pcrs["sha256"]))}
        policy = self.policy.read_policy(folder / "policy", folder / "known", ["sha256"])
        log = (folder / "log").read_bytes()
        free, paths = boots.untold(events, ["sha256"], LINUX)
        with self.check("each byte of a log is told by a PCR, but those of kinds, paths and what the firmware tells beside"):
            good = {place for place in range(len(log)) if self.status(cases.one_byte(log, place), values, policy) == GOOD}
            self.assertEqual(sorted(free - good), [], "bytes that do not matter, and are refused")
            self.assertEqual(sorted(good - free - paths), [], "bytes that matter, and are not looked at")
        with self.check("a log that is cut after each of its bytes is refused, but where the firmware is about to end"):
            good = {place for place in range(len(log)) if self.status(log[:place], values, policy) == GOOD}
            self.assertEqual(good, {len(boots.log_of(events[:-2], ["sha256"]))}, "where it may be cut")


class Boots(CheckerChecks):
    def test_other_reader(self) -> None:
        """tpm2-tools compare what they know the measured bytes of: so they speak of an event in a form that is others'."""
        sentence = "tpm2_eventlog says nothing against what the boot manager measures"
        if not is_at_hand("tpm2_eventlog"):
            self.leave_out(sentence, "tpm2_eventlog is not at hand")
            return
        for name, events in (("Linux", boots.linux_boot(FILES)), ("modules", boots.multiboot2_boot(FILES))):
            path = self.room / f"log of {name}"
            path.write_bytes(boots.log_of((it for it in events if it.pcr in (8, 9, 12)), cases.ALL_BANKS))
            ran = run("tpm2_eventlog", path)
            with self.check(f"{sentence}: {name}"):
                self.assertEqual((ran.status, ran.err), (0, b""), f"ran: {ran}")
                self.assertEqual(ran.out.count(b"EventType: EV_EVENT_TAG"), {"Linux": 3, "modules": 5}[name])

    def test_cases(self) -> None:
        cases_of = {GOOD: cases.AS_IT_SHOULD_BE, PARTLY: [case._replace(banks=cases.TWO) for case in cases.PARTLY_SO]}
        wrong = [case for table in (cases.LOG, cases.BANKS, cases.MACHINE, cases.HANDOVER) for case in table]
        tables = (*cases_of.items(), (WRONG, wrong))
        listed = [(status, case) for status, table in tables for case in table]
        folders = [self.folder(f"case{i}", case) for i, (_, case) in enumerate(listed)]
        with ThreadPoolExecutor() as pool:
            ran = pool.map(lambda it: self.checker(it[0], *it[1][1].words), zip(folders, listed))
            for (status, case), each in zip(listed, ran):
                prefix = {GOOD: "as it should be: ", PARTLY: "by a bank alone: ", WRONG: "not as it should be: "}[status]
                self.says(prefix + case.sentence, each, status, case.said)
