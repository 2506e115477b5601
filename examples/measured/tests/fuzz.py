"""Inputs changed by lot: none ends the checker with an error of its own, and none makes a verdict good that must not be.

MUTATIONS and SEED in the environment draw others: `MUTATIONS=100000 SEED=2 ./test measured`."""

import os
import random
import time
from argparse import Namespace
from collections import Counter
from pathlib import Path
from typing import Any, Callable, Dict, List, NamedTuple, Tuple
from unittest import mock

from examples.measured.tests import boots, cases, mutations
from examples.measured.tests.boots import FILES, LINUX, MULTIBOOT2
from examples.measured.tests.cases import GOOD, UNREADABLE, WRONG, Case
from examples.measured.tests.checker import Within
from tests.support import is_at_hand, run

MUTATIONS = int(os.environ.get("MUTATIONS", "3000"))
SECONDS = None if "MUTATIONS" in os.environ else 45
SEED = int(os.environ.get("SEED", "1"))
BANKS = ["sha1", "sha256"]
SELECTED: boots.Selected = [(bank, [0, 1, 2, 3, 4, 5, 6, 7, 8, 9, 12]) for bank in BANKS]
NAMES = ["log", "pcrs", "quote", "signature"]
NONCE = bytes.fromhex("c0ffee")
# what a policy knows beside the boot
DRIVER = [cases.DRIVER.digest(bank).hex() for bank in BANKS]
POLICY = cases.with_digests("a card", *DRIVER, policy=cases.with_key("drivers", "a card"))
POLICY = f'texts = ["quiet splash", "grub_cmd: set root=hd0"]\n{POLICY}'


def full(events: List[boots.Event]) -> List[boots.Event]:
    """With a driver, and with texts of the firmware and of other boot managers."""
    setup = boots.told(4, boots.ACTION, b"Entering ROM Based Setup")
    for pcr, event in ((2, cases.DRIVER), (4, setup), (8, cases.GRUB), (12, cases.OPTIONS)):
        events = cases.at(pcr, 0, cases.before(event))(events)
    return events


class Base(NamedTuple):
    """Inputs that go together, before any of them is changed."""

    name: str
    held: Dict[str, bytes]
    policy: Any
    status: int
    events: List[Tuple[int, bytes]]  # of the log
    free: frozenset  # places of the log whose bytes no PCR tells


class Fuzz(Within):
    @classmethod
    def setUpClass(cls) -> None:
        super().setUpClass()
        checked: Dict[tuple, str] = {}
        check_signature = cls.report.check_signature

        def by_model(words: List[str], folder: Path, _seconds: float) -> Any:
            ended = cls.booting.digest((folder / "description").read_bytes(), cls.booting.paths_from(str(folder)))
            return cls.running.Ran(ended.status, cls.model_lines(ended.said), cls.model_lines(ended.blamed))

        def check_once(message: bytes, signature: Any, key: Any, name: Path) -> None:
            asked = (message, str(signature), key)
            if asked not in checked:
                try:
                    check_signature(message, signature, key, name)
                    checked[asked] = ""
                except cls.reading.Fault as wrong:
                    checked[asked] = str(wrong)
            if checked[asked]:
                raise cls.reading.Fault(checked[asked])

        for changed in (mock.patch.object(cls.image_digest, "ran", by_model), mock.patch.object(cls.report, "check_signature", check_once)):
            changed.start()
            cls.addClassCleanup(changed.stop)

    # ---- what is changed

    def base(self, name: str, text: str, status: int, policy: str = POLICY, values: Callable = cases.same) -> Base:
        """All four inputs of one boot."""
        folder = self.folder(name, Case("", "", policy=policy))
        make = boots.linux_boot if "linux" in text else boots.multiboot2_boot
        events = full(make(FILES, text))
        pcrs = values(boots.pcrs_of(events, BANKS))
        held = {"log": boots.log_of(events, BANKS)}
        held["pcrs"] = boots.pcr_file_of(pcrs, SELECTED)
        held["quote"] = boots.quote_of(pcrs, SELECTED, NONCE)
        (self.room / "quote").write_bytes(held["quote"])
        signed = run("openssl", "dgst", "-sha256", "-sign", "secret", "quote", cwd=self.room)
        held["signature"] = boots.signature_of(signed.out)
        free, paths = boots.untold(events, BANKS, text)
        known = self.policy.read_policy(folder / "policy", folder / "known", BANKS)
        whole = boots.parted(held["log"])[1]
        return Base(name, held, known, status, whole, frozenset(free | paths))

    def bases(self) -> List[Base]:
        for words in (
            ["genpkey", "-algorithm", "ec", "-pkeyopt", "ec_paramgen_curve:P-256", "-out", "secret"],
            ["pkey", "-in", "secret", "-pubout", "-out", "key"],
        ):
            self.assertEqual(run("openssl", *words, cwd=self.room).status, 0)
        other = cases.valued("sha256", 9, b"\1" * 32)
        made = [self.base("linux", LINUX, GOOD), self.base("multiboot2", MULTIBOOT2, GOOD)]
        made += [self.base("firmware and linux", cases.LINUX_TOLD, GOOD), self.base("firmware and multiboot2", cases.MULTIBOOT2_TOLD, GOOD)]
        made += [self.base("another TPM", LINUX, WRONG, values=other)]
        made += [self.base("no known driver", LINUX, WRONG, policy=POLICY.replace(DRIVER[0], 40 * "0"))]
        made += [self.base("no such entry", MULTIBOOT2, WRONG, policy=POLICY.replace('"Kernel"', '"Other"'))]
        return made

    # ---- the verdict

    def judged(self, base: Base, held: Dict[str, bytes]) -> Tuple[int, Any]:
        for name in NAMES:
            (self.room / name).write_bytes(held[name])
        paths = {name: self.room / name for name in [*NAMES, "key"]}
        words = Namespace(**paths, nonce=NONCE, resets=None, restarts=None, machine=None)
        words.policy = words.known = [None]
        try:
            with mock.patch.object(self.report, "read_policy", lambda *_: base.policy):
                report = self.report.report(words)
        except self.reading.Fault as wrong:
            return WRONG, str(wrong)
        except self.reading.BadInput as bad:
            return UNREADABLE, str(bad)
        list(self.report.lines_of(report))
        return GOOD, self.told(report)

    def told(self, report: Any) -> Any:
        """What the verdict says, but for what no PCR has: of a description its paths, and what the image does not tell."""
        told = self.report.told_of(report)
        described = [confirmed(it.described) for it in report.found.handovers]
        attempts = [(it.title, it.lines) for it in report.found.attempts]
        return {**told, "handovers": described, "attempts": attempts}

    def mutated(self, base: Base, lot: random.Random) -> Tuple[str, bytes]:
        name = lot.choice(["log"] * 6 + NAMES)
        if name == "log" and lot.randrange(2):
            return name, mutations.with_events_changed(base.held["log"], lot)
        return name, mutations.changed(base.held[name], lot)

    def test_mutations(self) -> None:
        if not is_at_hand("openssl"):
            self.leave_out("inputs changed by lot are judged rightly", "openssl is not at hand")
            return
        lot = random.Random(SEED)
        bases = self.bases()
        plain = [self.judged(base, base.held) for base in bases]
        for base, (status, told) in zip(bases, plain):
            with self.check(f"inputs before they are changed have their verdict: {base.name}"):
                self.assertEqual(status, base.status, told)
        ended: Counter = Counter()
        began = time.monotonic()
        for turn in range(MUTATIONS):
            if SECONDS is not None and time.monotonic() - began > SECONDS:
                break
            at = lot.randrange(len(bases))
            name, changed = self.mutated(bases[at], lot)
            where = f"SEED={SEED}, turn {turn}: the {name} of {bases[at].name}, {changed.hex()}"
            try:
                status, told = self.judged(bases[at], {**bases[at].held, name: changed})
            except Exception as escaped:  # noqa: BLE001: any that escapes is a mistake
                self.fail(f"{where}\n{escaped!r}")
            ended[status] += 1
            if status == GOOD and changed != bases[at].held[name]:
                self.check_good(bases[at], plain[at][1], name, changed, told, where)
        self.tally(f"inputs changed by lot are judged rightly, {dict(sorted(ended.items()))} by status", sum(ended.values()))

    def check_good(self, base: Base, before: Any, name: str, changed: bytes, told: Any, where: str) -> None:
        """A verdict may stay good only if the change tells nothing else."""
        self.assertEqual(base.status, GOOD, f"{where}: it was not as it should be, and is")
        self.assertEqual(told, before, f"{where}: another verdict, and a good one")
        self.assertNotIn(name, ("quote", "signature"), f"{where}: what is signed was changed")
        if name == "log":
            wanted, came = extends(base.events), extends(boots.parted(changed)[1])
            for pcr, digests in came.items():
                self.assertEqual(digests, wanted.get(pcr, [])[: len(digests)], f"{where}: other digests in PCR {pcr}")
            places = [place for place, pair in enumerate(zip(base.held["log"], changed)) if pair[0] != pair[1]]
            if len(places) == 1 and len(changed) == len(base.held["log"]):
                self.assertTrue(places[0] in base.free, f"{where}: byte {places[0]}, which a PCR tells, was changed")


def confirmed(described: Any) -> Any:
    """Without what the image of such a kernel does not tell."""
    tables = {name: dict(values) for name, values in described.firmware.tables.items()}
    if described.protocol == "multiboot2":
        firmware = described.firmware._replace(rsdp=None, avoided=[], tables=tables)
        untold = {"map_address": 0, "secure_boot": 0}
    else:
        firmware = described.firmware._replace(avoided=[], tables=tables)
        untold = {}
    if "efi" in tables:
        tables["efi"].update(untold)
    return described._replace(kernel="", initrd=None, modules=[], firmware=firmware)


def extends(events: List[Tuple[int, bytes]]) -> Dict[int, List[bytes]]:
    """The digests that each quoted PCR was extended with, as they stand in a log."""
    found: Dict[int, List[bytes]] = {}
    for pcr, event in events:
        if event[4:8] != b"\3\0\0\0" and pcr in SELECTED[0][1]:
            found.setdefault(pcr, []).append(event[8 : boots.data_start(event)])
    return found
