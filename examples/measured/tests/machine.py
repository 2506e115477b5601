"""A machine in QEMU, from the disk to the verdict."""

import json
import shutil
from typing import List, Optional, Tuple

from examples.measured.tests import boots
from examples.measured.tests.boots import FILES
from examples.measured.tests.cases import GOOD, WRONG
from examples.measured.tests.checker import CHECKER, CheckerChecks
from tests.support import TOP, Ran, run

NONCE = "c0ffee"
MENU = """\
timeout 1
fallback 1

title A driver
efi driver.efi

title Linux
protocol linux64
kernel bootcore/vmlinuz
line console=tty0 console=ttyS0
ramdisk bootcore/initrd.img
"""
ENTRY = '\n[[entry]]\ntitle = "A driver"\nprotocol = "efi"\n'


class Machine(CheckerChecks):
    """A machine in QEMU with a TPM, from the boot manager's disk to the verdict, by the commands of docs/MEASURED.md."""

    def test_machine(self) -> None:
        sentence = "a machine with a TPM boots, and the verdict is as it should be"
        if not (TOP / "examples/efi/out/BOOTX64.EFI").exists():
            self.leave_out(sentence, "examples/efi/build has not made the boot manager")
            return
        (self.room / "vmlinuz").write_bytes(FILES["vmlinuz"])
        (self.room / "initrd.img").write_bytes(b"hello")
        made = run(TOP / "examples/efi/make_esp", "esp", "vmlinuz", "initrd.img", cwd=self.room)
        self.assertEqual(made.status, 0, f"ran: {made}\n{made.err.decode(errors='replace')}")
        ran = run(CHECKER / "tests/trial", "esp", "seen", cwd=self.room, env={"NONCE": NONCE}, timeout=900)
        if ran.status == 127:
            self.leave_out(sentence, ran.err.decode(errors="replace").strip())
            return
        told = "made seen, with the log and a quote of the machine's TPM\n"
        self.ends("a machine with a TPM boots, and its log and a quote are kept", ran, 0, told)
        self.says(sentence, self.checked(), GOOD, 'booted    "Linux" by the protocol linux64\n')
        self.says("a machine's quote with another nonce", self.checked(nonce="00"), WRONG, "the quote's nonce is c0ffee, not 00")
        policy = (CHECKER / "policy.toml").read_text(encoding="utf-8")
        (self.room / "policy").write_text(policy.replace("console=tty0", "console=tty1"), encoding="utf-8")
        self.says("a machine's line that the policy has not", self.checked(policy="policy"), WRONG, "has other lines than those")
        self.check_other_reader((self.room / "seen/log").read_bytes())
        self.check_logs((self.room / "seen/log").read_bytes())
        self.check_predicted("a machine")
        self.check_described()
        self.check_driver()
        self.check_driver_as_program()
        (self.room / "esp/bootcore/initrd.img").write_bytes(b"hellp")
        self.says("a machine's ramdisk that is not known", self.checked(), WRONG, 'the event\'s text is "bootcore/initrd.img"')

    def check_other_reader(self, log: bytes) -> None:
        first, events = boots.parted(log)
        (self.room / "events").write_bytes(first + b"".join(event for _, event in events))
        ran = run("tpm2_eventlog", self.room / "events")
        with self.check("tpm2_eventlog says nothing against a machine's log"):
            self.assertEqual((ran.status, ran.err), (0, b""), f"ran: {ran}")

    def check_predicted(self, whose: str, seen: str = "seen") -> None:
        """Of one machine, which starts anew with a new TPM: the log of the first boot tells the second one to the bit."""
        words = ["--known", "esp", "--entry", str(CHECKER / "policy.toml"), "--title", "Linux"]
        foretold = run(CHECKER / "predict", *words, f"{seen}/log", cwd=self.room, env=self.env)
        (self.room / "foretold").write_bytes(foretold.out)
        ran = self.checked(seen=seen, policy="foretold")
        self.says(f"by the policy that is made of {whose}'s log, it is as it should be", ran, GOOD, "manager   EFI/BOOT/BOOTX64.EFI\n")
        told = json.loads(self.checker_json(seen))
        with self.check(f"that policy of {whose} leaves nothing open, and its image and PCRs are those of the boot"):
            self.assertNotIn(b"remark    PCR 0", ran.out)
            self.assertIn(f"\n# image: {told['image']}\n", foretold.out.decode())
            wanted = [f"# PCR {pcr} of {bank}: {values[str(pcr)]}" for bank, values in told["pcrs"].items() for pcr in (4, 8, 9, 12)]
            self.assertEqual([line for line in foretold.out.decode().splitlines() if line.startswith("# PCR")], wanted)

    def checker_json(self, seen: str) -> bytes:
        return self.checked(seen=seen, policy="foretold", json="").out

    def check_described(self) -> None:
        (self.room / "esp/description").write_bytes(run(CHECKER / "predict", "--describe", "seen/log", cwd=self.room, env=self.env).out)
        digested = run(self.env["BOOTCORE"], "digest", "description", cwd=self.room / "esp")
        (self.room / "esp/description").unlink()
        with self.check("a machine's description is taken by the program, and has the image that was handed over"):
            image = next(line.split()[-1] for line in digested.out.decode().splitlines() if line.startswith("image "))
            self.assertIn(f"image     {image}\n", self.checked().out.decode())

    def check_driver(self) -> None:
        """A network card of QEMU's has a driver in its ROM, which the firmware loads before it boots."""
        ran = run(CHECKER / "tests/trial", "esp", "driven", "-device", "e1000", cwd=self.room, env={"NONCE": NONCE}, timeout=900)
        if ran.status != 0 and b"rom" in (self.room / "driven/monitor").read_bytes():
            self.leave_out("a machine with a driver is refused", "QEMU's ROM of the card e1000 is not at hand")
            return
        ran = self.checked(seen="driven")
        self.says("a machine with a driver that the policy does not name", ran, WRONG, "a driver was loaded that the policy does not name")
        self.check_predicted("a machine with a driver", "driven")

    def check_driver_as_program(self) -> None:
        """The menu's first entry is a program, and the file is a driver."""
        known = self.room / "esp"
        shutil.copytree(known, self.room / "other")
        (self.room / "other/driver.efi").write_bytes(boots.driver())
        (self.room / "other/bootcore/menu.txt").write_text(MENU, encoding="utf-8")
        ran = run(CHECKER / "tests/trial", "other", "started", cwd=self.room, env={"NONCE": NONCE}, timeout=900)
        self.ends("a machine that is given a driver in place of a program boots", ran, 0, None)
        with self.check("a driver in place of a program is not started"):
            shown = (self.room / "started/serial").read_bytes()
            self.assertIn(b"A driver: It is a driver, and no program.", shown)
        policy = (CHECKER / "policy.toml").read_text(encoding="utf-8") + ENTRY
        for sentence, text, status, said in (
            ("a machine with a driver in place of a program", policy, WRONG, "a driver was loaded that the policy does not name"),
            ("a machine with a driver that the policy names", f'drivers = ["driver.efi"]\n{policy}', GOOD, "drivers   driver.efi\n"),
        ):
            (self.room / "policy").write_text(text, encoding="utf-8")
            self.says(sentence, self.checked(seen="started", known="other", policy="policy"), status, said)

    def check_logs(self, log: bytes) -> None:
        place = log.index(b"length = 0x", log.rindex(b"[[region]]")) + 11
        digit = b"2" if log[place] == 0x31 else b"1"
        first, events = boots.parted(log)

        def spelled(listed: List[Tuple[int, bytes]]) -> bytes:
            return first + b"".join(event for _, event in listed)

        last = max(i for i, (pcr, _) in enumerate(events) if pcr == 12)
        files = [i for i, (pcr, _) in enumerate(events) if pcr == 9]
        swapped = list(events)
        swapped[files[-1]], swapped[files[-2]] = events[files[-2]], events[files[-1]]
        for sentence, changed, said in (
            ("with another number in its map", log[:place] + digit + log[place + 1 :], "is not the image of its description"),
            ("without one of its files", spelled(events[: files[0]] + events[files[0] + 1 :]), "PCR 9 of sha256 is not"),
            ("with two files in another order", spelled(swapped), "PCR 9 of sha256 is not what the log gives"),
            ("that is cut before its handover", spelled(events[:last]), "PCR 12 of sha256 is not what the log gives"),
        ):
            (self.room / "changed").write_bytes(changed)
            self.says(f"a machine's log {sentence}", self.checked(log="changed"), WRONG, said)

    def checked(self, seen: str = "seen", **named: Optional[str]) -> Ran:
        kept = {"log": f"{seen}/log", "pcrs": f"{seen}/pcrs", "quote": f"{seen}/quote", "nonce": NONCE}
        kept.update({"signature": f"{seen}/signature", "key": f"{seen}/key.pem", "unsigned": None})
        policy = str(CHECKER / "policy.toml")
        return self.checker(self.room, **{**kept, "known": "esp", "policy": policy, **named})
