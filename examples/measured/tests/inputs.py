"""Inputs that are none, and bad words."""

import struct
import time
from pathlib import Path
from typing import Optional

from examples.measured.tests import boots, cases
from examples.measured.tests.boots import POLICY
from examples.measured.tests.cases import BAD_WORDS, DIGEST, GOOD, UNREADABLE, Case
from examples.measured.tests.checker import CheckerChecks, Within


MODULE = "the policy's entry 2, 'Kernel', module 2"
TWICE = [DIGEST, f"sha256:{DIGEST}"]
OF_TWO = f"files = ['BOOTX64.EFI']\ndigests.'BOOTX64.EFI' = '{DIGEST}'"
# what was meant to be a digest
SLIPS = [
    ("digest that is cut", DIGEST[:-1], "No such file"),
    ("digest with another bank before it", f"sha384:{DIGEST}", "which is a digest of no bank"),
    ("digest with an unknown bank before it", f"md5:{DIGEST}", "which is a digest of no bank"),
    ("digest with a blank", f"{DIGEST} ", "No such file"),
    ("digest in pairs", ":".join(DIGEST[i : i + 2] for i in range(0, 64, 2)), "No such file"),
    ("digest of no bank", f"{DIGEST}00", "which is a digest of no bank"),
]


def machine(name: str, key: int = 0) -> str:
    """A machine of a policy; those with keys of their own have one endorsement key."""
    return f"\n[[machine]]\nname = '{name}'\nkey = '{key:064x}'\n" + (f"ek = '{DIGEST}'\n" if key else "")


def first_with(banks: bytes = b"\x0b\0\x20\0", count: int = 1, vendor: bytes = b"\0", length: Optional[int] = None) -> bytes:
    """A log's first event with another content."""
    content = b"Spec ID Event03\0" + struct.pack("<IBBBBI", 0, 0, 2, 105, 2, count) + banks + vendor
    return struct.pack("<II20sI", 0, boots.NO_ACTION, bytes(20), len(content) if length is None else length) + content


class Inputs(CheckerChecks):
    def test_logs(self) -> None:
        folder = self.folder("logs", Case("", ""))
        held, first = (folder / "log").read_bytes(), boots.first_event(["sha256"])
        small = boots.spelled(boots.Event(1, boots.IPL, b"", b""), ["sha256"])
        last = boots.spelled(boots.exit_events()[-1], ["sha256"])
        for sentence, changed, said in (
            ("an empty log", b"", "the log ends too early"),
            ("a log that is cut within an event", held[:-1], "the log ends too early"),
            ("a log of the older form", bytes(4) + b"\x08\0\0\0" + held[8:], "the log is none of the crypto-agile form"),
            ("a log with something behind it", held + b"\1\0", "the log ends too early"),
            ("a log with a bank of another size", held.replace(b"\x0b\0\x20\0", b"\x0b\0\x21\0", 1), "or with another size"),
            ("an event of a PCR that there is not", boots.log_of([boots.told(24, 1, b"")], ["sha256"]), "or is of no PCR"),
            ("an event of another bank", first + boots.spelled(boots.told(1, 1, b""), ["sha1"]), "has the bank sha1"),
            ("a log without a bank", boots.first_event([]), "the log's first event has no bank"),
            ("a log of no bank with an event", boots.log_of([boots.told(4, 1, b"")], []), "the log's first event has no bank"),
            ("a log with more events than a boot has", first + 100_001 * small, "the log has more than 100000 events"),
            ("a log that is too long", held + bytes(8 << 20), "log has more than 8388608 bytes"),
            ("an event whose data go on behind the log", held[:-len(last)] + last[:46] + b"\xff" * 4 + last[50:], "ends too early"),
            ("an event with four thousand million digests", held + bytes(8) + b"\xff" * 4 + bytes(40), "event 23 of the log has"),
            ("an event without a digest", first + boots.spelled(boots.told(1, 1, b""), []), "lacks a bank's digest"),
        ):
            (folder / "log").write_bytes(changed)
            self.says(sentence, self.checker(folder), UNREADABLE, said)
        behind = held[len(first) :]
        for sentence, changed, said in (
            ("that counts four thousand million banks", first_with(count=0xFFFFFFFF), " ends too early"),
            ("that counts a bank more", first_with(count=2), " ends too early"),
            ("that counts a bank less", first_with(count=0), " ends too early"),
            ("that has a bank twice", first_with(banks=2 * b"\x0b\0\x20\0", count=2), " has the bank sha256 twice"),
            ("with more of the vendor's than there is", first_with(vendor=b"\2v"), " ends too early"),
            ("with less of the vendor's than there is", first_with(vendor=b"\1vw"), " goes on behind its end"),
            ("without what the vendor has", first_with(vendor=b""), " ends too early"),
            ("that is empty", first_with(length=0), " ends too early"),
        ):
            (folder / "log").write_bytes(changed + behind)
            self.says(f"a first event {sentence}", self.checker(folder), UNREADABLE, f"the log's first event{said}")
        (folder / "log").write_bytes(first_with(length=0xFFFFFFFF) + behind)
        self.says("a first event that is longer than the log", self.checker(folder), UNREADABLE, "the log ends too early")
        (folder / "log").write_bytes(first_with(banks=b"\x0b\0\x20\0\x99\0\xff\xff", count=2) + behind)
        ran = self.checker(folder)
        self.says("an event without the digest of an unknown bank", ran, UNREADABLE, "event 1 of the log lacks a bank's digest")
        (folder / "log").write_bytes(first_with(vendor=b"\xff" + bytes(255)) + behind)
        self.says("a first event may have what is the vendor's", self.checker(folder), GOOD, cases.LINUX_SAID)
        for sentence, rest in (("zeros", bytes(1000)), ("bytes 0xFF", b"\xff" * 1000)):
            (folder / "log").write_bytes(held + rest)
            self.says(f"{sentence} behind a log are no events", self.checker(folder), GOOD, cases.LINUX_SAID)

    def test_long_log(self) -> None:
        """It takes a second; where each event cost as much as the log is long, it took minutes."""
        small = boots.Event(10, boots.IPL, b"", b"")
        folder = self.folder("long", Case("", "", happened=cases.ended(*[small] * 83_000)))
        self.assertGreater((folder / "log").stat().st_size, 4_000_000)
        self.says("a log of four million bytes is judged", self.checker(folder), GOOD, cases.LINUX_SAID)

    def test_files(self) -> None:
        folder = self.folder("files", Case("", ""))
        (folder / "empty").write_bytes(b"")
        for sentence, named, said in (
            ("a log that there is not", {"log": "none"}, "none: No such file"),
            ("PCR values that are none", {"pcrs": "policy"}, "PCR values"),
            ("empty PCR values", {"pcrs": "empty"}, "the file of PCR values ends too early"),
            ("known files that there are not", {"known": "none"}, "No such file"),
            ("a policy that there is not", {"policy": "none"}, "none: No such file"),
            ("a policy that is no TOML", {"policy": "pcrs"}, "the policy is no TOML"),
        ):
            self.says(sentence, self.checker(folder, **named), UNREADABLE, said)
        for sentence, old, new, said in (
            ("a policy with an unknown key", "files =", "file =", "the policy has the key 'file'"),
            ("a policy without a boot manager", '["BOOTX64.EFI"]', "[]", "the policy has no managers"),
            ("a boot manager that is no application", '["BOOTX64.EFI"]', '["vmlinuz"]', "vmlinuz is no EFI application"),
            ("a policy whose file is not there", '"more.img"]', '"none.img"]', "none.img: No such file"),
            ("a policy with another protocol", '"linux64"', '"elf"', "'elf'; it may be multiboot2, linux, linux64, efi"),
            ("a policy's entry without a title", 'title = "Linux"', "", "the policy's entry 1 has no title"),
            ("a policy's entry without a kernel", 'kernel = "vmlinuz"', "", "has no kernel"),
            ("a policy's entry with another's key", 'kernel = "vmlinuz"', 'kernel = "vmlinuz"\nmodule = []', "has the key 'module'"),
            ("a policy's module with an unknown key", 'file = "two"', 'file = "two"\nlines = ""', f"{MODULE} has the key 'lines'"),
            ("a policy's line that is no text", "line = 'say", "line = 1 #", "line is no text"),
            ("a policy's PCR that there is not", "\n[[entry]]", "\npcr.24 = []\n[[entry]]", "pcr is no table of PCR numbers"),
            ("a policy that has a PCR twice", "\n[[entry]]", "\npcr.7 = []\npcr.07 = []\n[[entry]]", "the policy's pcr has PCR 7 twice"),
            ("a policy's PCR in other digits", "\n[[entry]]", "\npcr.'\u0667' = []\n[[entry]]", "pcr is no table of PCR numbers"),
            ("a policy's PCR of many digits", "\n[[entry]]", f"\npcr.{'9' * 5000} = []\n[[entry]]", "is no table of PCR numbers"),
            ("a policy's bank that there is not", "files =", 'banks = ["md5"]\nfiles =', "the policy's banks have 'md5'"),
            ("a policy's driver that is no driver", "files =", 'drivers = ["vmlinuz"]\nfiles =', "vmlinuz is no EFI application"),
            ("a policy's digest of no file", "\n[[entry]]", "\ndigests.x = '00'\n[[entry]]", "which is no file of the policy"),
            ("a policy's digest of no bank", "\n[[entry]]", "\ndigests.vmlinuz = '00'\n[[entry]]", "no digest in hexadecimal digits"),
            ("a policy's two digests of a bank", "\n[[entry]]", f"\ndigests.vmlinuz = {TWICE}\n[[entry]]", "two of one bank"),
            ("a policy's digest of two things", "files =", f"{OF_TWO}\n#", "of an application and of a file"),
            ("a policy's digest that is no text", "\n[[entry]]", "\ndigests.vmlinuz = 1\n[[entry]]", "vmlinuz is no array"),
            ("a policy's digest of another file", "\n[[entry]]", f"\ndigests.vmlinuz = '{DIGEST}'\n[[entry]]", "has another digest"),
            ("a policy of SHA-1 alone", "files =", 'banks = ["sha1"]\nfiles =', "SHA-1 is too weak"),
            ("a policy's machine without a key", "\n[[entry]]", "\n[[machine]]\nname = 'a'\n[[entry]]", "machine 1, 'a', has no key"),
            ("a policy's machine with a short key", "\n[[entry]]", "\n[[machine]]\nname = 'a'\nkey = '00'\n[[entry]]", "none of 32 bytes"),
            *(
                (f"a policy's {key} with a {what}", "files =", f'{key} = ["{word}"]\n{"#" if key == "files" else "files ="}', said)
                for what, word, said in SLIPS
                for key in ("drivers", "files")
            ),
            ("a policy that has a key twice", "files =", "files = []\nfiles =", "the policy is no TOML: Cannot overwrite a value"),
            *(
                (f"a policy with a key of many parts {where}", "files =", f"{key}\nfiles =", "has a key of more than eight parts")
                for where, key in (
                    ("", "a" + 20000 * ".a" + " = 1"),
                    ("in quotes", "a" + 20000 * '."a"' + " = 1"),
                    ("with blanks", "a" + 20000 * " . a" + " = 1"),
                    ("in a table", "a = {a" + 20000 * ".a" + " = 1}"),
                    ("of a table", "[a" + 20000 * ".a" + "]"),
                )
            ),
            ("a policy with a number of many digits", "files =", f"banks = [{'9' * 5000}]\nfiles =", "the policy is no TOML: Exceeds"),
            ("a policy with a number in place of a text", "files =", f"banks = [0x{'9' * 50000}]\nfiles =", "banks is no array of texts"),
            ("a policy with arrays in arrays", "files =", f"banks = {'[' * 5000}{']' * 5000}\nfiles =", "the policy is no TOML"),
            ("a policy with a text in place of an array", "files =", 'texts = "Linux"\nfiles =', "texts is no array"),
            ("a policy that revokes", "files =", 'revoked = ["Linux"]\nfiles =', "the policy has the key 'revoked'; it may have managers"),
            ("a policy's title that is a truth value", 'title = "Linux"', "title = true", "the policy's entry 1: title is no text"),
            ("a policy's entry that is a table", "managers =", "entry.title = 'x'\nmanagers =", "the policy is no TOML"),
            ("a policy's PCRs in an array", "\n[[entry]]", "\npcr = []\n[[entry]]", "the policy: pcr is no table"),
            ("a policy's PCR value that is no array", "\n[[entry]]", "\npcr.7 = 'aa'\n[[entry]]", "7 is no array"),
            ("a policy's machine that is a table", "\n[[entry]]", "\nmachine.name = 'a'\n[[entry]]", "machine is no array"),
            ("a key of two machines", "\n[[entry]]", f"{machine('a')}{machine('b')}\n[[entry]]", "'b', has another machine's key"),
            ("a TPM of two machines", "\n[[entry]]", f"{machine('a', 1)}{machine('b', 2)}\n[[entry]]", "the endorsement key of 'a'"),
            ("a short endorsement key", "\n[[entry]]", f"{machine('a')}ek = '00'\n[[entry]]", "is '00', which is none of 32 bytes"),
            ("a policy with letters that are no UTF-8", "files =", "# \udcff\nfiles =", "the policy is no TOML"),
            ("a policy's PCR value that is none", "\n[[entry]]", "\npcr.7 = ['g']\n[[entry]]", "no digest in hexadecimal digits"),
            ("a policy's PCR value of no bank", "\n[[entry]]", f"\npcr.7 = ['{DIGEST}00']\n[[entry]]", "the policy's pcr 7 has '"),
        ):
            (folder / "policy").write_text(POLICY.replace(old, new, 1), encoding="utf-8", errors="surrogateescape")
            self.says(sentence, self.checker(folder), UNREADABLE, said)

    def test_program(self) -> None:
        folder = self.folder("program", Case("", ""))
        ran = self.checker(folder, env={"BOOTCORE": str(folder / "none")})
        self.says("a program that there is not", ran, UNREADABLE, "none: No such file")
        for sentence, script, said in (
            ("a program that fails", "exit 3", "ends with the status 3, and tells no digest"),
            ("a program that says too much", "yes", "says more than 1048576 bytes"),
            ("a program that says nothing", "true", "ends with the status 0, and tells no digest"),
        ):
            (folder / "program").write_text(f"#!/bin/sh\n{script}\n")
            (folder / "program").chmod(0o755)
            self.says(sentence, self.checker(folder, env={"BOOTCORE": str(folder / "program")}), UNREADABLE, said)

    def test_words(self) -> None:
        folder = self.folder("words", Case("", ""))
        for sentence, words, named in (
            ("no log", [], {"log": None}),
            ("a quote without a nonce", [], {"quote": "quote"}),
            ("a nonce without a quote", [], {"nonce": "00"}),
            ("a nonce of no digits", [], {"quote": "quote", "nonce": "no"}),
            ("an empty nonce", ["--nonce", ""], {"quote": "quote"}),
            ("a blank nonce", [], {"quote": "quote", "nonce": "  "}),
            ("a nonce with blanks", [], {"quote": "quote", "nonce": "c0 ff ee"}),
            ("a nonce of half a byte", [], {"quote": "quote", "nonce": "c0f"}),
            ("a machine without a key", [], {"quote": "quote", "nonce": "00", "machine": "rack"}),
            ("a count of resets without a quote", [], {"resets": "1"}),
            ("a count of resets that is none", [], {"quote": "quote", "nonce": "00", "resets": "-1"}),
            ("a part of an option's name", ["--unsig"], {"unsigned": None}),
            ("a key without a signature", [], {"quote": "quote", "nonce": "00", "key": "key"}),
            ("a policy without known files", ["--policy", "policy"], {}),
            ("a word more", ["more"], {}),
        ):
            self.says(f"refused: {sentence}", self.checker(folder, *words, **named), BAD_WORDS, "usage: ")


class Programs(Within):
    def test_time(self) -> None:
        """a program that does not end is ended, with what it started"""
        (self.room / "program").write_text("#!/bin/sh\nsleep 60 & echo $! >started\nwait\n")
        (self.room / "program").chmod(0o755)
        with self.assertRaises(self.reading.BadInput) as raised:
            self.running.ran([str(self.room / "program")], self.room, 0.5)
        self.assertIn("has not ended after 0.5 seconds", str(raised.exception))
        process = int((self.room / "started").read_text())
        for _ in range(100):
            if not is_running(process):
                return
            time.sleep(0.05)
        self.fail(f"what it started, {process}, goes on")


def is_running(process: int) -> bool:
    """A process that has ended may still wait for its parent to hear of it."""
    try:
        return Path(f"/proc/{process}/stat").read_text().rpartition(")")[2].split()[0] not in "ZX"
    except OSError:
        return False
