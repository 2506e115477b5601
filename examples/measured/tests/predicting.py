"""The next boot, told before it: compared with what the test's own writer makes of that boot."""

import re
import struct
import sys
from pathlib import Path
from typing import Dict, List, NamedTuple

from examples.measured.tests import boots, cases
from examples.measured.tests.boots import FILES, LINUX, MULTIBOOT2, POLICY, Change, Event, at, told
from examples.measured.tests.cases import BAD_WORDS, GOOD, UNREADABLE, WRONG, Case, after, before, same
from examples.measured.tests.checker import CHECKER, CheckerChecks
from examples.measured.tests.tpm import AK, TpmChecks
from tests.support import TOP, Ran, run

NEWER = {"vmlinuz": FILES["vmlinuz"] + b"newer", "initrd.img": b"newer", "kernel.elf": FILES["kernel.elf"] + b"newer", "one": b"newer"}
OTHER_TITLE = POLICY.replace('title = "Linux"', 'title = "Linux 2"').replace("quiet", "splash")
SIGNED = {"vmlinuz": boots.signable(FILES["vmlinuz"])}
SIGNED_NEWER = {**NEWER, "vmlinuz": boots.signable(NEWER["vmlinuz"])}
RENAMED = LINUX.replace('"Linux"', '"Linux 2"').replace("quiet", "splash")


class Path16(NamedTuple):
    """UEFI_IMAGE_LOAD_EVENT of a file, by the PC Client Platform Firmware Profile and the UEFI Specification's device paths."""

    path: str

    def spelled(self) -> bytes:
        text = self.path.encode("utf-16-le") + b"\0\0"
        nodes = struct.pack("<BBHQ", 1, 4, 12, 7) + struct.pack("<BBH", 4, 4, 4 + len(text)) + text + b"\x7f\xff\4\0"
        return struct.pack("<QQQQ", 0x1000, 0x2000, 0, len(nodes)) + nodes


def loaded(event: Event) -> List[Event]:
    return [event._replace(data=Path16("\\BOOTX64.EFI").spelled())]


def located(happened: Change) -> Change:
    """Where the firmware says from where it loaded the boot manager."""
    return lambda events: at(4, -1, loaded)(happened(events)) if cases.VERIFIED[0].data not in [e.data for e in events] else events


class Foretold(NamedTuple):
    sentence: str
    boot: str = "linux"
    text: str = ""  # the description of the boot that the log is of
    next_text: str = ""  # and of the next one
    happened: Change = same  # in both boots
    policy: str = POLICY  # that has the entry
    title: str = "Linux"
    newer: Dict[str, bytes] = NEWER
    older: Dict[str, bytes] = {}


OTHER_MANAGER = {**NEWER, "BOOTX64.EFI": cases.OTHER_MANAGER}
EMPTY = {**cases.EMPTY, "vmlinuz": NEWER["vmlinuz"]}
NO_RAMDISK = LINUX.replace('initrd = "initrd.img\\u000amore.img"\n', "")
KERNEL = {"boot": "multiboot2", "title": "Kernel"}
FORETOLD = [
    Foretold("a new kernel and ramdisk of Linux"),
    Foretold("the same files of Linux", newer={}),
    Foretold("a new kernel, whose firmware tells all", text=cases.LINUX_TOLD),
    Foretold("an entry of another title and line", policy=OTHER_TITLE, title="Linux 2", next_text=RENAMED),
    Foretold("ramdisks that are empty now", newer=EMPTY, next_text=NO_RAMDISK),
    Foretold("another boot manager", newer=OTHER_MANAGER),
    Foretold("a boot behind GRUB", happened=at(8, 0, before(cases.GRUB))),
    Foretold("a boot behind systemd-boot", happened=at(12, 0, before(cases.OPTIONS))),
    Foretold("a machine with a driver", happened=at(2, 0, before(cases.DRIVER))),
    Foretold("a machine whose firmware tells of its setup", happened=at(4, 0, before(told(4, boots.ACTION, b"Entering ROM Based Setup")))),
    Foretold("new modules of a Multiboot2 kernel", **KERNEL),
    Foretold("a Multiboot2 kernel whose firmware tells all, with the same files", **KERNEL, text=cases.MULTIBOOT2_TOLD, newer={}),
]


class Predicting(CheckerChecks):
    def predicted(self, folder: Path, *words: str) -> Ran:
        return run(CHECKER / "predict", *words, cwd=folder, env=self.env)

    def next_folder(self, name: str, it: Foretold) -> Path:
        """The folder of an earlier boot, and the files as they will be."""
        folder = self.folder(name, Case("", "", boot=it.boot, text=it.text, happened=located(it.happened), booted=it.older, known=it.older))
        (folder / "next").mkdir()
        for file, held in {**FILES, **it.older, **it.newer}.items():
            (folder / "next" / file).write_bytes(held)
        (folder / "next/bootcore").mkdir()
        (folder / "next/bootcore/menu.txt").write_bytes(FILES["menu.txt"])
        (folder / "policy").write_text(it.policy, encoding="utf-8")
        return folder

    def test_next(self) -> None:
        for number, it in enumerate(FORETOLD):
            folder = self.next_folder(f"next{number}", it)
            happened = self.next_boot(it)
            self.check_next(f"the next boot is told of {it.sentence}", folder, it, happened, ["sha256"])

    def test_banks(self) -> None:
        it = FORETOLD[8]
        folder = self.next_folder("banks", it)
        events = located(it.happened)(boots.linux_boot(FILES))
        (folder / "log").write_bytes(boots.log_of(events, cases.ALL_BANKS))
        self.check_next("the next boot is told of all banks", folder, it, self.next_boot(it), cases.ALL_BANKS)

    def test_secure_boot(self) -> None:
        """The kernel is verified, in the way of whoever does that."""
        older = {**FILES, **SIGNED}
        it = Foretold("a machine with Secure Boot", older=SIGNED, newer=SIGNED_NEWER)
        folder = self.next_folder("secure", it)
        events = at(9, 1, after(*boots.verified(older["vmlinuz"])))(at(4, -1, loaded)(boots.linux_boot(older)))
        (folder / "log").write_bytes(boots.log_of(events, ["sha256"]))
        newer = {**older, **SIGNED_NEWER}
        happened = at(9, 1, after(*boots.verified(newer["vmlinuz"])))(at(4, -1, loaded)(boots.linux_boot(newer)))
        self.check_next("the next boot is told where Secure Boot is on", folder, it, happened, ["sha256"])

    def next_boot(self, it: Foretold) -> List[Event]:
        files = {**FILES, **it.older, **it.newer}
        if it.boot == "multiboot2":
            return located(it.happened)(boots.multiboot2_boot(files, it.text or MULTIBOOT2))
        events = boots.linux_boot(files, it.next_text or it.text or LINUX)
        if it.title != "Linux":
            events = cases.lined("root=/dev/vda1 splash")(at(8, 0, cases.measured_title(it.title.encode()))(events))
        return located(it.happened)(events)

    def check_next(self, sentence: str, folder: Path, it: Foretold, happened: List[Event], banks: List[str]) -> None:
        words = ["--known", "next", "--entry", "policy", "--title", it.title, "--seal", "sealed", "log"]
        ran = self.predicted(folder, *words)
        pcrs = boots.pcrs_of(happened, banks)
        with self.check(sentence):
            self.assert_ended(ran, GOOD, None)
            lines = ran.out.decode().splitlines()
            text = it.next_text or it.text or (LINUX if it.boot == "linux" else MULTIBOOT2)
            self.assertIn(f"# image: {boots.image_digest(text, {**FILES, **it.older, **it.newer}).hex()}", lines)
            wanted = [f"# PCR {pcr} of {bank}: {pcrs[bank][pcr].hex()}" for bank in banks for pcr in (4, 8, 9, 12)]
            self.assertEqual([line for line in lines if line.startswith("# PCR")], wanted)
            self.assertEqual((folder / "sealed").read_bytes(), b"".join(pcrs["sha256"][pcr] for pcr in (4, 8, 9)))
            has_other = any("only if UEFI's map keeps its size and place" in line for line in lines)
            self.assertEqual(has_other, it.text == cases.LINUX_TOLD, "whether other files may change what UEFI tells")
        (folder / "told").write_bytes(ran.out)
        (folder / "log2").write_bytes(boots.log_of(happened, banks))
        (folder / "pcrs2").write_text(boots.pcrread(pcrs))
        ran = self.checker(folder, policy="told", known="next", log="log2", pcrs="pcrs2")
        self.says(f"{sentence}: by the policy that is made it is as it should be", ran, GOOD, "\npolicy    told\n")
        with self.check(f"{sentence}: the policy leaves nothing open"):
            self.assertNotIn(b"any firmware", ran.out)
        changed = at(0, -1, before(told(0, boots.VERSION, b"2")))(happened)
        (folder / "log2").write_bytes(boots.log_of(changed, banks))
        (folder / "pcrs2").write_text(boots.pcrread(boots.pcrs_of(changed, banks)))
        ran = self.checker(folder, policy="told", known="next", log="log2", pcrs="pcrs2")
        self.says(f"{sentence}: by that policy another firmware is not", ran, WRONG, "PCR 0 of")

    def test_names(self) -> None:
        """What has a file is named by it, and what has none by the digests of the log."""
        folder = self.next_folder("names", FORETOLD[8])
        lines = self.predicted(folder, "--known", "next", "--entry", "policy", "--title", "Linux", "log").out.decode().splitlines()
        with self.check("the boot manager is named by its file, and a driver by its digest"):
            for line in ('managers = ["BOOTX64.EFI"]', 'drivers = ["driver 1"]', f'"driver 1" = ["{cases.digest_of(cases.DRIVER)}"]'):
                self.assertIn(line, lines)
            self.assertIn("# driver 1 is as in log: no file here is it", lines)
        (folder / "next/BOOTX64.EFI").unlink()
        lines = self.predicted(folder, "--known", "next", "--entry", "policy", "--title", "Linux", "log").out.decode().splitlines()
        with self.check("a boot manager without a file is as it was"):
            self.assertIn('managers = ["manager 1"]', lines)
            self.assertIn(f'"manager 1" = ["{cases.DIGEST}"]', lines)

    def test_unknown(self) -> None:
        """What can't be known is said to be so, and why."""
        newer = Foretold("", **KERNEL, text=cases.MULTIBOOT2_TOLD)
        listed = Foretold("", policy=POLICY)
        for name, it, words, made, what, said in (
            ("map", newer, ["--title", "Kernel"], [], "image", "other files are read, and the kernel gets a copy of UEFI's map"),
            ("kind", listed, ["--title", "Kernel"], [], "PCR 12", "the log is of a Linux kernel, and has not what"),
            ("entries", listed, ["--title", "Linux"], ["loader/entries/new.conf"], "PCR 9", "loader/entries/new.conf was not read in that"),
            ("XBOOTLDR", listed, ["--title", "Linux"], ["GUID/loader/entries/N.CONF"], "PCR 9", "GUID/loader/entries/N.CONF was not read"),
        ):
            folder = self.next_folder(f"unknown-{name}", it)
            for path in made:
                (folder / "next" / path).parent.mkdir(parents=True)
                (folder / "next" / path).write_text("linux /vmlinuz\n")
                (folder / "next/bootcore/menu.txt").write_text("entries\n")
            ran = self.predicted(folder, "--known", "next", "--entry", "policy", *words, "log")
            with self.check(f"{what} is not known, and it is said why: {name}"):
                self.assert_ended(ran, GOOD, None)
                self.assertIn(f"# {what} is not known: {said}", ran.out.decode())
                self.assertNotIn(f"# {what} of sha256", ran.out.decode())
                self.assertEqual("image: not known" in ran.out.decode(), what != "PCR 9")
            if name == "entries":
                ran = self.predicted(folder, "--known", "next", "--entry", "policy", *words, "--seal", "sealed", "log")
                self.refused("nothing is sealed to what is not known", ran, WRONG, "nothing can be sealed to: loader/entries/new.conf")
                self.assertFalse((folder / "sealed").exists())

    def test_entries(self) -> None:
        """Files of loader/entries come and go: one that has gone is not read."""
        folder = self.next_folder("gone", FORETOLD[0])
        conf = [Event(9, boots.IPL, name.encode(), f"loader/entries/{name}.conf\0".encode()) for name in ("a", "b")]
        older = at(9, 0, after(*conf))(boots.linux_boot(FILES))
        newer = at(9, 0, after(conf[1]))(boots.linux_boot({**FILES, **NEWER}))
        (folder / "log").write_bytes(boots.log_of(older, ["sha256"]))
        (folder / "next/loader/entries").mkdir(parents=True)
        (folder / "next/loader/entries/b.conf").write_bytes(b"b")
        ran = self.predicted(folder, "--known", "next", "--entry", "policy", "--title", "Linux", "log")
        with self.check("a file of loader/entries that has gone is not read"):
            self.assert_ended(ran, GOOD, None)
            self.assertIn(f"# PCR 9 of sha256: {boots.pcrs_of(newer, ['sha256'])['sha256'][9].hex()}\n", ran.out.decode())
            self.assertIn('\nfiles = ["bootcore/menu.txt", "loader/entries/b.conf"]\n', ran.out.decode())

    def test_unlisted(self) -> None:
        """A menu that did not list loader/entries, and is the same, does not."""
        folder = self.next_folder("unlisted", FORETOLD[0])
        (folder / "next/loader/entries").mkdir(parents=True)
        (folder / "next/loader/entries/b.conf").write_bytes(b"b")
        ran = self.predicted(folder, "--known", "next", "--entry", "policy", "--title", "Linux", "log")
        with self.check("a file of loader/entries that the menu does not list is not read"):
            self.assert_ended(ran, GOOD, None)
            wanted = boots.pcrs_of(boots.linux_boot({**FILES, **NEWER}), ["sha256"])["sha256"][9].hex()
            self.assertIn(f"# PCR 9 of sha256: {wanted}\n", ran.out.decode())

    def refused(self, sentence: str, ran: Ran, status: int, said: str) -> None:
        with self.check(sentence):
            self.assertEqual((ran.status, ran.out), (status, b""), f"ran: {ran}\n{ran.err!r}")
            self.assertIn(said, ran.err.decode())

    def test_refused(self) -> None:
        folder = self.next_folder("refused", FORETOLD[0])
        held = (folder / "log").read_bytes()
        (folder / "cut").write_bytes(held[:-1])
        (folder / "short").write_bytes(boots.log_of(boots.firmware(FILES["BOOTX64.EFI"]), ["sha256"]))
        (folder / "outside").write_bytes(held.replace(b"bootcore/menu.txt", b"bootcore/../../xx"))
        (folder / "none").mkdir()
        entry = ["--entry", "policy", "--title", "Linux"]
        for sentence, words, status, said in (
            ("a log that is cut", ["--known", "next", *entry, "cut"], UNREADABLE, "the log ends too early"),
            ("a log of no such boot", ["--known", "next", *entry, "short"], UNREADABLE, "short has no choice in PCR 8, or no handover"),
            ("a log that there is not", ["--known", "next", *entry, "nolog"], UNREADABLE, "nolog: No such file"),
            ("a log with a path that leads elsewhere", ["--known", "next", *entry, "outside"], UNREADABLE, "is no path in a folder"),
            ("files that there are not", ["--known", "none", *entry, "log"], UNREADABLE, "none/bootcore/menu.txt: No such file"),
            ("an entry that there is not", ["--known", "next", *entry[:3], "No", "log"], UNREADABLE, "has 0 such entries"),
            ("one of two entries", ["--known", "next", "--entry", "policy", "log"], UNREADABLE, "has 2 such entries"),
            ("no entry", ["--known", "next", "log"], BAD_WORDS, "usage: "),
            ("no log", ["--known", "next", *entry], BAD_WORDS, "usage: "),
            ("a description with an entry", ["--describe", *entry, "log"], BAD_WORDS, "usage: "),
        ):
            self.refused(f"nothing is told of {sentence}", self.predicted(folder, *words), status, said)
        (folder / "next/vmlinuz").write_bytes(b"no kernel")
        ran = self.predicted(folder, "--known", "next", *entry, "log")
        self.refused("a kernel that would be refused is told", ran, WRONG, "bootcore refuses this entry on this machine, by the number 22")

    def test_described(self) -> None:
        """A log's description is one that the program takes, and has the image that was handed over."""
        one = LINUX.replace("initrd.img\\u000amore.img", "initrd.img")
        for name, boot, text in (
            ("linux", "linux", one),
            ("told linux", "linux", boots.with_firmware(one)),
            ("kernel", "multiboot2", MULTIBOOT2),
            ("told kernel", "multiboot2", cases.MULTIBOOT2_TOLD),
        ):
            folder = self.folder(f"described {name}", Case("", "", boot=boot, text=text))
            ran = self.predicted(folder, "--describe", "log")
            (folder / "known/description").write_bytes(ran.out)
            digested = run(self.env["BOOTCORE"], "digest", "description", cwd=folder / "known")
            with self.check(f"the description of a log of {name} is taken by the program"):
                self.assert_ended(ran, GOOD, None)
                image = next(line.split()[-1] for line in digested.out.decode().splitlines() if line.startswith("image "))
                self.assertEqual(image, boots.image_digest(text, FILES).hex())
        folder = self.folder("described ramdisks", Case("", ""))
        told_ = self.predicted(folder, "--describe", "log").out.decode()
        with self.check("several ramdisks of a log are one to the program"):
            self.assertIn('# ramdisks: ["initrd.img", "more.img"], each from a multiple of 4 on\n', told_)
            self.assertIn('\ninitrd = "ramdisks"\n', told_)


class Rollout(TpmChecks):
    """The commands of docs/MEASURED.md for a new kernel, with a TPM that is told the boots of the page's disk."""

    QUOTED = "+".join(f"{bank}:0,1,2,3,4,5,6,7,8,9,12" for bank in cases.ALL_BANKS)
    DISK = {"EFI/BOOT/BOOTX64.EFI": "BOOTX64.EFI", **{f"bootcore/{name}": name for name in ("menu.txt", "vmlinuz", "initrd.img")}}
    PAGE_LINUX = LINUX.replace('"vmlinuz"', '"bootcore/vmlinuz"').replace("initrd.img\\u000amore.img", "bootcore/initrd.img")

    def block(self, word: str) -> List[str]:
        """Commands of the page, those that a line's end divides as one."""
        page = (TOP / "docs/MEASURED.md").read_text(encoding="utf-8")
        (found,) = [it for it in re.findall(r"^```\n(.*?)^```$", page, re.M | re.S) if word in it]
        return found.replace("\\\n", " ").splitlines()

    def booted(self, files: Dict[str, bytes]) -> List[Event]:
        """What a machine measures that boots the page's disk."""
        line = "console=tty0 console=ttyS0"
        held = {**{path: files[name] for path, name in self.DISK.items()}, **files}
        made = at(4, -1, lambda it: [it._replace(data=Path16("\\EFI\\BOOT\\BOOTX64.EFI").spelled())])(boots.firmware(files["BOOTX64.EFI"]))
        made.append(Event(9, boots.IPL, files["menu.txt"], b"bootcore/menu.txt\0"))
        made += boots.attempt("Linux", [line], ["bootcore/vmlinuz", "bootcore/initrd.img"], held)
        return [*made, boots.handover(self.PAGE_LINUX.replace("root=/dev/vda1 quiet", line), held), *boots.exit_events()]

    def seen(self, state: Path, name: str, events: List[Event]) -> None:
        """A boot's log, and a quote of the TPM that was told of it."""
        (self.room / name).mkdir()
        (self.room / name / "log").write_bytes(boots.log_of(events, cases.ALL_BANKS))
        digests = [",".join(f"{bank}={it.digest(bank).hex()}" for bank in cases.ALL_BANKS) for it in events if it.kind != boots.NO_ACTION]
        pcrs = [it.pcr for it in events if it.kind != boots.NO_ACTION]
        self.tool(state, self.room, "tpm2_pcrextend", *(f"{pcr}:{each}" for pcr, each in zip(pcrs, digests)))
        self.tool(state, self.room, "tpm2_createek", "-c", "ek", "-G", "ecc", "-u", "ek.pub")
        self.tool(state, self.room, "tpm2_createak", "-C", "ek", "-c", "key", *AK, "-u", f"{name}/key.pem", "-f", "pem", "-n", "key.name")
        files = ["-m", f"{name}/quote", "-s", f"{name}/signature", "-o", f"{name}/pcrs"]
        self.tool(state, self.room, "tpm2_quote", "-c", "key", "-l", self.QUOTED, "-q", "c0ffee", "-g", "sha256", *files)

    def page(self, state: Path, command: str) -> Ran:
        """A command as the page has it, on the TPM that stands for the machine's."""
        carrier = f"cmd:{sys.executable} {TOP}/examples/efi/tpm --carry {state}/control"
        ran = run("bash", "-c", command, cwd=self.room, env={**self.env, "TPM2TOOLS_TCTI": carrier})
        if "tpm2_" in command:
            self.tool(state, self.room, "tpm2_flushcontext", "-t")
        return ran

    def works(self, state: Path, command: str) -> Ran:
        ran = self.page(state, command)
        with self.check(f"the page's command ends with 0: {command[:60]}"):
            self.assertEqual(ran.status, GOOD, f"ran: {ran}\n{ran.out!r}\n{ran.err!r}")
        return ran

    def test_rollout(self) -> None:
        if self.lacks_tools("a new kernel is rolled out by the page's commands"):
            return
        (self.room / "examples").symlink_to(TOP / "examples")
        (self.room / "VMLINUZ").write_bytes(FILES["vmlinuz"] + b"newer")
        for path, name in self.DISK.items():
            (self.room / "esp" / path).parent.mkdir(parents=True, exist_ok=True)
            (self.room / "esp" / path).write_bytes(FILES[name])
        copied, predicted, checked = self.block("predict --known next")
        (checked_before,) = [it for it in self.block("NONCE=c0ffee") if "measured/check" in it]
        made, policy, sealed, load, unseal = self.block("tpm2_unseal")
        older, newer = self.booted(FILES), self.booted({**FILES, "vmlinuz": FILES["vmlinuz"] + b"newer"})
        with self.tpm("tpm") as state:
            self.seen(state, "seen", older)
            before = self.works(state, checked_before).out.decode()
            self.assertIn('booted    "Linux" by the protocol linux64\n', before)
            for command in (copied, predicted):
                self.works(state, command)
            (self.room / "secret").write_bytes(b"a secret")
            for command in (made, policy, sealed):
                self.works(state, command)
            self.works(state, made)
            self.works(state, load)
            with self.check("what is sealed to the next boot does not open in this one"):
                self.assertNotEqual(self.page(state, unseal).status, GOOD)
        with self.tpm("tpm") as state:
            self.seen(state, "seen2", newer)
            after = self.works(state, checked).out.decode()
            with self.check("the new kernel's boot is as it should be by the policy that was made before it"):
                self.assertIn("\npolicy    next.toml\n", after)
                image = re.search("^# image: (.*)$", (self.room / "next.toml").read_text(), re.M)
                self.assertEqual(re.findall("^image     (.*)$", after, re.M), [image[1]])
                self.assertEqual(after.splitlines()[-1], "as it should be")
            old = checked.replace("seen2", "seen")
            with self.check("the old kernel's boot is as it should be, too, by both policies"):
                self.assertIn("\npolicy    examples/measured/policy.toml\n", self.works(state, old).out.decode())
            alone = re.sub("--policy examples/measured/policy.toml --known esp", "", old)
            with self.check("once the old pair is left out, the old kernel is refused"):
                ran = self.page(state, alone)
                self.assertEqual(ran.status, WRONG, f"ran: {ran}\n{ran.out!r}")
                self.assertIn(b"no known file is what was measured", ran.out)
            self.works(state, made)
            self.works(state, load)
            with self.check("what is sealed to the next boot opens in it"):
                self.assertEqual(self.works(state, unseal).out, b"a secret")
            changed = run(TOP / "examples/efi/tpm", state, "tpm2_pcrextend", f"9:sha256={64 * '0'}", cwd=self.room)
            with self.check("and no more once another file was read"):
                self.assertEqual(changed.status, GOOD)
                self.assertNotEqual(self.page(state, unseal).status, GOOD)
