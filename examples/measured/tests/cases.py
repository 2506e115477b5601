"""The cases of the checker of measured boots: a boot, what is changed of it, and what the checker must say."""

import hashlib
import struct
from typing import Callable, Dict, List, NamedTuple, Optional

from examples.measured.tests import boots
from examples.measured.tests.boots import FILES, IPL, LINUX, MULTIBOOT2, POLICY, Change, Event, Pcrs, at, attempt, tagged, text_told, told

GOOD, WRONG, UNREADABLE, UNSIGNED, PARTLY, BOTH, BAD_WORDS = 0, 1, 2, 3, 4, 5, 64
ALL_BANKS = ["sha1", "sha256", "sha384", "sha512"]
OTHER_MANAGER = boots.application([b"other".ljust(512, b"\0")])
KERNEL_LINES = ['say "hello"', "first @ last", ""]


def same(it):
    return it


class Case(NamedTuple):
    sentence: str
    said: str  # in what the checker prints
    status: int = WRONG
    boot: str = "linux"
    text: str = ""  # the description that is handed over, if it is another one
    happened: Change = same  # in the machine: log and TPM agree on it
    logged: Change = same  # in the log alone
    values: Callable[[Pcrs], Pcrs] = same  # of the TPM's PCRs
    policy: str = POLICY
    known: Dict[str, Optional[bytes]] = {}  # files of the folder that are others; None if one is not there
    booted: Dict[str, bytes] = {}  # files of the machine that are others
    banks: List[str] = ["sha256"]
    log_banks: List[str] = []  # of the log, if it has others than the TPM
    words: List[str] = []


# ---- changes


def gone(_: Event) -> List[Event]:
    return []


def before(*added: Event) -> Callable[[Event], List[Event]]:
    return lambda event: [*added, event]


def after(*added: Event) -> Callable[[Event], List[Event]]:
    return lambda event: [event, *added]


def with_data(data: bytes) -> Callable[[Event], List[Event]]:
    return lambda event: [event._replace(data=data)]


def retold(content: bytes) -> Callable[[Event], List[Event]]:
    return lambda event: [boots.retold(event, content)]


def elsewhere(measured: bytes = b"evil") -> Callable[[Event], List[Event]]:
    """Other banks than that of SHA-256 were told something else."""
    return lambda event: [event._replace(elsewhere=measured)]


def headed(tag: int, more: int) -> Callable[[Event], List[Event]]:
    """With another tag, and a size that is so many bytes greater."""
    return lambda event: [event._replace(data=struct.pack("<II", tag, len(event.data) - 8 + more) + event.data[8:])]


def measuring(measured: bytes) -> Callable[[Event], List[Event]]:
    return lambda event: [event._replace(measured=measured)]


def measured_title(title: bytes) -> Callable[[Event], List[Event]]:
    return lambda _: [text_told(b"bootcore_choice: " + title + b"\0")]


def saying(old: str, new: str) -> Callable[[Event], List[Event]]:
    """Another text; what was measured is the same."""
    return lambda event: [boots.retold(event, boots.content_of(event).replace(old.encode(), new.encode()))]


def swapped(pcr: int, place: int) -> Change:
    """An event of a PCR and the next one of that PCR."""

    def changed(events: List[Event]) -> List[Event]:
        first, second = [i for i, event in enumerate(events) if event.pcr == pcr][place:][:2]
        made = list(events)
        made[first], made[second] = events[second], events[first]
        return made

    return changed


def first(pcr: int) -> Change:
    """The events of a PCR before all others."""
    return lambda events: [it for it in events if it.pcr == pcr] + [it for it in events if it.pcr != pcr]


def ended(*added: Event) -> Change:
    return lambda events: [*events, *added]


def valued(bank: str, pcr: int, value: Optional[bytes]) -> Callable[[Pcrs], Pcrs]:
    def changed(pcrs: Pcrs) -> Pcrs:
        values = list(pcrs[bank])
        values[pcr] = value if value is not None else bytes(len(values[pcr]))
        return {**pcrs, bank: values}

    return changed


def one_byte(held: bytes, place: int) -> bytes:
    return held[:place] + bytes([held[place] ^ 1]) + held[place + 1 :]


# ---- texts and policies

SIZE, POOL = "size = 0x100000000\n", "pool = [0x100000, 0x800000]\n"
OTHER_MAP = LINUX.replace("length = 0x8000\n", "length = 0x7000\n")
NO_ROOM = LINUX.replace("[0x100000, 0x800000]", "[0x1000, 0x9f000]")
for high in ("0x700000", "0x600000"):
    NO_ROOM = NO_ROOM.replace(f'length = {high}\nkind = "usable"', f'length = {high}\nkind = "bad"')
TOO_HIGH = LINUX.replace(
    "[[entry]]", '[[region]]\nbase = 0x10000000000000\nlength = 0x1000\nkind = "reserved"\n\n[[entry]]'
)
LONG = "A title that has more than sixty-four bytes, for which there is no room in a description"
ODD = 'é"\\\t and more'
ODD_TEXT = LINUX.replace("root=/dev/vda1 quiet", 'é\\"\\\\\\u0009 and more')
DIGEST = boots.digest_of_application(FILES["BOOTX64.EFI"])


def titled(title: str, text: str) -> Change:
    """Another title, in the choice and in the description."""

    def changed(events: List[Event]) -> List[Event]:
        made = at(8, 0, lambda _: [text_told(f"bootcore_choice: {title}".encode() + b"\0")])(events)
        return at(12, 0, saying('title = "Linux"', f'title = "{text}"'))(made)

    return changed


def lined(*lines: str, place: int = 1) -> Change:
    """Other lines, as they are measured."""

    def changed(events: List[Event]) -> List[Event]:
        for i, line in enumerate(lines):
            word = "module_cmdline" if place + i > 1 else "kernel_cmdline"
            events = at(8, place + i, lambda _: [text_told(f"{word}: {line}".encode() + b"\0")])(events)
        return events

    return changed


LINUX_TOLD, MULTIBOOT2_TOLD = boots.with_firmware(LINUX), boots.with_firmware(MULTIBOOT2)
SECURE = LINUX_TOLD.replace("secure_boot = 0x2", "secure_boot = 0x3")
SIGNED_FILE = boots.signed(FILES["vmlinuz"])
LAST_AVOIDED = "[[avoid]]\nbase = 0x900000\nlength = 0x400000\n\n"
UNTAGGED_TEXT = "is no text of the boot manager, by its tag and size"
UNTAGGED_HANDOVER = "it is no handover of the boot manager, by its tag and size"
OTHER_SMBIOS = b"\1" + boots.SMBIOS[1:]
SMBIOS_TOLD = "[firmware.smbios]\nmajor = 0x3\nminor = 0x0\ntables_size = 0x6\n\n"
UNCOPIED = "it is no map of UEFI's and no tables of SMBIOS's"
UNORDERED = "UEFI's map and SMBIOS's tables are not in their order before a handover"
NOT_SIZED = "have not the size that it tells"
# what a boot says before its last words
LINUX_SAID = """\
booted    "Linux" by the protocol linux64
line      "root=/dev/vda1 quiet"
kernel    vmlinuz
ramdisk   initrd.img
ramdisk   more.img
machine   6 ranges of memory, 14282752 bytes usable
"""
KERNEL_SAID = """\
booted    "Kernel" by the protocol multiboot2
line      "say "hello""
kernel    kernel.elf
module    one with the line "first @ last"
module    two with the line ""
"""

# ---- the cases

SHELL = attempt("Shell", ["-options"], [], FILES)
SHELL_POLICY = POLICY + '\n[[entry]]\ntitle = "Shell"\nprotocol = "efi"\nline = "-options"\n'
GIVEN_UP = attempt("Kernel", KERNEL_LINES, ["kernel.elf"], FILES)
EMPTY = {"initrd.img": b"", "more.img": b""}
DRIVER = Event(2, boots.DRIVER, b"driver", b"where it was loaded")
OPTIONS = told(12, IPL, "quiet splash\0".encode("utf-16-le"))
GRUB = Event(8, IPL, b"set root=hd0", b"grub_cmd: set root=hd0\0")


NO_LINE, LINUX_LINE = LINUX.replace("root=/dev/vda1 quiet", ""), 'line = "root=/dev/vda1 quiet"\n'
FEW_DIRECTORIES = boots.application([b"driver".ljust(512, b"\0")], directories=4)


def digest_of(event: Event) -> str:
    return event.digest("sha256").hex()


def sha256(held: bytes) -> str:
    return hashlib.sha256(held).hexdigest()


def with_key(key: str, *words: str) -> str:
    return f"{key} = [{', '.join(chr(34) + word + chr(34) for word in words)}]\n{POLICY}"


def with_digests(name: str, *digests: str, policy: str = POLICY) -> str:
    return policy.replace("\n[[entry]]", f'\n[digests]\n"{name}" = {list(digests)}\n\n[[entry]]', 1)


def valued_policy(pcr: int, happened: Change) -> str:
    """With the value that a PCR has after a boot."""
    value = boots.pcrs_of(happened(boots.linux_boot(FILES)), ["sha256"])["sha256"][pcr].hex()
    return POLICY.replace("\n[[entry]]", f'\n[pcr]\n{pcr} = ["{value}"]\n\n[[entry]]', 1)


# a boot where Secure Boot is on
SIGNABLE = {"vmlinuz": boots.signable(FILES["vmlinuz"])}
VERIFIED = boots.verified(SIGNABLE["vmlinuz"])


def verifying(sentence: str, said: str, *added: Event) -> Case:
    """What is measured as the kernel is verified, once it was read."""
    return Case(sentence, said, happened=at(9, 1, after(*added)), known=SIGNABLE, booted=SIGNABLE)


def two_banks(name: str, held: bytes, policy: str = POLICY) -> str:
    return with_digests(name, *(boots.hashed(bank, held).hexdigest() for bank in ("sha256", "sha384")), policy=policy)


# two versions of one entry, the second one's files being elsewhere
OTHERS = {name: sha256(name.encode()) for name in ("vmlinuz-2", "initrd-2.img")}
VERSIONS = """
[[entry]]
title = "Linux"
protocol = "linux64"
kernel = "vmlinuz-2"
line = "root=/dev/vda1 quiet"
ramdisks = ["initrd-2.img"]
"""
DIGESTS = "\n[digests]\n" + "".join(f"'{name}' = '{each}'\n" for name, each in OTHERS.items())
FIFTEEN = told(12, IPL, "quiet splash ro\0".encode("utf-16-le"))
TWO = ["sha256", "sha384"]
PCR_POLICY = POLICY.replace("\n[[entry]]", "\n[pcr]\n17 = ['" + 32 * "ff" + "']\n\n[[entry]]", 1)

AS_IT_SHOULD_BE = [
    Case("a boot is told, with the names of the policy", LINUX_SAID),
    Case("a boot of a Multiboot2 kernel is told, with its modules", KERNEL_SAID, boot="multiboot2"),
    Case("values that nobody has signed are told to be so", "nobody has signed their values"),
    Case("each bank of a log is replayed", LINUX_SAID, banks=ALL_BANKS),
    Case("the order between two PCRs does not matter", LINUX_SAID, logged=lambda it: first(12)(first(4)(it))),
    Case("the kind of an event does not matter", LINUX_SAID, logged=at(4, -1, lambda it: [it._replace(kind=IPL)])),
    Case("the kind of a text does not matter", LINUX_SAID, logged=at(8, 0, lambda it: [it._replace(kind=IPL)])),
    Case("the kind of a handover does not matter", LINUX_SAID, logged=at(12, 0, lambda it: [it._replace(kind=IPL)])),
    Case("what extends no PCR does not matter", LINUX_SAID, logged=ended(Event(12, boots.NO_ACTION, b"", b"more"))),
    Case("a file's path in the log does not matter", LINUX_SAID, logged=at(9, 1, with_data(b"elsewhere\0"))),
    Case("a path in a description does not matter", LINUX_SAID, logged=at(12, 0, saying('"vmlinuz"', '"elsewhere"'))),
    *(
        Case(f"{what} in the description does not matter", "kernel    ", boot=boot, text=text, logged=at(12, -1, saying(old, new)))
        for what, boot, text, old, new in (
            ("a range to avoid that moves no part", "linux", LINUX_TOLD, "length = 0x400000\n\n[[entry", "length = 0x300000\n\n[[entry"),
            ("a range to avoid less, where no module would lie", "multiboot2", MULTIBOOT2_TOLD, LAST_AVOIDED, ""),
            ("the RSDP's address, where a kernel gets copies,", "multiboot2", MULTIBOOT2_TOLD, "rsdp = 0x804014", "rsdp = 0x804015"),
            ("the address of UEFI's map", "multiboot2", MULTIBOOT2_TOLD, "map_address = 0xf0000", "map_address = 0xf0008"),
            ("Secure Boot, of which Multiboot2 does not tell,", "multiboot2", MULTIBOOT2_TOLD, "secure_boot = 0x2", "secure_boot = 0x3"),
        )
    ),
    Case("a log that was read before the firmware ended is enough", LINUX_SAID, logged=lambda it: it[:-2]),
    Case(
        "what was measured later into another PCR is a remark",
        "remark    PCR 10: not what the log gives",
        happened=ended(told(10, IPL, b"later")),
        logged=lambda it: it[:-1],
    ),
    Case(
        "of two handovers the last one counts, and it is told",
        "remark    the handover was measured 2 times; the last one counts",
        happened=at(12, 0, lambda it: [boots.handover(OTHER_MAP, FILES), it]),
    ),
    Case(
        "an entry that was given up is a remark",
        'remark    "Kernel" was attempted before',
        happened=at(8, 0, before(*GIVEN_UP)),
    ),
    Case(
        "a program that was started before is a remark",
        '"Shell" was attempted before',
        policy=SHELL_POLICY,
        happened=at(8, 0, before(*SHELL)),
    ),
    Case(
        "an entry that was chosen again is a remark",
        '"Linux" was attempted before',
        happened=ended(*attempt("Linux", ["root=/dev/vda1 quiet"], [], FILES)),
    ),
    Case(
        "a policy's texts and comments may have dots",
        LINUX_SAID,
        policy="# a.b.c.d.e.f.g.h.i.j.k\n" + with_key("texts", "a.b.c.d.e.f.g.h.i.j.k", "it's 1.2.3.4.5.6.7.8.9.10"),
    ),
    Case("a line that is not told is empty", 'line      ""', happened=lined(""), text=NO_LINE, policy=POLICY.replace(LINUX_LINE, "")),
    Case("a PCR may have a value that the policy names", LINUX_SAID, policy=PCR_POLICY),
    verifying(
        "a kernel that was verified where Secure Boot is on is a remark",
        "remark    PCR 4 has the kernel vmlinuz, which was verified there",
        *VERIFIED,
    ),
    verifying("a kernel that nobody could verify, of which only the texts are there", LINUX_SAID, VERIFIED[0], VERIFIED[2]),
    Case("a boot manager is known by its digest", f"manager   {DIGEST}", policy=POLICY.replace("BOOTX64.EFI", DIGEST)),
    Case(
        "an application's signature does not matter",
        LINUX_SAID,
        booted={"BOOTX64.EFI": boots.application(boots.MANAGER_PARTS, b"signed8.")},
    ),
    Case(
        "an application without a place for a signature is known by its file",
        "drivers   driver.efi",
        happened=at(2, 0, after(Event(2, boots.DRIVER, FEW_DIRECTORIES[:0x98] + FEW_DIRECTORIES[0x9C:], b""))),
        known={"driver.efi": FEW_DIRECTORIES},
        policy=with_key("drivers", "driver.efi"),
    ),
    Case("a log of SHA-384 alone, where the policy names it", LINUX_SAID, banks=["sha384"], policy=with_key("banks", "sha384")),
    Case(
        "ramdisks that are empty are none",
        "ramdisk   more.img",
        text=LINUX.replace('initrd = "initrd.img\\u000amore.img"\n', ""),
        known=EMPTY,
        booted=EMPTY,
    ),
    Case(
        "a long title is cut in the description",
        f'booted    "{LONG[:64]}"',
        happened=titled(LONG, LONG[:64]),
        policy=POLICY.replace("Linux", LONG),
    ),
    Case(
        "a title that is no ASCII has question marks in the description",
        'booted    "B??r"',
        happened=titled("Bär", "B??r"),
        policy=POLICY.replace("Linux", "Bär"),
    ),
    Case(
        "a line may have any letter",
        'line      "\\xc3\\xa9"\\\\x09 and more"',
        text=ODD_TEXT,
        happened=lined(ODD),
        policy=POLICY.replace('"root=/dev/vda1 quiet"', '"é\\"\\\\\\t and more"'),
    ),
    Case("firmware tells a Linux kernel of all", "kernel    vmlinuz", text=LINUX_TOLD),
    Case(
        "a signed kernel's file is handed over without its signature where Secure Boot is on",
        "kernel    vmlinuz",
        text=SECURE,
        known={"vmlinuz": SIGNED_FILE},
        booted={"vmlinuz": SIGNED_FILE[:-512]},
        happened=at(9, 1, lambda event: [event._replace(measured=SIGNED_FILE)]),
    ),
    Case(
        "firmware tells a Multiboot2 kernel of all",
        "kernel    kernel.elf",
        boot="multiboot2",
        text=MULTIBOOT2_TOLD,
    ),
    Case(
        "a driver is known by its digest",
        f"drivers   {digest_of(DRIVER)}",
        happened=at(2, 0, before(DRIVER)),
        policy=with_key("drivers", digest_of(DRIVER)),
    ),
    Case(
        "a driver is known by its file",
        "drivers   driver.efi",
        happened=at(2, 0, after(Event(2, boots.RUNTIME_DRIVER, boots.without_signature(OTHER_MANAGER), b""))),
        known={"driver.efi": OTHER_MANAGER},
        policy=with_key("drivers", "driver.efi"),
    ),
    Case(
        "drivers are known by the value of PCR 2",
        LINUX_SAID,
        happened=at(2, 0, before(DRIVER)),
        policy=valued_policy(2, at(2, 0, before(DRIVER))),
    ),
    Case(
        "a firmware may tell of its setup",
        'remark    PCR 4 has the text "Entering ROM Based Setup"',
        happened=at(4, 0, before(told(4, boots.ACTION, b"Entering ROM Based Setup"))),
    ),
    Case(
        "a firmware may measure a text without its zero byte",
        'remark    PCR 2 has the text "Start Option ROM Scan"',
        happened=at(2, 0, before(Event(2, boots.ACTION, b"Start Option ROM Scan", b"Start Option ROM Scan\0"))),
    ),
    Case(
        "another boot manager's options are known",
        'remark    PCR 12 has the text "quiet splash"',
        happened=at(12, 0, before(OPTIONS)),
        policy=with_key("texts", "quiet splash"),
    ),
    Case(
        "GRUB's commands are known",
        'remark    PCR 8 has the text "grub_cmd: set root=hd0"',
        happened=at(8, 0, before(GRUB)),
        policy=with_key("texts", "grub_cmd: set root=hd0"),
    ),
    Case(
        "a file that was read besides is known by its digest",
        LINUX_SAID,
        policy=POLICY.replace('"menu.txt"', f'"{sha256(FILES["menu.txt"])}"'),
        known={"menu.txt": None},
    ),
    Case(
        "a file of an entry that was not booted is known by its digest",
        LINUX_SAID,
        happened=at(8, 0, before(*GIVEN_UP)),
        policy=with_digests("kernel.elf", sha256(FILES["kernel.elf"])),
        known={"kernel.elf": None},
    ),
    Case("a policy's digest is that of the known file", LINUX_SAID, policy=with_digests("vmlinuz", sha256(FILES["vmlinuz"]))),
    *(
        Case(f"the files of another version, {where}, are not at hand and not asked for", LINUX_SAID, policy=policy)
        for where, policy in (
            ("whose entry comes last", POLICY.replace("\n[[entry]]", DIGESTS + "\n[[entry]]", 1) + VERSIONS),
            ("whose entry comes first", POLICY.replace("\n[[entry]]", DIGESTS + VERSIONS + "\n[[entry]]", 1)),
        )
    ),
    Case(
        "another boot manager's options have fifteen letters, and so the length of a handover",
        'remark    PCR 12 has the text "quiet splash ro"',
        happened=at(12, 0, before(FIFTEEN)),
        policy=with_key("texts", "quiet splash ro"),
    ),
    Case(
        "a file is known by the digests of all banks",
        LINUX_SAID,
        banks=TWO,
        policy=two_banks("menu.txt", FILES["menu.txt"]),
        known={"menu.txt": None},
    ),
    Case(
        "a driver has a name, and is known by the digests of all banks",
        "drivers   a card",
        banks=TWO,
        happened=at(2, 0, before(DRIVER)),
        policy=two_banks("a card", b"driver", with_key("drivers", "a card")),
    ),
    Case(
        "a boot manager has a name, and is known by the digests of all banks",
        "manager   manager 1",
        banks=TWO,
        policy=two_banks("manager 1", boots.without_signature(FILES["BOOTX64.EFI"]), POLICY.replace("BOOTX64.EFI", "manager 1")),
    ),
    Case(
        "a PCR has values of all banks that the policy names",
        LINUX_SAID,
        banks=TWO,
        policy=PCR_POLICY.replace("17 = [", f"17 = ['sha384:{48 * 'FF'}', "),
    ),
    *(Case(f"the bank {bank} is replayed", LINUX_SAID, banks=["sha256", bank]) for bank in boots.HASHES),
    Case("a policy may name the banks", LINUX_SAID, banks=ALL_BANKS, policy=with_key("banks", *ALL_BANKS)),
    Case(
        "a separator may have the bytes 0xFF",
        LINUX_SAID,
        happened=lambda it: [told(e.pcr, e.kind, b"\xff" * 4) if e.kind == boots.SEPARATOR else e for e in it],
    ),
]

# what is known by a digest of SHA-256 alone, where the TPM has a second bank
PARTLY_SO = [
    Case(
        "a file that was read besides",
        f"partly    {sha256(FILES['menu.txt'])} is known by sha256, not by sha384",
        policy=POLICY.replace('"menu.txt"', f'"{sha256(FILES["menu.txt"])}"'),
        known={"menu.txt": None},
    ),
    Case(
        "a file with its digest",
        "partly    menu.txt is known by sha256, not by sha384",
        policy=with_digests("menu.txt", sha256(FILES["menu.txt"])),
        known={"menu.txt": None},
    ),
    Case(
        "a file of an entry that was given up",
        "partly    kernel.elf is known by sha256, not by sha384",
        happened=at(8, 0, before(*GIVEN_UP)),
        policy=with_digests("kernel.elf", sha256(FILES["kernel.elf"])),
        known={"kernel.elf": None},
    ),
    Case("a boot manager", f"partly    {DIGEST} is known by sha256, not", policy=POLICY.replace("BOOTX64.EFI", DIGEST)),
    Case(
        "a driver",
        f"partly    {digest_of(DRIVER)} is known by sha256, not by sha384",
        happened=at(2, 0, before(DRIVER)),
        policy=with_key("drivers", digest_of(DRIVER)),
    ),
    Case("a PCR's value", "partly    PCR 17 is known by sha256, not by sha384", policy=PCR_POLICY),
    Case(
        "drivers by the value of PCR 2",
        "partly    PCR 2 is known by sha256, not by sha384",
        happened=at(2, 0, before(DRIVER)),
        policy=valued_policy(2, at(2, 0, before(DRIVER))),
    ),
    Case(
        "a driver of which other banks were told something else",
        f"partly    {digest_of(DRIVER)} is known by sha256, not by sha384",
        happened=at(2, 0, before(DRIVER._replace(elsewhere=b"evil"))),
        policy=with_key("drivers", digest_of(DRIVER)),
    ),
]

LOG = [
    Case("a log that is cut behind an event", "PCR 12 of sha256 is not what the log gives", logged=lambda it: it[:-3]),
    Case("an event that is left out", "PCR 9 of sha256 is not what the log gives", logged=at(9, 1, gone)),
    Case(
        "an event that is added",
        "PCR 8 of sha256 is not what the log gives",
        logged=at(8, 0, after(text_told(b"x\0"))),
    ),
    Case("events of a PCR in another order", "PCR 9 of sha256 is not what the log gives", logged=swapped(9, 1)),
    Case(
        "an event with another digest",
        "PCR 9 of sha256 is not what the log gives",
        logged=at(9, 1, measuring(b"else")),
    ),
    Case("an event of another PCR", "PCR 8, 9 of sha256 is not", logged=at(9, 1, lambda it: [it._replace(pcr=8)])),
    Case(
        "an event that extended a PCR and says that it did not",
        "PCR 12 of sha256 is not",
        logged=at(12, 0, lambda it: [it._replace(kind=3)]),
    ),
    Case(
        "a locality that the firmware did not start with",
        "PCR 0 of sha256 is not",
        logged=at(0, 0, with_data(b"StartupLocality\0\3")),
    ),
    Case(
        "a locality that another PCR's event tells",
        "PCR 0 of sha256 is not",
        logged=at(0, 0, lambda it: [it._replace(data=b"StartupLocality\0\3")]),
        happened=at(0, 0, lambda it: [it, it._replace(pcr=1, data=b"StartupLocality\0\3")]),
    ),
    Case("a PCR of the TPM that is zero", "PCR 12 of sha256 is zero", values=valued("sha256", 12, None)),
    Case(
        "a PCR of the TPM with another value",
        "PCR 4 of sha256 is not what",
        values=valued("sha256", 4, bytes(31) + b"1"),
    ),
    Case(
        "a PCR of another bank with another value",
        "PCR 8 of sha1 is not what",
        banks=ALL_BANKS,
        values=valued("sha1", 8, bytes(19) + b"1"),
    ),
    Case(
        "PCR values of another bank",
        "the bank sha256 is not among the PCR values, only sha384",
        banks=["sha256", "sha384"],
        values=lambda it: {"sha384": it["sha384"]},
    ),
    Case("a log without the policy's bank", "the bank sha256 is in the log and not in the policy", policy=with_key("banks", "sha384")),
    Case(
        "PCR values without PCR 12",
        "PCR 12 of sha256 is not among the PCR values",
        values=lambda it: {"sha256": it["sha256"][:12]},
    ),
    Case(
        "a log from which a bank was stripped",
        "the bank sha1 is among the PCR values and not in the log",
        banks=["sha1", "sha256"],
        log_banks=["sha256"],
    ),
    Case(
        "PCR values from which a bank was stripped",
        "the bank sha1 is in the log and not among the PCR values",
        banks=["sha1", "sha256"],
        values=lambda it: {"sha256": it["sha256"]},
    ),
    Case(
        "a log and values that lack a bank of the policy's",
        "the bank sha1 is in the policy and not in the log",
        policy=with_key("banks", "sha1", "sha256"),
    ),
    Case(
        "a log and values with a bank that the policy's machine has not",
        "the bank sha384 is in the log and not in the policy",
        banks=["sha256", "sha384"],
        policy=with_key("banks", "sha256"),
    ),
    Case(
        "a bank with fewer PCRs than the verdict rests on",
        "PCR 12 of sha1 is not among the PCR values",
        banks=["sha1", "sha256"],
        values=lambda it: {**it, "sha1": it["sha1"][:12]},
    ),
    *(
        Case(f"a PCR {pcr} without a separator", f"PCR {pcr}: there is no separator", happened=at(pcr, place, gone))
        for pcr, place in ((0, -1), (1, 0), (2, 0), (4, 1), (5, 0), (7, -1))
    ),
    Case(
        "two boots without a reset between them",
        "PCR 0: there are 2 separators, so the log is of 2 boots: the TPM was not reset between them",
        happened=lambda it: [*it, *(event for event in it if event.kind != boots.NO_ACTION)],
    ),
    Case("a second separator", "PCR 7: there are 2 separators", happened=at(7, -1, after(told(7, boots.SEPARATOR, b"\xff" * 4)))),
    Case("a log of another bank alone", "the bank sha256 is not in the log, only sha384", banks=["sha384"]),
    Case(
        "handovers in another order in the log",
        "PCR 12 of sha256 is not what the log gives",
        happened=at(12, 0, lambda it: [boots.handover(OTHER_MAP, FILES), it]),
        logged=swapped(12, 0),
    ),
    Case(
        "a separator that tells an error",
        "PCR 7: there is no separator",
        happened=at(7, -1, lambda _: [told(7, boots.SEPARATOR, b"\1\0\0\0")]),
    ),
]

# a firmware that never extends the bank of SHA-256, which a kernel tells a good boot: the others have what happened
BANKS = [
    *(
        Case(f"a bank that was told another {what}", said, banks=ALL_BANKS, happened=at(pcr, place, elsewhere()))
        for what, pcr, place, said in (
            ("boot manager", 4, -1, "PCR 4, event 13: something was started that the policy does not name"),
            ("text of the firmware", 4, 0, "PCR 4, event 4: something was started that the policy does not name"),
            ("separator", 7, -1, "PCR 7: there is no separator"),
            ("separator before drivers", 2, 0, "PCR 2: there is no separator"),
            ("menu", 9, 0, "PCR 9, event 14: no known file is what was measured"),
            ("kernel", 9, 1, "PCR 9, event 17: no known file is what was measured"),
            ("ramdisk", 9, -1, "PCR 9, event 19: no known file is what was measured"),
            ("choice", 8, 0, 'its text "bootcore_choice: Linux\\x00" is not what was measured'),
            ("line", 8, 1, "is not what was measured"),
            ("image", 12, 0, "is not the image of its description with the known files"),
        )
    ),
    Case(
        "a bank that was told another driver",
        "PCR 2, event 8: a driver was loaded that the policy does not name",
        banks=ALL_BANKS,
        happened=at(2, 0, after(Event(2, boots.DRIVER, boots.without_signature(OTHER_MANAGER), b"", b"evil"))),
        known={"driver.efi": OTHER_MANAGER},
        policy=with_key("drivers", "driver.efi"),
    ),
    Case(
        "a bank that was told another command of GRUB's",
        UNTAGGED_TEXT,
        banks=ALL_BANKS,
        happened=at(8, 0, before(GRUB._replace(elsewhere=b"evil"))),
        policy=with_key("texts", "grub_cmd: set root=hd0"),
    ),
    Case(
        "a bank that was told other options",
        UNTAGGED_HANDOVER,
        banks=ALL_BANKS,
        happened=at(12, 0, before(OPTIONS._replace(elsewhere=b"evil"))),
        policy=with_key("texts", "quiet splash"),
    ),
    Case(
        "a bank that was told another kernel's verification",
        "a kernel was verified that is none of the policy's",
        banks=ALL_BANKS,
        happened=at(9, 1, after(VERIFIED[0], VERIFIED[1]._replace(elsewhere=b"evil"), VERIFIED[2])),
        known=SIGNABLE,
        booted=SIGNABLE,
    ),
    Case(
        "a bank that was told no kernel's verification",
        "a kernel's verification does not begin or end there",
        banks=ALL_BANKS,
        happened=at(9, 1, after(VERIFIED[0]._replace(elsewhere=b"evil"), *VERIFIED[1:])),
        known=SIGNABLE,
        booted=SIGNABLE,
    ),
    Case(
        "a bank that was told another map of UEFI's",
        "it is no map of UEFI's and no tables of SMBIOS's",
        boot="multiboot2",
        text=MULTIBOOT2_TOLD,
        banks=ALL_BANKS,
        happened=at(12, 0, elsewhere()),
    ),
    Case(
        "a whole good boot that one bank was told, where the others have another",
        "something was started that the policy does not name",
        banks=ALL_BANKS,
        happened=lambda it: [e._replace(elsewhere=b"evil") if e.pcr in (8, 9, 12) or e.kind == boots.APPLICATION else e for e in it],
        policy=with_key("banks", *ALL_BANKS),
    ),
    Case(
        "a separator that one bank was told besides",
        "PCR 7: there are 2 separators",
        banks=TWO,
        happened=at(7, -1, after(Event(7, boots.ACTION, b"else", b"", bytes(4)))),
    ),
    Case(
        "a PCR whose value another bank has not",
        "PCR 17 of sha384 has a value that the policy does not name",
        banks=TWO,
        policy=PCR_POLICY.replace("17 = [", f"17 = ['{48 * 'FE'}', "),
    ),
    Case(
        "a PCR of whose value the policy names no bank",
        "PCR 17: the policy names no value of sha256, sha384",
        banks=TWO,
        policy=PCR_POLICY.replace(32 * "ff", 64 * "ff"),
    ),
    Case(
        "a file that is known by SHA-1 alone",
        "no known file is what was measured",
        banks=["sha1", "sha256"],
        policy=with_digests("menu.txt", boots.hashed("sha1", FILES["menu.txt"]).hexdigest()),
        known={"menu.txt": None},
    ),
    Case(
        "a file of which the policy has a wrong digest of one bank",
        "no known file is what was measured",
        banks=TWO,
        policy=with_digests("menu.txt", sha256(FILES["menu.txt"]), 96 * "0"),
        known={"menu.txt": None},
    ),
]

MACHINE = [
    Case(
        "a file with another byte",
        "PCR 9, event 18: no known file is what was measured",
        booted={"initrd.img": b"hellp"},
    ),
    Case(
        "a known file that is another one",
        "PCR 9, event 17: no known file",
        known={"vmlinuz": FILES["vmlinuz"] + b"\0"},
    ),
    Case(
        "a file that the policy does not have",
        "PCR 9, event 14: no known file",
        policy=POLICY.replace('["menu.txt"]', "[]"),
    ),
    Case(
        "a file that was read besides",
        "its files are not those that were read last",
        happened=at(9, -1, after(Event(9, IPL, FILES["one"], b"one\0"))),
    ),
    Case("files in another order", "its files are not those that were read last", happened=swapped(9, 2)),
    Case(
        "a line that the policy does not have",
        'entry "Linux" has other lines',
        policy=POLICY.replace("vda1", "vda2"),
    ),
    Case(
        "a line that was edited",
        'has other lines than those measured: "init=/bin/sh"',
        happened=lined("init=/bin/sh"),
    ),
    Case(
        "a title that the policy does not have",
        'the policy has no entry "Linux"',
        policy=POLICY.replace('"Linux"', '"Other"'),
    ),
    Case(
        "a protocol that the policy does not have",
        "has another protocol than linux,",
        text=LINUX.replace("linux64", "linux"),
    ),
    Case(
        "a module less in the description",
        "its lines are not those",
        boot="multiboot2",
        text=MULTIBOOT2.rsplit("\n[[", 1)[0],
    ),
    Case(
        "a ramdisk more than the policy has",
        "or another number of files",
        logged=at(12, 0, saying("more.img", "more.img\\u000a")),
    ),
    Case(
        "another boot manager",
        "PCR 4, event 13: something was started that the policy does not name",
        booted={"BOOTX64.EFI": OTHER_MANAGER},
    ),
    Case(
        "an application that was started before",
        "PCR 4, event 13: something was started",
        happened=at(4, -1, before(Event(4, boots.APPLICATION, b"shell", b""))),
    ),
    Case(
        "an application that says that it is an action",
        "PCR 4, event 13: something was started",
        happened=at(4, -1, before(Event(4, boots.ACTION, b"shell", b"Calling EFI Application from Boot Option"))),
    ),
    Case(
        "a boot manager that returned to the firmware",
        "PCR 4: the firmware went on behind what was started last",
        happened=ended(told(4, boots.ACTION, b"Returning from EFI Application from Boot Option")),
    ),
    Case("a firmware that started nothing", "PCR 4: nothing was started", happened=at(4, -1, gone)),
    verifying("a kernel that was started as a program", "something was started that the policy does not name", VERIFIED[1]),
    verifying(
        "a kernel that was started as a program once it was verified",
        "something was started that the policy does not name",
        *VERIFIED,
        VERIFIED[1],
    ),
    verifying(
        "another program than a kernel of the policy's that was verified",
        "a kernel was verified that is none of the policy's",
        VERIFIED[0],
        Event(4, boots.APPLICATION, b"shell", b""),
        VERIFIED[2],
    ),
    Case(
        "a kernel that was verified and is not the attempted entry's",
        "the kernel kernel.elf was verified, and it is no attempted entry's, in their order",
        happened=at(9, 1, after(*VERIFIED)),
        known={"kernel.elf": SIGNABLE["vmlinuz"]},
    ),
    verifying("a kernel that was verified twice for one attempt", "no attempted entry's, in their order", *VERIFIED, *VERIFIED),
    verifying("a kernel's verification without an end", "PCR 4: a kernel's verification has no end", *VERIFIED[:2]),
    verifying("a kernel's verification that begins twice", "does not begin or end there", VERIFIED[0], *VERIFIED),
    verifying("a kernel's verification without a beginning", "does not begin or end there", VERIFIED[2]),
    verifying(
        "a program that says that it is a kernel's verification",
        "something was started that the policy does not name",
        VERIFIED[0]._replace(measured=b"shell"),
    ),
    Case("a text that is not what was measured", "is not what was measured", logged=at(8, 1, saying("vda1", "vda2"))),
    Case(
        "a text of another loader",
        "is no text of the boot manager",
        happened=at(8, 0, before(text_told(b"grub_cmd: set\0"))),
    ),
    Case(
        "a text that ends twice",
        "is no text of the boot manager",
        happened=at(8, 0, before(text_told(b"bootcore_choice: a\0b\0"))),
    ),
    Case(
        "a text without an end",
        "is no text of the boot manager",
        happened=at(8, 0, before(text_told(b"bootcore_choice: a"))),
    ),
    Case(
        "a text in another form than the boot manager's",
        UNTAGGED_TEXT,
        happened=at(8, 0, before(told(8, IPL, b"bootcore_choice: Linux\0"))),
    ),
    *(
        Case(f"a text that begins with {what}", UNTAGGED_TEXT, logged=at(8, 1, change))
        for what, change in (
            ("another tag", headed(boots.TAGS[12], 0)),
            ("a size that is too great", headed(boots.TAGS[8], 1)),
            ("a size that is too small", headed(boots.TAGS[8], -1)),
            ("half of a tag", with_data(b"\x08\0")),
            ("nothing", with_data(b"")),
        )
    ),
    Case("a line without a choice", "is not the text that follows there", happened=at(8, 0, gone)),
    *(
        Case(f"a title {what}", f"PCR 8, event 15: the policy has no entry {said}", happened=at(8, 0, measured_title(title)), policy=policy)
        for what, title, said, policy in (
            ("with a blank behind it", b"Linux ", '"Linux "', POLICY),
            ("that is empty", b"", '""', POLICY),
            ("in another normal form of Unicode", "Ba\u0308r".encode(), '"Ba\\xcc\\x88r"', POLICY.replace("Linux", "B\u00e4r")),
            ("with another alphabet's letter", "L\u0456nux".encode(), '"L\\xd1\\x96nux"', POLICY),
            ("with a letter in too many bytes", b"\xc1\x8cinux", '"\\xc1\\x8cinux"', POLICY),
        )
    ),
    Case(
        "an empty line that is not measured",
        'other lines than those measured: "say "hello"", "first @ last"',
        boot="multiboot2",
        happened=at(8, -1, gone),
    ),
    Case(
        "an empty line more",
        'other lines than those measured: "say "hello"", "first @ last", "", ""',
        boot="multiboot2",
        happened=at(8, -1, after(text_told(b"module_cmdline: \0"))),
    ),
    Case(
        "a program whose line is not measured",
        'PCR 8, event 15: the policy\'s entry "Shell" has other lines than those measured: none',
        policy=SHELL_POLICY,
        happened=at(8, 0, before(SHELL[0])),
    ),
    Case("a choice without a line", "has other lines than those measured: none", happened=at(8, 1, gone)),
    Case(
        "a module's line before the kernel's",
        "is not the text that follows there",
        boot="multiboot2",
        happened=swapped(8, 1),
    ),
    Case(
        "no choice",
        "PCR 8: the boot manager measured no choice",
        happened=lambda it: [event for event in it if event.pcr != 8],
    ),
    Case(
        "a choice behind the handover",
        '"Linux" was handed over, and "Kernel" was chosen last',
        happened=ended(*GIVEN_UP),
    ),
    Case(
        "a menu that was read again behind the handover",
        "its files are not those that were read last",
        happened=ended(Event(9, IPL, FILES["menu.txt"], b"menu.txt\0")),
    ),
    Case(
        "a ramdisk that a kernel's EFI stub measured",
        'PCR 9, event 23: no known file is what was measured; the event\'s text is "\\xec";\\x8f',
        happened=ended(Event(9, boots.TAG, b"ramdisk", struct.pack("<II", 0x8F3B22EC, 13) + b"Linux initrd\0")),
    ),
    Case(
        "a program that was chosen last",
        "and \"Shell\" was chosen last",
        policy=SHELL_POLICY,
        happened=ended(*SHELL),
    ),
    Case("a handover under another title", '"Other" was handed over, and', logged=at(12, 0, saying("Linux", "Other"))),
    Case(
        "a handover of another entry before it, whose kernel may have measured the rest",
        'PCR 12, event 16: "Kernel" was handed over, and "Linux" was chosen last',
        happened=lambda it: [*it[:14], *GIVEN_UP[-1:], boots.handover(MULTIBOOT2, FILES), *it[14:]],
    ),
    Case("no handover", "PCR 12: nothing was handed over", happened=at(12, 0, gone)),
    Case(
        "a PCR with a value that the policy does not have",
        "PCR 17 of sha256 has a value that the policy does not name",
        policy=PCR_POLICY.replace("ff", "fe"),
    ),
    Case(
        "a driver that the policy does not name",
        "PCR 2, event 7: a driver was loaded that the policy does not name, with the digest",
        happened=at(2, 0, before(DRIVER)),
    ),
    Case(
        "a runtime driver behind the separator",
        "a driver was loaded that the policy does not name",
        happened=at(2, 0, after(Event(2, boots.RUNTIME_DRIVER, b"driver", b""))),
    ),
    Case(
        "a driver in place of an entry's program",
        "a driver was loaded that the policy does not name",
        policy=SHELL_POLICY,
        happened=at(8, 0, before(*SHELL, DRIVER)),
    ),
    Case(
        "a driver that says that it is a text of the firmware",
        "a driver was loaded that the policy does not name",
        happened=at(2, 0, before(DRIVER._replace(kind=boots.ACTION, data=b"Start Option ROM Scan"))),
    ),
    Case(
        "a driver that says that it is a separator",
        "a driver was loaded that the policy does not name",
        happened=at(2, 0, before(DRIVER._replace(kind=boots.SEPARATOR, data=bytes(4)))),
    ),
    Case(
        "a driver beside those that the policy names",
        "a driver was loaded that the policy does not name",
        happened=at(2, 0, before(DRIVER, Event(2, boots.DRIVER, b"another", b""))),
        policy=with_key("drivers", digest_of(DRIVER)),
    ),
    Case(
        "a PCR 2 that the policy does not name, with drivers that it names",
        "PCR 2 of sha256 has a value that the policy does not name",
        happened=at(2, 0, before(DRIVER)),
        policy=with_key("drivers", digest_of(DRIVER)).replace("\n[[entry]]", f'\n[pcr]\n2 = ["{32 * "00"}"]\n\n[[entry]]', 1),
    ),
    Case(
        "an application that says that it is a text of the firmware",
        "something was started that the policy does not name",
        happened=at(4, 0, before(Event(4, boots.ACTION, b"shell", b"Entering ROM Based Setup"))),
    ),
    Case(
        "a firmware's setup behind the boot manager",
        "the firmware went on behind what was started last",
        happened=ended(told(4, boots.ACTION, b"Entering ROM Based Setup")),
    ),
    Case(
        "another boot manager's options that the policy does not have",
        '"quiet splash" is a text of another boot manager\'s, which was started before; the policy\'s texts lack it',
        happened=at(12, 0, before(OPTIONS)),
    ),
    Case(
        "another boot manager's options behind the handover",
        '"quiet splash" is a text of another boot manager\'s behind those of the boot manager',
        happened=at(12, 0, after(OPTIONS)),
        policy=with_key("texts", "quiet splash"),
    ),
    Case(
        "a handover of an unknown image that says that it is options",
        UNTAGGED_HANDOVER,
        happened=at(12, 0, before(Event(12, IPL, 16 * b"a\0", 16 * b"a\0"))),
        policy=with_key("texts", 16 * "a"),
    ),
    Case(
        "a handover of an unknown image that says so in the boot manager's form",
        "its description is refused",
        happened=at(12, 0, before(tagged(12, 16 * b"a\0", 16 * b"a\0"))),
        policy=with_key("texts", 16 * "a"),
    ),
    Case(
        "GRUB's commands that the policy does not have",
        '"grub_cmd: set root=hd0" is a text of GRUB\'s, which was started before; the policy\'s texts lack it',
        happened=at(8, 0, before(GRUB)),
    ),
    Case(
        "GRUB's commands behind the choice",
        '"grub_cmd: set root=hd0" is a text of GRUB\'s behind those of the boot manager',
        happened=ended(GRUB),
        policy=with_key("texts", "grub_cmd: set root=hd0"),
    ),
    Case(
        "GRUB's commands between a choice and its line",
        '"grub_cmd: set root=hd0" is a text of GRUB\'s behind those of the boot manager',
        happened=at(8, 0, after(GRUB)),
        policy=with_key("texts", "grub_cmd: set root=hd0"),
    ),
    Case(
        "GRUB's commands without their zero byte",
        UNTAGGED_TEXT,
        logged=at(8, 0, with_data(b"grub_cmd: set root=hd0x")),
        happened=at(8, 0, before(GRUB)),
        policy=with_key("texts", "grub_cmd: set root=hd0"),
    ),
    Case(
        "a choice that says that it is a command of GRUB's",
        UNTAGGED_TEXT,
        happened=at(8, 0, before(Event(8, IPL, b"bootcore_choice: a\0", b"grub_cmd: bootcore_choice: a\0\0"))),
        policy=with_key("texts", "grub_cmd: bootcore_choice: a", "grub_cmd: bootcore_choice: a\\u0000"),
    ),
]

HANDOVER = [
    Case("what no signature covers", "is not the image", text=SECURE, known={"vmlinuz": SIGNED_FILE}, booted={"vmlinuz": SIGNED_FILE}),
    Case(
        "a description of another memory map",
        "is not the image of its description",
        logged=at(12, 0, retold(OTHER_MAP.encode())),
    ),
    Case(
        "an image with another byte",
        "is not the image of its description",
        happened=at(12, 0, lambda it: [it._replace(measured=one_byte(it.measured, 7))]),
    ),
    Case(
        "an image of other files",
        "is not the image",
        happened=at(12, 0, lambda _: [boots.handover(LINUX, {**FILES, "more.img": b"else"})]),
    ),
    Case("the image itself measured, and not its digest", "is not the image", happened=at(12, 0, measuring(b"image"))),
    Case(
        "another line in the description",
        "its lines are not those that were measured",
        logged=at(12, 0, saying("vda1", "vda2")),
    ),
    *(
        Case(
            f"{what} in the description of what firmware tells",
            "is not the image",
            boot=boot,
            text=LINUX_TOLD if boot == "linux" else MULTIBOOT2_TOLD,
            logged=at(12, -1, saying(old, new)),
        )
        for what, boot, old, new in (
            ("another address of the RSDP", "linux", "rsdp = 0x804014", "rsdp = 0x804015"),
            ("another width of the screen", "linux", "width = 0x500", "width = 0x400"),
            ("another address of the screen", "multiboot2", "base = 0x80000000", "base = 0x80001000"),
            ("another colour", "multiboot2", "red = [0x10, 0x8]", "red = [0x10, 0x7]"),
            ("another system table", "multiboot2", "system_table = 0x807018", "system_table = 0x807020"),
            ("Secure Boot", "linux", "secure_boot = 0x2", "secure_boot = 0x3"),
            ("another place of UEFI's map", "linux", "map_address = 0xf0000", "map_address = 0xf0008"),
            ("another length of UEFI's map", "linux", "map_size = 0x60", "map_size = 0x90"),
            ("another version of SMBIOS", "multiboot2", "minor = 0x0", "minor = 0x1"),
        )
    ),
    *(
        Case(f"{what} before a handover", said, boot="multiboot2", text=MULTIBOOT2_TOLD, happened=change)
        for what, said, change in (
            ("another map of UEFI's", "is not the image", at(12, 0, lambda _: [boots.copied(boots.MAP_TAG, b"\1" + boots.MAP[1:])])),
            ("other tables of SMBIOS's", "is not the image", at(12, 1, lambda _: [boots.copied(boots.SMBIOS_TAG, OTHER_SMBIOS)])),
            ("a longer map", NOT_SIZED, at(12, 0, lambda it: [boots.copied(boots.MAP_TAG, boots.MAP + b"\0")])),
            ("no map", NOT_SIZED, at(12, 0, gone)),
            ("no tables", NOT_SIZED, at(12, 1, gone)),
            ("two maps", UNORDERED, at(12, 0, lambda it: [it, it])),
            ("tables before the map", UNORDERED, swapped(12, 0)),
            ("tables twice", UNORDERED, at(12, 1, lambda it: [it, it])),
            ("an empty map", UNCOPIED, at(12, 0, lambda _: [boots.copied(boots.MAP_TAG, b"")])),
            ("a map of more than 64 KiB", UNCOPIED, at(12, 0, lambda _: [boots.copied(boots.MAP_TAG, bytes(65537))])),
            ("another text than what was measured", UNCOPIED, at(12, 0, measuring(b"else"))),
            ("a text of the other PCR's form", UNTAGGED_HANDOVER, at(12, 0, headed(boots.TAGS[8], 0))),
        )
    ),
    *(
        Case(f"a map of UEFI's {where}", said, boot=boot, text=text, happened=change)
        for where, said, boot, text, change in (
            ("for Linux", "a Linux kernel gets no copy", "linux", LINUX_TOLD, at(12, 0, before(boots.copied(boots.MAP_TAG, boots.MAP)))),
            ("where none is told", NOT_SIZED, "multiboot2", MULTIBOOT2, at(12, 0, before(boots.copied(boots.MAP_TAG, boots.MAP)))),
            ("behind the handover", "nothing was handed over behind", "linux", "", ended(boots.copied(boots.MAP_TAG, boots.MAP))),
        )
    ),
    Case(
        "a handover of an unknown image that says that it is a map of UEFI's",
        UNCOPIED,
        happened=at(12, 0, before(boots.copied(boots.MAP_TAG, boots.image_digest(OTHER_MAP, FILES)))),
    ),
    Case(
        "a Linux kernel that is told of SMBIOS",
        "is not in its one form",
        text=LINUX_TOLD,
        logged=at(12, 0, saying("[[avoid]]\nbase = 0x108000", SMBIOS_TOLD + "[[avoid]]\nbase = 0x108000")),
    ),
    Case(
        "a description with a blank more",
        "is not in its one form: line 1 is",
        logged=at(12, 0, saying("size = ", "size =  ")),
    ),
    Case(
        "a description in another order",
        "is not in its one form: line 1 is",
        logged=at(12, 0, saying(SIZE + POOL, POOL + SIZE)),
    ),
    Case(
        "a description in upper case",
        "is not in its one form: line 6 is",
        logged=at(12, 0, saying("0x9f000\nkind", "0x9F000\nkind")),
    ),
    Case(
        "a description with another pool",
        "is not in its one form: line 2 is",
        logged=at(12, 0, saying("[0x100000, 0x800000]", "[0x900000, 0xf00000]")),
    ),
    *(
        Case(f"a description behind {what}", UNTAGGED_HANDOVER, logged=at(12, 0, change))
        for what, change in (
            ("another tag", headed(boots.TAGS[8], 0)),
            ("a size that is too great", headed(boots.TAGS[12], 1)),
            ("a size that is too small", headed(boots.TAGS[12], -1)),
            ("no tag and size", with_data(LINUX.encode())),
        )
    ),
    Case("a description that is no text", "it is no text of TOML", logged=at(12, 0, retold(b"\xff"))),
    Case(
        "a description of a smaller machine, whose image is the same",
        "its size is 0xf0000000, and that of the boot manager is 0x100000000",
        logged=at(12, 0, saying(SIZE, "size = 0xf0000000\n")),
    ),
    Case(
        "two handovers whose descriptions are exchanged",
        "is not the image of its description",
        happened=at(12, 0, lambda it: [boots.handover(OTHER_MAP, FILES), it]),
        logged=lambda it: at(12, 0, retold(LINUX.encode()))(at(12, 1, retold(OTHER_MAP.encode()))(it)),
    ),
    Case(
        "a handover of an entry that was not chosen, before the right one",
        '"Kernel" was handed over, and "Linux" was chosen last',
        happened=at(12, 0, before(boots.handover(MULTIBOOT2, FILES))),
    ),
    Case(
        "something behind the handover",
        "PCR 12, event 23: its description is refused",
        happened=ended(tagged(12, b"more", b"more")),
    ),
    Case(
        "a machine without room for the kernel",
        "bootcore refuses this entry on this machine, by the number",
        logged=at(12, 0, retold(NO_ROOM.encode())),
    ),
    Case(
        "a machine that the rules do not allow",
        "bootcore refuses the machine",
        logged=at(12, 0, retold(TOO_HIGH.encode())),
    ),
    Case(
        "a wrong handover before the right one",
        "is not the image",
        happened=at(12, 0, before(tagged(12, b"else", LINUX.encode()))),
    ),
    Case(
        "more handovers than a boot can have",
        "PCR 12: 17 handovers were measured, more than 16",
        happened=at(12, 0, lambda it: 17 * [it]),
    ),
    Case(
        "a description that is too long",
        "it has more than 65536 bytes",
        logged=at(12, 0, retold(b"#" * 65537)),
    ),
    Case(
        "a description with a key of many parts, which a reader of TOML takes a minute for",
        'is not in its one form: line 1 is "a.a.a.a',
        logged=at(12, 0, retold(b"a" + 32000 * b".a" + b" = 0x1\n")),
    ),
    Case(
        "a description with a number above 64 bits",
        "it: size is no number",
        logged=at(12, 0, saying("size = 0x1", "size = 0x" + 17 * "1")),
    ),
]
