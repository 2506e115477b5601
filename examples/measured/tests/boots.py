"""Measured boots that no machine made: a firmware's log and a TPM's values, written by the standards' layouts and by
docs/EFI.md, and nothing of the checker. Here is the writer, and the boots that the checks change."""

import hashlib
import re
import struct
import sys
from typing import Callable, Dict, Iterable, List, NamedTuple, Optional, Set, Tuple

from tests import examples
from tests.support import TOP

ALGORITHMS = {"sha1": 0x04, "sha256": 0x0B, "sha384": 0x0C, "sha512": 0x0D}
HASHES = {}  # of banks whose hash has another name
if "sm3" in hashlib.algorithms_available:
    ALGORITHMS["sm3_256"], HASHES["sm3_256"] = 0x12, "sm3"
NO_ACTION, SEPARATOR, TAG, VERSION, IPL = 0x03, 0x04, 0x06, 0x08, 0x0D
TAGS = {4: 0x62630004, 8: 0x62630008, 12: 0x6263000C}  # of the boot manager's events
MAP_TAG, SMBIOS_TAG = 0x62630011, 0x6263000D  # of those with what a Multiboot2 kernel gets copies of
VARIABLE, APPLICATION, DRIVER, RUNTIME_DRIVER, ACTION = 0x80000001, 0x80000003, 0x80000004, 0x80000005, 0x80000007


def hashed(bank: str, held: bytes = b""):
    return hashlib.new(HASHES.get(bank, bank), held)


class Event(NamedTuple):
    pcr: int
    kind: int
    measured: bytes
    data: bytes
    elsewhere: Optional[bytes] = None  # measured in other banks than that of SHA-256, if it is something else

    def digest(self, bank: str) -> bytes:
        is_other = bank != "sha256" and self.elsewhere is not None
        return hashed(bank, self.elsewhere if is_other else self.measured).digest()


def told(pcr: int, kind: int, text: bytes) -> Event:
    """An event that measures what it tells."""
    return Event(pcr, kind, text, text)


def tagged(pcr: int, measured: bytes, content: bytes) -> Event:
    """An event of the boot manager's, with TCG_PCClientTaggedEvent."""
    return Event(pcr, TAG, measured, struct.pack("<II", TAGS[pcr], len(content)) + content)


def copied(tag: int, held: bytes) -> Event:
    """What is measured before a handover because the kernel gets a copy of it."""
    return Event(12, TAG, held, struct.pack("<II", tag, len(held)) + held)


def text_told(text: bytes) -> Event:
    """A text of the boot manager's: all of it is measured."""
    return tagged(8, text, text)


def content_of(event: Event) -> bytes:
    return event.data[8:] if event.kind == TAG else event.data


def retold(event: Event, content: bytes) -> Event:
    """With other content, in the same form; what was measured is the same."""
    return event._replace(data=event.data[:4] + struct.pack("<I", len(content)) + content if event.kind == TAG else content)


# ---- the layouts


def spelled(event: Event, banks: Iterable[str]) -> bytes:
    """TCG_PCR_EVENT2."""
    names = list(banks)
    digests = b"".join(struct.pack("<H", ALGORITHMS[bank]) + event.digest(bank) for bank in names)
    return struct.pack("<III", event.pcr, event.kind, len(names)) + digests + struct.pack("<I", len(event.data)) + event.data


def first_event(banks: Iterable[str]) -> bytes:
    """TCG_PCClientPCREvent with TCG_EfiSpecIdEvent."""
    names = list(banks)
    sizes = b"".join(struct.pack("<HH", ALGORITHMS[bank], hashed(bank).digest_size) for bank in names)
    content = b"Spec ID Event03\0" + struct.pack("<IBBBBI", 0, 0, 2, 105, 2, len(names)) + sizes + b"\0"
    return struct.pack("<II20sI", 0, NO_ACTION, bytes(20), len(content)) + content


def log_of(events: Iterable[Event], banks: Iterable[str]) -> bytes:
    names = list(banks)
    return first_event(names) + b"".join(spelled(event, names) for event in events)


def final_of(events: List[Event], banks: Iterable[str]) -> bytes:
    """EFI_TCG2_FINAL_EVENTS_TABLE."""
    return struct.pack("<QQ", 1, len(events)) + b"".join(spelled(event, list(banks)) for event in events)


def parted(log: bytes) -> Tuple[bytes, List[Tuple[int, bytes]]]:
    """A log's first event, and each one behind it with its PCR; without what fills up the log's room."""
    at = 32 + struct.unpack_from("<I", log, 28)[0]
    first, events = log[:at], []
    sizes = {ALGORITHMS[bank]: hashed(bank).digest_size for bank in ALGORITHMS}
    while len(set(log[at : at + 12])) > 1:  # where bytes are alike, no event begins
        pcr, _, count = struct.unpack_from("<III", log, at)
        end = at + 12
        for _ in range(count):
            end += 2 + sizes[struct.unpack_from("<H", log, end)[0]]
        end += 4 + struct.unpack_from("<I", log, end)[0]
        events.append((pcr, log[at:end]))
        at = end
    return first, events


def data_start(event: bytes) -> int:
    """Where the length of an event's data stands."""
    sizes = {ALGORITHMS[bank]: hashed(bank).digest_size for bank in ALGORITHMS}
    at = 12
    for _ in range(struct.unpack_from("<I", event, 8)[0]):
        at += 2 + sizes[struct.unpack_from("<H", event, at)[0]]
    return at


# what an image need not tell of its description, by whether it is Linux's
FREE = r'^(?:kernel|initrd|file) = "(.*)"$|^\[\[avoid\]\]\nbase = 0x(.*)\nlength = 0x(.*)$'
UNTOLD = [FREE + r"|^(?:rsdp|map_address|secure_boot) = 0x(.*)$", FREE]


def untold(events: Iterable[Event], banks: Iterable[str], text: str) -> Tuple[Set[int], Set[int]]:
    """The places of a log's bytes that no PCR has: those that never matter, and those of a description that need not matter."""
    names = list(banks)
    free: Set[int] = {*range(8, 28), *range(48, 56)}  # of the first event: its digest; class, version and size of numbers
    paths: Set[int] = set()
    at = len(first_event(names))
    for event in events:
        end = at + len(spelled(event, names))
        data = end - len(event.data)
        if event.kind == NO_ACTION:
            free.update(range(at, at + 4), range(data, end - 1))
            place = at + 12
            for bank in names:
                size = hashed(bank).digest_size
                free.update(range(place + 2, place + 2 + size))
                place += 2 + size
        else:
            free.update(range(at + 4, at + 8))
            if event.pcr not in (2, 4, 8, 12) or event.kind in (APPLICATION, DRIVER, RUNTIME_DRIVER):
                free.update(range(data, end))
        if event.pcr == 12 and event.data.startswith(struct.pack("<I", TAGS[12])):
            for found in re.finditer(UNTOLD["linux" in text], text, re.M):
                for group, value in enumerate(found.groups(), 1):
                    paths.update(range(data + 8 + found.start(group), data + 8 + found.start(group) + len(value or "")))
        at = end
    return free, paths


Pcrs = Dict[str, List[bytes]]


def pcrs_of(events: Iterable[Event], banks: Iterable[str]) -> Pcrs:
    pcrs = {}
    for bank in banks:
        size = hashed(bank).digest_size
        pcrs[bank] = [(b"\xff" if 17 <= pcr <= 22 else b"\0") * size for pcr in range(24)]
    for event in events:
        for bank, values in pcrs.items():
            if event.kind != NO_ACTION:
                values[event.pcr] = hashed(bank, values[event.pcr] + event.digest(bank)).digest()
    return pcrs


def pcrread(pcrs: Pcrs) -> str:
    """As tpm2_pcrread prints it."""
    lines = []
    for bank, values in pcrs.items():
        lines += [f"  {bank}:", *(f"    {pcr:<2}: 0x{value.hex().upper()}" for pcr, value in enumerate(values))]
    return "\n".join([*lines, ""])


Selected = List[Tuple[str, List[int]]]


def quote_of(pcrs: Pcrs, selected: Selected, nonce: bytes, bank: str = "sha256") -> bytes:
    """TPMS_ATTEST, as a TPM signs it with this hash."""
    banks = b""
    for name, chosen in selected:
        bits = bytes(sum(1 << pcr % 8 for pcr in chosen if pcr // 8 == byte) for byte in range(3))
        banks += struct.pack(">HB", ALGORITHMS[name], 3) + bits
    digest = hashed(bank, b"".join(pcrs[name][pcr] for name, chosen in selected for pcr in sorted(chosen))).digest()
    start = struct.pack(">IH", 0xFF544347, 0x8018) + struct.pack(">H", 34) + b"\0\x0b" + bytes(32)
    clock = struct.pack(">QIIBQ", 123456, 7, 2, 1, 0x2020031200000000)
    rest = struct.pack(">I", len(selected)) + banks + struct.pack(">H", len(digest)) + digest
    return start + struct.pack(">H", len(nonce)) + nonce + clock + rest


def plain_of(pcrs: Pcrs, selected: Selected) -> bytes:
    """As tpm2_pcrread writes it, and tpm2_quote by -F values: the values alone."""
    return b"".join(pcrs[name][pcr] for name, chosen in selected for pcr in sorted(chosen))


def pcr_file_of(pcrs: Pcrs, selected: Selected) -> bytes:
    """As tpm2_quote writes it: records of a little-endian memory, with the room that they have there."""
    made = struct.pack("<I", len(selected))
    for name, chosen in (selected + [("", [])] * 16)[:16]:
        bits = bytes(sum(1 << pcr % 8 for pcr in chosen if pcr // 8 == byte) for byte in range(4))
        made += struct.pack("<HB", ALGORITHMS[name], 3) + bits + b"\0" if name else bytes(8)
    values = [pcrs[name][pcr] for name, chosen in selected for pcr in sorted(chosen)]
    groups = [values[at : at + 8] for at in range(0, len(values), 8)]
    made += struct.pack("<I", len(groups))
    for group in groups:
        rooms = [struct.pack("<H", len(value)) + value.ljust(64, b"\0") for value in group]
        made += struct.pack("<I", len(group)) + b"".join(rooms).ljust(8 * 66, b"\0")
    return made


def signature_of(der: bytes) -> bytes:
    """TPMT_SIGNATURE by ECDSA with SHA-256, of OpenSSL's: a sequence of two whole numbers."""
    made, at = struct.pack(">HH", 0x18, 0x0B), 2
    for _ in range(2):
        length = der[at + 1]
        number = der[at + 2 : at + 2 + length].lstrip(b"\0").rjust(32, b"\0")
        made += struct.pack(">H", len(number)) + number
        at += 2 + length
    return made


# ---- an application

MANAGER_PARTS = [b"code".ljust(512, b"\x90"), b"data".ljust(512, b"\1")]


def application(sections: List[bytes], signed: bytes = b"", directories: int = 16) -> bytes:
    """A PE32+ file with these sections, whose bytes lie in the file in the opposite order of their headers."""
    head, optional = 0x40, 0x40 + 24
    held = bytearray(512)
    held[:2], held[0x3C:0x40] = b"MZ", struct.pack("<I", head)
    held[head:optional] = struct.pack("<4sHHIIIHH", b"PE\0\0", 0x8664, len(sections), 0, 0, 0, 240, 0x22)
    held[optional : optional + 2] = b"\x0b\x02"
    held[optional + 60 : optional + 68] = struct.pack("<II", 512, 0x12345678)  # the headers' length, the checksum
    end = 512 + 512 * len(sections)
    held[optional + 108 : optional + 112] = struct.pack("<I", directories)
    held[optional + 144 : optional + 152] = struct.pack("<II", end if signed else 0, len(signed))
    for i, section in enumerate(sections):
        place = end - 512 * (i + 1)
        header = struct.pack("<8sIIIIIIHHI", b"s", 512, 0x1000 * (i + 1), 512, place, 0, 0, 0, 0, 0)
        held[optional + 240 + 40 * i : optional + 280 + 40 * i] = header
    return bytes(held) + b"".join(reversed(sections)) + signed


def driver() -> bytes:
    """A UEFI driver that a firmware loads and starts, and that ends with EFI_ABORTED."""
    code = b"\x48\xb8" + struct.pack("<Q", 0x8000000000000015) + b"\xc3"  # mov rax, ..; ret
    held = bytearray(application([code.ljust(512, b"\0")]))
    optional = 0x40 + 24
    struct.pack_into("<I", held, optional + 16, 0x1000)  # where it is entered
    struct.pack_into("<II", held, optional + 32, 0x1000, 0x200)  # how sections are aligned
    struct.pack_into("<I", held, optional + 56, 0x2000)  # its length in memory
    struct.pack_into("<H", held, optional + 68, 11)  # EFI_IMAGE_SUBSYSTEM_EFI_BOOT_SERVICE_DRIVER
    struct.pack_into("<I", held, optional + 240 + 36, 0x60000020)  # the section is code
    return bytes(held)


def signable(kernel: bytes) -> bytes:
    """A Linux kernel that is an application too: its header fits before that of the boot protocol, and all behind is a section."""
    held, optional = bytearray(kernel), 0x40 + 24
    held[: optional + 240] = application([])[: optional + 240]
    struct.pack_into("<H", held, 0x46, 1)
    header = struct.pack("<8sIIIIIIHHI", b"k", len(held), 0x1000, len(held) - 512, 512, 0, 0, 0, 0, 0)
    held[optional + 240 : optional + 280] = header
    return bytes(held)


def signed(kernel: bytes) -> bytes:
    """Such a kernel with a certificate table of 512 bytes behind its section."""
    held, place = bytearray(signable(kernel.ljust(-(-len(kernel) // 8) * 8, b"\0"))), 0x40 + 24 + 144
    struct.pack_into("<II", held, place, len(held), 512)
    return bytes(held) + struct.pack("<IHH", 512, 0x200, 2) + bytes(504)


def without_signature(held: bytes) -> bytes:
    """What is measured of an application of the form above."""
    optional = 0x40 + 24
    (length,) = struct.unpack_from("<I", held, optional + 148)
    return held[: optional + 64] + held[optional + 68 : optional + 144] + held[optional + 152 : len(held) - length]


# ---- boots

DESCRIPTION = """\
size = 0x100000000
pool = [0x100000, 0x800000]

[[region]]
base = 0x0
length = 0x9f000
kind = "usable"

[[region]]
base = 0x9f000
length = 0x61000
kind = "reserved"

[[region]]
base = 0x100000
length = 0x700000
kind = "usable"

[[region]]
base = 0x800000
length = 0x8000
kind = "acpi"

[[region]]
base = 0x808000
length = 0x1000
kind = "nvs"

[[region]]
base = 0x900000
length = 0x600000
kind = "usable"

[[entry]]
"""
LINUX = DESCRIPTION + """\
title = "Linux"
protocol = "linux64"
kernel = "vmlinuz"
line = "root=/dev/vda1 quiet"
initrd = "initrd.img\\u000amore.img"
"""
MULTIBOOT2 = DESCRIPTION + """\
title = "Kernel"
protocol = "multiboot2"
kernel = "kernel.elf"
line = "say \\"hello\\""
rsdp_old = "5253442050545220"
rsdp_new = "52534420505452202f"

[[entry.module]]
file = "one"
line = "first @ last"

[[entry.module]]
file = "two"
line = ""
"""
FIRMWARE = """\
[firmware]
rsdp = 0x804014

[firmware.screen]
base = 0x80000000
pitch = 0x1400
width = 0x500
height = 0x320
depth = 0x20
red = [0x10, 0x8]
green = [0x8, 0x8]
blue = [0x0, 0x8]

[firmware.efi]
bits = 0x40
system_table = 0x807018
map_size = 0x60
map_address = 0xf0000
descriptor_size = 0x30
descriptor_version = 0x1
secure_boot = 0x2

[firmware.smbios]
major = 0x3
minor = 0x0
tables_size = 0x6

[[avoid]]
base = 0x108000
length = 0x1000

[[avoid]]
base = 0x900000
length = 0x400000

"""
MAP, SMBIOS = bytes(range(96)), bytes.fromhex("7f04feff0000")
TOLD_POOL = "pool = [0x109000, 0x800000]"  # beside what is avoided


def with_firmware(text: str) -> str:
    """A description on a machine whose firmware tells all that such a kernel is told."""
    told = FIRMWARE if "multiboot2" in text else re.sub(r"\[firmware.smbios\]\n(.+\n)+\n", "", FIRMWARE)
    return text.replace("pool = [0x100000, 0x800000]", TOLD_POOL).replace("[[entry]]\n", told + "[[entry]]\n", 1)


def whole(text: str, map_: bytes = MAP, smbios: bytes = SMBIOS) -> str:
    """As `bootcore digest` takes it."""
    made = text.replace("map_size = 0x60\n", f'map = "{map_.hex()}"\n')
    return made.replace("tables_size = 0x6\n", f'tables = "{smbios.hex()}"\n')


FILES = {
    "menu.txt": b"timeout 5\n",
    "vmlinuz": examples.linux64_kernel(),
    "initrd.img": b"hello",
    "more.img": b"world",
    "kernel.elf": examples.multiboot2_kernel(),
    "one": b"module one",
    "two": b"",
    "BOOTX64.EFI": application(MANAGER_PARTS),
}
POLICY = """\
managers = ["BOOTX64.EFI"]
files = ["menu.txt"]

[[entry]]
title = "Linux"
protocol = "linux64"
kernel = "vmlinuz"
line = "root=/dev/vda1 quiet"
ramdisks = ["initrd.img", "more.img"]

[[entry]]
title = "Kernel"
protocol = "multiboot2"
kernel = "kernel.elf"
line = 'say "hello"'

[[entry.module]]
file = "one"
line = "first @ last"

[[entry.module]]
file = "two"
"""


def digest_of_application(held: bytes) -> str:
    return hashlib.sha256(without_signature(held)).hexdigest()


def joined(ramdisks: Iterable[bytes]) -> bytes:
    made = b""
    for each in ramdisks:
        made += bytes(-len(made) % 4) + each
    return made


def image_digest(text: str, files: Dict[str, bytes]) -> bytes:
    """By the model, which shares nothing with the program."""
    sys.path.insert(0, str(TOP / "model"))
    try:
        from rules import booting, image
    finally:
        sys.path.pop(0)

    def found(name: str) -> bytes:
        return joined(files[each] for each in name.split("\n"))

    handover = booting.boot(whole(text).encode(), found).handover
    return hashlib.sha256(b"".join(image.chunks(handover))).digest()


def firmware(manager: bytes) -> List[Event]:
    """What a firmware measures before it starts an application, and that."""
    before = [
        Event(0, NO_ACTION, b"", b"StartupLocality\0\0"),
        told(0, VERSION, b"1\0.\0\0\0"),
        told(7, VARIABLE, b"SecureBoot"),
        told(4, ACTION, b"Calling EFI Application from Boot Option"),
    ]
    separators = [told(pcr, SEPARATOR, bytes(4)) for pcr in range(8)]
    return [*before, *separators, Event(4, APPLICATION, without_signature(manager), b"where it was loaded")]


def verified(kernel: bytes) -> List[Event]:
    """What is measured of a kernel where Secure Boot is on."""
    begin, end = (tagged(4, text, text) for text in (b"kernel_verify: begin\0", b"kernel_verify: end\0"))
    return [begin, Event(4, APPLICATION, without_signature(kernel), b"where it was loaded"), end]


def exit_events() -> List[Event]:
    texts = (b"Exit Boot Services Invocation", b"Exit Boot Services Returned with Success")
    return [told(5, ACTION, text) for text in texts]


def attempt(title: str, lines: List[str], names: List[str], files: Dict[str, bytes]) -> List[Event]:
    texts = [f"bootcore_choice: {title}", f"kernel_cmdline: {lines[0]}", *(f"module_cmdline: {line}" for line in lines[1:])]
    measured = [text_told(text.encode() + b"\0") for text in texts]
    return measured + [Event(9, IPL, files[name], name.encode() + b"\0") for name in names]


def handover(text: str, files: Dict[str, bytes]) -> Event:
    return tagged(12, image_digest(text, files), text.encode())


def handed_over(text: str, files: Dict[str, bytes]) -> List[Event]:
    """With what was measured before it."""
    made = [copied(MAP_TAG, MAP)] if "map_size" in text and "multiboot2" in text else []
    made += [copied(SMBIOS_TAG, SMBIOS)] if "tables_size" in text else []
    return [*made, handover(text, files)]


def linux_boot(files: Dict[str, bytes], text: str = LINUX) -> List[Event]:
    made = firmware(files["BOOTX64.EFI"])
    made.append(Event(9, IPL, files["menu.txt"], b"bootcore/menu.txt\0"))
    made += attempt("Linux", ["root=/dev/vda1 quiet"], ["vmlinuz", "initrd.img", "more.img"], files)
    return [*made, *handed_over(text, files), *exit_events()]


def multiboot2_boot(files: Dict[str, bytes], text: str = MULTIBOOT2) -> List[Event]:
    made = firmware(files["BOOTX64.EFI"])
    made.append(Event(9, IPL, files["menu.txt"], b"bootcore/menu.txt\0"))
    made += attempt("Kernel", ['say "hello"', "first @ last", ""], ["kernel.elf", "one", "two"], files)
    return [*made, *handed_over(text, files), *exit_events()]


Change = Callable[[List[Event]], List[Event]]


def at(pcr: int, place: int, change: Callable[[Event], List[Event]]) -> Change:
    """Puts others in the place of a PCR's event, counted from the front or, below zero, from the end."""

    def changed(events: List[Event]) -> List[Event]:
        index = [i for i, event in enumerate(events) if event.pcr == pcr][place]
        return [*events[:index], *change(events[index]), *events[index + 1 :]]

    return changed
