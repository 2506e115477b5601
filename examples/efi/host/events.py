"""For the test: replays an event log, compares with the PCRs that tpm2_pcrread printed, and prints what the boot manager
measured. A line is the PCR and the event's content; behind a file's path comes the digest that the event has for it, and of
the handover the digest alone: its content, the description, is written to a file, as a program takes it: with what the events
before it have of UEFI's map and SMBIOS's tables, or, for Linux, with zeros in the map's place.

Of PCR 4 it prints what stands between the two texts of a kernel that is verified, by its digest, and these.

    python3 events.py LOG PCRS DESCRIPTION

The status is 1 if a PCR is not that of the log. A checker for others than this test stands in examples/measured."""

import hashlib
import re
import struct
import sys
from pathlib import Path
from typing import Dict, Iterator, List, NamedTuple

BANKS = {0x04: "sha1", 0x0B: "sha256", 0x0C: "sha384", 0x0D: "sha512"}
NO_ACTION, TAG_EVENT, BOOT_EVENT, APPLICATION = 0x03, 0x06, 0x0D, 0x80000003
KINDS = {4: TAG_EVENT, 8: TAG_EVENT, 9: BOOT_EVENT, 12: TAG_EVENT}
TAGS = {4: 0x62630004, 8: 0x62630008, 12: 0x6263000C}  # of texts and handovers
COPIED = {0x62630011: b"map", 0x6263000D: b"tables"}  # what a Multiboot2 kernel gets a copy of, by its key, in this order


class Event(NamedTuple):
    pcr: int
    kind: int
    digests: Dict[str, bytes]
    data: bytes
    length: int  # in the log


def events_of(log: bytes) -> Iterator[Event]:
    """All behind the first one, which has an older form and tells of the banks; zeros fill up the log's room."""
    (length,) = struct.unpack_from("<I", log, 28)
    at = 32 + length
    while at < len(log) and any(log[at : at + 12]):
        start, (pcr, kind, count) = at, struct.unpack_from("<III", log, at)
        at += 12
        digests = {}
        for _ in range(count):
            bank = BANKS[struct.unpack_from("<H", log, at)[0]]
            size = hashlib.new(bank).digest_size
            digests[bank] = log[at + 2 : at + 2 + size]
            at += 2 + size
        (length,) = struct.unpack_from("<I", log, at)
        at += 4 + length
        yield Event(pcr, kind, digests, log[at - length : at], at - start)


def content_of(event: Event) -> bytes:
    """Of what the boot manager measured: but in PCR 9 behind its tag and size."""
    if event.pcr == 9:
        return event.data
    if event.data[:8] != struct.pack("<II", TAGS[event.pcr], len(event.data) - 8):
        raise ValueError(f"an event of PCR {event.pcr} has another tag or size")
    return event.data[8:]


def completed(description: bytes, copied: Dict[bytes, bytes]) -> bytes:
    is_linux = b'protocol = "linux' in description

    def put(told: "re.Match[bytes]") -> bytes:
        length = int(told[2], 16)
        held = bytes(length) if is_linux and told[1] == b"map" else copied.pop(told[1])
        if len(held) != length:
            raise ValueError(f"what was measured of {told[1]!r} has not the length that the handover tells")
        return b'%s = "%s"' % (told[1], held.hex().encode())

    whole = re.sub(rb"^(map|tables)_size = (0x[0-9a-f]+)$", put, description, flags=re.M)
    if copied:
        raise ValueError(f"the handover tells nothing of {sorted(copied)}")
    return whole


def replayed(events: List[Event], bank: str) -> List[bytes]:
    size = hashlib.new(bank).digest_size
    pcrs = [(b"\xff" if 17 <= pcr <= 22 else b"\0") * size for pcr in range(24)]
    for event in events:
        if event.kind != NO_ACTION:
            pcrs[event.pcr] = hashlib.new(bank, pcrs[event.pcr] + event.digests[bank]).digest()
        elif event.data.startswith(b"StartupLocality\0"):
            pcrs[0] = bytes(size - 1) + event.data[16:17]
    return pcrs


def main(log: str, pcrs: str, description: str) -> int:
    events = list(events_of(Path(log).read_bytes()))
    faults, compared, bank, is_verified = [], 0, "", False
    wanted: Dict[str, List[bytes]] = {}
    copied: Dict[bytes, bytes] = {}
    for line in Path(pcrs).read_text().splitlines():
        if named := re.fullmatch(r" *(sha\d+):", line):
            bank = named[1]
        elif value := re.fullmatch(r" *(\d+) *: 0x([0-9A-Fa-f]+)", line):
            wanted[bank] = wanted.get(bank) or replayed(events, bank)
            compared += 1
            if wanted[bank][int(value[1])] != bytes.fromhex(value[2]):
                faults.append(f"{bank}: PCR {value[1]} is not that of the log")
    for event in events:
        if is_verified and event.pcr == 4 and event.kind == APPLICATION:
            print(4, event.digests["sha256"].hex())
        if event.kind != KINDS.get(event.pcr):
            continue
        if event.pcr == 12 and (key := COPIED.get(struct.unpack_from("<I", event.data)[0])):
            copied[key] = event.data[8:]
            if list(copied) != [it for it in COPIED.values() if it in copied]:
                faults.append("UEFI's map and SMBIOS's tables are measured in another order")
            faults += [f"{key!r}: another {bank}" for bank, it in event.digests.items() if hashlib.new(bank, copied[key]).digest() != it]
            continue
        content = content_of(event)
        text, sha256 = content.rstrip(b"\0").decode(errors="backslashreplace"), event.digests["sha256"].hex()
        if event.pcr in (4, 8):
            print(event.pcr, text)
            is_verified = text == "kernel_verify: begin" if event.pcr == 4 else is_verified
            faults += [f"{text}: another {bank}" for bank, it in event.digests.items() if hashlib.new(bank, content).digest() != it]
        elif event.pcr == 9:
            print(9, text, sha256)
        else:
            print(12, sha256)
            Path(description).write_bytes(completed(content, copied))
            copied = {}
    length = 32 + struct.unpack_from("<I", Path(log).read_bytes(), 28)[0] + sum(event.length for event in events)
    good = f"replayed {compared} PCRs of {' '.join(wanted)}, from {length} bytes" if compared else "no PCRs"
    print("\n".join(faults or [good]))
    return 1 if faults or not compared else 0


if __name__ == "__main__":
    sys.exit(main(*sys.argv[1:4]))
