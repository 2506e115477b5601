"""The event log of a firmware, in the crypto-agile form of the TCG PC Client Platform Firmware Profile, and its replay."""

import hashlib
from functools import partial
from typing import Any, Callable, Dict, Iterable, List, NamedTuple

from limits import EVENTS
from reading import BadInput, Fields

# by their TCG numbers, with tpm2-tools' names; a log may have others
BANKS = {0x04: "sha1", 0x0B: "sha256", 0x0C: "sha384", 0x0D: "sha512", 0x27: "sha3_256", 0x28: "sha3_384", 0x29: "sha3_512"}
STRONG = [bank for bank in BANKS.values() if bank != "sha1"]  # those that a verdict may rest on
HASHES: Dict[str, Callable[[bytes], Any]] = {bank: getattr(hashlib, bank) for bank in BANKS.values()}
BANKS[0x12] = "sm3_256"  # it is replayed beside them, where Python's OpenSSL has it
if "sm3" in hashlib.algorithms_available:
    HASHES["sm3_256"] = partial(hashlib.new, "sm3")
HASHES["sha1"] = partial(hashlib.new, "sha1", usedforsecurity=False)  # a system that forbids SHA-1 has it for this
SIZES = {"sha1": 20, "sha256": 32, "sha384": 48, "sha512": 64, "sha3_256": 32, "sha3_384": 48, "sha3_512": 64, "sm3_256": 32}
NO_ACTION = 3  # EV_NO_ACTION: it tells something, and extends no PCR
PCR_COUNT = 24
LOCALITY = b"StartupLocality\0"
# what the firmware measures into PCR 5 as it ends: a log that was read before lacks it
EXIT_CALLED = b"Exit Boot Services Invocation"
EXIT_FAILED = b"Exit Boot Services Returned with Failure"
EXIT_DONE = b"Exit Boot Services Returned with Success"


class Event(NamedTuple):
    number: int  # in the log, from 0 on
    pcr: int
    kind: int
    digests: Dict[str, bytes]
    data: bytes

    @property
    def name(self) -> str:
        return f"PCR {self.pcr}, event {self.number}"

    def has(self, measured: bytes) -> bool:
        """Whether this was measured, by all banks: a kernel can tell what it likes to one that its firmware never extends."""
        return all(digest(bank, measured) == came for bank, came in self.digests.items())


class Log:
    def __init__(self, banks: List[str], events: List[Event]) -> None:
        self.banks, self.events = banks, events
        self.locality = 0  # of the TPM's start
        self.extending: Dict[int, List[Event]] = {pcr: [] for pcr in range(PCR_COUNT)}
        for event in events:
            if event.kind != NO_ACTION:
                self.extending[event.pcr].append(event)
            elif event.pcr == 0 and event.data[:16] == LOCALITY and len(event.data) == 17:
                self.locality = event.data[16]

    def of_pcr(self, pcr: int) -> List[Event]:
        """What extended this PCR. No kind of event counts here but EV_NO_ACTION: no PCR has the kind."""
        return self.extending[pcr]


def digest(bank: str, measured: bytes) -> bytes:
    return HASHES[bank](measured).digest()


def bank_name(number: int) -> str:
    return BANKS.get(number, f"{number:#06x}")


# ---- the reader


def read_log(log: bytes) -> Log:
    fields = Fields(log, "the log", "little")
    sizes = read_first_event(fields)
    events: List[Event] = []
    while not fields.is_unused():
        if len(events) == EVENTS:
            raise BadInput(f"the log has more than {EVENTS} events")
        events.append(read_event(fields, len(events) + 1, sizes))
    return Log([bank_name(bank) for bank in sizes], events)


def read_first_event(fields: Fields) -> Dict[int, int]:
    """The event in the older form that tells the banks: the size of a digest for each."""
    pcr, kind = fields.number(4), fields.number(4)
    fields.take(20)
    told = Fields(fields.take(fields.number(4)), "the log's first event", "little")
    if pcr != 0 or kind != NO_ACTION or told.take(16) != b"Spec ID Event03\0":
        raise BadInput("the log is none of the crypto-agile form")
    told.take(8)  # the platform's class, the profile's version, the size of a native number
    sizes: Dict[int, int] = {}
    for _ in range(told.number(4)):
        bank, size = told.number(2), told.number(2)
        if bank in sizes or SIZES.get(bank_name(bank), size) != size:
            raise BadInput(f"the log's first event has the bank {bank_name(bank)} twice, or with another size")
        sizes[bank] = size
    told.take(told.number(1))  # the vendor's
    told.end()
    if not sizes:
        raise BadInput("the log's first event has no bank")
    return sizes


def read_event(fields: Fields, number: int, sizes: Dict[int, int]) -> Event:
    pcr, kind, count = fields.number(4), fields.number(4), fields.number(4)
    digests: Dict[str, bytes] = {}
    for _ in range(count):
        bank = fields.number(2)
        if bank not in sizes or bank_name(bank) in digests:
            raise BadInput(f"event {number} of the log has the bank {bank_name(bank)}, which its first event lacks, or twice")
        digests[bank_name(bank)] = fields.take(sizes[bank])
    if len(digests) != len(sizes) or (pcr >= PCR_COUNT and kind != NO_ACTION):
        raise BadInput(f"event {number} of the log lacks a bank's digest, or is of no PCR")
    return Event(number, pcr, kind, digests, fields.take(fields.number(4)))


# ---- replay


def extended(bank: str, value: bytes, digests: Iterable[bytes]) -> bytes:
    make = HASHES[bank]
    for each in digests:
        value = make(value + each).digest()
    return value


def replayed(log: Log, bank: str, pcr: int) -> bytes:
    value = (b"\xff" if 17 <= pcr <= 22 else b"\0") * SIZES[bank]  # 17 to 22 wait for a launch of a measured environment
    if pcr == 0:
        value = value[:-1] + bytes([log.locality])
    return extended(bank, value, (event.digests[bank] for event in log.of_pcr(pcr)))


def is_replayed(log: Log, bank: str, pcr: int, value: bytes) -> bool:
    """Whether a PCR has what the log says. PCR 5 may also have the firmware's end, tried up to eight times."""
    wanted = replayed(log, bank, pcr)
    if pcr == 5:
        called, failed, done = (digest(bank, text) for text in (EXIT_CALLED, EXIT_FAILED, EXIT_DONE))
        ends = [[called, failed] * tries + [called, done] for tries in range(8)]
        return value in [wanted, *(extended(bank, wanted, end) for end in ends)]
    return value == wanted
