"""Texts in an event log. A text counts only if its digests were measured: then nothing else was, no program and no handover."""

import struct
from typing import List, NamedTuple, Optional, Tuple

from event_log import Event, Log
from reading import fault, shown

SEPARATORS = [bytes(4), b"\xff" * 4]
VERIFY_TAG, TEXT_TAG, HANDOVER_TAG = 0x62630004, 0x62630008, 0x6263000C  # of the boot manager's events in PCR 4, 8 and 12
MAP_TAG, SMBIOS_TAG = 0x62630011, 0x6263000D  # of those in PCR 12 that have what a Multiboot2 kernel gets a copy of
VERIFIES, VERIFIED = b"kernel_verify: begin\0", b"kernel_verify: end\0"
LONGEST = 256  # of a firmware's
GRUB = [b"grub_cmd: ", b"kernel_cmdline: ", b"module_cmdline: "]  # GRUB measures what follows, without the zero byte
TEXTS = 8  # the PCR of the boot manager's
CHOICE, KERNEL_LINE, MODULE_LINE = b"bootcore_choice: ", b"kernel_cmdline: ", b"module_cmdline: "
HANDOVER_BYTES = 32  # that are measured of a handover: nothing else of that length is taken there, but a known text


def tagged(event: Event, tag: int) -> Optional[bytes]:
    """What a TCG_PCClientTaggedEvent of the boot manager's holds. Its tag and size are in no PCR, so they have one form."""
    head, held = event.data[:8], event.data[8:]
    return held if head == struct.pack("<II", tag, len(held)) else None


def is_printable(text: bytes) -> bool:
    return all(0x20 <= byte < 0x7F for byte in text)


def is_separator(event: Event) -> bool:
    return event.data in SEPARATORS and event.has(event.data)


def firmware_text(event: Event) -> Optional[bytes]:
    """What the firmware says of itself in PCR 2 or 4. A program's bytes are not all printable, so it is none."""
    text = event.data.rstrip(b"\0")
    if not 0 < len(text) <= LONGEST or not is_printable(text):
        return None
    return text if event.has(event.data) or (event.data in (text, text + b"\0") and event.has(text)) else None


class Applications(NamedTuple):
    """Of PCR 4: what was started, with the firmware's texts, and what was verified alone."""

    started: List[Event]
    verified: List[Event]


def parted(events: List[Event]) -> Applications:
    """Where Secure Boot is on, the boot manager has each kernel verified, and who does that measures it like a program that is
    started. What stands between the two texts was not: only who runs already can measure the first of them."""
    made, is_open = Applications([], []), False
    for event in events:
        text = tagged(event, VERIFY_TAG)
        if text not in (VERIFIES, VERIFIED) or not event.has(text):
            (made.verified if is_open else made.started).append(event)
        elif is_open == (text == VERIFIES):
            fault(f"{event.name}: a kernel's verification does not begin or end there")
        else:
            is_open = not is_open
    if is_open:
        fault("PCR 4: a kernel's verification has no end")
    return made


def grub_text(event: Event) -> Optional[bytes]:
    """What GRUB has in PCR 8. The texts of the boot manager here are measured with a zero byte, so none of them is one."""
    text, end = event.data[:-1], event.data[-1:]
    for word in GRUB:
        if text.startswith(word) and end == b"\0" and b"\0" not in text and event.has(text[len(word) :]):
            return text
    return None


def options_text(event: Event) -> Optional[bytes]:
    """What systemd-boot and systemd-stub have in PCR 12: a program's options, in UTF-16. If it is as long as what is measured of a
    handover, it ends in one zero: no image is known with such a digest, and only a text that the policy knows passes."""
    if len(event.data) % 2 or not event.has(event.data):
        return None
    try:
        text = event.data.decode("utf-16-le")
    except UnicodeDecodeError:
        return None
    told = text.rstrip("\0")
    return None if len(event.data) == HANDOVER_BYTES and text != told + "\0" else told.encode()


# ---- the boot manager's: which entries it attempted, with which lines


class Attempt(NamedTuple):
    """An entry that was attempted, by the texts that were measured."""

    event: Event
    title: bytes
    lines: List[bytes]


class Choices(NamedTuple):
    attempts: List[Attempt]
    others: List[Tuple[Event, bytes]]  # GRUB's

    def is_late(self, event: Event) -> bool:
        return bool(self.attempts) and event.number > self.attempts[0].event.number


def choices(log: Log) -> Choices:
    made = Choices([], [])
    for event in log.of_pcr(TEXTS):
        other = grub_text(event)
        if other is not None:
            made.others.append((event, other))
        else:
            take_text(event, made.attempts)
    return made


def take_text(event: Event, made: List[Attempt]) -> None:
    text = tagged(event, TEXT_TAG)
    if text is None:
        fault(f"{event.name}: {shown(event.data)} is no text of the boot manager, by its tag and size")
    if not event.has(text):
        fault(f"{event.name}: its text {shown(text)} is not what was measured")
    word = next((it for it in (CHOICE, KERNEL_LINE, MODULE_LINE) if text.startswith(it)), None)
    if word is None or text.find(b"\0") != len(text) - 1:
        fault(f"{event.name}: {shown(text)} is no text of the boot manager")
    told = text[len(word) : -1]
    if word == CHOICE:
        made.append(Attempt(event, told, []))
    elif not made or (word == KERNEL_LINE) != (not made[-1].lines):
        fault(f"{event.name}: {shown(text)} is not the text that follows there")
    else:
        made[-1].lines.append(told)
