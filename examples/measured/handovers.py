"""What the boot manager handed over: each description with the image that it and the known files give."""

from typing import Dict, List, NamedTuple, Tuple

from description import Described, read_description
from entry import Entry
from event_log import Event
from image_digest import image_digest
from known import Known
from limits import HANDOVERS, TOLD_BYTES
from policy import Policy
from reading import BadInput, Fault, fault, shown
from texts import HANDOVER_BYTES, HANDOVER_TAG, MAP_TAG, SMBIOS_TAG, Attempt, tagged

# in their order, by the tables of a description that tell their sizes
COPIED = {"efi": MAP_TAG, "smbios": SMBIOS_TAG}


class Told(NamedTuple):
    """A handover's event, and what was measured before it for a kernel that gets a copy."""

    event: Event
    copied: Tuple[Tuple[str, bytes], ...]  # by the description's tables


class Handover(NamedTuple):
    event: Event
    described: Described  # as it was handed over, with all bytes
    entry: Entry
    image: bytes


def gathered(events: List[Event]) -> List[Told]:
    made: List[Told] = []
    copied: Dict[str, bytes] = {}
    for event in events:
        name = next((it for it, tag in COPIED.items() if tagged(event, tag) is not None), None)
        if name is None:
            made.append(Told(event, tuple(copied.items())))
            copied = {}
            continue
        held = event.data[8:]
        # what is as long as what a handover measures might be one, of a kernel that nobody knows
        if not event.has(held) or len(held) == HANDOVER_BYTES or not 0 < len(held) <= TOLD_BYTES:
            fault(f"{event.name}: it is no map of UEFI's and no tables of SMBIOS's")
        if name in copied or "smbios" in copied:
            fault(f"{event.name}: UEFI's map and SMBIOS's tables are not in their order before a handover")
        copied[name] = held
    if copied:
        fault("PCR 12: nothing was handed over behind a map of UEFI's or tables of SMBIOS's")
    return made


def handovers(listed: List[Told], policy: Policy, chosen: Attempt, read: List[Event]) -> List[Handover]:
    if not listed:
        fault("PCR 12: nothing was handed over")
    if len(listed) > HANDOVERS:
        fault(f"PCR 12: {len(listed)} handovers were measured, more than {HANDOVERS}")
    made: Dict[Tuple[bytes, object], Handover] = {}
    for told in listed:
        key = (told.event.data, told.copied)
        if key not in made:
            made[key] = handover(told, policy, chosen, read)
        if not told.event.has(made[key].image):
            why = f"is not the image of its description with the known files, {made[key].image.hex()}"
            fault(f"{told.event.name}: what was handed over {why}")
    return [made[it.event.data, it.copied]._replace(event=it.event) for it in listed]


def handover(told: Told, policy: Policy, chosen: Attempt, read: List[Event]) -> Handover:
    described = handed_over(told)
    try:
        entry = chosen_entry(described, policy, chosen, read)
        image = image_digest(described, [policy.folder / name for name in entry.files])
    except Fault as wrong:
        fault(f"{told.event.name}: {wrong}")
    return Handover(told.event, described, entry, image)


def handed_over(told: Told) -> Described:
    text = tagged(told.event, HANDOVER_TAG)
    if text is None:
        fault(f"{told.event.name}: it is no handover of the boot manager, by its tag and size")
    try:
        return completed(read_description(text), dict(told.copied))
    except (BadInput, Fault) as wrong:
        fault(f"{told.event.name}: its description is refused: {wrong}")


def completed(described: Described, copied: Dict[str, bytes]) -> Described:
    """With the bytes of what the description tells the sizes of. A Linux image has of UEFI's map its size and address alone."""
    sizes = described.firmware.sizes()
    if described.protocol != "multiboot2":
        if copied:
            fault("a Linux kernel gets no copy of UEFI's map or of SMBIOS's tables, and one was measured")
        copied = {name: bytes(size) for name, size in sizes.items()}
    if {name: len(held) for name, held in copied.items()} != sizes:
        fault("UEFI's map or SMBIOS's tables that were measured before it have not the size that it tells")
    return described._replace(firmware=described.firmware.with_bytes(copied))


def chosen_entry(described: Described, policy: Policy, chosen: Attempt, read: List[Event]) -> Entry:
    """The policy's entry that was handed over: it was chosen last, and its files were read last. That holds of each handover, not
    of the last one alone: a kernel that was handed over before might have run, and have measured what came after it."""
    entries = policy.by_choice.get((chosen.title, *chosen.lines), [])
    if described.title not in [it.described_title for it in entries]:
        fault(f"{shown(described.title.encode())} was handed over, and {shown(chosen.title)} was chosen last")
    with_lines = [it for it in entries if it.lines == [described.line, *(module.line for module in described.modules)]]
    if not with_lines:
        fault(f"its lines are not those that were measured: {shown(described.line.encode())}")
    of_form = [it for it in with_lines if it.protocol == described.protocol and has_files(it, policy, described)]
    if not of_form:
        fault(f"the policy's entry has another protocol than {described.protocol}, or another number of files")
    of_files = [it for it in of_form if were_read([policy.files[name] for name in it.files], read)]
    if not of_files:
        fault(f"its files are not those that were read last: {', '.join(of_form[0].files)}")
    return next((it for it in of_files if all(policy.files[name].is_here for name in it.files)), of_files[0])


def were_read(known: List[Known], read: List[Event]) -> bool:
    return len(read) >= len(known) and all(it.is_of(event) for it, event in zip(known, read[-len(known) :]))


def has_files(entry: Entry, policy: Policy, described: Described) -> bool:
    """As many as are described; which ones, their digests alone tell. Ramdisks that are all empty are none."""
    others = entry.files[1:]
    if not entry.modules and all(policy.is_empty(name) for name in others):
        others = []
    return len(others) == len(described.modules) + len(described.ramdisks)
