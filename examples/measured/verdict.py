"""What a log and PCR values say was booted, and whether the policy allows it."""

from typing import Dict, List, NamedTuple, Optional

from event_log import Event, Log
from handovers import Handover, gathered, handovers
from known import KnownSet
from pcr_values import Values
from policy import Kernels, Policy
from reading import BadInput, Fault, fault, shown
from replay import DRIVERS, FILES, HANDOVERS, STARTED, check_replay, listed
from texts import Attempt, choices, firmware_text, is_separator, options_text, parted

STARTING = [b"Calling EFI Application from Boot Option", b"Returning from EFI Application from Boot Option"]


class Told:
    """What is told beside the verdict, each once: texts of others, and what is known by digests of some banks alone."""

    def __init__(self, banks: List[str]) -> None:
        self.banks = banks
        self.said: Dict[str, None] = {}
        self.partly: Dict[str, None] = {}

    def say(self, event: Event, text: bytes) -> None:
        self.said[f"PCR {event.pcr} has the text {shown(text)}"] = None

    def know(self, what: str, known: List[str]) -> None:
        lacking = [bank for bank in self.banks if bank not in known]
        if lacking:
            self.partly[f"{what} is known by {listed(bank for bank in self.banks if bank in known)}, not by {listed(lacking)}"] = None


class Verdict(NamedTuple):
    policy: Policy  # that allows it
    log: Log
    handovers: List[Handover]  # the last one counts
    attempts: List[Attempt]
    managers: List[str]
    drivers: List[str]
    said: List[str]  # texts of the firmware and of other boot managers
    partly: List[str]  # what could be another thing in a bank by whose digest it is not known


def allowed(log: Log, values: Values, policies: List[Policy]) -> Verdict:
    """By a policy alone, and not by parts of several. What each bank knows counts before the policies' order."""
    made: List[Verdict] = []
    wrong: List[Exception] = []
    for policy in policies:
        try:
            made.append(verdict(log, values, policy))
        except (BadInput, Fault) as found:
            wrong.append(found)
    if made:
        return min(made, key=lambda it: bool(it.partly))
    why = "; ".join(f"{policy.name}: {it}" for policy, it in zip(policies, wrong)) if len(wrong) > 1 else str(wrong[0])
    raise (BadInput if any(isinstance(it, BadInput) for it in wrong) else Fault)(why)


def verdict(log: Log, values: Values, policy: Policy) -> Verdict:
    check_replay(log, values, policy)
    told = Told(log.banks)
    for pcr, named in policy.pcrs.items():
        told.know(f"PCR {pcr}", list(named))
    drivers = drivers_loaded(log, policy, told)
    applications = parted(log.of_pcr(STARTED))
    managers = started(applications.started, policy, told)
    made = attempts(log, policy, told)
    check_verified(applications.verified, made, policy, told)
    read = files_read(log, policy, told)
    over = handovers(gathered(handover_events(log, policy, told)), policy, made[-1], read)
    return Verdict(policy, log, over, made, managers, drivers, list(told.said), list(told.partly))


# ---- what was loaded and started


def named(event: Event, listed_: Optional[KnownSet], told: Told) -> Optional[str]:
    """The name of what is known; an empty one of a firmware's text or separator."""
    known, text = listed_.of(event) if listed_ else None, firmware_text(event)
    if known is not None:
        told.know(known.name, list(known.digests))
        return known.name
    if text is not None and text not in STARTING:
        told.say(event, text)
    return "" if text is not None or is_separator(event) else None


def strongest(event: Event) -> str:
    return event.digests.get("sha256", max(event.digests.values(), key=len)).hex()


def drivers_loaded(log: Log, policy: Policy, told: Told) -> List[str]:
    """A driver can change whatever the firmware does for who comes after it, the measuring too. So each one must be known, or all
    of them by the value of PCR 2. The kind of an event is in no PCR: what is no text of the firmware is a driver."""
    if policy.drivers is None and DRIVERS in policy.pcrs:
        return []
    names = []
    for event in log.of_pcr(DRIVERS):
        names.append(named(event, policy.drivers, told))
        if names[-1] is None:
            fault(f"{event.name}: a driver was loaded that the policy does not name, with the digest {strongest(event)}")
    return [name for name in names if name]


def started(events: List[Event], policy: Policy, told: Told) -> List[str]:
    """The names of what was started. The kind of an event is in no PCR: so what is no text of the firmware is an application. What
    was started last did not return: the firmware may have programs of its own, which it does not measure."""
    names = []
    for event in events:
        names.append(named(event, policy.managers, told))
        if names[-1] is None:
            fault(f"{event.name}: something was started that the policy does not name, with the digest {strongest(event)}")
    if not names or not names[-1]:
        fault("PCR 4: " + ("the firmware went on behind what was started last" if any(names) else "nothing was started"))
    return [name for name in names if name]


def check_verified(events: List[Event], made: List[Attempt], policy: Policy, told: Told) -> None:
    """A kernel is verified where its entry is attempted: so each is of an attempt, in their order."""
    if not events:
        return
    kernels, left = Kernels(policy), iter(made)
    for event in events:
        names = kernels.of(event)
        if not names:
            fault(f"{event.name}: a kernel was verified that is none of the policy's, with the digest {strongest(event)}")
        name = next((names[attempt.title] for attempt in left if attempt.title in names), None)
        if name is None:
            fault(f"{event.name}: the kernel {min(names.values())} was verified, and it is no attempted entry's, in their order")
        told.said[f"PCR 4 has the kernel {name}, which was verified there"] = None


# ---- what was chosen, and read


def attempts(log: Log, policy: Policy, told: Told) -> List[Attempt]:
    made = choices(log)
    for event, text in made.others:
        check_other(event, text, "GRUB", policy, made.is_late(event))
        told.say(event, text)
    if not made.attempts:
        fault("PCR 8: the boot manager measured no choice")
    for attempt in made.attempts:
        check_attempt(attempt, policy)
    return made.attempts


def check_other(event: Event, text: bytes, by: str, policy: Policy, is_late: bool) -> None:
    if is_late:
        fault(f"{event.name}: {shown(text)} is a text of {by}'s behind those of the boot manager")
    if text not in policy.texts:
        fault(f"{event.name}: {shown(text)} is a text of {by}'s, which was started before; the policy's texts lack it")


def check_attempt(attempt: Attempt, policy: Policy) -> None:
    if (attempt.title, *attempt.lines) in policy.by_choice:
        return
    if attempt.title not in policy.by_title:
        fault(f"{attempt.event.name}: the policy has no entry {shown(attempt.title)}")
    told = ", ".join(map(shown, attempt.lines)) or "none"
    fault(f"{attempt.event.name}: the policy's entry {shown(attempt.title)} has other lines than those measured: {told}")


def files_read(log: Log, policy: Policy, told: Told) -> List[Event]:
    """Known files were read. A path that an event has is in no PCR."""
    for event in log.of_pcr(FILES):
        known = policy.readable.of(event)
        if known is None:
            fault(f"{event.name}: no known file is what was measured; the event's text is {shown(event.data.rstrip(bytes(1)))}")
        told.know(known.name, list(known.digests))
    return log.of_pcr(FILES)


def handover_events(log: Log, policy: Policy, told: Told) -> List[Event]:
    found: List[Event] = []
    for event in log.of_pcr(HANDOVERS):
        other = options_text(event)
        if other is None:
            found.append(event)
        else:
            check_other(event, other, "another boot manager", policy, bool(found))
            told.say(event, other)
    return found
