"""Whether the log is what the TPM was told, in each of its banks."""

from typing import Dict, Iterable, List

from event_log import HASHES, STRONG, Log, digest, is_replayed, replayed
from pcr_values import Values
from policy import Policy
from reading import fault
from texts import SEPARATORS, TEXTS

# whose values the verdict rests on: drivers, what was started, texts, files, handovers
DRIVERS, STARTED, FILES, HANDOVERS = 2, 4, 9, 12
WANTED = [DRIVERS, STARTED, TEXTS, FILES, HANDOVERS]
# these and the firmware's are as the log says; a kernel that runs extends others, which its own log has
COMPARED = [*range(10), HANDOVERS]
SEPARATED = range(8)  # where the profile wants a separator, before anything is booted


def check_replay(log: Log, values: Values, policy: Policy) -> None:
    check_banks(log, values, policy)
    for bank in sorted(log.banks, key=lambda it: it != "sha256"):
        check_bank(log, values[bank], bank)
    for pcr in SEPARATED:
        if any(pcr in each for each in values.values()):
            check_separator(log, pcr)
    for pcr, allowed in policy.pcrs.items():
        check_value(pcr, allowed, values)


def check_banks(log: Log, values: Values, policy: Policy) -> None:
    """Each bank that the TPM has is in the log and among the values: one that either lacks could have been told anything."""
    sides = {"in the log": log.banks, "among the PCR values": list(values)}
    if policy.wanted_banks:
        sides["in the policy"] = policy.wanted_banks
    else:
        for where, banks in sides.items():
            if "sha256" not in banks:
                fault(f"the bank sha256 is not {where}, only {listed(banks)}; the policy names no banks")
    for here, banks in sides.items():
        for there, others in sides.items():
            alone = [bank for bank in banks if bank not in others]
            if alone:
                fault(f"the bank {alone[0]} is {here} and not {there}: all banks that the TPM has are wanted in both")
    unknown = [bank for bank in log.banks if bank not in HASHES]
    if unknown:
        fault(f"the bank {unknown[0]} can't be replayed here")


def listed(words: Iterable[object]) -> str:
    return ", ".join(map(str, words)) or "none"


def check_bank(log: Log, values: Dict[int, bytes], bank: str) -> None:
    for pcr in WANTED:
        if pcr not in values:
            fault(f"PCR {pcr} of {bank} is not among the PCR values")
    differ = [pcr for pcr in COMPARED if pcr in values and not is_replayed(log, bank, pcr, values[pcr])]
    for pcr in differ:
        if not any(values[pcr]):
            fault(f"PCR {pcr} of {bank} is zero: since its reset the TPM was told nothing there, and the log says otherwise")
    if differ:
        why = "an event there is missing, added, changed or in another place"
        fault(f"PCR {listed(differ)} of {bank} is not what the log gives: {why}")


def check_separator(log: Log, pcr: int) -> None:
    """One, and each bank was told of it: an event that is one in a single bank counts as a second."""
    marks = {(bank, digest(bank, it)) for bank in log.banks for it in SEPARATORS}
    count = sum(not marks.isdisjoint(event.digests.items()) for event in log.of_pcr(pcr))
    if count > 1:
        fault(f"PCR {pcr}: there are {count} separators, so the log is of {count} boots: the TPM was not reset between them")
    if not any(event.has(it) for event in log.of_pcr(pcr) for it in SEPARATORS):
        fault(f"PCR {pcr}: there is no separator, which a firmware measures before it boots anything")


def check_value(pcr: int, allowed: Dict[str, List[bytes]], values: Values) -> None:
    for bank in allowed:
        if bank in values and pcr not in values[bank]:
            fault(f"PCR {pcr} of {bank} is not among the PCR values")
        if bank in values and values[bank][pcr] not in allowed[bank]:
            fault(f"PCR {pcr} of {bank} has a value that the policy does not name, {values[bank][pcr].hex()}")
    if not any(bank in values for bank in allowed if bank in STRONG):
        fault(f"PCR {pcr}: the policy names no value of {listed(values)}")


def others_that_differ(log: Log, values: Values) -> List[int]:
    """For a remark: PCRs that the verdict does not rest on."""
    others = [(bank, pcr) for bank in values for pcr in values[bank] if pcr not in COMPARED]
    return sorted({pcr for bank, pcr in others if replayed(log, bank, pcr) != values[bank][pcr]})
