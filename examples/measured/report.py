"""The verdict in words, and as JSON."""

from argparse import Namespace
from typing import Any, Dict, Iterator, List, NamedTuple, Optional

from event_log import HASHES, read_log
from limits import LOG_BYTES
from pcr_values import Values, read_values
from policy import Machine, Policy, read_policy
from quote import Quote, check_counts, check_quote, quoted_values, read_quote
from reading import fault, file_bytes, shown
from replay import WANTED, listed, others_that_differ
from signature import Key, check_signature, read_key, read_signature
from verdict import Verdict, allowed

MOST_REMARKS = 100
NO_MACHINE = Machine("", "")


class Vouched(NamedTuple):
    """Who says what the PCRs are."""

    values: Values
    quote: Optional[Quote]
    key: Optional[Key]  # the one that signed it
    machine: Machine  # whose key that is, if the policy says it


class Report(NamedTuple):
    found: Verdict
    vouched: Vouched
    key_name: str


def report(words: Namespace) -> Report:
    """All inputs are read before anything is judged."""
    log = read_log(file_bytes(words.log, LOG_BYTES))
    banks = [bank for bank in log.banks if bank in HASHES]
    policies = [read_policy(path, folder, banks) for path, folder in zip(words.policy, words.known)]
    vouched = vouched_values(words, policies)
    return Report(allowed(log, vouched.values, policies), vouched, str(words.key))


def vouched_values(words: Namespace, policies: List[Policy]) -> Vouched:
    quote = read_quote(words.quote) if words.quote else None
    values = read_values(words.pcrs)
    if quote is None:
        return Vouched(values, None, None, NO_MACHINE)
    signature = read_signature(words.signature) if words.signature else None
    key = read_key(words.key) if words.key else None
    check_quote(quote, words.nonce, values, signature)
    machine = NO_MACHINE
    if signature and key:
        check_signature(quote.message, signature, key, words.key)
        machine = machine_of(key, policies, words.machine)
    check_counts(quote, words.resets, words.restarts)
    return Vouched(quoted_values(quote, values), quote, key, machine)


def machine_of(key: Key, policies: List[Policy], wanted: Optional[str]) -> Machine:
    """Where one policy has machines, the key is one of theirs: a policy beside it that has none lets no other in."""
    sides = [policy.machines for policy in policies if policy.machines is not None]
    machine = next((each[key.fingerprint] for each in sides if key.fingerprint in each), NO_MACHINE)
    if sides and not machine.name:
        fault(f"the key is no machine's of the policy, by its fingerprint {key.fingerprint}")
    if wanted is not None and machine.name != wanted:
        fault(f"the key is {machine.name or 'no machine'}'s, not {wanted}'s")
    return machine


# ---- in words


def lines_of(report: Report) -> Iterator[str]:
    found, last = report.found, report.found.handovers[-1]
    described, entry = last.described, last.entry
    told = [("booted", f"{shown(described.title.encode())} by the protocol {described.protocol}")]
    told += [("line", shown(described.line.encode())), ("kernel", entry.files[0])]
    if entry.modules:
        lines = [shown(module.line.encode()) for module in described.modules]
        told += [("module", f"{name} with the line {line}") for name, line in zip(entry.files[1:], lines)]
    else:
        told += [("ramdisk", name) for name in entry.files[1:]]
    usable = sum(region.length for region in described.regions if region.kind == "usable")
    told += [("machine", f"{len(described.regions)} ranges of memory, {usable} bytes usable"), ("image", last.image.hex())]
    told += [("manager", ", ".join(found.managers)), *([("drivers", ", ".join(found.drivers))] if found.drivers else [])]
    told += [("policy", found.policy.name), ("by", by(report))]
    told += [*(("partly", what) for what in found.partly), *(("remark", remark) for remark in remarks(found, report.vouched.values))]
    yield from (f"{word:9} {what}" for word, what in told)


def by(report: Report) -> str:
    quote, machine = report.vouched.quote, report.vouched.machine.name
    told = f"PCR {listed(WANTED[:-1])} and {WANTED[-1]} of {listed(report.vouched.values)}"
    if quote is None:
        return told + "; nobody has signed their values"
    told += f", quoted with the nonce {quote.nonce.hex()} after {quote.resets} resets and {quote.restarts} restarts of the TPM"
    if report.vouched.key is None:
        return told + "; the signature was not checked"
    return told + f"; the signature is by {report.key_name}" + (f", the key of {machine}" if machine else "")


def remarks(found: Verdict, values: Values) -> List[str]:
    made = []
    if len(found.handovers) > 1:
        made.append(f"the handover was measured {len(found.handovers)} times; the last one counts")
    unjudged = [pcr for pcr in (0, 7) if pcr not in found.policy.pcrs]
    if unjudged:
        made.append(f"PCR {listed(unjudged)}: any firmware and any Secure Boot, for the policy has no values of them")
    differ = others_that_differ(found.log, values)
    if differ:
        made.append(f"PCR {listed(differ)}: not what the log gives; what ran later may have measured there")
    attempted = dict.fromkeys(shown(attempt.title) for attempt in found.attempts[:-1])
    made += [*(f"{title} was attempted before" for title in attempted), *found.said]
    left_out = [f"{len(made) - MOST_REMARKS} remarks more"] if len(made) > MOST_REMARKS else []
    return made[:MOST_REMARKS] + left_out


# ---- as JSON


def told_of(report: Report) -> Dict[str, Any]:
    found, vouched, last = report.found, report.vouched, report.found.handovers[-1]
    told: Dict[str, Any] = {
        "title": last.entry.title,
        "protocol": last.described.protocol,
        "line": last.described.line,
        "modules": [module.line for module in last.described.modules],
        "files": last.entry.files,
        "image": last.image.hex(),
        "managers": found.managers,
        "drivers": found.drivers,
        "policy": found.policy.name,
        "partly": found.partly,
        "remarks": remarks(found, vouched.values),
        "pcrs": {bank: {str(pcr): it.hex() for pcr, it in values.items()} for bank, values in vouched.values.items()},
        "quote": None,
    }
    if vouched.quote is not None:
        told["quote"] = {key: getattr(vouched.quote, key) for key in ("clock", "resets", "restarts")}
        told["quote"]["nonce"] = vouched.quote.nonce.hex()
        told["quote"]["key"] = vouched.key.fingerprint if vouched.key else None
        told["quote"].update(machine=vouched.machine.name or None, ek=vouched.machine.ek or None)
    return told
