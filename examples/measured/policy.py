"""What may have been booted: the policy, and the known files that it names."""

import contextlib
import re
import tomllib
from pathlib import Path
from typing import Callable, Dict, FrozenSet, Iterable, List, NamedTuple, Set, Tuple

from entry import Entry, entry_of
from event_log import HASHES, PCR_COUNT, SIZES, STRONG, Event, digest
from known import Digests, Known, KnownSet, application_digests, digest_word, file_digests
from limits import POLICY_BYTES
from reading import BadInput, file_bytes
from tables import Table, named, only, tables, texts, value

KEYS = ["managers", "drivers", "files", "texts", "banks", "digests", "pcr", "machine", "entry"]
# for a key of many parts the reader of TOML takes minutes; where texts and comments are left out, dots stand in keys and numbers alone
TEXTS = re.compile(r"""\"{3}(?:[^\\]|\\.)*?(?:\"{3}|\Z)|'{3}.*?(?:'{3}|\Z)|"(?:[^"\\\n]|\\.)*+"?|'[^'\n]*+'?|\#[^\n]*+""", re.S)
DOTTED = re.compile(r"\.(?:[ \t]*+[\w-]*+[ \t]*+\.){7}")


class Machine(NamedTuple):
    name: str
    ek: str  # the fingerprint of its TPM's endorsement key; empty if none was named


class Policy:
    """With digests of the banks that a log has."""

    def __init__(self, table: Table, name: str, folder: Path, banks: List[str]) -> None:
        self.name, self.folder, self.banks = name, folder, banks
        only(table, KEYS, "the policy")
        self.entries = [entry_of(it, f"the policy's entry {i}") for i, it in enumerate(tables(table, "entry", "the policy"), 1)]
        words = {key: texts(table, key, "the policy") for key in ("managers", "drivers", "files", "texts")}
        if not words["managers"] or not self.entries:
            raise BadInput("the policy has no managers, or no entry")
        applications = {*words["managers"], *words["drivers"]}
        files = dict.fromkeys([name for entry in self.entries for name in entry.files])
        self.digests = digests_in(value(table, "digests", dict, "the policy", {}), applications, {*files, *words["files"]})
        loaded = {key: KnownSet([self.known(word, key, application_digests) for word in words[key]]) for key in ("managers", "drivers")}
        self.managers, self.drivers = loaded["managers"], loaded["drivers"] if "drivers" in table else None
        self.files = {name: self.known(name, "entries", file_digests) for name in files}
        others = [self.files.get(word) or self.known(word, "files", file_digests) for word in words["files"]]
        self.readable = KnownSet([*self.files.values(), *others])
        self.pcrs = pcrs_of(value(table, "pcr", dict, "the policy", {}))
        self.texts = {word.encode() for word in words["texts"]}
        self.wanted_banks = banks_of(table)
        self.machines = machines_of(table) if "machine" in table else None
        self.by_title: Dict[bytes, List[Entry]] = {}
        self.by_choice: Dict[tuple, List[Entry]] = {}
        for entry in self.entries:
            self.by_title.setdefault(entry.title.encode(), []).append(entry)
            self.by_choice.setdefault((entry.title.encode(), *entry.measured_lines), []).append(entry)

    def known(self, word: str, key: str, made: Callable[[Path, Iterable[str]], Digests]) -> Known:
        told = digest_word(word, f"the policy's {key}")
        wanted = dict([told]) if told else self.digests.get(word, {})
        here = {bank: came for bank, came in wanted.items() if bank in self.banks}
        if wanted and (told or not (self.folder / word).exists()):
            return Known(word, here, False)
        held = made(self.folder / word, {*self.banks, *wanted} & HASHES.keys())
        if any(held.get(bank, came) != came for bank, came in wanted.items()):
            raise BadInput(f"{self.folder / word} has another digest than the policy says")
        return Known(word, {bank: held[bank] for bank in self.banks}, True)

    def is_empty(self, name: str) -> bool:
        told = self.files[name].digests
        return bool(told) and all(came == digest(bank, b"") for bank, came in told.items())


class Kernels:
    """Those of entries that are EFI applications too, by what a firmware measures of them."""

    def __init__(self, policy: Policy) -> None:
        made: Dict[str, FrozenSet[Tuple[str, bytes]]] = {}
        for name in {entry.files[0] for entry in policy.entries if entry.files and policy.files[entry.files[0]].is_here}:
            with contextlib.suppress(BadInput):
                made[name] = frozenset(application_digests(policy.folder / name, policy.banks).items())
        self.titles: Dict[FrozenSet[Tuple[str, bytes]], Dict[bytes, str]] = {}  # of entries that have such a kernel, and its name there
        for entry in policy.entries:
            if entry.files and entry.files[0] in made:
                self.titles.setdefault(made[entry.files[0]], {}).setdefault(entry.title.encode(), entry.files[0])

    def of(self, event: Event) -> Dict[bytes, str]:
        return self.titles.get(frozenset(event.digests.items()), {})


def read_toml(path: Path, what: str) -> Table:
    try:
        held = file_bytes(path, POLICY_BYTES).decode()
        if DOTTED.search(TEXTS.sub("", held)):
            raise BadInput(f"{what} has a key of more than eight parts")
        return tomllib.loads(held)
    except (ValueError, RecursionError) as error:
        raise BadInput(f"{what} is no TOML: {error}") from None


def read_policy(path: Path, folder: Path, banks: List[str]) -> Policy:
    return Policy(read_toml(path, "the policy"), str(path), folder, banks)


# ---- its tables


def pcrs_of(table: Table) -> Dict[int, Dict[str, List[bytes]]]:
    """The values that a PCR may have, by its number and the bank."""
    values: Dict[int, Dict[str, List[bytes]]] = {}
    for key in table:
        if not re.fullmatch("[0-9]{1,3}", key) or int(key) >= PCR_COUNT:
            raise BadInput(f"the policy: pcr is no table of PCR numbers, it has {key!r}")
        if int(key) in values:
            raise BadInput(f"the policy's pcr has PCR {int(key)} twice")
        values[int(key)] = {}
        for word in texts(table, key, "the policy's pcr"):
            bank, value = digest_of(word, f"the policy's pcr {key}")
            values[int(key)].setdefault(bank, []).append(value)
    return values


def digest_of(word: str, where: str) -> Tuple[str, bytes]:
    told = digest_word(word, where)
    if told is not None:
        return told
    raise BadInput(f"{where} has {word[:140]!r}, which is no digest in hexadecimal digits")


def banks_of(table: Table) -> List[str]:
    banks = texts(table, "banks", "the policy")
    unknown = [bank for bank in banks if bank not in SIZES]
    if unknown:
        raise BadInput(f"the policy's banks have {unknown[0]!r}; it may be {', '.join(SIZES)}")
    if "banks" in table and not any(bank in STRONG for bank in banks):
        raise BadInput("the policy's banks have none that a verdict may rest on: SHA-1 is too weak")
    return banks


def machines_of(table: Table) -> Dict[str, Machine]:
    """By their keys' fingerprints. One machine may have several keys; one TPM is in one machine."""
    machines: Dict[str, Machine] = {}
    owners: Dict[str, str] = {}
    for number, it in enumerate(tables(table, "machine", "the policy"), 1):
        name = named(it, "name", f"the policy's machine {number}")
        where = f"the policy's machine {number}, {name!r},"
        only(it, ["name", "key", "ek"], where)
        key = fingerprint_of(named(it, "key", where), f"{where} key")
        ek = fingerprint_of(value(it, "ek", str, where, ""), f"{where} ek") if "ek" in it else ""
        if key in machines:
            raise BadInput(f"{where} has another machine's key")
        if ek and owners.setdefault(ek, name) != name:
            raise BadInput(f"{where} has the endorsement key of {owners[ek]!r}")
        machines[key] = Machine(name, ek)
    return machines


def fingerprint_of(word: str, where: str) -> str:
    if not re.fullmatch("[0-9a-fA-F]{64}", word):
        raise BadInput(f"{where} is {word[:80]!r}, which is none of 32 bytes, as sha256sum tells it")
    return word.lower()


def digests_in(table: Table, applications: Set[str], files: Set[str]) -> Dict[str, Digests]:
    """By names: of applications what a firmware measures of them, of other files what sha256sum says."""
    digests: Dict[str, Digests] = {}
    for name in table:
        where = f"the policy's digests of {name!r}"
        if name not in applications | files:
            raise BadInput(f"the policy's digests have {name!r}, which is no file of the policy")
        if name in applications & files:
            raise BadInput(f"{where} would be of an application and of a file")
        words = [table[name]] if isinstance(table[name], str) else texts(table, name, "the policy's digests")
        held = [digest_of(word, where) for word in words]
        if not held or len(dict(held)) != len(held):
            raise BadInput(f"{where} are none, or two of one bank")
        digests[name] = dict(held)
    return digests
