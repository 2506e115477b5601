"""The next boot of a machine, by the log of an earlier one, the files as they will be, and an entry that is chosen at once. The log is
believed: who has no verdict on that boot has no reason to."""

from pathlib import Path
from typing import Dict, Iterator, List, NamedTuple, Optional

from description import Described, written
from entry import PROGRAM, Entry, entry_lines, entry_of
from event_log import HASHES, Event, Log, digest, read_log, replayed
from handovers import Told, gathered, handed_over
from image_digest import image_digest
from known import Digests, application_digests, file_digests, spelled
from limits import LOG_BYTES
from policy import read_toml
from reading import BadInput, Fields, fault, file_bytes, shown
from replay import DRIVERS, FILES, HANDOVERS, STARTED, listed
from tables import array, tables, text_value
from texts import CHOICE, KERNEL_LINE, MODULE_LINE, TEXTS, VERIFIED, VERIFIES
from texts import Choices, choices, firmware_text, is_separator, options_text, parted

FIRMWARE = [0, 7]  # its code, Secure Boot: a policy names their values
SEALED = [STARTED, TEXTS, FILES]
MENU, ENTRIES = "bootcore/menu.txt", "loader/entries/*.[cC][oO][nN][fF]"
FILE_PATH = b"\4\4"  # the type and the subtype of such a node of a device path


class Boot(NamedTuple):
    """An earlier one."""

    name: str
    log: Log
    made: Choices
    over: Told  # the last handover
    described: Described


def read_boot(path: Path) -> Boot:
    log = read_log(file_bytes(path, LOG_BYTES))
    if not set(log.banks) <= HASHES.keys():
        raise BadInput(f"{path} has a bank that can't be replayed here, of {listed(log.banks)}")
    made = choices(log)
    over = gathered([event for event in log.of_pcr(HANDOVERS) if options_text(event) is None])
    if not made.attempts or not over:
        raise BadInput(f"{path} has no choice in PCR 8, or no handover in PCR 12")
    return Boot(str(path), log, made, over[-1], handed_over(over[-1]))


def entry_in(path: Path, title: Optional[str]) -> Entry:
    """Of a policy, or of another text with such a table."""
    made = [entry_of(it, f"an entry of {path}") for it in tables(read_toml(path, str(path)), "entry", str(path))]
    found = [it for it in made if title in (None, it.title) and it.protocol != PROGRAM]
    if len(found) != 1:
        raise BadInput(f"{path} has {len(found)} such entries that are handed over, where one is wanted: --title chooses")
    return found[0]


# ---- what an event tells of a file


def path_of(event: Event) -> str:
    name = text_of(event.data.rstrip(b"\0")).replace("\\", "/").strip("/")
    if not name or ".." in name.split("/"):
        raise BadInput(f"{event.name}: {shown(event.data)} is no path in a folder")
    return name


def text_of(told: bytes) -> str:
    try:
        return told.decode()
    except UnicodeDecodeError:
        raise BadInput(f"the log has a text that is no UTF-8, and a policy can't have it: {shown(told)}") from None


def loaded_from(event: Event) -> Optional[str]:
    """The file's path in UEFI_IMAGE_LOAD_EVENT, if there is one: an option ROM has none."""
    fields = Fields(event.data, "where an application was loaded from", "little", 24)
    parts = []
    try:
        nodes = Fields(fields.take(fields.number(8)), fields.what, "little")
        while nodes.left:
            kind = nodes.take(2)
            held = nodes.take(nodes.number(2) - 4)
            parts += [held.decode("utf-16-le").rstrip("\0")] if kind == FILE_PATH else []
        return path_of(event._replace(data="/".join(parts).encode()))
    except (BadInput, UnicodeError):
        return None


# ---- the boot


class Next:
    """Its events, with what a policy says of them; and why some of it is not known."""

    def __init__(self, boot: Boot, folder: Path, entry: Entry) -> None:
        self.boot, self.folder, self.entry, self.banks = boot, folder, entry, boot.log.banks
        self.files = [folder / name for name in entry.files]
        self.events: List[Event] = []
        self.words: Dict[str, List[str]] = {"managers": [], "drivers": [], "files": [], "texts": []}
        self.digests: Dict[str, Digests] = {}  # of what has no file here
        self.unknown: Dict[str, str] = {}
        self.image = b""
        for step in (self.load, self.choose, self.read, self.hand_over):
            step()

    def measure(self, pcr: int, digests: Digests) -> None:
        self.events.append(Event(len(self.events) + 1, pcr, 0, digests, b""))

    def measure_bytes(self, pcr: int, held: bytes) -> None:
        self.measure(pcr, {bank: digest(bank, held) for bank in self.banks})

    def before(self, pcr: int) -> List[Event]:
        """The first choice: then the firmware and others were at work, and the menu was read."""
        return [event for event in self.boot.log.of_pcr(pcr) if event.number < self.boot.made.attempts[0].event.number]

    def load(self) -> None:
        for key, pcr in (("drivers", DRIVERS), ("managers", STARTED)):
            for event in self.before(pcr):
                is_text = firmware_text(event) is not None or is_separator(event)
                self.measure(pcr, event.digests if is_text else self.application(event, key))
        if parted(self.boot.log.of_pcr(STARTED)).verified:
            self.measure_bytes(STARTED, VERIFIES)
            self.measure(STARTED, application_digests(self.files[0], self.banks))
            self.measure_bytes(STARTED, VERIFIED)

    def application(self, event: Event, key: str) -> Digests:
        name = loaded_from(event)
        if name is not None and (self.folder / name).is_file():
            came = application_digests(self.folder / name, self.banks)
        else:
            name, came = f"{key[:-1]} {len(self.words[key]) + 1}", event.digests
            self.digests[name] = came
        self.words[key].append(name)
        return came

    def choose(self) -> None:
        for event, text in self.boot.made.others:
            self.measure(TEXTS, event.digests)
            self.words["texts"].append(text_of(text))
        self.measure_bytes(TEXTS, CHOICE + self.entry.title.encode() + b"\0")
        for place, line in enumerate(self.entry.measured_lines):
            self.measure_bytes(TEXTS, (MODULE_LINE if place else KERNEL_LINE) + line + b"\0")

    def read(self) -> None:
        held = {path_of(event): event.digests for event in self.before(FILES)}
        came = list(held)
        # a menu that is the same lists the files of loader/entries, or does not, as it did
        is_same = MENU in held and held[MENU] == file_digests(self.folder / MENU, self.banks)
        forms = [MENU] if is_same and not any(Path(name).match(ENTRIES) for name in came) else [MENU, ENTRIES, f"*/{ENTRIES}"]
        here = [str(it.relative_to(self.folder)) for form in forms for it in sorted(self.folder.glob(form))]
        gone = [name for name in came if Path(name).match(ENTRIES) and not (self.folder / name).exists()]
        added = [name for name in here if name not in came]
        if added:
            self.unknown["PCR 9"] = f"{added[0]} was not read in that boot, and where the firmware lists it is not known"
        self.words["files"] = [name for name in came + added if name not in gone]
        for path in [*(self.folder / name for name in self.words["files"]), *self.files]:
            self.measure(FILES, file_digests(path, self.banks))

    def hand_over(self) -> None:
        for event in self.boot.log.of_pcr(HANDOVERS):
            text = options_text(event)
            if text is not None:
                self.measure(HANDOVERS, event.digests)
                self.words["texts"].append(text_of(text))
        why = self.why_unlike() if self.entry.protocol == "multiboot2" else None
        if why is not None:
            self.unknown["image"] = self.unknown["PCR 12"] = why
            return
        ramdisks = "\n".join(self.entry.files[1:] if not self.entry.modules else [])
        is_empty = not any(path.stat().st_size for path in self.files[1:])
        pairs = {key: getattr(self.entry, key) for key in ("protocol", "line", "modules")}
        pairs.update(title=self.entry.described_title, kernel=self.entry.files[0], initrd=None if is_empty or not ramdisks else ramdisks)
        self.image = image_digest(self.boot.described._replace(**pairs), self.files)
        for _, held in self.boot.over.copied if self.entry.protocol == "multiboot2" else ():
            self.measure_bytes(HANDOVERS, held)
        self.measure_bytes(HANDOVERS, self.image)

    def has_other_map(self) -> bool:
        """UEFI's map lists the pages that files are read to."""
        read = [event.digests for event in self.boot.log.of_pcr(FILES)]
        return "efi" in self.boot.described.firmware.tables and read != [it.digests for it in self.events if it.pcr == FILES]

    def why_unlike(self) -> Optional[str]:
        """Why the log does not tell the image of a Multiboot2 kernel; None if it does, where the machine stays as it was."""
        if self.boot.described.protocol != "multiboot2":
            return "the log is of a Linux kernel, and has not what a Multiboot2 kernel gets copies of"
        why = "other files are read, and the kernel gets a copy of UEFI's map, which has the pages that they are read to"
        return why if self.has_other_map() else None

    def values(self) -> Dict[str, Dict[int, bytes]]:
        """Of the banks, by PCRs, as far as they are known."""
        log = Log(self.banks, self.events)
        known = [pcr for pcr in [*SEALED, HANDOVERS] if f"PCR {pcr}" not in self.unknown]
        return {bank: {pcr: replayed(log, bank, pcr) for pcr in known} for bank in self.banks}

    def sealed(self) -> bytes:
        """The values as tpm2_createpolicy takes them, of SHA-256."""
        values = self.values().get("sha256", {})
        why = [self.unknown.get(f"PCR {pcr}", "the log has no bank of SHA-256") for pcr in SEALED if pcr not in values]
        return fault(f"nothing can be sealed to: {why[0]}") if why else b"".join(values[pcr] for pcr in SEALED)


# ---- in words


def lines_of(made: Next) -> Iterator[str]:
    yield f"# The next boot of {text_value(made.entry.title)}, chosen at once, if the machine is as it was in {made.boot.name}."
    yield f"# image: {made.image.hex() or 'not known'}"
    yield from (f"# PCR {pcr} of {bank}: {it.hex()}" for bank, values in made.values().items() for pcr, it in values.items())
    if made.image and made.has_other_map():
        yield "# image and PCR 12 are so only if UEFI's map keeps its size and place: other files are read, and it has the pages for them"
    yield from (f"# {what} is not known: {why}" for what, why in made.unknown.items())
    yield from (f"# {name} is as in {made.boot.name}: no file here is it" for name in made.digests)
    yield from (f"{key} = {array(list(dict.fromkeys(words)))}" for key, words in made.words.items())
    yield from [f"banks = {array(made.banks)}", "", "[digests]"]
    for name, came in made.digests.items():
        yield f"{text_value(name)} = {array([spelled(bank, each) for bank, each in came.items()])}"
    yield from ["", "[pcr]"]
    for pcr in FIRMWARE:
        yield f"{pcr} = {array([spelled(bank, replayed(made.boot.log, bank, pcr)) for bank in made.banks])}"
    yield from ["", *entry_lines(made.entry)]


def predict(log: Path, folder: Path, entry: Path, title: Optional[str], sealed: Optional[Path]) -> List[str]:
    made = Next(read_boot(log), folder, entry_in(entry, title))
    if sealed:
        sealed.write_bytes(made.sealed())
    return list(lines_of(made))


def describe(log: Path) -> List[str]:
    """The last handover's description, as `bootcore digest` takes it where the files lie. Several ramdisks are one to it."""
    described = read_boot(log).described
    several = [f"# ramdisks: {array(described.ramdisks)}, each from a multiple of 4 on"] if len(described.ramdisks) > 1 else []
    named = described._replace(initrd="ramdisks") if several else described
    return [*several, *written(named).decode().split("\n")[:-1]]
