"""menu, and the words of a MENU, which the calls run and session have too."""

from typing import List, NamedTuple, Optional, Tuple, Union

from language import BadRow, demand, fields, number, numbers, only, single
from rules import booting
from rules.entry import Entry, LinuxEntry, Multiboot2Entry
from rules.handover import MULTIBOOT2
from rules.refusals import Refused

from . import Call
from .entries import PROTOCOLS, read_copy
from .kernels import fault_text

File = Union[bytes, int, None]
WORDS = ("file", "entry", "modules", "rsdp_old", "rsdp_new", "default", "fallback", "store",
         "twice", "fail", "picks", "answers")
STORES = ("forward", "reverse", "silent", "script")


class MenuEntry(NamedTuple):
    """An entry whose files are told by their index."""
    protocol: int
    kernel: int
    line: bytes
    others: List[Tuple[int, bytes]]  # the modules and their lines, or the initrd
    rsdp_old: Optional[bytes] = None
    rsdp_new: Optional[bytes] = None

    @property
    def is_linux(self) -> bool:
        """By either entry of Linux."""
        return self.protocol != MULTIBOOT2

    def files(self) -> List[int]:
        return [self.kernel] + [file for file, _ in self.others]

    def with_files(self, files: List[bytes]) -> Entry:
        if self.is_linux:
            return LinuxEntry(files[0], self.line, files[1] if files[1:] else None, self.protocol)
        return Multiboot2Entry(files[0], self.line,
                               [(file, line) for file, (_, line) in zip(files[1:], self.others)],
                               self.rsdp_old, self.rsdp_new)


class Menu:
    """The words of a MENU."""

    def __init__(self, table, words: List[str]):
        named, bare = fields(words)
        only(named, *WORDS)
        demand(not bare)
        self.named = named
        self.files = [read_file(table, word) for word in named.get("file", [])]
        self.entries: List[MenuEntry] = []
        for word in words:
            name, _, value = word.partition("=")
            if name == "entry":
                self.entries += read_entries(table, value)
            elif name in ("modules", "rsdp_old", "rsdp_new"):
                demand(bool(self.entries) and not self.entries[-1].is_linux)
                self.entries[-1] = with_more(table, self.entries[-1], name, value)
        self.default = number(single(named, "default"), 32) if "default" in named else 0
        self.fallbacks = numbers(single(named, "fallback"), 32) if "fallback" in named else []
        self.store = single(named, "store") if "store" in named else "forward"
        demand(self.store in STORES)

    def check(self) -> List[int]:
        """The attempts, or the fault of the menu."""
        counts = [0 if e.is_linux else len(e.others) for e in self.entries]
        copies = [copy for e in self.entries for copy in (e.rsdp_old, e.rsdp_new)]
        booting.check_menu(counts, copies, self.default, self.fallbacks)
        return booting.attempts(self.default, self.fallbacks)

    def sizes(self, entry: MenuEntry) -> List[Optional[int]]:
        """Of each file of the entry its size, of a missing one none."""
        files = [self.file(index) for index in entry.files()]
        return [len(file) if isinstance(file, bytes) else file for file in files]

    def file_count(self) -> int:
        """How many files are named: up to the greatest index."""
        return 1 + max(file for entry in self.entries for file in entry.files())

    def file(self, index: int) -> File:
        return self.files[index] if index < len(self.files) else None


def read_file(table, word: str) -> File:
    if word in ("missing", "long"):
        return None if word == "missing" else booting.FILE_LIMIT + 1
    return table.names.one(word)


def read_entries(table, word: str) -> List[MenuEntry]:
    """`multiboot2:KERNEL:LINE+FILE:LINE ..`, `linux:KERNEL:LINE+INITRD` or
    `linux64:KERNEL:LINE+INITRD`, with `*COUNT` so often."""
    word, star, count = word.partition("*")
    first, *others = word.split("+")
    demand(first.count(":") == 2)
    protocol, kernel, text = first.split(":")
    demand(protocol in PROTOCOLS)
    if PROTOCOLS[protocol] != MULTIBOOT2:
        demand(len(others) <= 1 and not any(":" in other for other in others))
    rest = [(number(other.partition(":")[0], 32), table.names.one(other.partition(":")[2]))
            for other in others]
    entry = MenuEntry(PROTOCOLS[protocol], number(kernel, 32), table.names.one(text), rest)
    return [entry] * (number(count) if star else 1)


def with_more(table, entry: MenuEntry, name: str, value: str) -> MenuEntry:
    """`modules=N`, N more modules of the file after the kernel's; `rsdp_old=B`, `rsdp_new=B`."""
    if name == "modules":
        more = [(entry.kernel + 1, b"")] * number(value)
        return entry._replace(others=entry.others + more)
    demand(getattr(entry, name) is None)
    return entry._replace(**{name: read_copy(table, value)})


def menu(table, line):
    read = Menu(table, line.words)
    try:
        attempts = read.check()
    except Refused as refused:
        return fault_text(refused)
    told = " ".join("%x" % index for index in attempts)
    return "attempts %s, files %x" % (told, read.file_count())


def usable_menu(table, words: List[str]) -> Tuple[Menu, List[int]]:
    """A menu that a boot can be made of, and its attempts."""
    read = Menu(table, words)
    try:
        return read, read.check()
    except Refused:
        raise BadRow


CALLS = {"menu": Call(menu)}
