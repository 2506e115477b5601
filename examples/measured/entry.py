"""An entry of the policy."""

from typing import List, NamedTuple

from description import PROTOCOLS, Module
from reading import BadInput
from tables import Table, array, named, only, tables, text_value, texts, value

PROGRAM = "efi"  # in a protocol's place: an EFI program, which the firmware measures itself


class Entry(NamedTuple):
    title: str
    protocol: str
    line: str
    files: List[str]  # in the order in which they are measured, the kernel first; none of a program
    modules: List[Module]

    @property
    def lines(self) -> List[str]:
        return [self.line, *(module.line for module in self.modules)]

    @property
    def measured_lines(self) -> List[bytes]:
        return [line.encode() for line in self.lines]

    @property
    def described_title(self) -> str:
        """A description's titles are of 64 printable characters at most: the boot manager cuts longer ones."""
        return "".join(chr(byte) if 0x20 <= byte < 0x7F else "?" for byte in self.title.encode()[:64])


def entry_of(table: Table, place: str) -> Entry:
    title = named(table, "title", place)
    where = f"{place}, {title!r},"
    protocol, line = named(table, "protocol", where), value(table, "line", str, where, "")
    if protocol == PROGRAM:
        only(table, ["title", "protocol", "line"], where)
        return Entry(title, protocol, line, [], [])
    if protocol not in PROTOCOLS:
        raise BadInput(f"{where} has the protocol {protocol!r}; it may be {', '.join([*PROTOCOLS, PROGRAM])}")
    own = "module" if protocol == "multiboot2" else "ramdisks"
    only(table, ["title", "protocol", "line", "kernel", own], where)
    modules = []
    for number, it in enumerate(tables(table, "module", where), 1):
        only(it, ["file", "line"], f"{where} module {number}")
        modules.append(Module(named(it, "file", f"{where} module {number}"), value(it, "line", str, where, "")))
    files = [named(table, "kernel", where), *texts(table, "ramdisks", where), *(module.file for module in modules)]
    return Entry(title, protocol, line, files, modules)


def entry_lines(entry: Entry) -> List[str]:
    """As a policy has it."""
    pairs = {"title": entry.title, "protocol": entry.protocol, "kernel": entry.files[0], "line": entry.line}
    lines = ["[[entry]]", *(f"{key} = {text_value(word)}" for key, word in pairs.items())]
    if entry.protocol != "multiboot2":
        lines.append(f"ramdisks = {array(entry.files[1:])}")
    for module in entry.modules:
        lines += ["", "[[entry.module]]", f"file = {text_value(module.file)}", f"line = {text_value(module.line)}"]
    return lines
