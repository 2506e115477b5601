"""prepare, load: the calls of bl_load."""

from typing import List, Optional

from language import demand, fields, number, only, perhaps, single, spell
from rules import entry as entries
from rules.handover import MULTIBOOT2, PROTOCOL_NAMES, Handover, names_of, part_bytes
from rules.memory import Memory
from rules.refusals import Refused

from . import BYTES_OF, Call
from .kernels import refusal_text
from .machines import last_machine

MAX_MODULES = 64
ROLES = {1: "kernel", 2: "module", 3: "information", 4: "boot_params", 5: "command_line", 6: "gdt",
         7: "initrd", 8: "page_tables"}
PROTOCOLS = {name: protocol for protocol, name in PROTOCOL_NAMES.items()}


def read_entry(table, words: List[str], kernel: bytes) -> entries.Entry:
    """`multiboot2 line=B module=B:B .. rsdp_old=B rsdp_new=B`, or `linux line=B initrd=B` and
    `linux64 line=B initrd=B`."""
    demand(bool(words) and words[0] in PROTOCOLS)
    named, bare = fields(words[1:])
    demand(not bare)
    text = table.names.one(single(named, "line"))
    if PROTOCOLS[words[0]] == MULTIBOOT2:
        only(named, "line", "module", "rsdp_old", "rsdp_new")
        modules = [read_module(table, word) for word in named.get("module", [])]
        copies = [read_copy(table, perhaps(named, name)) for name in ("rsdp_old", "rsdp_new")]
        demand(len(modules) <= MAX_MODULES and all(entries.is_copy(copy) for copy in copies))
        return entries.Multiboot2Entry(kernel, text, modules, *copies)
    only(named, "line", "initrd")
    initrd = table.names.one(single(named, "initrd")) if "initrd" in named else None
    return entries.LinuxEntry(kernel, text, initrd, PROTOCOLS[words[0]])


def read_module(table, word: str):
    file, colon, text = word.partition(":")
    demand(colon == ":")
    return table.names.one(file), table.names.one(text)


def read_copy(table, word: Optional[str]) -> Optional[bytes]:
    """A copy of an RSDP: without a word none; a word without bytes is one of no bytes."""
    return None if word is None else table.names.one(word)


def head_text(protocol: int, registers) -> str:
    words = ["%x" % registers[name] for name in names_of(protocol)]
    return "protocol %d registers %s" % (protocol, " ".join(words))


def place_text(part, length: int) -> str:
    return "%s %x %x+%x" % (ROLES[part.role], part.index, part.address, length)


def handover_text(handover: Handover) -> str:
    places = [place_text(part, part.length) for part in handover.parts]
    return ", ".join([head_text(handover.protocol, handover.registers)] + places)


def prepare(table, line):
    try:
        return handover_text(entries.prepare(last_machine(table),
                                             read_entry(table, line.words, line.data)))
    except Refused as refused:
        return "refused " + refusal_text(refused)


def memory_after(machine, handover: Handover, fill: int) -> bytes:
    """All of memory: each part's bytes, and the others as before."""
    memory = Memory(machine.size, fill)
    for part in handover.parts:
        memory.write(part.address, part_bytes(part))
    return memory.read(0, machine.size)


def read_load(table, line):
    """`fill=VV` before the entry: the machine, the byte, the entry."""
    demand(bool(line.words))
    filled = number(single(fields(line.words[:1])[0], "fill"), 8)
    return last_machine(table), filled, read_entry(table, line.words[1:], line.data)


def load(table, line):
    machine, filled, entry = read_load(table, line)
    try:
        handover = entries.prepare(machine, entry)
    except Refused as refused:
        return "refused " + refusal_text(refused)
    # Loading asks for no memory.
    return "%s, asked 0, memory %s" % (handover_text(handover),
                                       spell(memory_after(machine, handover, filled)))


CALLS = {
    "prepare": Call(prepare, BYTES_OF),
    "load": Call(load, BYTES_OF),
}
