"""registers: those of an entry by their names, and the segment registers whole."""

from rules import entry as entries
from rules.handover import Handover, names_of
from rules.refusals import Refused
from rules.segments import NAMES, segment

from . import BYTES_OF, Call
from .entries import read_entry
from .kernels import refusal_text
from .machines import last_machine


def field_name(register: str) -> str:
    return register.lower().replace(" ", "_")


def segment_text(handover: Handover, name: str) -> str:
    told = segment(handover, name)
    numbers = "%s selector %x base %x limit %x type %x dpl %x" % (name.lower(), *told[:5])
    return " ".join([numbers] + told.flags)


def registers(table, line):
    entry = read_entry(table, line.words, line.data)
    try:
        handover = entries.prepare(last_machine(table), entry)
    except Refused as refused:
        return "refused " + refusal_text(refused)
    words = ["%s=0x%x" % (field_name(name), handover.registers[name])
             for name in names_of(handover.protocol)]
    return ", ".join([" ".join(words)] + [segment_text(handover, name) for name in NAMES])


CALLS = {"registers": Call(registers, BYTES_OF)}
