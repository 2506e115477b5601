"""walk, walk_to: the calls of bl_walk, and of program_commands on an image."""

from typing import List

from language import demand, fields, only, quoted, single, spell
from rules import image as images, walking
from rules.refusals import Refused

from . import ALL_BYTES, BYTES_OF, Call
from .answers import one_of
from .firmware import told_words
from .images import Source, either, needed_of
from .kernels import fault_text
from .machines import run_word


def seen_text(seen: walking.Seen) -> str:
    words = ["protocol %d entry=%x line=%s" % (seen.protocol, seen.entry, spell(seen.line))]
    words += ["kernel=%x+%x" % place for place in seen.kernel]
    words += ["module=%x:%s:%s" % (module.start, spell(module.data), spell(module.line))
              for module in seen.modules]
    if seen.initrd is not None:
        words.append("initrd=%x:%s" % (seen.initrd[0], spell(seen.initrd[1])))
    words += ["run=" + run_word(run) for run in seen.runs]
    if seen.rsdp_old is not None:
        words.append("rsdp_old=" + spell(seen.rsdp_old))
    if seen.rsdp_new is not None:
        words.append("rsdp_new=" + spell(seen.rsdp_new))
    return " ".join(words + told_words(seen))


def walk(table, line):
    """What is seen, or one of the faults that stand; which of several is no rule."""
    try:
        image = images.read(line.data)
    except Refused as refused:
        return fault_text(refused)
    numbers = sorted(walking.faults(image))
    if numbers:
        return one_of("fault %d" % number for number in numbers)
    return seen_text(walking.see(image))


class Before:
    """What was said and blamed before."""

    def __init__(self, table, line, *allowed: str):
        named, bare = fields(line.words)
        only(named, *allowed)
        demand(not bare)
        self.named = named
        self.said = table.names.one(single(named, "said")) if "said" in named else b""
        self.blamed = table.names.one(single(named, "blamed")) if "blamed" in named else b""

    def text(self, status: int, said: str, blamed: str, faults: int) -> str:
        told = [quoted(before + more.encode("utf-8"))
                for before, more in ((self.said, said), (self.blamed, blamed))]
        return "status %d, said %s, blamed %s, faults %d" % (status, *told, faults)


def walked_texts(before: Before, data: bytes) -> List[str]:
    """What a walk of an image may end in, if its source has no fault."""
    try:
        image = images.read(data)
    except Refused as refused:
        return [before.text(2, "", "bad image %d\n" % refused.number, 0)]
    numbers = sorted(walking.faults(image))
    if numbers:
        return [before.text(2, "", "bad image %d\n" % number, 0) for number in numbers]
    said = "".join(line + "\n" for line in walking.lines(walking.see(image)))
    return [before.text(0, said, "", 0)]


def walk_to(table, line):
    demand([word.partition("=")[0] for word in line.words[:2]] == ["said", "blamed"])
    before = Before(table, line, "said", "blamed", "step", "fail")
    source, told = Source(before.named), one_of(walked_texts(before, line.data))
    if not source.fail:
        return told
    meets_fault = source.meets_fault(source.fail, needed_of(line.data))
    return either(meets_fault, before.text(3, "", "", 1), told)


def walk_to_is_refused(table, line, text):
    """Nothing is said or blamed then; what there was before may lack the memory too."""
    before = Before(table, line, "said", "blamed", "step", "fail")
    return text in ("no memory", before.text(4, "", "", 0) + ", no memory")


CALLS = {
    "walk": Call(walk, ALL_BYTES),
    "walk_to": Call(walk_to, BYTES_OF, walk_to_is_refused),
}
