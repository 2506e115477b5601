"""read_info: what boot information says."""

from language import spell
from rules import information
from rules.refusals import Refused

from . import ALL_BYTES, Call
from .firmware import told_words
from .kernels import fault_text
from .machines import run_word

def bytes_or_none(data) -> str:
    return "none" if data is None else spell(data)


def read_info(table, line):
    try:
        read = information.read(line.data)
    except Refused as refused:
        return fault_text(refused)
    words = ["name=" + spell(read.loader), "line=" + spell(read.line)]
    words += ["module=%x..%x:%s" % (module.start, module.end, spell(module.line))
              for module in read.modules]
    words += ["lower=%x" % read.low_kib, "upper=%x" % read.high_kib]
    words += ["run=" + run_word(run) for run in read.runs]
    words += ["old=" + bytes_or_none(read.old_rsdp), "new=" + bytes_or_none(read.new_rsdp)]
    words.append("base=" + ("none" if read.load_base is None else "%x" % read.load_base))
    return " ".join(words + told_words(read))


CALLS = {"read_info": Call(read_info, ALL_BYTES)}
