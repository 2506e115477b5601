"""The calls that rows name, each spelled as the tables spell its answer."""

from typing import Callable, Dict, NamedTuple, Optional

from language import Line, Names
from rules.machine import Machine

from .answers import Answer


class Table:
    """What the rows before have left: names of bytes, and the last machine."""

    def __init__(self):
        self.names = Names()
        self.machine: Optional[Machine] = None


NO_BYTES, ALL_BYTES, BYTES_OF = "none", "all", "of"


class Call(NamedTuple):
    make: Callable[[Table, Line], Answer]
    # Whether the words after its name are BYTES, or those after ` of `.
    takes: str = NO_BYTES
    # Whether a text is right as the answer of a run in which a request for memory was refused.
    is_refused: Callable[[Table, Line, str], bool] = lambda table, line, text: text == "no memory"


def all_calls() -> Dict[str, Call]:
    from . import (boots, conversions, entries, images, information, kernels, lines, machines,
                   memories, menus, plans, registers, sessions, sinks, stages, walks)
    modules = (boots, conversions, entries, images, information, kernels, lines, machines,
               memories, menus, plans, registers, sessions, sinks, stages, walks)
    calls: Dict[str, Call] = {}
    for module in modules:
        calls.update(module.CALLS)
    return calls
