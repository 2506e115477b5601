"""Refusals: a number of docs/REFUSALS.md, and what is told with it."""

from typing import NoReturn

# The names by number, of an entry, of a boot and a menu, of an image, of what a kernel is told.
NAMES = {
    # >>> tools/refusals: model names
    1: "NoFile",
    2: "FileFault",
    3: "FileTooLong",
    4: "NoHeader",
    5: "HeaderCut",
    6: "BadArchitecture",
    7: "BadTag",
    8: "UnsupportedTag",
    9: "UnsupportedRequest",
    10: "NoConsole",
    11: "NotElf",
    12: "BadElf",
    13: "SegmentCut",
    14: "AddressTooHigh",
    15: "SegmentsOverlap",
    16: "NoEntry",
    17: "EntryOutside",
    18: "BadAlign",
    19: "NotUsable",
    20: "NoRoom",
    21: "NoPool",
    22: "NotBzImage",
    23: "OldProtocol",
    24: "NotHigh",
    25: "SetupCut",
    26: "BadPreferred",
    27: "LineTooLong",
    28: "LineHasNul",
    29: "MapTooLong",
    30: "No64Entry",
    40: "NoEntryLeft",
    41: "NoMemory",
    51: "BadIndex",
    52: "TooMany",
    61: "WrongLength",
    62: "BadReserved",
    63: "BadTag",
    64: "BadOrder",
    66: "WrongLength",
    67: "BadParams",
    71: "BadMagic",
    72: "BadVersion",
    73: "BadHeader",
    74: "BadPart",
    75: "WrongLength",
    81: "OutsideImage",
    82: "BadInfo",
    83: "BadState",
    # <<<
}

# Those of a machine are numbers of their own.
MACHINE_NAMES = {
    # >>> tools/refusals: model machine names
    1: "BadSize",
    2: "BadRegion",
    3: "TooManyRegions",
    4: "BadPool",
    6: "BadScreenSize",
    7: "BadScreenDepth",
    8: "BadScreenColor",
    9: "BadScreenPitch",
    10: "BadScreenPlace",
    11: "BadRsdp",
    12: "BadSystemTable",
    13: "BadDescriptors",
    14: "BadEfiMapSize",
    15: "BadEfiMapPlace",
    16: "BadSmbiosSize",
    17: "TooManyAvoided",
    18: "BadAvoided",
    19: "PoolAvoided",
    # <<<
}


class Refused(Exception):
    """Ends a reading: `number`, and `data`, the numbers told with it, such as an offset. Of a part
    that finds no place `wanted` is what was wanted for it."""

    def __init__(self, number: int, *data: int):
        super().__init__(number, *data)
        self.number = number
        self.data = data
        self.wanted = None

    def __eq__(self, other):
        return isinstance(other, Refused) and self.args == other.args

    def __hash__(self):
        return hash(self.args)


def refuse(number: int, *data: int) -> NoReturn:
    raise Refused(number, *data)
