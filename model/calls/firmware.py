"""The words of a machine on what firmware tells, and those of answers."""

from typing import Dict, List, Union

from language import demand, number, numbers, pair, perhaps, spell
from rules.firmware import (BITS, MAX_SECURE_BOOT, Color, Efi, EfiInfo, EfiTables, Firmware, Screen,
                            Smbios)

WORDS = ("screen", "rsdp", "efi", "smbios", "avoid")


# ---- as they are read


def read_firmware(table, named: Dict[str, List[str]]) -> Firmware:
    screen, rsdp, efi, smbios = (perhaps(named, word) for word in WORDS[:4])
    return Firmware(
        None if screen is None else read_screen(screen),
        None if rsdp is None else number(rsdp),
        None if efi is None else read_efi(table, efi),
        None if smbios is None else read_smbios(table, smbios),
        [range_ for word in named.get("avoid", []) for range_ in read_avoid(word)])


def read_screen(word: str) -> Screen:
    """`BASE,PITCH,WIDTH,HEIGHT,DEPTH,RED,GREEN,BLUE`, each colour `POSITION+SIZE`."""
    words = word.split(",")
    demand(len(words) == 8)
    sizes = [number(part, bits) for part, bits in zip(words, (64, 32, 32, 32, 8))]
    return Screen(*sizes, *map(read_color, words[5:]))


def read_color(word: str) -> Color:
    position, size = pair(word, "+")
    demand(position < 256 and size < 256)
    return Color(position, size)


def read_efi(table, word: str) -> Efi:
    """`BITS,TABLE,MAP_ADDRESS,DESCRIPTOR_SIZE,DESCRIPTOR_VERSION,SECURE_BOOT:MAP`."""
    told, colon, data = word.partition(":")
    demand(colon == ":" and told.count(",") == 5)
    bits, system_table, at, size, version, secure_boot = numbers(told)
    demand(bits in BITS and size < 1 << 32 and version < 1 << 32 and secure_boot <= MAX_SECURE_BOOT)
    return Efi(bits, system_table, at, table.names.one(data), size, version, secure_boot)


def read_smbios(table, word: str) -> Smbios:
    """`MAJOR,MINOR:TABLES`."""
    told, colon, data = word.partition(":")
    demand(colon == ":" and told.count(",") == 1)
    return Smbios(*numbers(told, 8), table.names.one(data))


def read_avoid(word: str):
    """`START..END`, with `*COUNT` several times."""
    word, star, count = word.partition("*")
    return [pair(word, "..")] * (number(count) if star else 1)


# ---- as they are told


def screen_word(screen: Screen) -> str:
    return ",".join(["%x" % n for n in screen[:5]] + ["%x+%x" % color for color in screen[5:]])


def efi_word(efi: Union[EfiInfo, EfiTables]) -> str:
    """Of boot parameters the map's address and size stand in place of its bytes."""
    if isinstance(efi, EfiInfo):
        bits, system_table, at, length, size, version, secure_boot = efi
        return "%x,%x,%x+%x,%x,%x,%x" % (bits, system_table, at, length, size, version, secure_boot)
    return "%x,%x,%x,%x:%s" % (*efi[:4], spell(efi.map))


def smbios_word(smbios: Smbios) -> str:
    return "%x,%x:%s" % (smbios.major, smbios.minor, spell(smbios.tables))


def told_words(told) -> List[str]:
    """Of a value that has these facts: those that are told, each as `NAME=WORD`."""
    words = [] if told.screen is None else ["screen=" + screen_word(told.screen)]
    if getattr(told, "rsdp", None) is not None:
        words.append("rsdp=%x" % told.rsdp)
    if told.efi is not None:
        words.append("efi=" + efi_word(told.efi))
    if getattr(told, "smbios", None) is not None:
        words.append("smbios=" + smbios_word(told.smbios))
    return words
