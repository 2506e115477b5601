"""PCR values: as `tpm2_pcrread` prints them, or as `tpm2_quote` writes them, with their numbers."""

import re
from pathlib import Path
from typing import Dict, List, Tuple

from event_log import PCR_COUNT, SIZES, bank_name
from limits import SMALL_BYTES
from reading import BadInput, Fields, file_bytes

Values = Dict[str, Dict[int, bytes]]  # by bank and PCR
Selection = List[Tuple[str, List[int]]]  # banks in the quote's order, with their PCRs

BANK_LINE = re.compile(r"\s*([a-z]\w+)\s*:\s*")
VALUE_LINE = re.compile(r"\s*([0-9]{1,2})\s*:\s*0x([0-9A-Fa-f]+)\s*")
# the sizes of tpm2-tools' records in memory, which it writes as they are
MOST_BANKS, SELECTED_BYTES, MOST_DIGESTS, DIGEST_ROOM = 16, 4, 8, 64


def read_values(path: Path) -> Values:
    held = file_bytes(path, SMALL_BYTES)
    try:
        text = held.decode("ascii")
    except UnicodeDecodeError:
        text = ""
    return printed_values(text) if BANK_LINE.match(text) else written_values(held)


def put(values: Values, bank: str, pcr: int, value: bytes) -> None:
    if pcr >= PCR_COUNT or pcr in values.setdefault(bank, {}):
        raise BadInput(f"the PCR values have PCR {pcr} of {bank} twice, or it is none")
    if SIZES.get(bank, len(value)) != len(value):
        raise BadInput(f"the PCR values have PCR {pcr} of {bank} with {len(value)} bytes")
    values[bank][pcr] = value


def printed_values(text: str) -> Values:
    """A bank without a value is one that the TPM has not, or not at present."""
    values: Values = {}
    bank = ""
    for line in text.splitlines():
        found = BANK_LINE.fullmatch(line)
        value = VALUE_LINE.fullmatch(line)
        if found:
            bank = found[1]
        elif value and bank and len(value[2]) % 2 == 0:
            put(values, bank, int(value[1]), bytes.fromhex(value[2]))
        elif line.strip():
            raise BadInput(f"the PCR values have a line that is none: {line.strip()[:80]!r}")
    return values


def selected(bits: bytes) -> List[int]:
    return [pcr for pcr in range(8 * len(bits)) if bits[pcr // 8] >> pcr % 8 & 1]


def written_values(held: bytes) -> Values:
    """TPML_PCR_SELECTION, a count, and as many TPML_DIGEST, as they lie in a little-endian memory."""
    fields = Fields(held, "the file of PCR values", "little")
    count = fields.number(4)
    if count > MOST_BANKS:
        raise BadInput("the PCR values are neither those that tpm2_pcrread prints nor those of tpm2_quote")
    chosen: List[Tuple[str, int]] = []
    for place in range(MOST_BANKS):
        number, size, bits = fields.number(2), fields.number(1), fields.take(SELECTED_BYTES)
        fields.take(1)  # the record's last byte, which aligns the next one
        if place < count:
            chosen += [(bank_name(number), pcr) for pcr in selected(bits[:size])]
    digests: List[bytes] = []
    for _ in range(fields.number(4)):
        used = fields.number(4)
        rooms = [(fields.number(2), fields.take(DIGEST_ROOM)) for _ in range(MOST_DIGESTS)]
        digests += [room[:length] for length, room in rooms[:used]]
    fields.end()
    if len(digests) != len(chosen):
        raise BadInput(f"the file of PCR values selects {len(chosen)} of them, and has {len(digests)}")
    values: Values = {}
    for (bank, pcr), value in zip(chosen, digests):
        put(values, bank, pcr, value)
    return values
