"""A TPM's quote: what it signs (TPMS_ATTEST of the TPM 2.0 Library, Part 2), and what must hold of it."""

from pathlib import Path
from typing import NamedTuple, Optional

from event_log import SIZES, STRONG, bank_name, digest
from limits import SMALL_BYTES
from pcr_values import Selection, Values, selected
from reading import BadInput, Fields, fault, file_bytes
from signature import Signature

GENERATED, QUOTE = 0xFF544347, 0x8018  # TPM_GENERATED_VALUE, TPM_ST_ATTEST_QUOTE


class Quote(NamedTuple):
    message: bytes
    nonce: bytes
    selection: Selection
    digest: bytes
    clock: int  # milliseconds that the TPM has run
    resets: int  # of the TPM, and restarts after the last of them
    restarts: int


def read_quote(path: Path) -> Quote:
    message = file_bytes(path, SMALL_BYTES)
    fields = Fields(message, "the quote", "big")
    if fields.number(4) != GENERATED or fields.number(2) != QUOTE:
        raise BadInput("the quote is none: a TPM made no message that begins so")
    fields.take(fields.number(2))  # the signer's name, which the signature proves
    nonce = fields.take(fields.number(2))
    clock, resets, restarts = fields.number(8), fields.number(4), fields.number(4)
    fields.take(1 + 8)  # whether the clock is safe, the firmware's version
    selection = []
    for _ in range(fields.number(4)):
        bank, bits = fields.number(2), fields.take(fields.number(1))
        selection.append((bank_name(bank), selected(bits)))
    quoted = fields.take(fields.number(2))
    fields.end()
    return Quote(message, nonce, [each for each in selection if each[1]], quoted, clock, resets, restarts)


def check_quote(quote: Quote, nonce: bytes, values: Values, signature: Optional[Signature]) -> None:
    if quote.nonce != nonce or not nonce:
        fault(f"the quote's nonce is {quote.nonce[:64].hex() or 'empty'}, not {nonce.hex() or 'empty'}: it answers another question")
    missing = [f"PCR {pcr} of {bank}" for bank, pcrs in quote.selection for pcr in pcrs if pcr not in values.get(bank, {})]
    if missing:
        fault(f"the quote is over {missing[0]}, which the PCR values lack")
    whole = b"".join(values[bank][pcr] for bank, pcrs in quote.selection for pcr in pcrs)
    # the hash is the signature's; without one the digest's length tells it
    bank = signature.bank if signature else {SIZES[it]: it for it in reversed(STRONG)}.get(len(quote.digest))
    if not bank or digest(bank, whole) != quote.digest:
        fault("the PCR values are not those that were quoted")


def quoted_values(quote: Quote, values: Values) -> Values:
    """Without those that the quote does not vouch for. Each bank is quoted: one that is not could have been told anything."""
    unquoted = [bank for bank in values if bank not in [it for it, _ in quote.selection]]
    if unquoted:
        fault(f"the bank {unquoted[0]} is among the PCR values, and not quoted: a quote must be over all banks that the TPM has")
    quoted: Values = {bank: {} for bank, _ in quote.selection}
    for bank, pcrs in quote.selection:
        quoted[bank].update({pcr: values[bank][pcr] for pcr in pcrs})
    return quoted


def check_counts(quote: Quote, resets: Optional[int], restarts: Optional[int]) -> None:
    for what, came, wanted in (("reset", quote.resets, resets), ("restarted", quote.restarts, restarts)):
        if wanted is not None and came != wanted:
            fault(f"the TPM was {what} {came} times, not {wanted}")
