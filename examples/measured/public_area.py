"""The public area of a TPM's key (TPMT_PUBLIC of the TPM 2.0 Library, Part 2): whether the key signs the TPM's own statements alone,
and what others call it."""

from typing import NamedTuple

from event_log import STRONG, bank_name, digest
from reading import BadInput, Fault, Fields
from signature import ECDSA, RSAPSS, RSASSA, Key, encoded

RSA, ECC, NULL = 0x01, 0x23, 0x10
# without each of these the key could be elsewhere too, or sign what only looks like a quote
WANTED = {"fixedTPM": 1, "fixedParent": 4, "sensitiveDataOrigin": 5, "restricted": 16, "sign": 18}
DECRYPT = 17
# by their TCG numbers: the object identifier in DER, and the bytes of a coordinate
CURVES = {3: ("2a8648ce3d030107", 32), 4: ("2b81040022", 48), 5: ("2b81040023", 66)}
OF_RSA, OF_ECC = bytes.fromhex("2a864886f70d010101"), bytes.fromhex("2a8648ce3d0201")
WHOLE_NUMBER, BITS, NOTHING, OBJECT, SEQUENCE = 0x02, 0x03, 0x05, 0x06, 0x30


class Area(NamedTuple):
    name: bytes  # what a credential is made for: the hash of all that the area says
    key: Key


def read_area(held: bytes) -> Area:
    """TPM2B_PUBLIC, as tpm2_createak and tpm2_readpublic write it. A fault where it is no key that attests."""
    whole = Fields(held, "the key's public area", "big")
    area = whole.take(whole.number(2))
    whole.end()
    fields = Fields(area, "the key's public area", "big")
    kind, bank, attributes = fields.number(2), bank_name(fields.number(2)), fields.number(4)
    if kind not in (RSA, ECC) or bank not in STRONG:
        raise BadInput("the key's public area is of no RSA key and no ECC key, or its name is by no strong hash")
    fields.take(fields.number(2))  # the policy of its use
    if fields.number(2) != NULL:
        raise Fault("the key has a symmetric part: it is no key that signs")
    scheme = fields.number(2)
    hashed = bank_name(fields.number(2)) if scheme != NULL else ""
    check(attributes, scheme, hashed)
    der = rsa_key(fields) if kind == RSA else ecc_key(fields)
    fields.end()
    return Area(area[2:4] + digest(bank, area), Key(der))


def check(attributes: int, scheme: int, hashed: str) -> None:
    for name, bit in WANTED.items():
        if not attributes >> bit & 1:
            raise Fault(f"the key has not the attribute {name}: what it signs need not be its TPM's statement")
    if attributes >> DECRYPT & 1:
        raise Fault("the key has the attribute decrypt: it is no key that signs alone")
    if scheme not in (RSASSA, RSAPSS, ECDSA) or hashed not in STRONG:
        raise Fault("the key's scheme is none of RSASSA, RSAPSS and ECDSA with SHA-2 or SHA-3")


def rsa_key(fields: Fields) -> bytes:
    fields.take(2)  # the key's bits
    exponent = fields.number(4) or 0x10001
    numbers = [fields.take(fields.number(2)), exponent.to_bytes(4, "big").lstrip(b"\0")]
    pair = encoded(SEQUENCE, b"".join(encoded(WHOLE_NUMBER, it.lstrip(b"\0") or b"\0") for it in numbers))
    return public_key(encoded(OBJECT, OF_RSA) + encoded(NOTHING, b""), pair)


def ecc_key(fields: Fields) -> bytes:
    curve = fields.number(2)
    if curve not in CURVES or fields.number(2) != NULL:
        raise BadInput("the key's public area is of another curve than P-256, P-384 and P-521, or has another scheme of derivation")
    name, size = CURVES[curve]
    point = [fields.take(fields.number(2)).rjust(size, b"\0") for _ in range(2)]
    if any(len(each) != size for each in point):
        raise BadInput("the key's public area has a point that is not on its curve")
    return public_key(encoded(OBJECT, OF_ECC) + encoded(OBJECT, bytes.fromhex(name)), b"\4" + b"".join(point))


def public_key(kind: bytes, key: bytes) -> bytes:
    """SubjectPublicKeyInfo of RFC 5280."""
    return encoded(SEQUENCE, encoded(SEQUENCE, kind) + encoded(BITS, b"\0" + key))
