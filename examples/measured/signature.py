"""The signature of a quote (TPMT_SIGNATURE of the TPM 2.0 Library, Part 2), and the key that it is by."""

import base64
import binascii
import hashlib
import re
import shutil
import tempfile
from pathlib import Path
from typing import List, NamedTuple

from event_log import STRONG, bank_name
from limits import OPENSSL_SECONDS, SMALL_BYTES
from reading import BadInput, Fields, fault, file_bytes
from running import ran

RSASSA, RSAPSS, ECDSA = 0x14, 0x16, 0x18
OF_PSS = ["-sigopt", "rsa_padding_mode:pss", "-sigopt", "rsa_pss_saltlen:auto"]
LONGEST_NUMBER = 67  # of a curve's, with a zero byte before it
REFUSED = re.compile(rb"(?i)^(?:verification failure|error verifying data)$", re.M)  # what openssl says of a signature
KEY = re.compile(rb"\s*-----BEGIN PUBLIC KEY-----\s([A-Za-z0-9+/=\s]+)-----END PUBLIC KEY-----\s*")


class Signature(NamedTuple):
    bank: str  # the hash of what is signed
    signed: bytes  # as OpenSSL takes it
    way: List[str]  # OpenSSL's options


class Key(NamedTuple):
    der: bytes

    @property
    def fingerprint(self) -> str:
        """As openssl pkey -pubin -outform DER | sha256sum says it."""
        return hashlib.sha256(self.der).hexdigest()

    @property
    def pem(self) -> bytes:
        return b"-----BEGIN PUBLIC KEY-----\n" + base64.encodebytes(self.der) + b"-----END PUBLIC KEY-----\n"


def read_signature(path: Path) -> Signature:
    fields = Fields(file_bytes(path, SMALL_BYTES), "the signature", "big")
    scheme, bank = fields.number(2), bank_name(fields.number(2))
    if scheme not in (RSASSA, RSAPSS, ECDSA) or bank not in STRONG:
        raise BadInput("the signature's scheme is none of RSASSA, RSAPSS and ECDSA with SHA-2 or SHA-3")
    parts = [fields.take(fields.number(2)) for _ in range(2 if scheme == ECDSA else 1)]
    fields.end()
    if scheme != ECDSA:
        return Signature(bank, parts[0], OF_PSS if scheme == RSAPSS else [])
    if any(len(part) > LONGEST_NUMBER for part in parts):
        raise BadInput("the signature has a number that is too long for any curve")
    numbers = b"".join(encoded(2, part.lstrip(b"\0").rjust(1, b"\0")) for part in parts)
    return Signature(bank, encoded(0x30, numbers), [])


def encoded(tag: int, content: bytes) -> bytes:
    """A value in DER; a whole number, which has the tag 2, gets a zero byte where it would be negative."""
    if tag == 2 and content[0] >= 0x80:
        content = b"\0" + content
    length = len(content).to_bytes(3, "big").lstrip(b"\0") or b"\0"
    return bytes([tag]) + (length if len(content) < 0x80 else bytes([0x80 | len(length)]) + length) + content


# ---- the key


def read_key(path: Path) -> Key:
    """One key alone: of two, what is told here and what openssl takes might differ."""
    found = KEY.fullmatch(file_bytes(path, SMALL_BYTES))
    try:
        der = base64.b64decode(b"".join(found[1].split()), validate=True) if found else b""
    except binascii.Error:
        der = b""
    if not der:
        raise BadInput(f"{path} is no public key in PEM, as tpm2_createak -f pem writes it")
    return Key(der)


def check_signature(message: bytes, signature: Signature, key: Key, name: Path) -> None:
    openssl = shutil.which("openssl")
    if openssl is None:
        raise BadInput("the quote's signature can't be checked: openssl is not at hand")
    with tempfile.TemporaryDirectory() as folder:
        room = Path(folder)
        for file, held in (("key", key.pem), ("message", message), ("signature", signature.signed)):
            (room / file).write_bytes(held)
        if ran([openssl, "pkey", "-pubin", "-in", "key", "-noout"], room, OPENSSL_SECONDS).status != 0:
            raise BadInput(f"{name} is no public key: openssl can't read it")
        words = [openssl, "dgst", f"-{signature.bank.replace('_', '-')}", "-verify", "key", "-signature", "signature"]
        tried = ran([*words, *signature.way, "message"], room, OPENSSL_SECONDS)
    if tried.status == 1 and REFUSED.search(tried.out + tried.err) and b"malloc" not in tried.err:
        fault("the quote's signature is not this key's")
    if tried.status != 0:
        raise BadInput(f"openssl ends with the status {tried.status}, and does not say whether the signature is right")
