"""Quotes, their values and signatures; those of a TPM, too."""

import sys
from pathlib import Path
from typing import Dict, Optional

from examples.measured.tests import boots, cases
from examples.measured.tests.boots import FILES
from examples.measured.tests.cases import GOOD, UNREADABLE, UNSIGNED, WRONG, Case
from examples.measured.tests.checker import CheckerChecks
from examples.measured.tests.tpm import AK, TpmChecks
from tests.support import Ran, is_at_hand, run

PCRS = [0, 1, 2, 3, 4, 5, 6, 7, 8, 9, 12]
QUOTED: boots.Selected = [(bank, PCRS) for bank in cases.ALL_BANKS]
PARTS: boots.Selected = [("sha256", PCRS[:5]), *QUOTED[2:], ("sha1", PCRS), ("sha256", PCRS[5:])]
NONCE = "c0ffee"
# files that are no key, or not one alone; @ stands for one
KEYS = [
    ("an empty key", b"", " in PEM"),
    ("a key that is none", b"-----BEGIN PUBLIC KEY-----\nAAAA\n-----END PUBLIC KEY-----\n", ": openssl can't read it"),
    ("a key with a letter that is none", b"-----BEGIN PUBLIC KEY-----\nAAA=A\n-----END PUBLIC KEY-----\n", " in PEM"),
    ("two keys", b"@@", " in PEM"),
    ("a key behind a text", b"a key: @", " in PEM"),
    ("a key in the TPM's form", b"\0\x58\0\x23\0\x0b" + bytes(86), " in PEM"),
]


class Quotes(CheckerChecks):
    """Quotes that the test makes."""

    BANKS_AT = 6 + 2 + 34 + 2 + len(NONCE) // 2 + 25  # where a quote counts its banks

    @classmethod
    def setUpClass(cls) -> None:
        super().setUpClass()
        cls.pcrs = boots.pcrs_of(boots.linux_boot(FILES), cases.ALL_BANKS)

    def quoted(self, name: str, selected: boots.Selected = QUOTED, nonce: str = NONCE) -> Path:
        folder = self.folder(name, Case("", "", banks=cases.ALL_BANKS))
        (folder / "pcrs").write_bytes(boots.pcr_file_of(self.pcrs, selected))
        (folder / "quote").write_bytes(boots.quote_of(self.pcrs, selected, bytes.fromhex(nonce)))
        return folder

    def checked(self, folder: Path, env: Optional[Dict[str, str]] = None, **named: Optional[str]) -> Ran:
        return self.checker(folder, env=env, **{"quote": "quote", "nonce": NONCE, **named})

    def test_quotes(self) -> None:
        def over(*banks: str, but: int = -1) -> boots.Selected:
            return [(bank, [pcr for pcr in PCRS if pcr != but]) for bank in banks]

        for sentence, folder, status, said in (
            ("a quote is checked", self.quoted("quote"), GOOD, f"with the nonce {NONCE} after 7 resets and 2 restarts"),
            ("a signature that is not given is told", self.room / "quote", GOOD, "; the signature was not checked"),
            ("a bank may be quoted in two parts", self.quoted("parts", PARTS), GOOD, "quoted with the nonce"),
            ("a quote with another nonce", self.quoted("nonce", nonce="c0"), WRONG, f"nonce is c0, not {NONCE}: it answers"),
            ("a quote with a long nonce", self.quoted("long", nonce=60000 * "00"), WRONG, f"nonce is {64 * '00'}, not {NONCE}"),
            ("a quote whose nonce begins so", self.quoted("begins", nonce=f"{NONCE}00"), WRONG, f"nonce is {NONCE}00, not {NONCE}"),
            ("a quote without a nonce", self.quoted("empty", nonce=""), WRONG, "the quote's nonce is empty, not"),
            ("a quote of one bank alone", self.quoted("one", over("sha256")), WRONG, "sha1 is in the log and not among the PCR"),
            ("a quote without one bank", self.quoted("three", over(*cases.ALL_BANKS[1:])), WRONG, "the bank sha1 is in the log and"),
            ("a quote of another bank", self.quoted("sha1", over("sha1")), WRONG, "sha256 is not among the PCR values, only sha1"),
            (
                "a quote that has one bank's PCR 12 alone",
                self.quoted("few", [*over(*cases.ALL_BANKS[1:]), ("sha1", [12])]),
                WRONG,
                "PCR 2 of sha1 is not among",
            ),
            *(
                (f"a quote without PCR {pcr}", self.quoted(f"{pcr}", over(*cases.ALL_BANKS, but=pcr)), WRONG, f"PCR {pcr} of sha256 is not")
                for pcr in (2, 4, 8, 9, 12)
            ),
        ):
            self.says(sentence, self.checked(folder), status, said)
        ran = self.checked(self.room / "quote", unsigned=None)
        self.says("a quote whose signature is not checked has a status of its own", ran, UNSIGNED, "; the signature was not checked")
        for sentence, counts, status, said in (
            ("the counts of resets and restarts may be asked for", {"resets": "7", "restarts": "2"}, GOOD, "after 7 resets"),
            ("another count of resets", {"resets": "6"}, WRONG, "the TPM was reset 7 times, not 6"),
            ("another count of restarts", {"resets": "7", "restarts": "0"}, WRONG, "the TPM was restarted 2 times, not 0"),
        ):
            self.says(sentence, self.checked(self.room / "quote", **counts), status, said)

    def test_values(self) -> None:
        folder = self.quoted("values")
        held = (folder / "pcrs").read_bytes()
        values, few = self.pcrs, {**self.pcrs, "sha512": self.pcrs["sha512"][:9]}
        more = boots.pcrread({**values, "sha3_256": [bytes(32)] * 24}).encode()
        for sentence, changed, status, said in (
            ("values that were not quoted", cases.one_byte(held, held.index(values["sha256"][8])), WRONG, "not those that were quoted"),
            ("values that tpm2_pcrread printed", boots.pcrread(values).encode(), GOOD, "quoted with the nonce"),
            ("a bank that has no PCRs", b"  sha3_256:\n" + boots.pcrread(values).encode(), GOOD, "quoted with the nonce"),
            ("values that are not all", boots.pcrread(few).encode(), WRONG, "the quote is over PCR 9 of sha512"),
            ("values of a bank that is not quoted", more, WRONG, "the bank sha3_256 is among the PCR values, and not quoted"),
            ("values without their numbers", boots.plain_of(values, QUOTED), UNREADABLE, "PCR values"),
        ):
            (folder / "pcrs").write_bytes(changed)
            self.says(f"a quote beside {sentence}", self.checked(folder), status, said)

    def test_forms(self) -> None:
        folder = self.quoted("forms")
        held = (folder / "quote").read_bytes()
        for sentence, changed in (
            ("a quote that is cut", held[:-1]),
            ("a quote that goes on", held + b"\0"),
            ("a message that is no quote", b"\0" + held[1:]),
            ("a message of another kind", held[:5] + b"\x17" + held[6:]),
            ("a message of a TPM in the other order of bytes", held[3::-1] + held[4:]),
            ("a quote of four thousand million banks", held[: self.BANKS_AT] + b"\xff" * 4 + held[self.BANKS_AT + 4 :]),
            ("a quote of a bank less than it has", held[: self.BANKS_AT] + b"\0\0\0\3" + held[self.BANKS_AT + 4 :]),
        ):
            (folder / "quote").write_bytes(changed)
            self.says(sentence, self.checked(folder), UNREADABLE, "the quote ")
        before, bank, rest = held[: self.BANKS_AT + 5], held[self.BANKS_AT + 5 :][:5], held[self.BANKS_AT + 10 :]
        for sentence, changed, said in (
            ("a quote of an unknown bank's PCRs", before + b"\x99" + bank[1:] + rest, "0x0099"),
            ("a quote of a PCR that there is not", before + bank[:1] + b"\4" + bank[2:] + b"\1" + rest, "PCR 24 of sha1"),
        ):
            (folder / "quote").write_bytes(changed)
            self.says(sentence, self.checked(folder), WRONG, f"{said}, which the PCR values lack")
        for length in (0, 20, 31):
            (folder / "quote").write_bytes(held[:-34] + bytes([0, length]) + held[-32:][:length])
            self.says(f"a quote whose digest has {length} bytes", self.checked(folder), WRONG, "not those that were quoted")
        (folder / "quote").write_bytes(held)
        values = (folder / "pcrs").read_bytes()
        for sentence, changed in (
            ("a file of PCR values that is cut", values[:-1]),
            ("a file of PCR values that goes on", values + b"\0"),
            ("a file of PCR values with one too few", values[:7] + b"\0" + values[8:]),
            ("a file of another kind", bytes(range(32))),
        ):
            (folder / "pcrs").write_bytes(changed)
            self.says(sentence, self.checked(folder), UNREADABLE, "PCR values")

    def test_signatures(self) -> None:
        if not is_at_hand("openssl"):
            self.leave_out("signatures of quotes are checked", "openssl is not at hand")
            return
        folder = self.quoted("signed")
        self.make_key(folder, "ec", "ec", "ec_paramgen_curve:P-256")
        self.make_key(folder, "rsa", "rsa", "rsa_keygen_bits:2048")
        self.make_key(folder, "other", "ec", "ec_paramgen_curve:P-256")
        signature, message = boots.signature_of(self.signed(folder, "ec")), (folder / "quote").read_bytes()
        self.check_signature("a signature is checked", folder, signature, "ec", GOOD)
        self.check_signature("a signature by a key of another kind", folder, signature, "rsa", WRONG)
        self.check_signature("a signature by another key", folder, signature, "other", WRONG)
        self.check_signature("another signature", folder, cases.one_byte(signature, 20), "ec", WRONG)
        for scheme, number, options in (
            ("RSASSA", b"\0\x14", []),
            ("RSAPSS", b"\0\x16", ["-sigopt", "rsa_padding_mode:pss", "-sigopt", "rsa_pss_saltlen:-1"]),
        ):
            signed = number + b"\0\x0b\x01\0" + self.signed(folder, "rsa", *options)
            self.check_signature(f"a signature by {scheme} is checked", folder, signed, "rsa", GOOD)
        (folder / "quote").write_bytes(cases.one_byte(message, message.index(bytes.fromhex(NONCE)) + 12))
        self.check_signature("a quote that was changed", folder, signature, "ec", WRONG)
        (folder / "signature").write_bytes(signature)
        for sentence, held, said in KEYS:
            (folder / "key").write_bytes(held.replace(b"@", (folder / "ec.pem").read_bytes()))
            self.says(sentence, self.checked(folder, signature="signature", key="key"), UNREADABLE, f"key is no public key{said}")
        ran = self.checked(folder, signature="signature", key="ec.secret")
        self.says("a key that is secret", ran, UNREADABLE, "ec.secret is no public key in PEM")
        ran = self.checked(folder, signature="signature", key="none")
        self.says("a key that there is not", ran, UNREADABLE, "none: No such file")
        (folder / "tools").mkdir()
        (folder / "tools/python3").symlink_to(sys.executable)
        ran = self.checked(folder, {"PATH": str(folder / "tools")}, signature="signature", key="ec.pem")
        self.says("a signature where openssl is not at hand", ran, UNREADABLE, "openssl is not at hand")
        longer = b"\0\x18\0\x0b" + 2 * (b"\x01\0" + bytes(255) + b"\1")
        for sentence, held, said in (
            ("a signature with a number of 256 bytes", longer, " has a number that is too long"),
            ("a signature of another scheme", b"\0\5" + signature[2:], "'s scheme is none of"),
            ("a signature without a scheme", b"\0\x10", " ends too early"),
            ("a signature as openssl takes it", self.signed(folder, "ec"), "'s scheme is none of"),
            ("an empty signature", b"", " ends too early"),
            ("a signature by SHA-1", b"\0\x14\0\4\0\1s", "'s scheme is none of"),
            ("a signature that is cut", signature[:-1], " ends too early"),
            ("a signature that goes on", signature + b"\0", " goes on behind its end"),
        ):
            self.check_signature(sentence, folder, held, "ec", UNREADABLE, f"the signature{said}")

    def check_signature(self, sentence: str, folder: Path, signature: bytes, key: str, status: int, said: str = "") -> None:
        (folder / "signature").write_bytes(signature)
        told = {GOOD: f"; the signature is by {key}.pem", WRONG: "signature is not this key's", UNREADABLE: said}
        self.says(sentence, self.checked(folder, signature="signature", key=f"{key}.pem"), status, told[status])

    def make_key(self, folder: Path, name: str, kind: str, option: str) -> None:
        secret = ["openssl", "genpkey", "-algorithm", kind, "-pkeyopt", option, "-out", f"{name}.secret"]
        for words in (secret, ["openssl", "pkey", "-in", f"{name}.secret", "-pubout", "-out", f"{name}.pem"]):
            ran = run(*words, cwd=folder)
            self.assertEqual(ran.status, 0, f"ran: {ran}\n{ran.err!r}")

    def signed(self, folder: Path, name: str, *options: str) -> bytes:
        ran = run("openssl", "dgst", "-sha256", "-sign", f"{name}.secret", *options, "quote", cwd=folder)
        self.assertEqual(ran.status, 0, f"ran: {ran}\n{ran.err!r}")
        return ran.out


class Tpm(TpmChecks):
    """A TPM that is told what the test's boot measures, and quotes it."""

    def test_tpm(self) -> None:
        if not self.lacks_tools("quotes of a TPM are checked"):
            with self.tpm("tpm") as state:
                self.check_quotes(state)

    def check_quotes(self, state: Path) -> None:
        folder = self.folder("quotes", Case("", "", banks=cases.ALL_BANKS))
        self.tell_boot(state, folder)
        (folder / "printed").write_bytes(self.tool(state, folder, "tpm2_pcrread").out)
        self.says("a TPM's PCRs are those of the log", self.checker(folder, pcrs="printed"), GOOD, cases.LINUX_SAID)
        self.tool(state, folder, "tpm2_createek", "-c", "ek", "-G", "ecc", "-u", "ek.pub")
        self.tool(state, folder, "tpm2_createak", "-C", "ek", "-c", "key", *AK, "-u", "key.pem", "-f", "pem", "-n", "name")
        enough = "2,4,8,9,12"
        for selected, status in (
            (f"sha1:{enough}+sha256:{enough},0,7+sha384:{enough}+sha512:{enough}", GOOD),
            ("sha256:all+sha1:all+sha512:all+sha384:all", GOOD),
            ("sha256:all+sha1:all", WRONG),
            ("sha512:1,2+sha256:4,8,9,12", WRONG),
        ):
            self.check_quote(state, folder, selected, status)

    def check_quote(self, state: Path, folder: Path, selected: str, status: int) -> None:
        files = ["-m", "quote", "-s", "signature", "-o", "values"]
        said = "by key.pem" if status == GOOD else "the bank "
        self.tool(state, folder, "tpm2_quote", "-c", "key", "-l", selected, "-q", NONCE, "-g", "sha256", *files)
        named = {"pcrs": "values", "quote": "quote", "signature": "signature", "key": "key.pem", "unsigned": None}
        ran = self.checker(folder, nonce=NONCE, **named)
        self.says(f"a TPM's quote of {selected} is judged", ran, status, said)
        if status == GOOD:
            for nonce, theirs in ((NONCE, 0), ("00", 1)):
                with self.check(f"of a quote of {selected} tpm2_checkquote says the same, with the nonce {nonce}"):
                    words = ["-m", "quote", "-s", "signature", "-f", "values", "-u", "key.pem", "-q", nonce, "-g", "sha256"]
                    ran = run("tpm2_checkquote", *words, cwd=folder)
                    self.assertEqual(ran.status, theirs, f"ran: {ran}\n{ran.err.decode(errors='replace')}")
                    self.assertEqual(self.checker(folder, nonce=nonce, **named).status, theirs)
