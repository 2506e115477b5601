"""Keys of machines: whether they lie in the TPM that they are said to be of."""

import hashlib
import importlib
import os
import signal
import struct
import subprocess
import sys
import time
from pathlib import Path
from typing import List

from examples.measured.tests import cases
from examples.measured.tests.boots import POLICY
from examples.measured.tests.cases import BAD_WORDS, GOOD, UNREADABLE, WRONG, Case
from examples.measured.tests.checker import CHECKER, CheckerChecks
from examples.measured.tests.tpm import AK, TpmChecks
from tests.support import Ran, is_at_hand, run

CURVES = {"P-256": (3, 32), "P-384": (4, 48), "P-521": (5, 66)}
ATTRIBUTES = 0x00050072  # fixedTPM, fixedParent, sensitiveDataOrigin, userWithAuth, restricted, sign
ECDSA_SHA256 = b"\0\x18\0\x0b"


def area_of(kind: int, rest: bytes, attributes: int = ATTRIBUTES, scheme: bytes = ECDSA_SHA256, symmetric: bytes = b"\0\x10") -> bytes:
    """TPM2B_PUBLIC by the TPM 2.0 Library, Part 2."""
    made = struct.pack(">HHIH", kind, 0x0B, attributes, 0) + symmetric + scheme + rest
    return struct.pack(">H", len(made)) + made


def sized(held: bytes) -> bytes:
    return struct.pack(">H", len(held)) + held


def made_key(folder: Path, name: str, *how: str) -> bytes:
    """A new one of openssl's: its SubjectPublicKeyInfo."""
    run("openssl", "genpkey", *how, "-out", f"{name}.secret", cwd=folder)
    run("openssl", "pkey", "-in", f"{name}.secret", "-pubout", "-out", f"{name}.pem", cwd=folder)
    return run("openssl", "pkey", "-pubin", "-in", f"{name}.pem", "-outform", "DER", cwd=folder).out


def curve(name: str) -> List[str]:
    return ["-algorithm", "ec", "-pkeyopt", f"ec_paramgen_curve:{name}"]


def point_of(der: bytes, curve: str) -> bytes:
    """What a public area says of an ECC key."""
    number, size = CURVES[curve]
    return struct.pack(">HH", number, 0x10) + sized(der[-2 * size : -size]) + sized(der[-size:])


class Areas(CheckerChecks):
    """Public areas that the test makes."""

    def enroll(self, *words: str) -> Ran:
        return run(CHECKER / "enroll", *words, cwd=self.room)

    def challenged(self, area: bytes, folder: str, ek: str = "ek.pem") -> Ran:
        (self.room / "area").write_bytes(area)
        return self.enroll("challenge", "--ek", ek, "--area", "area", folder)

    def test_areas(self) -> None:
        sentence = "public areas of keys are read"
        for tool in ("openssl", "tpm2_makecredential"):
            if not is_at_hand(tool):
                self.leave_out(sentence, f"{tool} is not at hand")
                return
        made_key(self.room, "ek", "-algorithm", "rsa", "-pkeyopt", "rsa_keygen_bits:2048")
        made_key(self.room, "eccek", *curve("P-256"))
        made_key(self.room, "odd", "-algorithm", "ed25519")
        self.check_kinds()
        point = point_of(made_key(self.room, "key", *curve("P-256")), "P-256")
        self.check_attributes(point)
        self.check_refused(point)
        self.check_answers(area_of(0x23, point))
        self.check_bytes(area_of(0x23, point))

    def check_kinds(self) -> None:
        areas = {}
        for name in CURVES:
            der = made_key(self.room, name, *curve(name))
            areas[name] = (der, area_of(0x23, point_of(der, name)))
        for bits, scheme in ((2048, b"\0\x14\0\x0b"), (3072, b"\0\x16\0\x0c")):
            der = made_key(self.room, f"rsa{bits}", "-algorithm", "rsa", "-pkeyopt", f"rsa_keygen_bits:{bits}")
            modulus = run("openssl", "rsa", "-pubin", "-in", f"rsa{bits}.pem", "-noout", "-modulus", cwd=self.room).out
            rest = struct.pack(">HI", bits, 0) + sized(bytes.fromhex(modulus.decode().strip().partition("=")[2]))
            areas[f"RSA of {bits} bits"] = (der, area_of(1, rest, scheme=scheme))
        for i, (name, (der, area)) in enumerate(areas.items()):
            for ek in ("ek.pem", "eccek.pem"):
                ran = self.challenged(area, f"{ek}{i}", ek)
                with self.check(f"a key by {name} is challenged by {ek}"):
                    self.assertEqual(ran.status, GOOD, ran.err)
                    text = run("openssl", "pkey", "-pubin", "-in", f"{ek}{i}/key.pem", "-outform", "DER", cwd=self.room)
                    self.assertEqual(text.out, der, "the key that the area has")
                    self.assertEqual((self.room / f"{ek}{i}").stat().st_mode & 0o77, 0, "who may read the secret")

    def check_attributes(self, point: bytes) -> None:
        for bit, name in ((1, "fixedTPM"), (4, "fixedParent"), (5, "sensitiveDataOrigin"), (16, "restricted"), (18, "sign")):
            ran = self.challenged(area_of(0x23, point, ATTRIBUTES & ~(1 << bit)), "none")
            self.says(f"a key without the attribute {name}", ran, WRONG, f"the key has not the attribute {name}")

    def says(self, sentence: str, ran: Ran, status: int, said: str) -> None:
        with self.check(sentence):
            self.assertEqual((ran.status, ran.out), (status, b""), f"ran: {ran}\n{ran.err!r}")
            self.assertIn(said, ran.err.decode(), f"ran: {ran}")

    def check_refused(self, point: bytes) -> None:
        good = area_of(0x23, point)
        for sentence, area, status, said in (
            ("a key that decrypts, too", area_of(0x23, point, ATTRIBUTES | 1 << 17), WRONG, "the attribute decrypt"),
            ("a key without a scheme", area_of(0x23, point, scheme=b"\0\x10"), WRONG, "the key's scheme is none of"),
            ("a key that signs by SHA-1", area_of(0x23, point, scheme=b"\0\x18\0\4"), WRONG, "the key's scheme is none of"),
            ("a key that signs by HMAC", area_of(0x23, point, scheme=b"\0\5\0\x0b"), WRONG, "the key's scheme is none of"),
            ("a key with a symmetric part", area_of(0x23, point, symmetric=b"\0\6\0\x80\0\x43"), WRONG, "it is no key that signs"),
            ("a public area of another curve", area_of(0x23, b"\0\x10" + point[2:]), UNREADABLE, "of another curve than"),
            ("a point that is too long", area_of(0x23, point[:4] + sized(bytes(33)) + sized(bytes(32))), UNREADABLE, "not on its curve"),
            ("a public area of another kind", area_of(8, point), UNREADABLE, "of no RSA key and no ECC key"),
            ("a public area named by SHA-1", good[:4] + b"\0\4" + good[6:], UNREADABLE, "by no strong hash"),
            ("an empty public area", b"", UNREADABLE, "the key's public area ends too early"),
            ("a public area that goes on", good + b"\0", UNREADABLE, "the key's public area goes on behind its end"),
            ("a public area that goes on within", struct.pack(">H", len(good) - 1) + good[2:] + b"\0", UNREADABLE, "goes on behind"),
        ):
            self.says(sentence, self.challenged(area, "none"), status, said)
        for sentence, ek, said in (
            ("an endorsement key that is no PEM", "area", "area is no public key in PEM"),
            ("an endorsement key that is secret", "ek.secret", "ek.secret is no public key in PEM"),
            ("an endorsement key of another kind", "odd.pem", "odd.pem is no key of RSA, and none of ECC"),
            ("an endorsement key that there is not", "no.pem", "no.pem: No such file"),
        ):
            self.says(sentence, self.challenged(good, "none", ek), UNREADABLE, said)
        with self.check("a challenge that is refused makes no folder"):
            self.assertFalse((self.room / "none").exists())
        self.check_cleaned(good)
        for sentence, words in (
            ("no step", []),
            ("a challenge without a key", ["challenge", "--ek", "ek.pem", "folder"]),
            ("an answer without a name", ["answer", "folder", "answer"]),
            ("an answer with a name of no letters", ["answer", "--name", " ", "folder", "answer"]),
            ("an answer with a name of two lines", ["answer", "--name", "a\nb", "folder", "answer"]),
        ):
            self.says(f"refused: {sentence}", self.enroll(*words), BAD_WORDS, "usage: ")

    def check_cleaned(self, area: bytes) -> None:
        """What fails while the folder is filled leaves none, also if somebody ends it."""
        (self.room / "area").write_bytes(area)
        (self.room / "tools").mkdir()
        maker = self.room / "tools/tpm2_makecredential"
        env = {**os.environ, "PATH": f"{self.room}/tools:{os.environ['PATH']}"}
        words = [str(CHECKER / "enroll"), "challenge", "--ek", "ek.pem", "--area", "area", "half"]
        for sentence, script, said in (
            ("a maker of credentials that fails", "echo no >&2; exit 3", "tpm2_makecredential ends with the status 3: no"),
            ("a maker of credentials that makes none", "true", "tpm2_makecredential ends with the status 0"),
            ("a maker of credentials that says too much", "yes", "says more than"),
        ):
            maker.write_text(f"#!/bin/sh\n{script}\n")
            maker.chmod(0o755)
            self.says(f"a challenge by {sentence}", run(*words, cwd=self.room, env=env), UNREADABLE, said)
            with self.check(f"no folder is left by {sentence}"):
                self.assertFalse((self.room / "half").exists())
        maker.write_text("#!/bin/sh\necho >started\nexec sleep 60\n")
        for number in (signal.SIGINT, signal.SIGTERM):
            with subprocess.Popen(words, cwd=self.room, env=env, stderr=subprocess.PIPE) as process:
                while not (self.room / "half/started").exists():
                    time.sleep(0.02)
                process.send_signal(number)
                _, err = process.communicate(timeout=30)
            with self.check(f"a challenge that {number.name} ends has the status 2, and leaves no folder"):
                self.assertEqual((process.returncode, err), (UNREADABLE, b"enroll: interrupted\n"))
                self.assertFalse((self.room / "half").exists())
        with self.check("a challenge whose words can't be written leaves no folder"):
            ran = run("bash", "-c", "exec \"$@\" >/dev/full", "bash", *words, cwd=self.room)
            self.assertEqual((ran.status, (self.room / "half").exists()), (UNREADABLE, False), f"ran: {ran}\n{ran.err!r}")

    def check_answers(self, area: bytes) -> None:
        for folder in ("first", "second"):
            self.assertEqual(self.challenged(area, folder).status, GOOD)
        self.says("a challenge whose folder is there", self.challenged(area, "first"), UNREADABLE, "first: File exists")
        secret = (self.room / "first/secret").read_bytes()
        for sentence, answer, status in (
            ("another challenge's answer", (self.room / "second/secret").read_bytes(), WRONG),
            ("an empty answer", b"", WRONG),
            ("a part of the answer", secret[:-1], WRONG),
            ("an answer that goes on", secret + b"\0", WRONG),
        ):
            (self.room / "answer").write_bytes(answer)
            self.says(sentence, self.enroll("answer", "--name", "rack-7", "first", "answer"), status, "the answer is not the secret")
        (self.room / "empty").mkdir()
        self.says("an answer to no challenge", self.enroll("answer", "--name", "a", "empty", "answer"), UNREADABLE, "empty/secret: No such")
        (self.room / "answer").write_bytes(secret)
        ran = self.enroll("answer", "--name", 'B\u00e4r "7"', "first", "answer")
        fingerprints = [self.fingerprint(f"first/{name}.pem") for name in ("key", "ek")]
        with self.check("an answer that is the secret gives the machine's table"):
            table = f'[[machine]]\nname = "B\u00e4r \\"7\\""\nkey = "{fingerprints[0]}"\nek = "{fingerprints[1]}"\n'
            self.assert_ended(ran, GOOD, table)

    def fingerprint(self, name: str) -> str:
        return hashlib.sha256(run("openssl", "pkey", "-pubin", "-in", name, "-outform", "DER", cwd=self.room).out).hexdigest()

    def check_bytes(self, area: bytes) -> None:
        sys.path.insert(0, str(CHECKER))
        try:
            module, reading = importlib.import_module("public_area"), importlib.import_module("reading")
        finally:
            del sys.path[0]
        plain = module.read_area(area)
        with self.check("a public area with another byte has another name, or is refused; one that is cut is refused"):
            for place in range(len(area)):
                for changed in (cases.one_byte(area, place), area[:place]):
                    try:
                        self.assertNotEqual(module.read_area(changed).name, plain.name, place)
                    except (reading.BadInput, reading.Fault):
                        continue


class Tpms(TpmChecks):
    """The commands of docs/MEASURED.md with a TPM: from its endorsement key to the verdict."""

    TOOLS = (*TpmChecks.TOOLS, "tpm2_makecredential")

    def test_enrolled(self) -> None:
        if self.lacks_tools("a machine is enrolled by its endorsement key"):
            return
        with self.tpm("tpm") as state:
            for kind in ("rsa", "ecc"):
                self.check_enrolled(state, kind)
        self.check_certificate()

    def check_enrolled(self, state: Path, kind: str) -> None:
        folder = self.folder(kind, Case("", "", banks=cases.ALL_BANKS))
        if kind == "rsa":  # the PCRs are told once
            self.tell_boot(state, folder)
        self.tool(state, folder, "tpm2_createek", "-c", "ek", "-G", kind, "-u", "ek.pem", "-f", "pem")
        self.tool(state, folder, "tpm2_createak", "-C", "ek", "-c", "key", *AK, "-u", "key.area", "-n", "key.name")
        challenged = run(CHECKER / "enroll", "challenge", "--ek", "ek.pem", "--area", "key.area", "rack", cwd=folder)
        with self.check(f"a key is challenged for a TPM with an endorsement key by {kind}"):
            self.assertEqual(challenged.status, GOOD, challenged.err)
        self.activate(state, folder, "rack/credential", 0)
        ran = run(CHECKER / "enroll", "answer", "--name", f"rack-{kind}", "rack", "answer", cwd=folder)
        with self.check(f"the TPM with that key by {kind} answers"):
            self.assert_ended(ran, GOOD, None)
        (folder / "policy").write_bytes(POLICY.encode() + b"\n" + ran.out)
        selected = "+".join(f"{bank}:0,1,2,3,4,5,6,7,8,9,12" for bank in cases.ALL_BANKS)
        files = ["-m", "quote", "-s", "signature", "-o", "values"]
        self.tool(state, folder, "tpm2_quote", "-c", "key", "-l", selected, "-q", "c0ffee", "-g", "sha256", *files)
        named = {"pcrs": "values", "quote": "quote", "nonce": "c0ffee", "signature": "signature", "key": "rack/key.pem"}
        ran = self.checker(folder, **named, unsigned=None, machine=f"rack-{kind}")
        self.says(f"a quote by the key that was enrolled by {kind} is the machine's", ran, GOOD, f"rack/key.pem, the key of rack-{kind}")
        self.check_others(state, folder)

    def check_others(self, state: Path, folder: Path) -> None:
        """Credentials that this TPM must not open."""
        self.tool(state, folder, "tpm2_createak", "-C", "ek", "-c", "second", *AK, "-u", "second.area", "-n", "second.name")
        made_key(folder, "other", "-algorithm", "rsa", "-pkeyopt", "rsa_keygen_bits:2048")
        for sentence, ek, area in (
            ("another key's credential", "ek.pem", "second.area"),
            ("another TPM's credential", "other.pem", "key.area"),
        ):
            name = area[0] + ek[0]
            made = run(CHECKER / "enroll", "challenge", "--ek", ek, "--area", area, name, cwd=folder)
            with self.check(f"a TPM does not answer {sentence}"):
                self.assertEqual(made.status, GOOD, made.err)
                self.activate(state, folder, f"{name}/credential", 1)

    def activate(self, state: Path, folder: Path, credential: str, status: int) -> None:
        self.tool(state, folder, "tpm2_startauthsession", "--policy-session", "-S", "session")
        self.tool(state, folder, "tpm2_policysecret", "-S", "session", "-c", "e")
        words = ["-c", "key", "-C", "ek", "-i", credential, "-o", "answer", "-P", "session:session"]
        self.tool(state, folder, "tpm2_activatecredential", *words, status=status)
        self.tool(state, folder, "tpm2_flushcontext", "session")

    def check_certificate(self) -> None:
        """The way from a certificate to the endorsement key, by the page's commands."""
        folder = self.room
        usage = "extendedKeyUsage=2.23.133.8.1\nbasicConstraints=CA:false\n"
        (folder / "usage").write_text(usage)
        made_key(folder, "root", *curve("P-256"))
        made_key(folder, "ek", "-algorithm", "rsa", "-pkeyopt", "rsa_keygen_bits:2048")
        request = ["-new", "-x509", "-key", "root.secret", "-subj", "/CN=maker of TPMs", "-days", "9", "-out", "roots.pem"]
        signed = ["-new", "-key", "ek.secret", "-subj", "/CN=a TPM", "-out", "request"]
        made = ["-req", "-in", "request", "-CA", "roots.pem", "-CAkey", "root.secret", "-CAcreateserial"]
        made += ["-extfile", "usage", "-out", "ek.crt"]
        for words in (["req", *request], ["req", *signed], ["x509", *made]):
            ran = run("openssl", *words, cwd=folder)
            self.assertEqual(ran.status, 0, f"ran: {ran}\n{ran.err!r}")
        verified = run("openssl", "verify", "-CAfile", "roots.pem", "ek.crt", cwd=folder)
        shown = run("openssl", "x509", "-in", "ek.crt", "-noout", "-pubkey", "-ext", "extendedKeyUsage", cwd=folder)
        with self.check("a certificate of an endorsement key is verified, and has the key and its use"):
            self.assertEqual((verified.status, shown.status), (0, 0), f"{verified.err!r} {shown.err!r}")
            self.assertIn((folder / "ek.pem").read_bytes(), shown.out)
            self.assertIn(b"2.23.133.8.1", shown.out)
