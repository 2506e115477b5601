"""What a fleet asks for: JSON, the key of a machine."""

import hashlib
import json
from pathlib import Path
from typing import Any, Dict, Optional

from examples.measured.tests import boots
from examples.measured.tests.boots import FILES, POLICY
from examples.measured.tests.cases import GOOD, UNREADABLE, UNSIGNED, WRONG, Case
from examples.measured.tests.checker import CheckerChecks
from tests.support import Ran, is_at_hand, run

SELECTED: boots.Selected = [("sha256", [0, 1, 2, 3, 4, 5, 6, 7, 8, 9, 12])]
MACHINES = "\n[[machine]]\nname = \"{0}\"\nkey = \"{1}\"\n"
EK = 64 * "e"


class Json(CheckerChecks):
    def told(self, ran: Ran, status: int) -> Dict[str, Any]:
        self.assertEqual((ran.status, ran.err), (status, b""), f"ran: {ran}\n{ran.out!r}")
        told = json.loads(ran.out)
        self.assertEqual(told["status"], status)
        return told

    def test_json(self) -> None:
        folder = self.folder("json", Case("", "", boot="multiboot2"))
        with self.check("a good boot is one object of JSON"):
            told = self.told(self.checker(folder, "--json"), GOOD)
            self.assertEqual((told["verdict"], told["why"]), ("as it should be", None))
            self.assertEqual((told["title"], told["protocol"]), ("Kernel", "multiboot2"))
            self.assertEqual((told["line"], told["modules"]), ('say "hello"', ["first @ last", ""]))
            self.assertEqual(told["files"], ["kernel.elf", "one", "two"])
            self.assertEqual(told["image"], boots.image_digest(boots.MULTIBOOT2, FILES).hex())
            self.assertEqual((told["managers"], told["drivers"], told["quote"]), (["BOOTX64.EFI"], [], None))
            happened = boots.multiboot2_boot(FILES)
            self.assertEqual(told["pcrs"]["sha256"]["12"], boots.pcrs_of(happened, ["sha256"])["sha256"][12].hex())
            self.assertEqual(len(told["remarks"]), 1)
        with self.check("values that nobody has signed are told to be so in JSON"):
            told = self.told(self.checker(folder, "--json", unsigned=None), UNSIGNED)
            self.assertIn("nobody has signed", told["verdict"])
        with self.check("a bad boot is one object of JSON, with what is wrong"):
            (folder / "pcrs").write_text(boots.pcrread(boots.pcrs_of([], ["sha256"])))
            told = self.told(self.checker(folder, "--json"), WRONG)
            self.assertEqual(told["verdict"], "not as it should be")
            self.assertIn("PCR 0 of sha256 is zero", told["why"])
        with self.check("an input that can't be read is one object of JSON"):
            told = self.told(self.checker(folder, "--json", log="none"), UNREADABLE)
            self.assertEqual((told["verdict"], told["why"]), ("unreadable", "none: No such file or directory"))


class Machines(CheckerChecks):
    """Whose key has signed."""

    def key(self, folder: Path, name: str) -> str:
        """A new one; its fingerprint, as openssl and sha256 say it."""
        secret = ["openssl", "genpkey", "-algorithm", "ec", "-pkeyopt", "ec_paramgen_curve:P-256", "-out", f"{name}.secret"]
        for words in (secret, ["openssl", "pkey", "-in", f"{name}.secret", "-pubout", "-out", f"{name}.pem"]):
            self.assertEqual(run(*words, cwd=folder).status, 0)
        der = run("openssl", "pkey", "-pubin", "-in", f"{name}.pem", "-outform", "DER", cwd=folder).out
        return hashlib.sha256(der).hexdigest()

    def test_machines(self) -> None:
        if not is_at_hand("openssl"):
            self.leave_out("a key belongs to a machine", "openssl is not at hand")
            return
        folder = self.folder("machines", Case("", ""))
        pcrs = boots.pcrs_of(boots.linux_boot(FILES), ["sha256"])
        (folder / "pcrs").write_bytes(boots.pcr_file_of(pcrs, SELECTED))
        (folder / "quote").write_bytes(boots.quote_of(pcrs, SELECTED, b"\xc0\xff\xee"))
        keys = {name: self.key(folder, name) for name in ("one", "two", "three")}
        signed = run("openssl", "dgst", "-sha256", "-sign", "one.secret", "quote", cwd=folder).out
        (folder / "signature").write_bytes(boots.signature_of(signed))
        listed = POLICY + "".join(MACHINES.format(f"rack-{name}", keys[name]) for name in ("one", "two"))
        with_ek = listed.replace(f'"{keys["one"]}"\n', f'"{keys["one"]}"\nek = "{EK}"\n')
        other = POLICY + MACHINES.format("rack-three", keys["three"])
        for sentence, policy, machine, status, said in (
            ("a key's machine is told", listed, None, GOOD, "the signature is by one.pem, the key of rack-one"),
            ("a key is that of the machine that is asked for", listed, "rack-one", GOOD, "the key of rack-one"),
            ("a key of another machine", listed, "rack-two", WRONG, "the key is rack-one's, not rack-two's"),
            ("a key of no machine", other, None, WRONG, f"the key is no machine's of the policy, by its fingerprint {keys['one']}"),
            ("a key of a machine with an endorsement key", with_ek, None, GOOD, "the key of rack-one"),
            ("a key where the last machine was taken out", "machine = []\n" + POLICY, None, WRONG, "the key is no machine's of the policy"),
            ("a machine where the policy has none", POLICY, "rack-one", WRONG, "the key is no machine's, not rack-one's"),
        ):
            (folder / "policy").write_text(policy, encoding="utf-8")
            self.says(sentence, self.checked(folder, machine=machine), status, said)
        (folder / "policy").write_text(listed, encoding="utf-8")
        with self.check("a signed quote is told in JSON"):
            told = json.loads(self.checked(folder, "--json").out)["quote"]
            wanted = {"nonce": "c0ffee", "clock": 123456, "resets": 7, "restarts": 2, "key": keys["one"], "machine": "rack-one", "ek": None}
            self.assertEqual(told, wanted)

    def checked(self, folder: Path, *words: str, machine: Optional[str] = None) -> Ran:
        named = {"quote": "quote", "nonce": "c0ffee", "signature": "signature", "key": "one.pem", "machine": machine}
        return self.checker(folder, *words, unsigned=None, **named)
