"""A TPM that is told what the test's boot measures."""

import contextlib
import subprocess
import time
from pathlib import Path
from typing import Iterator

from examples.measured.tests import boots, cases
from examples.measured.tests.boots import FILES
from examples.measured.tests.checker import CheckerChecks
from tests.support import TOP, Ran, is_at_hand, run

AK = ["-G", "ecc", "-g", "sha256", "-s", "ecdsa"]


class TpmChecks(CheckerChecks):
    """Checks with swtpm and tpm2-tools."""

    TOOLS = ("swtpm", "tpm2_pcrread", "openssl")

    def lacks_tools(self, sentence: str) -> bool:
        missing = [tool for tool in self.TOOLS if not is_at_hand(tool)]
        if missing:
            self.leave_out(sentence, f"{missing[0]} is not at hand")
        return bool(missing)

    @contextlib.contextmanager
    def tpm(self, name: str) -> Iterator[Path]:
        """The folder of its state; it ends with the block. Where there is one already, the TPM is reset."""
        state = self.room / name
        state.mkdir(exist_ok=True)
        (state / "control").unlink(missing_ok=True)
        channel = f"type=unixio,path={state}/control"
        words = ["--tpm2", "--tpmstate", f"dir={state}", "--ctrl", channel, "--flags", "not-need-init,startup-clear"]
        with subprocess.Popen(["swtpm", "socket", *words], stdin=subprocess.DEVNULL, stderr=subprocess.DEVNULL) as swtpm:
            try:
                self.wait_for(state / "control")
                yield state
            finally:
                swtpm.terminate()

    def wait_for(self, path: Path) -> None:
        for _ in range(100):
            if path.exists():
                return
            time.sleep(0.1)
        self.fail(f"swtpm has not made {path}")

    def tool(self, state: Path, folder: Path, *words: str, status: int = 0) -> Ran:
        """A command that leaves no object in the TPM, which has room for three."""
        ran = run(TOP / "examples/efi/tpm", state, *words, cwd=folder)
        self.assertEqual(ran.status, status, f"ran: {ran}\n{ran.err.decode(errors='replace')}")
        if "-c" in words:
            run(TOP / "examples/efi/tpm", state, "tpm2_flushcontext", "-t", cwd=folder)
        return ran

    def tell_boot(self, state: Path, folder: Path) -> None:
        """What the boot of a Linux kernel measures, in all banks."""
        events = [event for event in boots.linux_boot(FILES) if event.kind != boots.NO_ACTION]
        digests = [",".join(f"{bank}={event.digest(bank).hex()}" for bank in cases.ALL_BANKS) for event in events]
        self.tool(state, folder, "tpm2_pcrextend", *(f"{event.pcr}:{each}" for event, each in zip(events, digests)))
