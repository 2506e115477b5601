"""Programs that the checker runs: each has a time and so much room for what it says."""

import os
import resource
import signal
import subprocess
import tempfile
from functools import partial
from pathlib import Path
from typing import List, NamedTuple

from limits import OUTPUT_BYTES
from reading import BadInput


class Ran(NamedTuple):
    status: int
    out: bytes
    err: bytes


def ran(words: List[str], folder: Path, seconds: float) -> Ran:
    """A run that has ended; one that takes longer or says more is ended, with all that it started."""
    with tempfile.TemporaryFile() as out, tempfile.TemporaryFile() as err:
        limited = partial(resource.setrlimit, resource.RLIMIT_FSIZE, (OUTPUT_BYTES, OUTPUT_BYTES))
        how = {"cwd": folder, "stdin": subprocess.DEVNULL, "stdout": out, "stderr": err}
        try:
            process = subprocess.Popen(words, start_new_session=True, preexec_fn=limited, **how)
        except (OSError, subprocess.SubprocessError) as error:
            raise BadInput(f"{words[0]}: {getattr(error, 'strerror', error)}") from None
        try:
            status = process.wait(seconds)
        except subprocess.TimeoutExpired:
            raise BadInput(f"{words[0]} has not ended after {seconds:g} seconds") from None
        finally:
            if process.poll() is None:
                os.killpg(process.pid, signal.SIGKILL)
                process.wait()
        if any(stream.seek(0, os.SEEK_END) >= OUTPUT_BYTES for stream in (out, err)):
            raise BadInput(f"{words[0]} says more than {OUTPUT_BYTES} bytes")
        return Ran(status, *(stream.read() for stream in (out, err) if stream.seek(0) == 0))
