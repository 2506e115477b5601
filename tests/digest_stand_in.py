"""Stands in for the program where it is not built: `digest DESC`, by the model."""

import sys
from pathlib import Path

sys.dont_write_bytecode = True
sys.path.insert(0, str(Path(__file__).resolve().parent.parent / "model"))

from program import lines  # noqa: E402
from rules import booting  # noqa: E402


def main(words) -> int:
    if len(words) != 2 or words[0] != "digest":
        return 64
    run = booting.digest(Path(words[1]).read_bytes(), booting.paths_from("."))
    sys.stdout.buffer.write(lines(run.said))
    sys.stderr.buffer.write(lines(run.blamed))
    return run.status


if __name__ == "__main__":
    sys.exit(main(sys.argv[1:]))
