"""Runs of the program."""

from __future__ import annotations

import os
import subprocess
import tempfile
from pathlib import Path
from typing import NamedTuple

BUILT = Path(__file__).resolve().parent.parent.parent / "crates" / "keycount" / "out" / "keycount"
SECONDS = 60
# The status that stands for a run that did not end in time.
LATE = -1


class Outcome(NamedTuple):
    """The outcome of a run of the program."""

    stdout: bytes
    stderr: bytes
    status: int


def run(program: Path, words: list[bytes], folder: Path) -> Outcome:
    """Runs the program in a folder."""
    try:
        done = subprocess.run([os.fsencode(program), *words], cwd=folder, stdin=subprocess.DEVNULL, capture_output=True,
                              timeout=SECONDS, check=False)
    except subprocess.TimeoutExpired:
        return Outcome(b"", b"it does not end within %d s" % SECONDS, LATE)
    return Outcome(done.stdout, done.stderr, done.returncode)


def outcomes(program: Path, files: dict[str, bytes], runs: list[list[bytes]]) -> list[Outcome]:
    """The outcomes of runs in a folder with these files."""
    with tempfile.TemporaryDirectory(prefix="simulate-") as folder:
        for name, text in files.items():
            (Path(folder) / name).write_bytes(text)
        return [run(program, words, Path(folder)) for words in runs]
