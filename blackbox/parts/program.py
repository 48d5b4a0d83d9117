"""The program of the current sources, and runs of it."""
import os
import subprocess
from functools import lru_cache
from pathlib import Path
from typing import Iterator, NamedTuple

FOLDER = Path(__file__).resolve().parent.parent
TOP = FOLDER.parent

# What a part yields: the names of cases with their faults, which are found while they are iterated.
Cases = Iterator[tuple[str, Iterator[str]]]


class Outcome(NamedTuple):
    stdout: bytes
    stderr: bytes
    status: int

    def __str__(self) -> str:
        return f"{self.stdout[:300]!r} ({len(self.stdout)} bytes), {self.stderr[:300]!r}, status {self.status}"


@lru_cache
def program() -> Path:
    """The program of the current sources; if there is none, it is built, with progress on standard error."""
    located = subprocess.run([TOP / "release" / "locate"], stdout=subprocess.PIPE, stdin=subprocess.DEVNULL, check=True)
    return Path(os.fsdecode(located.stdout.removesuffix(b"\n")))


def run(words: list[bytes], folder: str | Path, environment: dict[str, str] | None = None, stdout: int = subprocess.PIPE,
        stdin: bytes = b"") -> Outcome:
    done = subprocess.run([os.fsencode(program())] + words, cwd=folder, input=stdin, stdout=stdout, stderr=subprocess.PIPE,
                          env=environment, timeout=120, check=False)
    return Outcome(done.stdout or b"", done.stderr, done.returncode)


def text_of(value: str | list | dict) -> bytes:
    """A text of a row: Latin-1, one character per byte; a list of pairs of a text and its repetitions; or a file."""
    if isinstance(value, dict):
        return (FOLDER / value["file"]).read_bytes()
    parts = [(value, 1)] if isinstance(value, str) else value
    return b"".join(text.encode("latin-1") * times for text, times in parts)
