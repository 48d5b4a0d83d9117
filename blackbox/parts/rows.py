"""The rows of rows.json. What makes `replay` end with a fault does so for the jobs that read what it reads, too.

A row has the words after the program's name, the files in the folder that it runs in, and what it must print. Text is Latin-1,
one character per byte; a text can also be a list of pairs of a text and its repetitions, or an object whose `file` names a
file in this folder. A `stdout` of null is not compared. A `stderr` that is an object with `error` is clap's text: a first line
with this error, the usage, and a pointer to the help. `stdin` is the standard input."""
import json
import tempfile
from pathlib import Path
from typing import Iterator

from .program import FOLDER, Cases, run, text_of

# The jobs that have the arguments, options and faults of `replay`.
LIKE_REPLAY = ("trace", "draw")


def is_wanted(wanted: str | list | dict, printed: bytes) -> bool:
    """Whether standard error is what a row wants."""
    if not isinstance(wanted, dict) or "error" not in wanted:
        return printed == text_of(wanted)
    first, *rest = printed.decode("latin-1").split("\n")
    # The error for a value out of range names the range, without a usage; all others come with the usage of their command.
    usages = [line for line in rest if line.startswith("Usage: keycount")]
    return (first == f"error: {wanted['error']}" and rest[-3:] == ["", "For more information, try '--help'.", ""]
            and len(usages) == (0 if first.startswith("error: invalid value") else 1))


def row_faults(row: dict) -> Iterator[str]:
    with tempfile.TemporaryDirectory() as folder:
        for name, text in row.get("files", {}).items():
            (Path(folder) / name).write_bytes(text_of(text))
        done = run([word.encode("latin-1") for word in row["words"]], folder, stdin=text_of(row.get("stdin", "")))
    if row["stdout"] is not None and done.stdout != text_of(row["stdout"]):
        yield f"standard output is {done.stdout[:300]!r}"
    if not is_wanted(row["stderr"], done.stderr):
        yield f"standard error is {done.stderr[:300]!r}"
    if done.status != row["status"]:
        yield f"the status is {done.status}"


def cases() -> Cases:
    for row in json.loads((FOLDER / "rows.json").read_text(encoding="utf-8")):
        yield row["name"], row_faults(row)
        for job in LIKE_REPLAY if row["words"][:1] == ["replay"] and row["status"] else ():
            yield f"{job}: {row['name']}", row_faults({**row, "words": [job, *row["words"][1:]]})
