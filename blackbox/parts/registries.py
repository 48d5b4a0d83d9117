"""The IEEE's registries of addresses, as Debian's package ieee-data has them: what `count` and `place` print of each column, compared
with what Python's csv reads there. Without the package the part is skipped."""
from pathlib import Path
from typing import Iterator

from simulator.laws import count_text
from simulator.records import Options, keyed, read

from .places import file_faults
from .program import Cases, Outcome, run

FOLDER = Path("/usr/share/ieee-data")
FILES = ("oui.csv", "mam.csv", "oui36.csv", "iab.csv")
# The prefix, and two columns with quotes, commas and, in some fields, line feeds.
COLUMNS = (2, 3, 4)


def count_faults(path: Path, options: Options) -> Iterator[str]:
    wanted = Outcome(count_text([key for _, key in keyed(read(path.read_bytes()), options)]), b"", 0)
    if (ended := run([b"count", bytes(path), b"--header", b"--column", b"%d" % options.column], "/")) != wanted:
        yield f"it ends with {ended}"


def of_file(path: Path) -> Cases:
    text = path.read_bytes()
    for column in COLUMNS:
        options = Options(12, column, True)
        words = f"--header --column {column} --partitions 12"
        yield f"{path.name}: count of column {column}", count_faults(path, options)
        yield f"{path.name}: place of column {column}", file_faults(text, options, False, 0, words)
        yield f"{path.name}: place --keys of column {column}", file_faults(text, options, True, 0, words + " --keys")


def cases() -> Cases:
    present = [FOLDER / name for name in FILES if (FOLDER / name).is_file()]
    if not present:
        print(f"registries: skipped, since {FOLDER} has none (Debian's ieee-data)", flush=True)
    for path in present:
        yield from of_file(path)
