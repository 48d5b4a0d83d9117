"""The counts that programs print, each in its own format, and their comparison."""

from __future__ import annotations

import csv
import hashlib
import subprocess
from collections import Counter
from dataclasses import dataclass
from itertools import islice
from pathlib import Path
from typing import Callable, Iterable, Iterator, Sequence

from harness.measure import ENVIRONMENT

# Keys, and their counts.
Batch = tuple[Sequence[str], Sequence[str]]
Reader = Callable[[Path], Iterator[Batch]]

# The number of rows that are held in memory.
HELD = 500


@dataclass(frozen=True)
class Totals:
    """The hash of the sorted pairs of key and count, their number, and the sum of the counts."""

    digest: str
    keys: int
    records: int

    def fault(self, ours: Totals) -> str:
        """How these differ from ours, or nothing."""
        if self.keys != ours.keys:
            return f"{self.keys:,} keys, not {ours.keys:,}"
        if self.records != ours.records:
            return f"{self.records:,} records, not {ours.records:,}"
        return "" if self.digest == ours.digest else "other counts"


def csv_batches(path: Path) -> Iterator[list[list[str]]]:
    """The records of a CSV file, with bytes as characters."""
    with open(path, encoding="latin-1", newline="") as file:
        rows = csv.reader(file)
        while batch := list(islice(rows, HELD)):
            yield batch


def columns(rows: Sequence[Sequence[str]], width: int) -> list[tuple[str, ...]]:
    """The columns of rows, which must have this width."""
    if any(len(row) != width for row in rows):
        raise ValueError(f"a row does not have {width} fields")
    return list(zip(*rows)) if rows else [()] * width


def counted_rows(path: Path) -> Iterator[Batch]:
    """Of rows `count,KEY,N` and a last one `total,N,N`."""
    records, total = 0, [""]
    for rows in csv_batches(path):
        total = rows[-1]
        if total[0] == "total":
            rows.pop()
        tags, keys, counts = columns(rows, 3)
        if any(tag != "count" for tag in tags):
            raise ValueError("a row is not one of a count")
        records += sum(map(int, counts))
        yield keys, counts
    if total != ["total", str(records), str(records)]:
        raise ValueError("the last row is not the sum of the counts")


def key_rows(path: Path) -> Iterator[Batch]:
    """Of rows `KEY,N`."""
    for rows in csv_batches(path):
        keys, counts = columns(rows, 2)
        yield keys, counts


def counted_lines(path: Path) -> Iterator[Batch]:
    """Of lines `N KEY`, with spaces before the count."""
    with open(path, encoding="latin-1", newline="\n") as file:
        while lines := list(islice(file, HELD)):
            counts, keys = columns([line.rstrip("\n").lstrip(" ").split(" ", 1) for line in lines], 2)
            yield keys, counts


def counts_by_csv(path: Path, column: int) -> Iterator[Batch]:
    """The counts of an input by Python's csv. All keys are held in memory."""
    held: Counter[str] = Counter()
    for rows in csv_batches(path):
        held.update(row[column - 1] for row in rows)
    yield list(held.keys()), list(map(str, held.values()))


def totals(batches: Iterable[Batch], scratch: Path) -> Totals:
    """The totals of pairs, which are sorted by sort, in little memory."""
    keys_seen, records = 0, 0
    command = ["sort", "-S", "256M", "-T", str(scratch)]
    sorter = subprocess.Popen(command, stdin=subprocess.PIPE, stdout=subprocess.PIPE, env=ENVIRONMENT)
    with sorter, sorter.stdout as lines:
        with sorter.stdin as sink:
            for keys, counts in batches:
                keys_seen += len(keys)
                records += sum(map(int, counts))
                text = "".join(f"{key}\t{count}\n" for key, count in zip(keys, counts))
                sink.write(text.encode("latin-1"))
        digest = hashlib.sha256()
        while block := lines.read(1 << 20):
            digest.update(block)
    if sorter.returncode != 0:
        raise OSError(f"sort ended with status {sorter.returncode}")
    return Totals(digest.hexdigest(), keys_seen, records)
