"""Replays, traces and runs. No other program does this, so they have tables of their own, with a count of the same file."""

from __future__ import annotations

import csv
import os
from collections import Counter
from dataclasses import dataclass
from pathlib import Path
from typing import Iterable, Sequence

from harness import measure
from harness.tables import MB, Result

HEAD = ("runs", "median s", "min..max s", "CPU s", "peak MB", "time/count")


# More bytes than a row of a trace has here.
LONGEST_ROW = 1 << 16


class Wrong(Exception):
    """A replay, a trace or a run printed a wrong result."""


@dataclass(frozen=True)
class Job:
    """A subcommand, a file, a script and a number of partitions, and the expected result: the number of committed records,
    which are all, and of members that own partitions."""

    command: str
    name: str
    file: Path
    script: Path
    partitions: int
    records: int
    members: int

    def pipeline(self, program: Path) -> measure.Pipeline:
        """The run of this job."""
        words = [self.command, str(self.file), str(self.script), "--partitions", str(self.partitions)]
        return [[str(program), *words]]

    def count(self, program: Path) -> measure.Pipeline:
        """A count of the same file, over the same number of partitions."""
        return [[str(program), "count", str(self.file), "--partitions", str(self.partitions)]]

    def check(self, output: Path) -> None:
        """Fails for a wrong total, a partition without an owner, or an unbalanced assignment."""
        owners: Counter[str] = Counter()
        last: list[str] = []
        with output.open(newline="", encoding="latin-1") as rows:
            for last in csv.reader(rows):
                if last[0] == "owner":
                    owners[last[2]] += 1
        if last != ["total", str(self.records), str(self.records)]:
            raise Wrong(f"{self.name} ends with {','.join(last)}")
        if len(owners) != self.members or max(owners.values()) - min(owners.values()) > 1 or "" in owners:
            raise Wrong(f"{self.name} spreads its partitions over {len(owners)} members, or not evenly")


class Trace(Job):
    """A trace, of which the last row is checked."""

    def check(self, output: Path) -> None:
        """Fails where, after the last line, a partition has no owner or no reader, or the assignment is unbalanced, or a
        record is not committed."""
        fields = dict(zip(("generation", "phase", "waiting", "granted", "unread", "lag"), last_row(output)[-6:]))
        if fields["lag"] != "0" or fields["unread"] or fields["phase"] != "stable":
            raise Wrong(f"{self.name} ends with {fields}")
        sizes = [sum(map(size_of, words.split(" ")[1:])) for words in fields["granted"].split(";")]
        if len(sizes) != self.members or sum(sizes) != self.partitions or max(sizes) - min(sizes) > 1:
            raise Wrong(f"{self.name} spreads its partitions as {sizes}")


def last_row(output: Path) -> list[str]:
    """The fields of the last row of a file."""
    with output.open("rb") as rows:
        rows.seek(max(0, output.stat().st_size - LONGEST_ROW), os.SEEK_SET)
        return rows.read().decode("ascii").splitlines()[-1].split(",")


def size_of(word: str) -> int:
    """How many partitions a range has, such as `3` or `0-9`."""
    first, _, last = word.partition("-")
    return int(last or first) - int(first) + 1


def written(path: Path, lines: Iterable[str]) -> Path:
    """A file of these lines."""
    path.write_text("".join(f"{line}\n" for line in lines), encoding="ascii")
    return path


def joins(folder: Path, members: int) -> Job:
    """Members join one by one, each with a complete rebalance, over the maximum number of partitions."""
    lines = (line for number in range(members) for line in (f"join m{number}", "settle"))
    script = written(folder / f"joins-{members}", lines)
    name = f"{members} joins, each settled, 4096 partitions"
    return Job("replay", name, written(folder / "no-records", []), script, 4096, 0, members)


def drains(folder: Path, file: Path, records: int, partitions: int) -> Job:
    """Sixteen members drain all logs; then a loss, a join, and another drain."""
    lines = [*(f"join m{number}" for number in range(16)), "drain", "lose m3", "join m16", "drain"]
    name = f"{records:,} records, 16 joins, drain, a loss, a join, drain, {partitions} partitions"
    return Job("replay", name, file, written(folder / "drains", lines), partitions, records, 16)


def traced_joins(folder: Path, members: int, each: bool) -> Job:
    """Members join one by one, with a complete rebalance after each or after all, over the maximum number of partitions."""
    lines = [line for number in range(members) for line in (f"join m{number}", *["settle"] * each)]
    script = written(folder / f"traced-{members}", lines if each else [*lines, "settle"])
    name = f"{members} joins, {'each settled' if each else 'then settled'}, 4096 partitions"
    return Trace("trace", name, written(folder / "no-records", []), script, 4096, 0, members)


def traced_drain(folder: Path, file: Path, records: int) -> Job:
    """A member drains all logs by batches of 500 records."""
    script = written(folder / "drain", ["join m0", "drain"])
    return Trace("trace", f"{records:,} records, drained by batches of 500, 64 partitions", file, script, 64, records, 1)


def members(folder: Path, file: Path, records: int, count: int) -> Job:
    """A run in which `count` members join, one thread each, and read all records."""
    plan = written(folder / f"members-{count}", (f"join m{number}" for number in range(count)))
    name = f"{records:,} records, {count} member{'s' if count > 1 else ''}, 64 partitions"
    return Job("run", name, file, plan, 64, records, count)


def row(name: str, result: Result, count: Result) -> Sequence[str]:
    """The row of a job."""
    walls = [run.wall for run in result.runs]
    spread = f"{min(walls):.3f}..{max(walls):.3f}"
    return [
        name, str(len(walls)), f"{result.wall:.3f}", spread, f"{result.cpu:.3f}", f"{result.peak / MB:.1f}",
        f"{result.wall / count.wall:.2f}",
    ]


def measured(program: Path, job: Job, scratch: Path, runs: int, limit: float) -> Sequence[str]:
    """The row of a job, whose runs alternate with counts of its file, after a run that is checked."""
    output = scratch / "printed"
    measure.run(job.pipeline(program), output, limit)
    job.check(output)
    result, count = Result(job.name), Result("count")
    for _ in range(runs):
        result.runs.append(measure.run(job.pipeline(program), measure.NOWHERE, limit))
        count.runs.append(measure.run(job.count(program), measure.NOWHERE, limit))
    return row(job.name, result, count)
