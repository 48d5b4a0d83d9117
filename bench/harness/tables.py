"""Tables of the measurements."""

from __future__ import annotations

from dataclasses import dataclass, field
from statistics import fmean, median
from typing import Container, Iterable, Sequence

from harness.measure import Run

MB = 1_000_000
HEAD = ("program", "runs", "median s", "min..max s", "CPU s", "peak MB", "time/ours", "memory/ours")
NONE = "-"


@dataclass
class Result:
    """The runs of a program over an input, or why they do not count."""

    name: str
    runs: list[Run] = field(default_factory=list)
    verdict: str = ""
    reason: str = ""

    @property
    def mean(self) -> float:
        """The mean of its seconds, 0 without runs."""
        return fmean(run.wall for run in self.runs) if self.runs else 0.0

    @property
    def wall(self) -> float:
        """The median of its seconds."""
        return median(run.wall for run in self.runs)

    @property
    def cpu(self) -> float:
        """The median of its processor seconds."""
        return median(run.cpu for run in self.runs)

    @property
    def peak(self) -> int:
        """The highest of its peaks."""
        return max(run.peak for run in self.runs)


@dataclass(frozen=True)
class Scale:
    """What results are compared with: ours, the planned number of runs, and the lowest peak that can be measured."""

    ours: Result
    wanted: int
    floor: int

    def is_measurable(self, peak: int) -> bool:
        """Whether a peak is that of the program, and not of its launch."""
        return peak > self.floor * 1.05


def runs_cell(result: Result, scale: Scale) -> str:
    """The number of runs, with a mark if they are fewer than planned."""
    return f"{len(result.runs)}{'*' if len(result.runs) < scale.wanted else ''}"


def peak_cells(result: Result, scale: Scale) -> list[str]:
    """The peak, and its ratio to ours."""
    if not scale.is_measurable(result.peak):
        return [f"<={scale.floor / MB:.1f}", NONE]
    return [f"{result.peak / MB:.1f}", f"{result.peak / scale.ours.peak:.2f}"]


def cells(result: Result, scale: Scale) -> list[str]:
    """The row of a result."""
    if not result.runs:
        return [result.name, NONE, result.verdict, *[NONE] * 5]
    walls = [run.wall for run in result.runs]
    spread = f"{min(walls):.3f}..{max(walls):.3f}"
    peak, memory_ratio = peak_cells(result, scale)
    ratio = f"{result.wall / scale.ours.wall:.2f}"
    seconds = [f"{result.wall:.3f}", spread, f"{result.cpu:.3f}"]
    return [result.name, runs_cell(result, scale), *seconds, peak, ratio, memory_ratio]


def plain(rows: Sequence[Sequence[str]]) -> str:
    """Rows as a table in plain text."""
    widths = [max(map(len, column)) for column in zip(*rows)]
    return "\n".join(plain_line(row, widths) for row in rows)


def plain_line(row: Sequence[str], widths: Sequence[int]) -> str:
    """A row, with the name left-aligned and the numbers right-aligned."""
    numbers = (cell.rjust(width) for cell, width in zip(row[1:], widths[1:]))
    return "  ".join([row[0].ljust(widths[0]), *numbers])


def markdown(rows: Sequence[Sequence[str]]) -> str:
    """Rows as a Markdown table."""
    rule = ["---", *["---:"] * (len(rows[0]) - 1)]
    return "\n".join(markdown_line(row) for row in (rows[0], rule, *rows[1:]))


def markdown_line(row: Sequence[str]) -> str:
    """A row of a Markdown table."""
    return "| " + " | ".join(cell.replace("|", "\\|").replace("*", "\\*") for cell in row) + " |"


def ratios(results: Sequence[Result], peers: Container[str]) -> list[str]:
    """The ratios of our time, the first result, to those of some peers."""
    ours, *others = results
    found = [f"{peer.name} {ours.wall / peer.wall:.2f}" for peer in others if peer.name in peers and peer.runs]
    return [f"time/peer of {ours.name}: {', '.join(found)}"] if found else []


def notes(results: Iterable[Result], scale: Scale) -> list[str]:
    """The notes below a table."""
    results = list(results)
    found = [f"{result.verdict}: {result.name}: {result.reason}" for result in results if result.verdict]
    if any(0 < len(result.runs) < scale.wanted for result in results):
        found.append(f"* fewer than {scale.wanted} runs, for lack of time")
    return found


def growth(tenth: Iterable[Result], full: Iterable[Result], scale: Scale) -> list[str]:
    """The ratio of the full size to a tenth: 10 is linear."""
    before = {result.name: result for result in tenth if result.runs}
    both = [(before[result.name], result) for result in full if result.runs and result.name in before]
    times = [f"{after.name} {after.wall / small.wall:.1f}" for small, after in both]
    measurable = [pair for pair in both if all(scale.is_measurable(result.peak) for result in pair)]
    peaks = [f"{after.name} {after.peak / small.peak:.1f}" for small, after in measurable]
    return [f"growth of time, full / tenth: {', '.join(times)}", f"growth of memory, full / tenth: {', '.join(peaks)}"]
