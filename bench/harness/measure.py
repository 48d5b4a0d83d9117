"""Runs of programs: their time and memory."""

from __future__ import annotations

import os
import signal
import subprocess
import sys
from dataclasses import dataclass
from pathlib import Path
from typing import Sequence

Pipeline = Sequence[Sequence[str]]

# All programs compare bytes.
ENVIRONMENT = {**os.environ, "LC_ALL": "C"}

# The seconds from which on a run is long.
LONG = 1.0

NOWHERE = Path(os.devnull)
LAUNCH = Path(__file__).with_name("launch.py")


class Failed(Exception):
    """A program ended with a status other than 0, or could not be started."""


class TooSlow(Exception):
    """A program took longer than its limit."""


@dataclass(frozen=True)
class Run:
    """One run: wall-clock seconds, processor seconds, and the peak of memory in bytes, of a pipeline that of its largest
    process."""

    wall: float
    cpu: float
    peak: int


def barred(pipeline: Pipeline) -> list[str]:
    """The words of a pipeline, with bars between programs."""
    words = list(pipeline[0])
    for program in pipeline[1:]:
        words += ["|", *program]
    return words


def launched(words: Sequence[str], limit: float) -> tuple[str, str]:
    """The standard output and standard error of a launch, which is killed if it takes too long."""
    streams = {"stdin": subprocess.DEVNULL, "stdout": subprocess.PIPE, "stderr": subprocess.PIPE}
    with subprocess.Popen(words, **streams, text=True, env=ENVIRONMENT, start_new_session=True) as process:
        try:
            return process.communicate(timeout=limit)
        except subprocess.TimeoutExpired as error:
            raise TooSlow(f"over {limit:.0f} s") from error
        finally:
            if process.poll() is None:
                os.killpg(process.pid, signal.SIGKILL)


def run(pipeline: Pipeline, output: Path, limit: float) -> Run:
    """Runs a pipeline to its end, with its output to a file, and within a limit of seconds."""
    words = [sys.executable, "-I", "-S", str(LAUNCH), str(output), *barred(pipeline)]
    printed, faults = launched(words, limit)
    if not printed:
        raise Failed(f"it can't be launched: {faults.strip()}")
    wall, cpu, peak, fault = printed.split()
    if fault != "0":
        raise Failed(f"status {fault}: {faults.partition(os.linesep)[0]}".rstrip(": "))
    return Run(float(wall), float(cpu), int(peak))


def floor() -> int:
    """The lowest peak that can be measured: that of a program that does nothing, which is the launcher's."""
    return max(run([["true"]], NOWHERE, 60).peak for _ in range(5))


def runs_each(seconds: Sequence[float], wanted: int, budget: float) -> list[int]:
    """How many more runs each program gets, by the seconds of one run: as many as wanted, or, if they exceed the budget, fewer
    of the longest ones. The first program and short ones always get all of them."""
    runs = [wanted] * len(seconds)
    long = [i for i in range(1, len(runs)) if seconds[i] >= LONG]
    while sum(n * s for n, s in zip(runs, seconds)) > budget:
        spare = [i for i in long if runs[i] > 0]
        if not spare:
            break
        runs[max(spare, key=lambda i: runs[i] * seconds[i])] -= 1
    return runs
