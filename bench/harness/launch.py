"""Runs a pipeline: `launch.py OUTPUT WORD... [\\| WORD...]...`, with the output of its last program to the file OUTPUT.

It prints one line: the wall-clock seconds, the processor seconds, the largest peak of its programs in bytes, and the first
status that is not 0.

It is a program of its own and imports little, since the peak that Linux reports for a child is at least the memory of its
parent at the fork."""

from __future__ import annotations

import os
import sys
import time

# The unit of ru_maxrss.
KIB = 1024


def pipeline_of(words: list[str]) -> list[list[str]]:
    """The words of each program; bars separate programs."""
    pipeline: list[list[str]] = [[]]
    for word in words:
        if word == "|":
            pipeline.append([])
        else:
            pipeline[-1].append(word)
    return pipeline


def start(words: list[str], source: int, sink: int) -> int:
    """Starts a program, and returns its process."""
    process = os.fork()
    if process != 0:
        return process
    try:
        os.dup2(source, 0)
        os.dup2(sink, 1)
        os.execvp(words[0], words)
    except OSError as error:
        os.write(2, f"{words[0]}: {error.strerror}\n".encode())
    finally:
        os._exit(127)


def start_all(pipeline: list[list[str]], output: int) -> list[int]:
    """Starts the programs of a pipeline, and returns their processes."""
    processes = []
    source = os.open(os.devnull, os.O_RDONLY)
    for words in pipeline[:-1]:
        after, sink = os.pipe()
        processes.append(start(words, source, sink))
        os.close(source)
        os.close(sink)
        source = after
    processes.append(start(pipeline[-1], source, output))
    os.close(source)
    return processes


def wait_all(processes: list[int]) -> tuple[float, int, int]:
    """Waits for processes: the sum of their processor seconds, the largest of their peaks, and the first status that is
    not 0."""
    cpu, peak, fault = 0.0, 0, 0
    for process in processes:
        _, status, usage = os.wait4(process, 0)
        cpu += usage.ru_utime + usage.ru_stime
        peak = max(peak, usage.ru_maxrss * KIB)
        fault = fault or os.waitstatus_to_exitcode(status)
    return cpu, peak, fault


def main() -> None:
    """Runs the pipeline of the command line."""
    output = os.open(sys.argv[1], os.O_WRONLY | os.O_CREAT | os.O_TRUNC, 0o644)
    pipeline = pipeline_of(sys.argv[2:])
    began = time.perf_counter()
    cpu, peak, fault = wait_all(start_all(pipeline, output))
    print(time.perf_counter() - began, cpu, peak, fault)


main()
