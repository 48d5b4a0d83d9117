"""What a terminal shows while a file is read: a line that is written over, at most ten times a second, and wiped at the end."""
import os
import pty
import re
import subprocess
import time
from typing import Iterator

from .program import Cases, program

BLOCK = b"21\n4\n" * 40_000
SHOWN = re.compile(rb"\r\d+ MB, \d+ MB/s\x1b\[K")
WIPED = b"\r\x1b[K"


def watched(words: list[str], blocks: list[bytes], pause: float) -> tuple[bytes, bytes, float]:
    """What the program prints on standard output and on a terminal as its standard error, and how many seconds it took to
    write these blocks to its standard input, with a pause behind each."""
    leader, terminal = pty.openpty()
    began = time.monotonic()
    with subprocess.Popen([program(), *words], stdin=subprocess.PIPE, stdout=subprocess.PIPE, stderr=terminal) as running:
        os.close(terminal)
        for block in blocks:
            running.stdin.write(block)
            running.stdin.flush()
            time.sleep(pause)
        took = time.monotonic() - began
        running.stdin.close()
        printed = running.stdout.read()
    shown = b""
    try:
        while more := os.read(leader, 65536):
            shown += more
    except OSError:  # The terminal's other end is closed.
        pass
    os.close(leader)
    return printed, shown, took


def faults_of_line(shown: bytes, took: float, behind: bytes) -> Iterator[str]:
    """What is wrong with a line that was shown, wiped, and followed by this."""
    texts = SHOWN.findall(shown)
    if not 1 <= len(texts) <= took * 10:
        yield f"{len(texts)} texts in {took:.2f} seconds"
    if shown != b"".join(texts) + WIPED + behind:
        yield f"the terminal has {shown[:300]!r}"


def long_read() -> Iterator[str]:
    printed, shown, took = watched(["count", "-"], [BLOCK] * 8, 0.08)
    yield from faults_of_line(shown, took, b"")
    if printed != b"count,21,320000\ncount,4,320000\ntotal,640000,640000\n":
        yield f"standard output has {printed[:300]!r}"


def fault_behind() -> Iterator[str]:
    _, shown, took = watched(["count", "-"], [BLOCK] * 6 + [b"1,2\n"], 0.08)
    yield from faults_of_line(shown, took, b"fault 24 at record 480001\r\n")


def short_read() -> Iterator[str]:
    printed, shown, _ = watched(["count", "-"], [b"21\n4\n21\n"], 0)
    if shown or printed != b"count,21,2\ncount,4,1\ntotal,3,3\n":
        yield f"the terminal has {shown!r}, standard output {printed!r}"


def cases() -> Cases:
    yield "the progress of a long read is shown and wiped", long_read()
    yield "a fault comes behind a wiped line", fault_behind()
    yield "a short read shows nothing", short_read()
