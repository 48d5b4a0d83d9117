"""Many runs of one plan; a full output device, and a reader that goes away."""
import os
import signal
import subprocess
import tempfile
from pathlib import Path
from typing import Iterator

from .program import Cases, Outcome, program, run

# A plan of joins, leaves and losses, and records of which many have the same key.
PLAN = [*(f"join m{n}" for n in range(8)), "leave m2", "lose m5", "join m8", "lose m0", "leave m7", "join m9", "join m10"]
RECORDS = b"".join(b"key-%d\n" % (n * n % 1999) for n in range(20_000))
RUNS = 300


def full_device_faults() -> Iterator[str]:
    """Writes to /dev/full fail."""
    with tempfile.TemporaryDirectory() as folder, open("/dev/full", "wb") as full:
        (Path(folder) / "f").write_bytes(b"21\n4\n")
        for words in ([b"count", b"f"], [b"explain"], [b"explain", b"26"]):
            done = run(words, folder, stdout=full.fileno())
            if done != Outcome(b"", b"fault 26\n", 3):
                yield f"{words} ends with {done}"


def gone_reader_faults(is_ignored: bool) -> Iterator[str]:
    """A reader that closes a long output after a byte, as head does. If SIGPIPE is ignored, the write fails; otherwise the
    signal may end the program without a message."""
    with tempfile.TemporaryDirectory() as folder:
        (Path(folder) / "f").write_bytes(b"".join(b"%d\n" % n for n in range(200_000)))
        with subprocess.Popen([os.fsencode(program()), b"count", b"f"], cwd=folder, stdout=subprocess.PIPE,
                              stderr=subprocess.PIPE, restore_signals=not is_ignored) as started:
            assert started.stdout and started.stderr
            first = started.stdout.read(1)
            started.stdout.close()
            message, status = started.stderr.read(), started.wait(120)
    ends = {(b"fault 26\n", 3)} | (set() if is_ignored else {(b"", -signal.SIGPIPE)})
    if first != b"c" or (message, status) not in ends:
        yield f"it begins with {first!r}, prints {message!r} and ends with status {status}"


def many_runs_faults() -> Iterator[str]:
    """However the threads are scheduled, a run prints what a replay prints that settles after each line and drains at the end;
    and the end of this is what a count prints."""
    with tempfile.TemporaryDirectory() as folder:
        files = {"records": RECORDS, "plan": "".join(f"{line}\n" for line in PLAN).encode(),
                 "script": "".join(f"{line}\nsettle\n" for line in PLAN).encode() + b"drain\n"}
        for name, text in files.items():
            (Path(folder) / name).write_bytes(text)
        wanted = run([b"replay", b"records", b"script", b"--partitions", b"64"], folder)
        count = run([b"count", b"records", b"--partitions", b"64"], folder)
        if wanted.status != 0 or not wanted.stdout.endswith(count.stdout):
            yield f"a replay of the plan ends with {wanted.stderr!r} and not with the rows of a count"
        for nth in range(RUNS):
            batch = (b"1", b"7", b"500")[nth % 3]
            done = run([b"run", b"records", b"plan", b"--partitions", b"64", b"--batch", batch], folder)
            if done != wanted:
                yield f"run {nth} with batch {batch!r} ends with {done.status}, {done.stderr!r}, {len(done.stdout)} bytes"


def cases() -> Cases:
    yield "a full output device", full_device_faults()
    yield "a reader that goes away", gone_reader_faults(False)
    yield "a reader that goes away, with SIGPIPE ignored", gone_reader_faults(True)
    yield f"{RUNS} runs of a plan", many_runs_faults()
