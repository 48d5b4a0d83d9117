"""The machine that was measured on."""

from __future__ import annotations

import os
import platform
from pathlib import Path
from typing import Iterable

from harness.programs import version_of


def named_line(path: str, name: str) -> str:
    """The value of the first line `name: value` of a file of the system."""
    try:
        lines = Path(path).read_text().splitlines()
    except OSError:
        return "unknown"
    values = (line.partition(":")[2].strip() for line in lines if line.startswith(name))
    return next(values, "unknown")


def memory() -> str:
    """The size of the memory."""
    size = named_line("/proc/meminfo", "MemTotal").split()[0]
    return f"{int(size) * 1024 / 1e9:.1f} GB of memory" if size.isdigit() else "unknown memory"


def machine_line() -> str:
    """The machine: its processors, its memory, its kernel, and its load."""
    model = named_line("/proc/cpuinfo", "model name")
    count = len(os.sched_getaffinity(0))
    system = f"{platform.system()} {platform.release()}"
    busy = f"load at the start {os.getloadavg()[0]:.1f}"
    return f"Machine: {model}, {count} processors, {memory()}, {system}, {busy}."


def versions_line(names: Iterable[str]) -> str:
    """The versions of the peers, and of Python, which made the inputs."""
    versions = dict.fromkeys(version_of(name) for name in names)
    return f"Versions: {'; '.join([*versions, f'Python {platform.python_version()}'])}."
