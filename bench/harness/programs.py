"""The programs that are measured: ours, its peers, and the limits."""

from __future__ import annotations

import shutil
import subprocess
from dataclasses import dataclass
from pathlib import Path
from typing import Callable

from harness.check import Reader, counted_lines, counted_rows, key_rows
from harness.inputs import Input
from harness.measure import Pipeline

OURS = "keycount"


@dataclass(frozen=True)
class Program:
    """A program over some input. A limit prints no counts, and has no reader."""

    name: str
    pipeline: Pipeline
    reader: Reader | None


@dataclass(frozen=True)
class Tool:
    """The command that a program needs, its Debian package, and the options that print its version."""

    command: str
    package: str
    version: tuple[str, ...]


TOOLS = {
    "mawk": Tool("mawk", "mawk", ("-W", "version")),
    "gawk": Tool("gawk", "gawk", ("--version",)),
    "sort | uniq -c": Tool("sort", "coreutils", ("--version",)),
    "mlr": Tool("mlr", "miller", ("--version",)),
    "Rust peer": Tool("rustc", "rustc", ("--version",)),
    "tuned Rust": Tool("rustc", "rustc", ("--version",)),
}


@dataclass(frozen=True)
class RustPeer:
    """A Rust program in bench/peer: its main file, and the options of its build besides those of all."""

    source: str
    options: tuple[str, ...] = ()


# The tuned one is built for the processors that keycount is built for.
RUST_PEERS = {
    "Rust peer": RustPeer("count.rs"),
    "tuned Rust": RustPeer("tuned/main.rs", ("-C", "target-cpu=x86-64-v2")),
}


def ours(program: Path, target: Input) -> Program:
    """The program of this repository."""
    column = [] if target.shape.column == 1 else ["--column", str(target.shape.column)]
    return Program(OURS, [[str(program), "count", *column, str(target.path)]], counted_rows)


def awk(name: str, target: Input) -> Program:
    """An awk, which splits at every comma."""
    column = target.shape.column
    key, split = ("$0", []) if column == 1 else (f"${column}", ["-F,"])
    text = f"{{ n[{key}]++ }} END {{ for (k in n) print n[k], k }}"
    return Program(name, [[name, *split, text, str(target.path)]], counted_lines)


def sort_uniq(target: Input) -> Program:
    """sort and uniq, after a cut at every comma for another column than the first."""
    path, column = str(target.path), target.shape.column
    first = [["sort", path]] if column == 1 else [["cut", "-d,", f"-f{column}", path], ["sort"]]
    return Program("sort | uniq -c", [*first, ["uniq", "-c"]], counted_lines)


def miller(target: Input) -> Program:
    """Miller, which reads quoted fields."""
    form = ["--icsv", "--implicit-csv-header", "--ocsv", "--headerless-csv-output"]
    work = ["count-distinct", "-f", str(target.shape.column)]
    return Program("mlr", [["mlr", *form, *work, str(target.path)]], key_rows)


def built_peer(name: str, folder: Path) -> Path:
    """A Rust program that was built in a folder."""
    return folder / name.replace(" ", "-")


def rust_peer(name: str, folder: Path, target: Input) -> Program:
    """A Rust program in bench/peer, built in a folder."""
    words = [str(built_peer(name, folder)), str(target.path), str(target.shape.column)]
    return Program(name, [words], counted_rows)


def limits(target: Input) -> list[Program]:
    """Lower bounds for programs that read the file."""
    path = str(target.path)
    return [Program("cat", [["cat", path]], None), Program("wc -l", [["wc", "-l", path]], None)]


def makers(folder: Path) -> dict[str, Callable[[Input], Program]]:
    """The makers of the peers, by name. The Rust programs were built in a folder."""
    return {
        "mawk": lambda target: awk("mawk", target),
        "gawk": lambda target: awk("gawk", target),
        "sort | uniq -c": sort_uniq,
        "mlr": miller,
        "Rust peer": lambda target: rust_peer("Rust peer", folder, target),
        "tuned Rust": lambda target: rust_peer("tuned Rust", folder, target),
    }


def build_peer(name: str, sources: Path, folder: Path) -> bool:
    """Builds a Rust program in a folder, and returns whether that succeeded."""
    peer = RUST_PEERS[name]
    output = ["-o", str(built_peer(name, folder)), str(sources / peer.source)]
    command = ["rustc", "--edition", "2021", "-O", *peer.options, *output]
    return subprocess.run(command, stderr=subprocess.DEVNULL, check=False).returncode == 0


def is_installed(name: str) -> bool:
    """Whether a peer is installed."""
    return shutil.which(TOOLS[name].command) is not None


def version_of(name: str) -> str:
    """The version of a peer: the first line that it prints, up to a comma."""
    tool = TOOLS[name]
    done = subprocess.run([tool.command, *tool.version], capture_output=True, check=False)
    lines = (done.stdout or done.stderr).decode(errors="replace").splitlines()
    return lines[0].partition(",")[0].strip() if lines else tool.command
