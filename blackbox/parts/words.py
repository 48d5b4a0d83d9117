"""Completions of bash, compared with the help, and the output of --version. release/generate checks that the man page and all
completions match the help."""
import re
import shutil
import subprocess
from typing import Iterator

from .program import FOLDER, TOP, Cases, run

SUBCOMMANDS = ("count", "place", "replay", "trace", "draw", "run", "check", "explain")
BASH = TOP / "completions" / "keycount.bash"


def listed(title: str, *words: str) -> set[str]:
    """The names in a list of the help."""
    text = run([word.encode() for word in words] + [b"--help"], FOLDER).stdout.decode()
    found = re.search(rf"^{title}:\n((?:  .*\n)+)", text, re.M)
    names = re.findall(r"[\w-]+", " ".join(line.strip().split("  ")[0] for line in found[1].splitlines())) if found else []
    return {name for name in names if name[0] == "-" or name.islower()}


def completed(*words: str) -> set[str]:
    """What bash completes for the last of these words."""
    script = 'source "$1"; shift; COMP_WORDS=("$@"); COMP_CWORD=$(($# - 1)); _keycount; printf "%s\\n" "${COMPREPLY[@]}"'
    done = subprocess.run(["bash", "-c", script, "", BASH, "keycount", *words], capture_output=True, text=True, check=False)
    return set(done.stdout.split())


def completion_faults() -> Iterator[str]:
    for words in ((), *((name,) for name in SUBCOMMANDS)):
        if not completed(*words, "-") == listed("Options", *words) > {"--help"}:
            yield f"after {words} it completes {completed(*words, '-')}, not {listed('Options', *words)}"
    commands = {name for name in completed("") if name[0] != "-"}
    if not commands == listed("Commands") == {*SUBCOMMANDS, "help"}:
        yield f"it completes the commands {commands}, not {listed('Commands')}"
    codes = {line.split()[0] for line in run([b"explain"], FOLDER).stdout.decode().splitlines()}
    if not completed("explain", "") == codes > {"90"}:
        yield f"it completes the codes {completed('explain', '')}"


def logic_of(line: bytes) -> bytes:
    """The hash of the logic in a kit's line, or the whole line where it has none."""
    found = re.fullmatch(rb"rattle-kit-[0-9]+[a-z]* logic ([0-9a-f]{16})", line)
    return found[1] if found else line


def version_faults() -> Iterator[str]:
    """The program, its version, and the line of the toolchain."""
    ended = run([b"--version"], FOLDER)
    found = re.fullmatch(rb"keycount [0-9]+(?:\.[0-9]+)+, proved with ([^\n]+)\n", ended.stdout)
    if not found or ended.stderr or ended.status or run([b"-V"], FOLDER) != ended:
        yield f"it ends with {ended}"
    elif shutil.which("rt"):
        kit = subprocess.run(["rt", "version"], stdout=subprocess.PIPE, check=True).stdout.strip()
        # Kits with the same logic differ in their letters.
        if logic_of(found[1]) != logic_of(kit):
            yield f"the toolchain here is {kit!r}, and the program was proved by {found[1]!r}"


def cases() -> Cases:
    yield "bash completes the options and commands of the help", completion_faults()
    yield "the version", version_faults()
