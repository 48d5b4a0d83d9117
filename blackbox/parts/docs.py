"""The commands of README.md and docs/GUIDE.md, with the output that the pages show. In an indented block a command begins with
`$ ` and goes on with `> `; what follows is its output, in which a line `..` stands for any lines. A command that makes a
picture of the repository must print what stands there."""
import re
import shutil
import subprocess
from typing import Iterator, NamedTuple

from .program import TOP, Cases, program

PAGES = ("README.md", "docs/GUIDE.md")
# Commands with a tool that is not installed are skipped, and those that need a broker.
TOOLS = ("column",)
SKIPPED = re.compile(rf"(?<![-\w])(?:{'|'.join(['kcat', *(tool for tool in TOOLS if not shutil.which(tool))])}) ")
PICTURE = re.compile(r"> ((?:docs|samples)/\S+\.svg)$")


class Command(NamedTuple):
    text: str
    output: list[str]


def commands(page: str) -> Iterator[Command]:
    """The commands of a page, in order."""
    last: Command | None = None
    for line in [*page.splitlines(), ""]:
        if last and (not line.startswith("    ") or line.startswith("    $ ")):
            yield last
            last = None
        if line.startswith("    $ "):
            last = Command(line[6:], [])
        elif last and line.startswith("    > ") and not last.output:
            last = Command(f"{last.text}\n{line[6:]}", [])
        elif last:
            last.output.append(line[4:])


def command_faults(command: Command) -> Iterator[str]:
    shown = "".join(r"(?:.*\n)*" if line == ".." else re.escape(line) + "\n" for line in command.output)
    text = PICTURE.sub(r"| cmp - \1", command.text)
    done = subprocess.run(["bash", "-c", text], cwd=TOP, stdin=subprocess.DEVNULL, stdout=subprocess.PIPE,
                          stderr=subprocess.PIPE, encoding="utf-8", timeout=120, check=False)
    if not re.fullmatch(shown, done.stdout) or done.stderr or done.returncode:
        yield f"it prints {done.stdout[:300]!r} and {done.stderr[:300]!r}, status {done.returncode}"


def cases() -> Cases:
    program()  # What ./keycount runs: it is built before, so that nothing is printed about that.
    for name in PAGES:
        for command in commands((TOP / name).read_text(encoding="utf-8")):
            if not SKIPPED.search(command.text):
                yield f"{name}: {command.text}", command_faults(command)
