"""What `explain` prints, compared with the pages in docs/, with the help, and with the refusals that traces report."""
import csv
import io
import re
import tempfile
from pathlib import Path
from random import Random
from typing import Iterator

from simulator import scripts, trials

from .program import FOLDER, TOP, Cases, run

LABELS = ("Jobs", "Cause", "State", "Remedy", "Kafka")
# The widest line, so that a terminal of 90 columns breaks none.
WIDEST = 90
# An error of Kafka's brokers, or an exception of its client.
ERROR = re.compile(r"\b[A-Z]{2,}(?:_[A-Z]+)+\b|\b[A-Za-z]+Exception\b")
SCRIPTS = 300


def explained(*words: str) -> str:
    """What `explain` prints for these words."""
    done = run([b"explain", *(word.encode() for word in words)], FOLDER)
    return done.stdout.decode("ascii") if (done.stderr, done.status) == (b"", 0) else f"it ends with {done}"


def listed() -> list[tuple[str, str, str]]:
    """The code, the name and the case of each line of the list."""
    return [tuple(re.fullmatch(r"(\d+) (\w+): (.*)", line).groups()) for line in explained().splitlines()]


def parts_of(code: str) -> dict[str, str]:
    """The parts of an explanation, by their labels, without line breaks."""
    found: dict[str, str] = {}
    label = ""
    for line in explained(code).splitlines()[2:]:
        label = line[:8].strip().removesuffix(":") or label
        found[label] = f"{found[label]} {line[9:]}" if label in found else line[9:]
    return found


def page(name: str) -> str:
    return (TOP / "docs" / name).read_text(encoding="utf-8")


def specified_faults() -> Iterator[str]:
    """The codes and names are those of the specification, in its order."""
    table = page("SPECIFICATION.md").split("Each refusal has one number")[1].split("\nA fault is")[0]
    wanted = re.findall(r"(\d+) ([A-Z]\w+)", table)
    if len(wanted) != 34 or [(code, name) for code, name, _ in listed()] != wanted:
        yield f"it lists {listed()}"


def form_faults() -> Iterator[str]:
    """An explanation begins with its line of the list; then come its parts, in order, each once."""
    for code, name, case in listed():
        lines = explained(code).split("\n")
        if lines[:2] != [f"{code} {name}: {case}", ""] or lines[-1] != "" or not all(lines[2:-1]):
            yield f"the explanation of {code} is {lines}"
        labels = [line[:9] for line in lines[2:-1] if line[0] != " "]
        if labels != [f"{label}:".ljust(9) for label in LABELS if label in parts_of(code)] or "Jobs" not in parts_of(code):
            yield f"the explanation of {code} has the parts {labels}"
        if max(map(len, lines)) > WIDEST or not all(line[:9] == " " * 9 for line in lines[2:-1] if line[0] == " "):
            yield f"the explanation of {code} is laid out otherwise"


def kafka_faults() -> Iterator[str]:
    """Kafka's errors are those of docs/KAFKA.md."""
    text = page("KAFKA.md").split("## Refusals and Kafka's errors")[1].split("\n## ")[0]
    wanted: dict[str, set[str]] = {}
    for line in re.findall(r"^- (.*)", text, re.M):
        names, _, rest = line.partition(": ")
        codes, errors = re.findall(r"\d+", names), ERROR.findall(rest)
        # Several codes have an error each, in this order.
        wanted.update(zip(codes, [{error} for error in errors] if len(codes) > 1 else [set(errors)]))
    named = {code: set(ERROR.findall(parts_of(code).get("Kafka", ""))) for code, _, _ in listed()}
    found = {code: errors for code, errors in named.items() if errors}
    if found != wanted or len(wanted) != 7:
        yield f"it names {found}, and the page {wanted}"


def help_faults() -> Iterator[str]:
    """The sentences of the list are those in the help of the jobs."""
    cases = {code: case for code, _, case in listed()}
    for job in ("count", "replay", "trace", "draw", "run", "explain"):
        text = run([job.encode(), b"--help"], FOLDER).stdout.decode()
        for code, case in re.findall(r"^  fault (\d+)(?: at \w+ N)? +(\S.*(?:\n {27}.*)?)", text, re.M):
            if cases[code] != re.sub(r"\s+", " ", case):
                yield f"the help of {job} says of {code}: {case}"


def jobs_faults() -> Iterator[str]:
    """What a trace refuses is said to come in a trace, at this event."""
    rng = Random("explain")
    events = {code: set(re.findall(r"[a-z]+", parts_of(code)["Jobs"])) for code, _, _ in listed()}
    met = set()
    for _ in range(SCRIPTS):
        source = trials.random_input(rng, batch=True, good=True)
        script = scripts.random_script(rng, source.options, source.pool, wild=True)
        with tempfile.TemporaryDirectory() as folder:
            (Path(folder) / "f").write_bytes(source.text)
            (Path(folder) / "s").write_bytes(script)
            table = run([b"trace", b"f", b"s", *source.options.words()], folder).stdout.decode("latin-1")
        met |= {(row["code"], row["event"]) for row in csv.DictReader(io.StringIO(table)) if row["code"]}
    for code, event in sorted(met):
        if event not in events[code] or "trace" not in events[code]:
            yield f"{code} comes at {event}"
    if len({code for code, _ in met}) < 10:
        yield f"only {sorted(met)} came"


def cases() -> Cases:
    yield "explain: the codes and names of the specification", specified_faults()
    yield "explain: the form of each explanation", form_faults()
    yield "explain: the errors of docs/KAFKA.md", kafka_faults()
    yield "explain: the sentences of the help", help_faults()
    yield "explain: the refusals of traces", jobs_faults()
