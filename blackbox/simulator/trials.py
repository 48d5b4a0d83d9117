"""The trials: what is run, and what it must print."""

from __future__ import annotations

from dataclasses import dataclass, replace
from random import Random
from typing import Callable

from simulator import records, scripts
from simulator.group import require
from simulator.laws import appended_keys, check_replay, count_text
from simulator.programs import Outcome
from simulator.records import Options, read, row, topical_rows
from simulator.tables import check_probes, check_trace

# The most partitions of a trial that polls each one for each member.
MOST_PROBED = 16


def check_fault(fault: bytes, outcome: Outcome) -> None:
    """A fault is printed alone, with its exit status."""
    require(outcome == Outcome(b"", fault, 1), "it ends with {}, not with {} alone", outcome, fault)


def check_done(outcome: Outcome) -> None:
    """There is no fault."""
    require((outcome.stderr, outcome.status) == (b"", 0), "it ends with {}, {}", outcome.status, outcome.stderr[:200])


@dataclass(frozen=True)
class Trial:
    """Files, runs of the program over them, and the check of their outcomes, which raises `Broken`. The options are those of
    the last run."""

    kind: str
    options: Options
    files: dict[str, bytes]
    runs: list[list[bytes]]
    check: Callable[[list[Outcome]], None]


@dataclass(frozen=True)
class Input:
    """A file of records with options, and what is read in it: the fault of the first bad record, or the keys."""

    options: Options
    pool: list[bytes]
    text: bytes
    bad_record: bytes
    keyed: list[tuple[int, bytes]]

    @property
    def keys(self) -> list[bytes]:
        """The keys, without their topics."""
        return [key for _, key in self.keyed]

    def long_key(self) -> bytes:
        """The fault of a key that is too long, or nothing."""
        return b"fault 20\n" if any(len(key) > records.LONGEST_KEY for key in self.keys) else b""


def random_input(rng: Random, batch: bool, good: bool, one_topic: bool = False) -> Input:
    """A file with options; with good records or with one topic, where that is asked for."""
    while True:
        options = records.random_options(rng, batch)
        if one_topic:
            options = replace(options, topics=records.random_topics(rng)[:1])
        pool = records.random_keys(rng)
        text = records.random_file(rng, options, pool)
        read = records.read(text, options.delimiter)
        bad_record = records.record_fault(read, options)
        found = Input(options, pool, text, bad_record, [] if bad_record else records.keyed(read, options))
        if not good or not (bad_record or found.long_key()):
            return found


def count_trial(rng: Random) -> Trial:
    """A count prints the counts of Python's csv and Counter, or the fault of the first bad record."""
    source = random_input(rng, batch=False, good=False)

    def check(outcomes: list[Outcome]) -> None:
        fault = source.bad_record or source.long_key()
        if fault:
            check_fault(fault, outcomes[0])
        else:
            check_done(outcomes[0])
            require(outcomes[0].stdout == count_text(source.keys), "the counts differ: {}", outcomes[0].stdout[:300])

    return Trial("count", source.options, {"file": source.text}, [[b"count", b"file", *source.options.words()]], check)


def replay_trial(rng: Random, wild: bool) -> Trial:
    """A replay and a trace obey the laws, and after a drain at the end the replay prints the counts of all records."""
    source = random_input(rng, batch=True, good=True)
    script = scripts.random_script(rng, source.options, source.pool, wild)
    lines = [line for _, line in scripts.lines_of(script)]

    def check(outcomes: list[Outcome]) -> None:
        check_traced(source, script, *outcomes)
        replayed = outcomes[1].stdout
        refused = b"\nrefused,%d," % last_line(script) in b"\n" + replayed
        if lines[-1:] == [b"drain"] and not refused:
            keys = source.keys + appended_keys(script, source.options)
            require(replayed.endswith(b"\n" + count_text(keys)), "after a drain the counts differ")

    return traced_trial("wild replay" if wild else "replay", source, script, check)


def traced_trial(kind: str, source: Input, script: bytes, check: Callable[[list[Outcome]], None]) -> Trial:
    """The trace and the replay of a script."""
    runs = [[job, b"file", b"script", *source.options.words()] for job in (b"trace", b"replay")]
    return Trial(kind, source.options, {"file": source.text, "script": script}, runs, check)


def check_traced(source: Input, script: bytes, traced: Outcome, replayed: Outcome) -> None:
    """Checks the laws of a trace and a replay."""
    check_done(traced)
    check_done(replayed)
    check_replay(source.options, source.keyed, script, replayed.stdout)
    check_trace(source.options, source.keyed, script, traced.stdout, replayed.stdout)


def probe_trial(rng: Random) -> Trial:
    """After a part of a script each member polls each partition, and takes nothing: the answers tell who may read it."""
    source = random_input(rng, batch=True, good=True)
    while source.options.total() > MOST_PROBED:
        source = random_input(rng, batch=True, good=True)
    script = scripts.random_script(rng, source.options, source.pool, wild=True)
    before = script.split(b"\n")[:rng.randint(0, script.count(b"\n"))]
    script = b"".join(line + b"\n" for line in before + scripts.probes(before, source.options))

    def check(outcomes: list[Outcome]) -> None:
        check_traced(source, script, *outcomes)
        check_probes(source.options, len(before), outcomes[0].stdout)

    return traced_trial("probe", source, script, check)


def last_line(script: bytes) -> int:
    """The number of the last line that is not a comment."""
    return max((number for number, _ in scripts.lines_of(script)), default=0)


def run_trial(rng: Random) -> Trial:
    """A run prints what a replay prints that settles after each line of its plan and drains at the end."""
    source = random_input(rng, batch=True, good=True)
    plan = scripts.random_plan(rng)
    script = scripts.settled_after_each(plan)

    def check(outcomes: list[Outcome]) -> None:
        check_done(outcomes[0])
        check_done(outcomes[1])
        check_replay(source.options, source.keyed, script, outcomes[1].stdout)
        require(outcomes[1].stdout.endswith(b"\n" + count_text(source.keys)), "the counts of the replay differ")
        require(outcomes[0].stdout == outcomes[1].stdout, "the run differs from the replay: {}", outcomes[0].stdout[:300])

    words = source.options.words()
    runs = [[b"run", b"file", b"plan", *words], [b"replay", b"file", b"script", *words]]
    return Trial("run", source.options, {"file": source.text, "plan": plan, "script": script}, runs, check)


def faulty_lines(rng: Random, command: bytes, options: Options, pool: list[bytes]) -> tuple[bytes, bytes]:
    """A script or a plan with a fault, and the fault."""
    if command != b"run":
        script = scripts.random_script(rng, options, pool, wild=True)
        bad = scripts.BAD + (scripts.BAD_AMONG_TOPICS if options.topics else [])
        spoiled, line = scripts.spoiled(rng, script, bad)
    elif rng.random() < 0.3:
        return scripts.deserted_plan(rng)
    else:
        spoiled, line = scripts.spoiled(rng, scripts.random_plan(rng), scripts.BAD + scripts.BAD_IN_PLAN)
    return spoiled, b"fault 22 at line %d\n" % line


def fault_trial(rng: Random) -> Trial:
    """The first fault is printed alone: of the records, then of the lines, then of the keys."""
    command = rng.choice((b"replay", b"trace", b"run"))
    source = random_input(rng, batch=True, good=False)
    script, fault = faulty_lines(rng, command, source.options, source.pool)

    def check(outcomes: list[Outcome]) -> None:
        check_fault(source.bad_record or fault, outcomes[0])

    runs = [[command, b"file", b"script", *source.options.words()]]
    return Trial(f"fault of a {command.decode()}", source.options, {"file": source.text, "script": script}, runs, check)


def one_topic_trial(rng: Random) -> Trial:
    """A single topic gives the rows of a run without topics over the same number of partitions, except for its name."""
    source = random_input(rng, batch=True, good=True, one_topic=True)
    name, count = source.options.topics[0]
    plain = replace(source.options, partitions=count, topics=())
    # The name of the topic makes lines longer, and they must not get too long.
    short = [key for key in source.pool if len(key) < 200]
    command = rng.choice((b"replay", b"run"))
    script = scripts.random_script(rng, plain, short, wild=True) if command == b"replay" else scripts.random_plan(rng)
    files = {"file": source.text, "plain": script, "script": scripts.in_topic(script, name)}

    def check(outcomes: list[Outcome]) -> None:
        rows = topical_rows(read(outcomes[0].stdout), source.options)
        require(outcomes[1] == outcomes[0]._replace(stdout=b"".join(row(*fields) for fields in rows)),
                "one topic gives other rows: {}", outcomes[1].stdout[:300])

    runs = [[command, b"file", b"plain", *plain.words()], [command, b"file", b"script", *source.options.words()]]
    return Trial("one topic", source.options, files, runs, check)


def crowd_trial(rng: Random) -> Trial:
    """A run of 2 to 64 members prints what a replay prints that settles after each line of its plan and drains at the end."""
    options = Options(rng.choice((1, 4, 12, 64, 200)), batch=rng.choice((1, 10, 500)))
    members, records = rng.randint(2, 64), rng.choice((0, 100, 3000, 30_000))
    keys = [b"%d" % rng.randrange(rng.choice((1, 50, 5000))) for _ in range(records)]
    plan = scripts.crowded_plan(rng, members)

    def check(outcomes: list[Outcome]) -> None:
        check_done(outcomes[0])
        require(outcomes[0].stdout.endswith(b"\n" + count_text(keys)), "the counts differ")
        require(outcomes[0] == outcomes[1], "the run differs from the replay: {}", outcomes[0].stdout[:300])

    files = {"file": b"".join(key + b"\n" for key in keys), "plan": plan, "script": scripts.settled_after_each(plan)}
    runs = [[b"run", b"file", b"plan", *options.words()], [b"replay", b"file", b"script", *options.words()]]
    return Trial("crowd", options, files, runs, check)


# Kinds of trials that are made alone, by name.
ALONE: dict[str, Callable[[Random], Trial]] = {"count": count_trial, "crowd": crowd_trial}

KINDS: list[tuple[int, Callable[[Random], Trial]]] = [
    (20, count_trial),
    (25, lambda rng: replay_trial(rng, wild=False)),
    (25, lambda rng: replay_trial(rng, wild=True)),
    (15, run_trial),
    (15, fault_trial),
    (8, probe_trial),
    (8, one_topic_trial),
]


def trial_of(seed: str, index: int, kind: str = "") -> Trial:
    """The trial of a seed and an index, always the same; of any kind, or of one that is made alone."""
    rng = Random(f"{seed}/{index}")
    if kind:
        return ALONE[kind](rng)
    return rng.choices([make for _, make in KINDS], [weight for weight, _ in KINDS])[0](rng)
