"""Ways to alter an outcome so that it breaks a law, which test the simulator itself."""

from __future__ import annotations

from random import Random
from typing import Callable, Iterator

from simulator import table_mutants
from simulator.programs import Outcome
from simulator.records import plain_rows, quoted, read, row, topical_rows
from simulator.scripts import lines_of
from simulator.trials import Trial

Rows = list[list[bytes]]

CODES = b"1 2 3 4 7 8 10 11 14 15 16 17 19 33".split()


def of_kind(rows: Rows, kind: bytes) -> list[int]:
    """The indices of the rows of a kind."""
    return [at for at, fields in enumerate(rows) if fields[0] == kind]


def changed(rows: Rows, at: int, column: int, value: bytes) -> Rows:
    """Rows with another value in one field."""
    return [*rows[:at], [*rows[at][:column], value, *rows[at][column + 1:]], *rows[at + 1:]]


def adding(kind: bytes, column: int, change: int) -> Callable[[Random, Trial, Rows], Rows | None]:
    """A way that changes a number in a row of a kind."""
    def way(rng: Random, _trial: Trial, rows: Rows) -> Rows | None:
        indices = [at for at in of_kind(rows, kind) if int(rows[at][column]) + change >= 0]
        if not indices:
            return None
        at = rng.choice(indices)
        return changed(rows, at, column, b"%d" % (int(rows[at][column]) + change))
    return way


def dropping(kind: bytes) -> Callable[[Random, Trial, Rows], Rows | None]:
    """A way that drops a row of a kind."""
    def way(rng: Random, _trial: Trial, rows: Rows) -> Rows | None:
        indices = of_kind(rows, kind)
        at = rng.choice(indices) if indices else 0
        return [*rows[:at], *rows[at + 1:]] if indices else None
    return way


def repeating(kind: bytes) -> Callable[[Random, Trial, Rows], Rows | None]:
    """A way that repeats a row of a kind."""
    def way(rng: Random, _trial: Trial, rows: Rows) -> Rows | None:
        indices = of_kind(rows, kind)
        at = rng.choice(indices) if indices else 0
        return [*rows[:at], rows[at], *rows[at:]] if indices else None
    return way


def swapping(kind: bytes) -> Callable[[Random, Trial, Rows], Rows | None]:
    """A way that swaps the last fields of two rows of a kind."""
    def way(rng: Random, _trial: Trial, rows: Rows) -> Rows | None:
        indices = of_kind(rows, kind)
        pairs = [(one, other) for one in indices[:40] for other in indices[:40] if rows[one][-1] != rows[other][-1]]
        if not pairs:
            return None
        one, other = rng.choice(pairs)
        return changed(changed(rows, one, len(rows[one]) - 1, rows[other][-1]), other, len(rows[other]) - 1, rows[one][-1])
    return way


def swap_count_rows(rng: Random, _trial: Trial, rows: Rows) -> Rows | None:
    indices = of_kind(rows, b"count")
    if len(indices) < 2:
        return None
    at = rng.choice(indices[1:])
    return [*rows[:at - 1], rows[at], rows[at - 1], *rows[at + 1:]]


def shift_a_count(rng: Random, _trial: Trial, rows: Rows) -> Rows | None:
    """One count more and another less, with the same sum."""
    indices = of_kind(rows, b"count")
    if len(indices) < 2:
        return None
    one, other = rng.sample(indices, 2)
    rows = changed(rows, one, 2, b"%d" % (int(rows[one][2]) + 1))
    return changed(rows, other, 2, b"%d" % (int(rows[other][2]) - 1))


def shift_an_offset(rng: Random, _trial: Trial, rows: Rows) -> Rows | None:
    """One committed record more in one partition and one less in another, with the same sum."""
    indices = of_kind(rows, b"offset")
    less = [at for at in indices if int(rows[at][2]) > 0]
    more = [at for at in indices if int(rows[at][2]) < int(rows[at][3]) and at not in less[:1]]
    if not less or not more:
        return None
    rows = changed(rows, less[0], 2, b"%d" % (int(rows[less[0]][2]) - 1))
    at = rng.choice(more)
    return changed(rows, at, 2, b"%d" % (int(rows[at][2]) + 1))


def count_one_more(rng: Random, _trial: Trial, rows: Rows) -> Rows | None:
    """A record is counted twice: its count, its offset and the total agree, but the log does not."""
    counts, offsets = of_kind(rows, b"count"), of_kind(rows, b"offset")
    if not counts or not offsets:
        return None
    for at, column in ((rng.choice(counts), 2), (rng.choice(offsets), 2), (len(rows) - 1, 1)):
        rows = changed(rows, at, column, b"%d" % (int(rows[at][column]) + 1))
    return rows


def give_away(rng: Random, trial: Trial, rows: Rows) -> Rows | None:
    """A partition's last move and its owner name another member."""
    owners = of_kind(rows, b"owner")
    names = sorted({rows[at][2] for at in owners} - {b""})
    indices = [at for at in owners if rows[at][2]]
    if len(names) < 2 or len(indices) < 3:
        return None
    at = rng.choice(indices)
    other = rng.choice([name for name in names if name != rows[at][2]])
    last = max(move for move in of_kind(rows, b"move") if rows[move][2] == rows[at][1])
    return changed(changed(rows, at, 2, other), last, 4, other)


def exchange(rng: Random, _trial: Trial, rows: Rows) -> Rows | None:
    """Two members exchange partitions at the last completion, without need."""
    owners = [at for at in of_kind(rows, b"owner") if rows[at][2]]
    moves = of_kind(rows, b"move")
    if not moves:
        return None
    last = rows[moves[-1]][1]
    taken = {rows[at][2] for at in moves if rows[at][1] == last}
    free = [at for at in owners if rows[at][1] not in taken][:40]
    pairs = [(one, other) for one in free for other in free if rows[one][2] < rows[other][2]]
    if not pairs:
        return None
    one, other = rng.choice(pairs)
    new = [[b"move", last, rows[a][1], rows[a][2], rows[b][2]] for a, b in ((one, other), (other, one))]
    round_ = [rows[at] for at in moves if rows[at][1] == last]
    rows = changed(changed(rows, one, 2, new[0][4]), other, 2, new[1][4])
    rest = [fields for fields in rows if fields not in round_]
    before = sum(1 for fields in rows[:moves[-1]] if fields not in round_)
    return [*rest[:before], *sorted(round_ + new, key=lambda fields: int(fields[2])), *rest[before:]]


def refuse_a_line(rng: Random, trial: Trial, rows: Rows) -> Rows | None:
    """A line that was accepted is refused."""
    if "script" not in trial.files:
        return None
    refused = {rows[at][1] for at in of_kind(rows, b"refused")}
    taken = [number for number, _ in lines_of(trial.files["script"]) if b"%d" % number not in refused]
    if not taken:
        return None
    number = rng.choice(taken)
    later = [at for at in of_kind(rows, b"refused") if int(rows[at][1]) > number]
    at = later[0] if later else len(of_kind(rows, b"refused")) + len(of_kind(rows, b"move"))
    return [*rows[:at], [b"refused", b"%d" % number, rng.choice(CODES)], *rows[at:]]


def change_a_code(rng: Random, _trial: Trial, rows: Rows) -> Rows | None:
    indices = of_kind(rows, b"refused")
    if not indices:
        return None
    at = rng.choice(indices)
    return changed(rows, at, 2, rng.choice([code for code in CODES if code != rows[at][2]]))


Way = Callable[[Random, Trial, Rows], "Rows | None"]
ROW_WAYS: dict[str, Way] = {
    "two owners are swapped": swapping(b"owner"),
    "a partition is given away, its last move too": give_away,
    "two members exchange partitions without need": exchange,
    "an owner row is missing": dropping(b"owner"),
    "a move is missing": dropping(b"move"),
    "a move is printed twice": repeating(b"move"),
    "the holders of two moves are swapped": swapping(b"move"),
    "a move is a generation late": adding(b"move", 1, 1),
    "a move is a generation early": adding(b"move", 1, -1),
    "a move is of the next partition": adding(b"move", 2, 1),
    "a refusal is missing": dropping(b"refused"),
    "a line is refused that was accepted": refuse_a_line,
    "a refusal has another code": change_a_code,
    "a refusal is of the next line": adding(b"refused", 1, 1),
    "a count is one more": adding(b"count", 2, 1),
    "a count is one less": adding(b"count", 2, -1),
    "a count is missing": dropping(b"count"),
    "two counts are in the wrong order": swap_count_rows,
    "a count is shifted to another key": shift_a_count,
    "a record is counted twice, everywhere": count_one_more,
    "an offset is one more": adding(b"offset", 2, 1),
    "an offset is one less": adding(b"offset", 2, -1),
    "an offset is shifted to another partition": shift_an_offset,
    "a log is one longer": adding(b"offset", 3, 1),
    "an offset row is missing": dropping(b"offset"),
    "the committed total is one more": adding(b"total", 1, 1),
    "the total is one less": adding(b"total", 2, -1),
}


def next_number(text: bytes) -> bytes:
    """A fault line with the next number at its end."""
    head, space, number = text.rstrip(b"\n").rpartition(b" ")
    return head + space + (b"%d\n" % (int(number) + 1) if number.isdigit() else b"0\n")


def quoting(out: Outcome) -> Outcome:
    """The first field in quotes, which it does not need."""
    kind, comma, rest = out.stdout.partition(b",")
    return out._replace(stdout=quoted(kind) + comma + rest)


OUTCOME_WAYS: dict[str, Callable[[Outcome], "Outcome | None"]] = {
    "the last line feed is missing": lambda out: out._replace(stdout=out.stdout[:-1]) if out.stdout else None,
    "a line feed is added": lambda out: out._replace(stdout=out.stdout + b"\n") if out.stdout else None,
    "a field is quoted without need": lambda out: quoting(out) if out.stdout else None,
    "a carriage return is added": lambda out: out._replace(stdout=out.stdout[:-1] + b"\r\n") if out.stdout else None,
    "the text is missing": lambda out: out._replace(stdout=b"") if out.stdout else None,
    "the status is another": lambda out: out._replace(status=out.status ^ 1),
    "there is a warning too": lambda out: out._replace(stderr=out.stderr + b"warning\n"),
    "a fault has another number": lambda out: out._replace(stderr=next_number(out.stderr)) if out.stderr else None,
    "a fault comes with a row": lambda out: out._replace(stdout=b"total,0,0\n") if out.stderr else None,
}
WAYS = [*ROW_WAYS, *OUTCOME_WAYS, *table_mutants.WAYS, *table_mutants.WHOLE_WAYS]


def text_of(rows: Rows) -> bytes:
    return b"".join(row(*fields) for fields in rows)


def altered(rng: Random, trial: Trial, outcomes: list[Outcome]) -> Iterator[tuple[str, list[Outcome]]]:
    """The outcomes of a trial, altered in each way that applies, with the way's name."""
    for name, outcome in altered_last(rng, trial, outcomes[-1]):
        # A run and a replay that print the same are altered alike, so that only the laws can notice.
        yield name, [outcome if other == outcomes[-1] else other for other in outcomes]
    for at, words in enumerate(trial.runs):
        if words[0] == b"trace" and outcomes[at].stdout:
            for name, outcome in altered_tables(rng, outcomes[at]):
                yield name, [*outcomes[:at], outcome, *outcomes[at + 1:]]


def altered_last(rng: Random, trial: Trial, outcome: Outcome) -> Iterator[tuple[str, Outcome]]:
    """The last outcome, altered in each way that applies to a whole outcome or to rows of different kinds."""
    for name, change in OUTCOME_WAYS.items():
        other = change(outcome)
        if other:
            yield name, other
    rows = plain_rows(read(outcome.stdout), trial.options) if trial.runs[-1][0] != b"trace" else []
    for name, way in ROW_WAYS.items():
        altered_rows = way(rng, trial, rows) if rows else None
        if altered_rows is not None and altered_rows != rows:
            yield name, outcome._replace(stdout=text_of(topical_rows(altered_rows, trial.options)))


def altered_tables(rng: Random, outcome: Outcome) -> Iterator[tuple[str, Outcome]]:
    """The outcome of a trace, altered in each way that applies to tables."""
    head, *rows = read(outcome.stdout)
    for name, way in table_mutants.WAYS.items():
        altered_rows = way(rng, head, rows)
        if altered_rows is not None and altered_rows != rows:
            yield name, outcome._replace(stdout=text_of([head, *altered_rows]))
    for name, change in table_mutants.WHOLE_WAYS.items():
        yield name, outcome._replace(stdout=text_of(change([head, *rows])))


def difference(before: list[Outcome], after: list[Outcome]) -> str:
    """The rows in which altered outcomes differ from the true ones."""
    ours, theirs = (b"".join(outcome.stdout for outcome in outcomes).split(b"\n") for outcomes in (before, after))
    return f"without {[line for line in ours if line not in theirs]}, with {[line for line in theirs if line not in ours]}"
