"""Ways to alter the table of a trace so that it breaks a law."""

from __future__ import annotations

import re
from random import Random
from typing import Callable

from simulator.tables import REASONS

Rows = list[list[bytes]]
# A way alters rows, given their header; the rows before it stay.
Way = Callable[[Random, list[bytes], Rows], "Rows | None"]
Change = Callable[[Random, bytes], bytes]


def changed(rows: Rows, at: int, column: int, value: bytes) -> Rows:
    """Rows with another value in one field."""
    return [*rows[:at], [*rows[at][:column], value, *rows[at][column + 1:]], *rows[at + 1:]]


def in_column(name: bytes, change: Change) -> Way:
    """A way that changes a field of a column."""
    def way(rng: Random, head: list[bytes], rows: Rows) -> Rows | None:
        column = head.index(name)
        values = [change(rng, fields[column]) for fields in rows]
        choices = [at for at, value in enumerate(values) if value != rows[at][column]]
        at = rng.choice(choices) if choices else 0
        return changed(rows, at, column, values[at]) if choices else None
    return way


def in_last_row(way: Way) -> Way:
    """A way that alters the last row alone."""
    def last(rng: Random, head: list[bytes], rows: Rows) -> Rows | None:
        altered = way(rng, head, rows[-1:])
        return [*rows[:-1], *altered] if altered else None
    return last


def adding(number: int) -> Change:
    """Adds to a number, if there is one that stays one."""
    return lambda _rng, field: b"%d" % (int(field) + number) if field.isdigit() and int(field) + number >= 0 else field


def from_here_on(name: bytes) -> Way:
    """A way that adds one to a column from a row on, which is not the first."""
    def way(rng: Random, head: list[bytes], rows: Rows) -> Rows | None:
        column = head.index(name)
        at = rng.randrange(1, len(rows)) if len(rows) > 1 else 0
        later = [[*fields[:column], adding(1)(rng, fields[column]), *fields[column + 1:]] for fields in rows[at:]]
        return [*rows[:at], *later] if at else None
    return way


def drop_a_row(rng: Random, _head: list[bytes], rows: Rows) -> Rows | None:
    at = rng.randrange(len(rows)) if rows else 0
    return [*rows[:at], *rows[at + 1:]] if rows else None


def repeat_a_row(rng: Random, _head: list[bytes], rows: Rows) -> Rows | None:
    at = rng.randrange(len(rows)) if rows else 0
    return [*rows[:at + 1], *rows[at:]] if rows else None


def swap_events(rng: Random, _head: list[bytes], rows: Rows) -> Rows | None:
    """Two neighbouring rows change places, but keep the numbers of line and step."""
    choices = [at for at in range(len(rows) - 1) if rows[at][2:] != rows[at + 1][2:]]
    if not choices:
        return None
    at = rng.choice(choices)
    one, other = rows[at], rows[at + 1]
    return [*rows[:at], [*one[:2], *other[2:]], [*other[:2], *one[2:]], *rows[at + 2:]]


def swap_sets(_rng: Random, field: bytes) -> bytes:
    """The first two members with partitions exchange them."""
    members = [member.partition(b" ") for member in field.split(b";")]
    rich = [nth for nth, (_, _, partitions) in enumerate(members) if partitions]
    if len(rich) < 2:
        return field
    one, other = members[rich[0]], members[rich[1]]
    members[rich[0]], members[rich[1]] = (*one[:2], other[2]), (*other[:2], one[2])
    return b";".join(b"".join(member) for member in members)


def give_to_two(_rng: Random, field: bytes) -> bytes:
    """The last member gets what the first one has, too."""
    first, *rest = field.split(b";")
    return b";".join([first, *rest[:-1], rest[-1].split(b" ")[0] + b" " + first.partition(b" ")[2]]) if rest else field


def drop_a_range(_rng: Random, field: bytes) -> bytes:
    """The last range is missing, with the name of its topic if it was alone."""
    return re.sub(rb"(?:(?:^| )[\w-]*[A-Za-z_][\w-]*)? ?(?:\d+-)?\d+$", b"", field)


def split_a_range(_rng: Random, field: bytes) -> bytes:
    """The first partition of a range stands alone."""
    return re.sub(rb"(?<![\w-])(\d+)-(\d+)(?![\w-])",
                  lambda found: b"%s %d-%d" % (found[1], int(found[1]) + 1, int(found[2])), field, count=1)


def other_code(rng: Random, head: list[bytes], rows: Rows) -> Rows | None:
    """A code and its reason are those of another refusal."""
    column = head.index(b"code")
    choices = [at for at, fields in enumerate(rows) if fields[column]]
    if not choices:
        return None
    at = rng.choice(choices)
    code = rng.choice([code for code in REASONS if code != int(rows[at][column])])
    return changed(changed(rows, at, column, b"%d" % code), at, column + 1, REASONS[code])


def drop_a_code(rng: Random, head: list[bytes], rows: Rows) -> Rows | None:
    """A refused event looks like one that was done."""
    column = head.index(b"code")
    choices = [at for at, fields in enumerate(rows) if fields[column]]
    at = rng.choice(choices) if choices else 0
    return changed(changed(rows, at, column, b""), at, column + 1, b"") if choices else None


def add_a_code(rng: Random, head: list[bytes], rows: Rows) -> Rows | None:
    """An event that was done looks refused."""
    column = head.index(b"code")
    choices = [at for at, fields in enumerate(rows) if not fields[column]]
    if not choices:
        return None
    at, code = rng.choice(choices), rng.choice(list(REASONS))
    return changed(changed(rows, at, column, b"%d" % code), at, column + 1, REASONS[code])


def another(*values: bytes) -> Change:
    """One of these values in place of another of them."""
    return lambda rng, field: rng.choice([value for value in values if value != field]) if field in values else field


WAYS: dict[str, Way] = {
    "a row of the table is missing": drop_a_row,
    "a row of the table comes twice": repeat_a_row,
    "two events change places": swap_events,
    "a row is of the next line": in_column(b"line", adding(1)),
    "a row is of the next step": in_column(b"step", adding(1)),
    "an event is another": in_column(b"event", another(b"sync", b"rejoin", b"leave", b"lose", b"join", b"deliver", b"unanswered")),
    "an event is somebody else's": in_column(b"member", lambda _rng, field: field + b"-" if field else field),
    "an event is of the next partition": in_column(b"partition", adding(1)),
    "an event begins at the next offset": in_column(b"from", adding(1)),
    "an event ends at the next offset": in_column(b"to", adding(1)),
    "a commit has the next number": in_column(b"commit", adding(1)),
    "a code is another, with its reason": other_code,
    "a code is missing, with its reason": drop_a_code,
    "an event that was done has a code": add_a_code,
    "a reason is missing": in_column(b"reason", lambda _rng, _field: b""),
    "a generation is one more in a row": in_column(b"generation", adding(1)),
    "a generation is one more from a row on": from_here_on(b"generation"),
    "a phase is another": in_column(b"phase", another(b"empty", b"preparing", b"stable")),
    "somebody who waits is missing": in_column(b"waiting", lambda _rng, field: field.rpartition(b" ")[0]),
    "two members exchange what they are granted": in_column(b"granted", swap_sets),
    "partitions are granted twice": in_column(b"granted", give_to_two),
    "a range of granted partitions is missing": in_column(b"granted", drop_a_range),
    "a member is missing among the granted": in_column(b"granted", lambda _rng, field: field.rpartition(b";")[0]),
    "a range of granted partitions is split": in_column(b"granted", split_a_range),
    "a range of unread partitions is missing": in_column(b"unread", drop_a_range),
    "the last owners are exchanged": in_last_row(in_column(b"granted", swap_sets)),
    "the lag is one more in a row": in_column(b"lag", adding(1)),
    "the lag is one less in a row": in_column(b"lag", adding(-1)),
    "the lag is one more from a row on": from_here_on(b"lag"),
}


def drop_the_header(rows: Rows) -> Rows:
    return rows[1:]


def drop_a_column(rows: Rows) -> Rows:
    """The last column is missing."""
    return [fields[:-1] for fields in rows]


WHOLE_WAYS: dict[str, Callable[[Rows], Rows]] = {
    "the header of the table is missing": drop_the_header,
    "the last column of the table is missing": drop_a_column,
}
