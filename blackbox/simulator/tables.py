"""The laws of a trace: how its rows follow from one another, and from the rows of a replay of the same script."""

from __future__ import annotations

from collections import Counter
from functools import lru_cache
from itertools import groupby, pairwise
from typing import NamedTuple

from simulator.group import name_of, require
from simulator.laws import ACCEPTED, Ledger, parts_of, parts_of_replay, rows_of
from simulator.records import NO_PARTITION, Options
from simulator.scripts import lines_of

REASONS = {1: b"not a member", 2: b"stale generation", 3: b"rebalance in progress", 4: b"nothing to give up",
           7: b"already joined", 8: b"name used before", 9: b"too many members", 10: b"partition not granted",
           11: b"not the committed offset", 14: b"nothing pending", 15: b"partition not held", 16: b"out of the group",
           17: b"no such commit", 19: b"nobody present", 33: b"no static member of that name"}
COURSES = ("settle", "drain")
# The events that leave the group as it is, and what its consumers hold.
LEAVE_GROUP = ("append", "poll", "send", "deliver", "unanswered")
MOST_PASSES = 4
Event = tuple[str, list]


def header(options: Options) -> list[bytes]:
    """The first row of a table."""
    place = [b"topic", b"partition"] if options.topics else [b"partition"]
    return [*b"line step event member".split(), *place, *b"from to commit code reason".split(),
            *b"generation phase waiting granted unread lag".split()]


def ranges_text(partitions: list[int], options: Options) -> bytes:
    """Ascending partitions as ranges, those of each topic after its name."""
    words = []
    for topic, (first, count) in enumerate(zip(options.first_partitions(), options.counts())):
        own = [partition - first for partition in partitions if first <= partition < first + count]
        words += options.names()[topic:topic + 1] if own else []
        # In a run of neighbours the numbers less their places are the same.
        runs = groupby(enumerate(own), lambda pair: pair[1] - pair[0])
        for run in ([number for _, number in pairs] for _, pairs in runs):
            words.append(b"%d-%d" % (run[0], run[-1]) if len(run) > 1 else b"%d" % run[0])
    return b" ".join(words)


def partitions_in(words: list[bytes], options: Options) -> list[int]:
    """The partitions in the words of ranges, in order."""
    found, topic = [], []
    for word in words:
        if word in options.names():
            topic = [word]
            continue
        first, _, last = word.partition(b"-")
        require(bool(topic) == bool(options.topics), "no topic before {}", word)
        require(first.isdigit() and (last or first).isdigit(), "no range: {}", word)
        ends = [options.partition([*topic, number]) for number in (first, last or first)]
        require(max(ends) < options.total(), "no such partitions: {}", word)
        found += range(ends[0], ends[1] + 1)
    return found


class Row(NamedTuple):
    """What the laws of the table alone need of a row. A code of 0 is none."""

    at: str
    line: int
    event: bytes
    member: bytes
    records: int
    code: int
    generation: int
    phase: bytes
    waiting: bytes
    granted: dict[bytes, list[int]]
    lag: int


def number_of(field: bytes) -> int:
    """A number without needless zeros."""
    require(field.isdigit() and (field == b"0" or field[0] != ord("0")), "not a number: {}", field)
    return int(field)


@lru_cache(maxsize=256)
def granted_in(granted: bytes, unread: bytes, options: Options) -> dict[bytes, list[int]]:
    """The partitions that are granted to each member. None is granted twice, and what nobody has is read by nobody."""
    members = [words.split(b" ") for words in granted.split(b";") if words]
    found = {name: partitions_in(words, options) for name, *words in members}
    once = [partition for partitions in found.values() for partition in partitions]
    require(len(found) == len(members) and len(once) == len(set(once)), "granted twice: {}", granted)
    nobodys = set(range(options.total())).difference(once)
    require(nobodys <= set(partitions_in(unread.split(b" ") if unread else [], options)), "{} are unread, but granted is {}",
            unread, granted)
    return found


def row_of(fields: list[bytes], options: Options) -> Row:
    """A row by its fields."""
    named = dict(zip(header(options), fields))
    line, step, code, generation, lag = (number_of(named[name] or b"0") for name in b"line step code generation lag".split())
    return Row(f"line {line}, step {step}", line, named[b"event"], named[b"member"],
               number_of(named[b"to"]) - number_of(named[b"from"]) if named[b"to"] else 0, code, generation, named[b"phase"],
               named[b"waiting"], granted_in(named[b"granted"], named[b"unread"], options), lag)


def table_of(text: bytes, options: Options) -> tuple[list[list[bytes]], list[Row]]:
    """The rows of a table after its header, as fields and as values."""
    rows = rows_of(text)
    require(rows[:1] == [header(options)], "the header is {}", rows[:1])
    require(all(len(fields) == len(rows[0]) for fields in rows), "rows have other fields than the header")
    return rows[1:], [row_of(fields, options) for fields in rows[1:]]


# Laws of the table alone


def check_next(before: Row, row: Row) -> None:
    """The generation rises by one at most. The lag rises with each append, and falls by the records of a commit that is
    accepted; only of an unanswered one the row does not tell whether it was."""
    require(before.generation <= row.generation <= before.generation + 1, "{}: generation {} after {}",
            row.at, row.generation, before.generation)
    require(bool(row.waiting) == (row.phase == b"preparing"), "{}: {} waits for {}", row.at, row.phase, row.waiting)
    changes = {b"append": [1], b"deliver": [-row.records], b"unanswered": [-row.records, 0]}.get(row.event, [0])
    require(row.lag - before.lag in (changes if not row.code else [0]), "{}: {} changes the lag from {} to {}",
            row.at, row.event, before.lag, row.lag)


def check_last(row: Row, end: list[list[bytes]], options: Options) -> None:
    """The owners and offsets that a replay prints are those of the last row."""
    owners = {options.partition(fields[1:-1]): fields[-1] for fields in end if fields[0] == b"owner" and fields[-1]}
    granted = {partition: name for name, partitions in row.granted.items() for partition in partitions}
    lag = sum(int(fields[-1]) - int(fields[-2]) for fields in end if fields[0] == b"offset")
    require(owners == granted, "the owners are {}, but granted is {}", owners, row.granted)
    require(lag == row.lag, "a replay leaves a lag of {}, not of {}", lag, row.lag)


def check_probes(options: Options, lines: int, text: bytes) -> None:
    """After some lines each member polls each partition, and takes nothing. Exactly the partitions that no present member
    may poll are unread, and nobody shares one."""
    table, rows = table_of(text, options)
    probes = [(row, fields) for row, fields in zip(rows, table) if row.line > lines]
    polled = Counter(tuple(fields[4:-11]) for row, fields in probes if row.member in row.granted and not row.code)
    states = {tuple(fields[-6:]) for _, fields in probes}
    require(len(states) <= 1, "polls change the state: {}", states)
    for unread in (fields[-2] for _, fields in probes[:1]):
        read = [partition for partition in range(options.total()) if polled[tuple(options.fields_of(partition))]]
        nobodys = partitions_in(unread.split(b" ") if unread else [], options)
        require(sorted(read + nobodys) == list(range(options.total())), "{} are unread, but {} can be polled", unread, read)
    require(max(polled.values(), default=1) == 1, "two members may poll the same partition: {}", polled)


def check_refusals(rows: list[Row], history: list[list[bytes]]) -> None:
    """A replay refuses the lines whose last rows have a code, with that code."""
    last = {row.line: row.code for row in rows}
    refused = {int(fields[1]): int(fields[2]) for fields in history if fields[0] == b"refused"}
    require({line: code for line, code in last.items() if code} == refused, "the codes of the lines are {}, refused are {}",
            last, refused)


# Laws of the events


class Follower(Ledger):
    """Follows the rows of a trace one by one: each is the event that must come, with its answer and the state after it."""

    def follow_rows(self, script: bytes, table: list[list[bytes]], history: list[list[bytes]]) -> None:
        """Checks the lines against the rows, and the rows against the moves and refusals of a replay."""
        self.history, self.table = history[::-1], table[::-1]
        self.group_state: list[bytes] = []
        for number, line in lines_of(script):
            verb, arguments = parts_of(line, self.options)
            self.step, self.turn, self.last = 0, 0, ""
            while verb in COURSES and self.group.present and (event := self.next_of_course(verb)):
                code = self.follow_row(number, *event)
                require(code in (ACCEPTED, 11), "line {}, step {}: {} with refusal {}", number, self.step, verb, code)
            code = self.follow_row(number, verb, arguments)
            refusal = self.take_refusal(number)
            require(code == refusal, "line {} ends with code {}, but a replay refuses it with {}", number, code, refusal)
        require(not self.history, "no line explains the row {}", self.history[-1:])
        require(not self.table, "no line explains the row {}", self.table[-1:])

    def follow_row(self, line: int, event: str, arguments: list[bytes | int]) -> int:
        """Checks the next row, which tells of this event, and returns its code."""
        self.step += 1
        self.last = event
        at = f"line {line}, step {self.step}"
        require(bool(self.table), "{}: there is no row", at)
        printed = self.table.pop()
        code = number_of(dict(zip(header(self.options), printed))[b"code"] or b"0")
        position = self.position_before(event, arguments)
        self.perform(line, event, arguments, code)
        wanted = [b"%d" % line, b"%d" % self.step, event.encode(), *self.details(event, arguments, code, position),
                  b"%d" % code if code else b"", REASONS.get(code, b""), *self.state(event)]
        require(printed == wanted, "{}: the row is {}, not {}", at, b",".join(printed), b",".join(wanted))
        return code

    def position_before(self, event: str, arguments: list[bytes | int]) -> int:
        """The position at which a poll begins."""
        member = self.group.member(arguments[0]) if event == "poll" else b""
        return self.held.get(member, {}).get(arguments[1], [0, 0])[1] if member else 0

    def details(self, event: str, arguments: list[bytes | int], code: int, position: int) -> list[bytes]:
        """The fields of an event from its member to its commit."""
        member, partition, span, commit = b"", NO_PARTITION, [b"", b""], b""
        if event in ("deliver", "unanswered"):
            number, commit = arguments[0], b"%d" % arguments[0]
            if 0 < number <= len(self.mail):
                sent = self.mail[number - 1]
                member, partition, span = sent.member, sent.partition, [sent.start, sent.start + sent.records]
        elif event == "append":
            partition = self.options.place(*arguments)
            span = [self.logs.end(partition) - 1, self.logs.end(partition)]
        elif event not in COURSES:
            member = arguments[0]
        if event in ("poll", "send"):
            partition = arguments[1]
        if event == "poll" and code == ACCEPTED:
            span = [position, self.held[member][partition][1]]
        if event == "send" and code == ACCEPTED:
            span, commit = self.held[member][partition], b"%d" % len(self.mail)
        place = self.options.fields_of(partition) if partition < self.group.partitions else [b""] * len(self.options.fields_of(0))
        return [name_of(member), *place, *(b"%d" % end if end != b"" else b"" for end in span), commit]

    def state(self, event: str) -> list[bytes]:
        """The fields of the state after an event, from the generation on."""
        if event not in LEAVE_GROUP or not self.group_state:
            self.group_state = self.fields_of_group()
        return [*self.group_state, b"%d" % (sum(map(len, self.logs.partitions)) - sum(self.committed))]

    def fields_of_group(self) -> list[bytes]:
        """The fields from the generation to the partitions that nobody reads."""
        group = self.group
        phase = b"preparing" if group.preparing else b"stable" if group.present else b"empty"
        waiting = [name_of(name) for name in group.present if group.preparing and name not in group.joined]
        granted = [name_of(name) + (b" " + ranges_text(own, self.options) if own else b"")
                   for name, own in group.owned().items()]
        read = {partition for name in group.present for partition in self.held[name]}
        unread = [partition for partition in range(group.partitions) if partition not in read]
        return [b"%d" % group.generation, phase, b" ".join(waiting), b";".join(granted), ranges_text(unread, self.options)]

    # The events that a settle and a drain choose

    def next_of_course(self, verb: str) -> Event | None:
        """The next event of a settle or a drain, or nothing where it has ended."""
        if self.last == "send":
            return "deliver", [len(self.mail)]
        return self.next_of_settling() or (self.next_of_reading() if verb == "drain" else None)

    def is_due(self, name: bytes) -> bool:
        """Whether a member has something to do before the group is settled with all synced."""
        group = self.group
        return name not in group.joined and (name not in group.synced or group.preparing or bool(group.excess.get(name)))

    def next_of_settling(self) -> Event | None:
        """Turns go round in order of members, and a rejoin ends one. A member syncs, commits what is pending of the
        partitions that it must revoke, and rejoins."""
        present = self.group.present
        self.turn += self.last == "rejoin"
        require(self.turn < MOST_PASSES * len(present), "a settle does not end within {} passes", MOST_PASSES)
        turns = range(self.turn, self.turn + len(present))
        self.turn = next((turn for turn in turns if self.is_due(present[turn % len(present)])), self.turn)
        name = present[self.turn % len(present)]
        if not self.is_due(name):
            return None
        if name not in self.group.synced:
            return "sync", [name_of(name)]
        held, excess = self.held[name], self.group.excess.get(name, [])
        pending = [partition for partition in excess if partition in held and held[partition][0] < held[partition][1]]
        return ("send", [name_of(name), pending[0]]) if pending else ("rejoin", [name_of(name)])

    def next_of_reading(self) -> Event | None:
        """Each partition is polled, and what is pending is committed, until its end is committed."""
        for name in self.group.present:
            for partition, (base, position) in sorted(self.held[name].items()):
                if base != self.logs.end(partition) and self.last == "poll" and base < position:
                    return "send", [name_of(name), partition]
                if base != self.logs.end(partition):
                    return "poll", [name_of(name), partition, self.batch]
        return None

    def after_settle(self) -> None:
        """All is done by the events before."""
        self.group.check_settled()

    def after_drain(self) -> None:
        """All is committed by the events before."""
        require(self.committed == [len(log) for log in self.logs.partitions], "a drain commits up to {}", self.committed)


def check_trace(options: Options, keyed: list[tuple[int, bytes]], script: bytes, text: bytes, replay: bytes) -> None:
    """Checks all laws of a trace's text, next to that of a replay."""
    table, rows = table_of(text, options)
    history, end = parts_of_replay(replay)
    for before, row in pairwise(rows):
        check_next(before, row)
    check_refusals(rows, history)
    if rows:
        check_last(rows[-1], end, options)
    follower = Follower(options, keyed)
    follower.follow_rows(script, table, history)
    follower.check_end(end)
