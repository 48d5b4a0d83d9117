"""The laws of a replay: what it must print, by its script and its records alone."""

from __future__ import annotations

from collections import Counter
from dataclasses import dataclass

from simulator.group import MOST_MEMBERS, Group, Move, name_of, require
from simulator.records import Options, read, row
from simulator.scripts import lines_of

ACCEPTED = 0
HISTORY = (b"move", b"refused")
# Lines about a member that joined before: the newest of its name.
OF_A_MEMBER = ("rejoin", "sync", "leave", "lose", "poll", "send")


@dataclass(frozen=True)
class Commit:
    """A commit in the mail."""

    member: bytes
    generation: int
    partition: int
    start: int
    records: int


class Logs:
    """The appended records by partition, and the keys in order of first appearance."""

    def __init__(self, options: Options, keyed: list[tuple[int, bytes]]) -> None:
        self.options = options
        self.partitions: list[list[bytes]] = [[] for _ in range(options.total())]
        self.keys: dict[bytes, None] = {}
        for topic, key in keyed:
            self.append(topic, key)

    def append(self, topic: int, key: bytes) -> None:
        self.partitions[self.options.place(topic, key)].append(key)
        self.keys.setdefault(key)

    def end(self, partition: int) -> int:
        return len(self.partitions[partition])

    def counts(self, committed: list[int]) -> list[bytes]:
        """The `count` rows of the records below the committed offsets."""
        counts = Counter(key for log, offset in zip(self.partitions, committed) for key in log[:offset])
        return [row(b"count", key, b"%d" % counts[key]) for key in self.keys if counts[key]]


class Ledger:
    """The state after the lines and rows so far, and the answer that the next line must get."""

    def __init__(self, options: Options, keyed: list[tuple[int, bytes]]) -> None:
        self.options = options
        self.batch = options.batch or 500
        self.logs = Logs(options, keyed)
        self.group = Group(options.total())
        # Of each member that ever joined: the generation of its last lease, and its base and position by partition.
        self.leased: dict[bytes, int] = {}
        self.held: dict[bytes, dict[int, list[int]]] = {}
        # The members that know that they are out of the group.
        self.out: set[bytes] = set()
        self.committed = [0] * options.total()
        self.mail: list[Commit] = []
        # The commits in the mail that were accepted, and the rows that are not checked yet, the next one last.
        self.accepted: set[int] = set()
        self.history: list[list[bytes]] = []

    # Rows

    def follow(self, script: bytes, history: list[list[bytes]]) -> None:
        """Checks the lines against the moves and refusals that were printed for them."""
        self.history = history[::-1]
        for number, line in lines_of(script):
            self.perform(number, *parts_of(line, self.options), self.take_refusal(number))
        require(not self.history, "no line explains the row {}", self.history[-1:])

    def perform(self, line: int, verb: str, arguments: list[bytes | int], code: int) -> None:
        """Checks the answer to a step, and makes the step."""
        if verb in OF_A_MEMBER:
            arguments[0] = self.group.member(arguments[0])
        wanted = getattr(self, f"answer_to_{verb}")(*arguments)
        require(code == wanted, "line {}, {} {}, is answered by {}, not by {}", line, verb, arguments, code, wanted)
        after = getattr(self, f"after_{verb}" if code == ACCEPTED else f"after_refused_{verb}", None)
        if after and code == ACCEPTED:
            after(*arguments)
        elif after:
            after(code, *arguments)

    def take_refusal(self, line: int) -> int:
        """The code of this line's refusal, or 0."""
        if self.history and self.history[-1][:2] == [b"refused", b"%d" % line]:
            fields = self.history.pop()
            require(len(fields) == 3 and fields[2].isdigit() and int(fields[2]) > 0, "line {}: the row {}", line, fields)
            return int(fields[2])
        return ACCEPTED

    def take_moves(self) -> list[Move]:
        """The moves of the next generation, which are the next rows."""
        moves = []
        head = [b"move", b"%d" % (self.group.generation + 1)]
        while self.history and self.history[-1][:2] == head:
            fields = self.history.pop()[2:]
            printed, names = fields[:-2], fields[-2:]
            require(len(printed) == len(self.options.fields_of(0)) and printed[-1].isdigit(), "a move of {}", fields)
            require(not self.options.topics or printed[0] in self.options.names(), "a move of {}", fields)
            moves.append(self.group.move(self.options.partition(printed), *names))
        return moves

    # The group

    def complete_if_due(self) -> None:
        if self.group.completes():
            self.group.complete(self.take_moves())

    def lease(self, name: bytes) -> None:
        """A sync: the member reads its new partitions from the committed offsets on."""
        self.group.synced.add(name)
        self.leased[name] = self.group.generation
        excess = self.group.excess.get(name, [])
        for partition, holder in enumerate(self.group.holder):
            if holder == name and partition not in excess:
                self.held[name].setdefault(partition, [self.committed[partition]] * 2)

    def give_up(self, name: bytes) -> None:
        """A rejoin: the member drops the partitions that it must revoke."""
        for partition in self.group.excess.get(name, []):
            self.held[name].pop(partition, None)
        self.group.rejoin(name)

    def answer_to_stranger(self, name: bytes) -> int:
        """The answer to a name that is not present: a former member gets 1, and then knows that it is out."""
        return 16 if name in self.out else 1

    def answer_to_join(self, name: bytes) -> int:
        if name in self.group.newest:
            return 8
        return 9 if self.group.given == MOST_MEMBERS else ACCEPTED

    def after_join(self, name: bytes) -> None:
        self.group.join(name)
        self.held[name], self.leased[name] = {}, 0
        self.complete_if_due()

    answer_to_keep = answer_to_join

    def after_keep(self, name: bytes) -> None:
        self.group.static.add(name)
        self.after_join(name)

    def answer_to_return(self, name: bytes) -> int:
        member = self.group.member(name)
        if member not in self.group.present or member not in self.group.static:
            return 33
        return 9 if self.group.given == MOST_MEMBERS else ACCEPTED

    def after_return(self, name: bytes) -> None:
        """A new member has the seat of the old one, whose consumer is not notified. It holds nothing yet."""
        member = self.group.take_over(name)
        self.held[member], self.leased[member] = {}, 0

    def answer_to_leave(self, name: bytes) -> int:
        return ACCEPTED if name in self.group.present else self.answer_to_stranger(name)

    def after_leave(self, name: bytes) -> None:
        self.out.add(name)
        self.after_lose(name)

    def answer_to_lose(self, name: bytes) -> int:
        return ACCEPTED if name in self.group.present else 1

    def after_lose(self, name: bytes) -> None:
        self.group.part(name)
        self.complete_if_due()

    def answer_to_sync(self, name: bytes) -> int:
        if name not in self.group.present:
            return self.answer_to_stranger(name)
        return 3 if name in self.group.joined else ACCEPTED

    def after_sync(self, name: bytes) -> None:
        self.lease(name)

    def answer_to_rejoin(self, name: bytes) -> int:
        group = self.group
        if name not in group.present:
            return self.answer_to_stranger(name)
        if name not in group.synced:
            return 2
        if name in group.joined:
            return 7
        return ACCEPTED if group.preparing or group.excess[name] else 4

    def after_rejoin(self, name: bytes) -> None:
        self.give_up(name)
        self.complete_if_due()

    def after_refused_sync(self, code: int, name: bytes) -> None:
        if code == 1 and name in self.held:
            self.out.add(name)

    after_refused_rejoin = after_refused_leave = after_refused_sync

    def answer_to_settle(self) -> int:
        return ACCEPTED if self.group.present else 19

    def after_settle(self) -> None:
        """One completion if a rebalance is in progress, and another if a member must then revoke partitions."""
        if self.group.preparing:
            self.all_take_turns()
        if any(self.group.excess.values()):
            self.all_take_turns()
        for name in self.group.present:
            self.lease(name)
        self.group.check_settled()

    def all_take_turns(self) -> None:
        """All who have not joined sync, commit what is pending of the partitions that they revoke, and rejoin."""
        for name in self.group.present:
            if name not in self.group.joined:
                self.lease(name)
                for partition in self.group.excess.get(name, []):
                    self.commit_pending(name, partition)
                self.give_up(name)
        self.complete_if_due()

    # Commits

    def answer_to_holder(self, name: bytes, partition: int) -> int:
        """The answer of a consumer to a request for a partition."""
        if name not in self.held:
            return 1
        if name in self.out:
            return 16
        return ACCEPTED if partition in self.held[name] else 15

    def answer_to_poll(self, name: bytes, partition: int, _records: int) -> int:
        return self.answer_to_holder(name, partition)

    def after_poll(self, name: bytes, partition: int, records: int) -> None:
        span = self.held[name][partition]
        span[1] = min(self.logs.end(partition), span[1] + records)

    def answer_to_send(self, name: bytes, partition: int) -> int:
        answer = self.answer_to_holder(name, partition)
        if answer == ACCEPTED and len(set(self.held[name][partition])) == 1:
            return 14
        return answer

    def after_send(self, name: bytes, partition: int) -> None:
        base, position = self.held[name][partition]
        self.mail.append(Commit(name, self.leased[name], partition, base, position - base))

    def answer_to_commit(self, commit: Commit) -> int:
        """The cluster's answer to a commit."""
        if commit.member not in self.group.present:
            return 1
        if commit.generation != self.group.generation:
            return 2
        if self.group.owner(commit.partition) != commit.member:
            return 10
        return ACCEPTED if commit.start == self.committed[commit.partition] else 11

    def answer_to_deliver(self, number: int) -> int:
        return self.answer_to_commit(self.mail[number - 1]) if 0 < number <= len(self.mail) else 17

    def take(self, number: int) -> None:
        """A commit is accepted, at most once."""
        commit = self.mail[number - 1]
        require(number not in self.accepted, "commit {} is accepted twice", number)
        self.accepted.add(number)
        self.committed[commit.partition] = commit.start + commit.records

    def learn(self, commit: Commit) -> None:
        """The consumer of a commit learns the committed offset."""
        span = self.held[commit.member].get(commit.partition)
        if span:
            span[0] = self.committed[commit.partition]
            span[1] = max(span)

    def after_deliver(self, number: int) -> None:
        self.take(number)
        self.learn(self.mail[number - 1])

    def after_refused_deliver(self, code: int, number: int) -> None:
        if code == 1:
            self.out.add(self.mail[number - 1].member)
        if code == 11:
            self.learn(self.mail[number - 1])

    def answer_to_unanswered(self, number: int) -> int:
        return ACCEPTED if 0 < number <= len(self.mail) else 17

    def after_unanswered(self, number: int) -> None:
        if self.answer_to_deliver(number) == ACCEPTED:
            self.take(number)

    def commit_pending(self, name: bytes, partition: int) -> None:
        """What is pending is sent and delivered, once more if the consumer was behind."""
        span = self.held[name].get(partition, [0, 0])
        while span[0] < span[1]:
            self.after_send(name, partition)
            if span[0] == self.committed[partition]:
                self.take(len(self.mail))
            self.learn(self.mail[-1])

    def answer_to_drain(self) -> int:
        return self.answer_to_settle()

    def after_drain(self) -> None:
        self.after_settle()
        for name in self.group.present:
            for partition, span in sorted(self.held[name].items()):
                while span[0] != self.logs.end(partition):
                    self.after_poll(name, partition, self.batch)
                    self.commit_once(name, partition)
        ends = [self.logs.end(partition) for partition in range(self.group.partitions)]
        require(self.committed == ends, "a drain commits up to {}, not {}", self.committed, ends)

    def commit_once(self, name: bytes, partition: int) -> None:
        """Sends and delivers what a drain has polled."""
        span = self.held[name][partition]
        if span[0] < span[1]:
            self.after_send(name, partition)
            if span[0] == self.committed[partition]:
                self.take(len(self.mail))
            self.learn(self.mail[-1])

    def answer_to_append(self, _topic: int, _key: bytes) -> int:
        return ACCEPTED

    def after_append(self, topic: int, key: bytes) -> None:
        self.logs.append(topic, key)

    # The end

    def check_end(self, rows: list[list[bytes]]) -> None:
        """The laws of the last rows: owners follow from the moves, offsets from the commits, and counts from the records below
        the offsets."""
        printed = [self.options.fields_of(partition) for partition in range(len(self.committed))]
        owners = [row(b"owner", *printed[partition], name_of(self.group.owner(partition))) for partition in range(len(printed))]
        ends = [b"%d" % self.logs.end(partition) for partition in range(len(printed))]
        offsets = [row(b"offset", *printed[partition], b"%d" % offset, ends[partition])
                   for partition, offset in enumerate(self.committed)]
        total = [row(b"total", b"%d" % sum(self.committed), b"%d" % sum(map(int, ends)))]
        wanted = [*owners, *offsets, *self.logs.counts(self.committed), *total]
        written = [row(*fields) for fields in rows]
        wrong = [pair for pair in zip(written, wanted) if pair[0] != pair[1]]
        require(written == wanted, "{} rows at the end instead of {}; the first difference: {}",
                len(written), len(wanted), wrong[:1])


def parts_of(line: bytes, options: Options) -> tuple[str, list[bytes | int]]:
    """The first word of a line, and its arguments: a topic and a key; or a name, a partition counted over all topics, and
    numbers; or numbers."""
    verb, _, rest = line.partition(b" ")
    if verb == b"append":
        return verb.decode(), [*appended(rest, options)]
    words = rest.split(b" ") if rest else []
    names = 0 if verb in (b"deliver", b"unanswered") else 1
    printed = len(options.fields_of(0)) if verb in (b"poll", b"send") else 0
    partition = [options.partition(words[1:1 + printed])] if printed else []
    return verb.decode(), [*words[:names], *partition, *map(int, words[names + printed:])]


def appended(text: bytes, options: Options) -> tuple[int, bytes]:
    """The topic and the key of the text after `append` and a space."""
    if not options.topics:
        return 0, text
    topic, _, key = text.partition(b" ")
    return options.names().index(topic), key


def appended_keys(script: bytes, options: Options) -> list[bytes]:
    """The keys that the lines of a script append."""
    return [appended(line[7:], options)[1] for _, line in lines_of(script) if line.startswith(b"append ")]


def rows_of(text: bytes) -> list[list[bytes]]:
    """The rows of a text, which must have the program's CSV dialect."""
    rows = read(text)
    require(b"".join(row(*fields) for fields in rows) == text, "rows are not in the CSV dialect")
    return rows


def parts_of_replay(text: bytes) -> tuple[list[list[bytes]], list[list[bytes]]]:
    """The rows of a replay's text: the moves and refusals, and the rest."""
    rows = rows_of(text)
    start = next((at for at, fields in enumerate(rows) if fields[0] not in HISTORY), len(rows))
    return rows[:start], rows[start:]


def check_replay(options: Options, keyed: list[tuple[int, bytes]], script: bytes, text: bytes) -> None:
    """Checks all laws of a replay's text."""
    history, end = parts_of_replay(text)
    ledger = Ledger(options, keyed)
    ledger.follow(script, history)
    ledger.check_end(end)


def count_text(keys: list[bytes]) -> bytes:
    """What `count` prints: the numbers of a Counter in order of first appearance."""
    rows = [row(b"count", key, b"%d" % number) for key, number in Counter(keys).items()]
    return b"".join(rows) + row(b"total", b"%d" % len(keys), b"%d" % len(keys))
