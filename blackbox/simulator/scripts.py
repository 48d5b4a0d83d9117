"""Random scripts and plans, and bad lines."""

from __future__ import annotations

from itertools import count
from random import Random
from typing import Iterator

from simulator.records import Options

NAMES = b"A B C D x-1 y_2 Zz m0 m1 m2 0 - _ member-of-thirty-two-letters-abc".split()
LONGEST_LINE = 256

# Lines that are bad in a script and in a plan.
BAD = [
    b"jion A", b"JOIN A", b"join", b"join ", b"join  A", b" join A", b"join A ", b"join\tA", b"join A B", b"join A\r\r",
    b" ", b"join \x80", b"join A.b", b"join A,b", b"join " + b"n" * 33, b"\x00", b"\xef\xbb\xbfjoin A", b"leave",
    b"lose A B", b"poll A 0", b"poll A 0 ", b"poll A 0 1 1", b"poll A 0 4294967296", b"poll A 4294967296 0",
    b"poll A -1 1", b"poll A +1 1", b"poll A 0x1 1", b"poll A  0 1", b"poll 0 1", b"send A", b"send A 0 1",
    b"send A 00000000000", b"deliver", b"deliver 1 ", b"deliver 00000000001", b"deliver 9999999999", b"unanswered",
    b"unanswered A", b"append", b"Append x", b"keep", b"keep A B", b"return", b"return  A", b"Keep A",
    b"settle ", b"settle now", b"drain 5", b"drains", b"append " + b"k" * 250,
    b"#" * 257, b"sync", b"rejoin A 1", b"-", b",",
]
BAD_IN_PLAN = [b"settle", b"drain", b"sync A", b"rejoin A", b"append x", b"append ", b"poll A 0 1", b"send A 0",
               b"deliver 1", b"unanswered 1", b"leave nobody-of-this-name", b"lose nobody-of-this-name", b"keep m0",
               b"return m0"]
# Lines that are bad with topics, whose names are no numbers.
BAD_AMONG_TOPICS = [b"append k", b"append ", b"append no-such-topic k", b"append  k", b"poll A 0 1", b"send A 0",
                    b"poll A no-such-topic 0 1", b"send A no-such-topic 0", b"poll no-such-topic 0 1"]


class Author:
    """Writes lines, with an estimate of who is present and how many commits were sent."""

    def __init__(self, rng: Random, options: Options, keys: list[bytes]) -> None:
        self.rng = rng
        self.options = options
        self.keys = [key for key in keys if b"\n" not in key and len(key) < 249] or [b"k"]
        self.lines: list[bytes] = []
        self.unused = list(NAMES) + [b"n%d" % number for number in range(40)]
        self.present: list[bytes] = []
        self.static: list[bytes] = []
        self.gone: list[bytes] = []
        self.sent = 0

    def add(self, *words: object) -> None:
        """Adds a line of these words."""
        self.lines.append(b" ".join(word if isinstance(word, bytes) else b"%d" % word for word in words))

    def somebody(self) -> bytes:
        """A name, mostly of a present member."""
        groups = [group for group in (self.present * 8, self.gone, self.unused[:1]) if group]
        return self.rng.choice([name for group in groups for name in group])

    def partition(self) -> int:
        """A partition, mostly one with records, seldom one past the last."""
        if self.rng.random() < 0.7:
            return self.options.place(self.rng.randrange(len(self.options.counts())), self.rng.choice(self.keys))
        return self.rng.randrange(self.options.total() + (self.rng.random() < 0.05))

    def readers(self) -> list[bytes]:
        """Somebody, or all present members, one of which is the owner."""
        everybody = 0 < len(self.present) < 5 and self.rng.random() < 0.5
        return list(self.present) if everybody else [self.somebody()]

    def join(self) -> None:
        if self.unused:
            self.present.append(self.unused.pop(0))
            self.add(b"join", self.present[-1])

    def join_again(self) -> None:
        self.add(self.rng.choice((b"join", b"keep")), self.somebody())

    def keep(self) -> None:
        if self.unused:
            self.present.append(self.unused.pop(0))
            self.static.append(self.present[-1])
            self.add(b"keep", self.present[-1])

    def take_over(self) -> None:
        """A take-over, mostly of a static member, sometimes of one with a commit in the mail."""
        static = [name for name in self.static if name in self.present]
        name = self.rng.choice(static) if static and self.rng.random() < 0.9 else self.somebody()
        if self.rng.random() < 0.4:
            partition = self.partition()
            self.poll([name], partition)
            self.send([name], partition)
        self.add(b"return", name)
        if self.rng.random() < 0.5:
            self.deliver_all()
        if self.rng.random() < 0.5:
            self.add(self.rng.choice((b"sync", b"rejoin")), name)

    def depart(self) -> None:
        name = self.somebody()
        self.add(self.rng.choice((b"leave", b"lose")), name)
        if name in self.present:
            self.present.remove(name)
            self.gone.append(name)

    def depart_one_of_many(self) -> None:
        if len(self.present) > 1:
            self.depart()
        else:
            self.join()

    def read(self) -> None:
        """A poll, mostly followed by a commit, which may be delivered, sometimes after another poll."""
        names, partition = self.readers(), self.partition()
        self.poll(names, partition)
        if self.rng.random() < 0.85:
            self.send(names, partition)
        if self.rng.random() < 0.2:
            self.poll(names, partition)
        if self.rng.random() < 0.7:
            self.add(self.rng.choice((b"deliver", b"deliver", b"unanswered")), self.sent)
        if self.rng.random() < 0.2:
            self.send(names, partition)

    def poll(self, names: list[bytes], partition: int) -> None:
        for name in names:
            self.add(b"poll", name, *self.options.fields_of(partition), self.rng.choice((1, 1, 2, 3, 500, 0)))

    def send(self, names: list[bytes], partition: int) -> None:
        """Each of these sends, of whom one is the owner at most."""
        for name in names:
            self.add(b"send", name, *self.options.fields_of(partition))
        self.sent += 1

    def deliver_all(self) -> None:
        """Delivers the last commits."""
        for number in range(max(1, self.sent - 8), self.sent + 1):
            self.add(b"deliver", number)

    def lose_with_mail(self) -> None:
        """A member is lost and then its commit is delivered, by which it may learn of its loss."""
        if len(self.present) > 1:
            name, partition = self.rng.choice(self.present), self.partition()
            self.poll([name], partition)
            self.send([name], partition)
            self.add(b"lose", name)
            self.present.remove(name)
            self.gone.append(name)
            self.deliver_all()
            self.poll([name], partition)
            self.add(self.rng.choice((b"sync", b"rejoin", b"leave")), name)

    def revoke_with_mail(self) -> None:
        """Members read and send commits, and one revokes partitions before the commits are delivered."""
        self.join()
        for name in list(self.present):
            self.add(b"sync", name)
            self.add(b"rejoin", name)
        partitions = {self.partition() for _ in range(3)}
        for name in self.present:
            self.add(b"sync", name)
            for partition in partitions:
                self.poll([name], partition)
        for partition in partitions:
            self.send(self.present, partition)
        self.add(b"rejoin", self.rng.choice(self.present))
        self.deliver_all()

    def deliver_late(self) -> None:
        self.add(self.rng.choice((b"deliver", b"deliver", b"unanswered")), self.rng.randint(0, self.sent + 3))

    def send_again(self) -> None:
        self.send(self.readers(), self.partition())

    def append(self) -> None:
        names = self.options.names()
        topic = self.rng.choice(names) + b" " if names else b""
        keys = [key for key in self.keys if len(key) + len(topic) < 249] or [b"k"]
        self.lines.append(b"append " + topic + self.rng.choice(keys))

    def settle(self) -> None:
        self.add(b"settle")

    def drain(self) -> None:
        self.add(b"drain")
        self.sent += self.rng.randint(0, self.options.total())

    def sync(self) -> None:
        self.add(b"sync", self.somebody())

    def rejoin(self) -> None:
        self.add(b"rejoin", self.somebody())

    def rejoin_all(self) -> None:
        """All present members rejoin, and sync before or after."""
        verbs = self.rng.choice(([b"rejoin"], [b"sync", b"rejoin"], [b"rejoin", b"sync"]))
        for verb in verbs:
            for name in list(self.present):
                self.add(verb, name)

    def add_comment(self) -> None:
        self.lines.append(self.rng.choice((b"", b"# nothing", b"#" * LONGEST_LINE, b"#join A")))


ORDERLY = {"join": 6, "keep": 2, "take_over": 3, "depart_one_of_many": 4, "read": 12, "deliver_late": 5, "append": 6, "settle": 12,
           "drain": 3, "add_comment": 1, "join_again": 0.5, "send_again": 2, "lose_with_mail": 1}
WILD = {**ORDERLY, "depart": 3, "sync": 8, "rejoin": 8, "rejoin_all": 6, "settle": 5, "drain": 2, "revoke_with_mail": 2}


def ended(rng: Random, lines: list[bytes]) -> bytes:
    """The lines as text. A line that ends with a carriage return gets another, since one is dropped."""
    carriage = rng.random() < 0.1
    text = b"".join(line + (b"\r\n" if carriage or line.endswith(b"\r") else b"\n") for line in lines)
    return text[:-1] if rng.random() < 0.1 else text


def random_script(rng: Random, options: Options, keys: list[bytes], wild: bool) -> bytes:
    """A script; half of them end with a drain."""
    author = Author(rng, options, keys)
    weights = WILD if wild else ORDERLY
    author.join()
    author.settle()
    if rng.random() < 0.1:
        author.lines.clear()
    for act in rng.choices(list(weights), list(weights.values()), k=rng.choice((0, 3, 10, 25, 60))):
        getattr(author, act)()
    if rng.random() < 0.5:
        author.drain()
    return ended(rng, author.lines)


def random_plan(rng: Random) -> bytes:
    """A plan after each of whose lines a member is left."""
    present, lines = [], []
    for number in range(rng.choice((1, 2, 4, 9, 14))):
        if len(present) > 1 and rng.random() < 0.4:
            name = present.pop(rng.randrange(len(present)))
            lines.append(rng.choice((b"leave ", b"lose ")) + name)
        else:
            present.append(b"m%d" % number)
            lines.append(b"join " + present[-1])
        lines += [b"# nothing"] * (rng.random() < 0.05)
    return ended(rng, lines)


def crowded_plan(rng: Random, members: int) -> bytes:
    """A plan by which this many members are present at its end, and others were."""
    present, lines = [], []
    for number in count():
        if len(present) == members:
            return b"".join(line + b"\n" for line in lines)
        present.append(b"m%d" % number)
        lines.append(b"join " + present[-1])
        if len(present) > 1 and rng.random() < 0.3:
            name = present.pop(rng.randrange(len(present)))
            lines.append(rng.choice((b"leave ", b"lose ")) + name)
    raise AssertionError


def lines_of(script: bytes) -> Iterator[tuple[int, bytes]]:
    """The lines of a script that are not empty and not comments, with their numbers."""
    for number, line in enumerate(script.split(b"\n"), 1):
        line = line.removesuffix(b"\r")
        if line and not line.startswith(b"#"):
            yield number, line


def in_topic(script: bytes, topic: bytes) -> bytes:
    """A script with the name of a topic added to the lines that need one."""
    lines = []
    for line in script.split(b"\n"):
        words = line.split(b" ")
        at = {b"append": 1, b"poll": 2, b"send": 2}.get(words[0], 0)
        lines.append(b" ".join([*words[:at], topic, *words[at:]] if at else words))
    return b"\n".join(lines)


def probes(lines: list[bytes], options: Options) -> list[bytes]:
    """Lines in which each member of a script polls each partition, without taking records."""
    words = [line.removesuffix(b"\r").split(b" ") for line in lines]
    names = dict.fromkeys(name for verb, name in (pair for pair in words if len(pair) == 2) if verb in (b"join", b"keep"))
    return [b" ".join([b"poll", name, *options.fields_of(partition), b"0"])
            for name in names for partition in range(options.total())]


def settled_after_each(plan: bytes) -> bytes:
    """The script that settles after each line of a plan, and drains at the end."""
    return b"".join(line + b"\nsettle\n" for _, line in lines_of(plan)) + b"drain\n"


def spoiled(rng: Random, script: bytes, bad: list[bytes]) -> tuple[bytes, int]:
    """A script with a bad line in it, mostly with another after it, and the number of the first."""
    lines = script.removesuffix(b"\n").split(b"\n") if script else []
    at = rng.randint(0, len(lines))
    lines.insert(at, rng.choice(bad))
    if rng.random() < 0.7:
        lines.insert(rng.randint(at + 1, len(lines)), rng.choice(bad))
    return b"\n".join(lines) + b"\n", at + 1


def deserted_plan(rng: Random) -> tuple[bytes, bytes]:
    """A plan that is empty or has a line after which no member is left, and its fault."""
    if rng.random() < 0.2:
        return rng.choice((b"", b"\n\n", b"# nothing\r\n", b"\r")), b"fault 27 at line 0\n"
    names = [b"m%d" % number for number in range(rng.randint(1, 4))]
    lines = [b"join " + name for name in names]
    rng.shuffle(names)
    lines += [rng.choice((b"leave ", b"lose ")) + name for name in names]
    for _ in range(rng.randint(0, 2)):
        lines.insert(rng.randint(0, len(lines) - 1), b"# nothing")
    end = len(lines)
    lines += [b"join again", rng.choice(BAD)] * rng.randint(0, 1)
    return b"\n".join(lines) + b"\n", b"fault 27 at line %d\n" % end
