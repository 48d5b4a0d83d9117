"""Files of records: random ones, what Python's csv reads in them, and the partition of a key."""

from __future__ import annotations

import csv
import io
import re
from dataclasses import dataclass
from functools import lru_cache
from itertools import accumulate
from random import Random

LONGEST_KEY = 65_535
NO_PARTITION = 4_294_967_295
# The bytes that need quotes.
SPECIAL = re.compile(rb'[,"\r\n]')
WORD = 0xFFFFFFFF
MIX = 0x5BD1E995

csv.field_size_limit(1 << 30)


@dataclass(frozen=True)
class Options:
    """The options of a run of the program. A batch of 0 means the default. Topics are names with their numbers of partitions;
    without any, all records are in one topic without a name."""

    partitions: int = 4
    column: int = 1
    header: bool = False
    batch: int = 0
    topics: tuple[tuple[bytes, int], ...] = ()
    topic_column: int = 2
    delimiter: bytes = b","

    def words(self) -> list[bytes]:
        """The words of the command line."""
        words = [b"--partitions", b"%d" % self.partitions, b"--column", b"%d" % self.column]
        if self.batch:
            words += [b"--batch", b"%d" % self.batch]
        if self.topics:
            words += [b"--topics", b",".join(b"%s:%d" % topic for topic in self.topics)]
            words += [b"--topic-column", b"%d" % self.topic_column]
        if self.delimiter != b",":
            words += [b"--delimiter", b"tab" if self.delimiter == b"\t" else self.delimiter]
        return words + [b"--header"] * self.header

    def names(self) -> list[bytes]:
        """The names of the topics."""
        return [name for name, _ in self.topics]

    def counts(self) -> list[int]:
        """The number of partitions of each topic."""
        return [count for _, count in self.topics] or [self.partitions]

    def total(self) -> int:
        """The number of partitions of all topics."""
        return sum(self.counts())

    def first_partitions(self) -> list[int]:
        """The first partition of each topic, counted over all topics."""
        return [0, *accumulate(self.counts())]

    def place(self, topic: int, key: bytes) -> int:
        """The partition of a key in a topic, counted over all topics."""
        return self.first_partitions()[topic] + place(key, self.counts()[topic])

    def fields_of(self, partition: int) -> list[bytes]:
        """The fields that name a partition: its number, or the name of its topic and its number there. The partition after the
        last one is in the last topic."""
        if not self.topics:
            return [b"%d" % partition]
        topic = max(nth for nth in range(len(self.topics)) if self.first_partitions()[nth] <= partition)
        return [self.topics[topic][0], b"%d" % (partition - self.first_partitions()[topic])]

    def partition(self, fields: list[bytes]) -> int:
        """The partition of these fields; one that its topic does not have is one that nobody holds."""
        number = int(fields[-1])
        if not self.topics:
            return number
        topic = self.names().index(fields[0])
        return self.first_partitions()[topic] + number if number < self.counts()[topic] else NO_PARTITION


def random_options(rng: Random, batch: bool) -> Options:
    """Random options: mostly few partitions, seldom the maximum."""
    partitions = rng.choices((rng.randint(1, 4), rng.randint(5, 17), rng.randint(63, 130), 4096), (60, 30, 9, 1))[0]
    column = rng.choices((1, 2, 3), (70, 20, 10))[0]
    batches = (0, 1, 2, 7, 500, 1_000_000)
    topics = random_topics(rng) if rng.random() < 0.35 else ()
    topic_column = rng.choices((2, 1, 3), (70, 20, 10))[0]
    delimiter = rng.choices((b",", b"\t", b";", b"|", b"a"), (70, 10, 10, 5, 5))[0]
    header = rng.random() < 0.3
    return Options(partitions, column, header, rng.choice(batches) if batch else 0, topics, topic_column, delimiter)


def random_topics(rng: Random) -> tuple[tuple[bytes, int], ...]:
    """Up to eight topics, mostly with few partitions."""
    names = rng.sample((b"a", b"b", b"orders", b"clicks-2", b"T", b"_", b"a-b_c", b"t" * 32), rng.choice((1, 2, 2, 3, 5, 8)))
    return tuple((name, rng.choices((rng.randint(1, 4), rng.randint(5, 40), 500), (70, 28, 2))[0]) for name in names)


def quoted(field: bytes) -> bytes:
    """A field in double quotes."""
    return b'"' + field.replace(b'"', b'""') + b'"'


def row(*fields: bytes) -> bytes:
    """A row as the program must write it: quoted only where necessary."""
    return b",".join(quoted(field) if SPECIAL.search(field) else field for field in fields) + b"\n"


def read(text: bytes, delimiter: bytes = b",") -> list[list[bytes]]:
    """The records of a text. Blank lines are skipped, and so is a byte order mark at the beginning."""
    lines = io.StringIO(text.removeprefix(b"\xef\xbb\xbf").decode("latin-1"), newline="")
    reader = csv.reader(lines, delimiter=delimiter.decode("latin-1"))
    return [[field.encode("latin-1") for field in record] for record in reader if record]


def record_fault(records: list[list[bytes]], options: Options) -> bytes:
    """The fault of the first bad record, or nothing."""
    for number, record in enumerate(records, 1):
        if len(record) != len(records[0]):
            return b"fault 24 at record %d\n" % number
        if options.header and number == 1:
            continue
        if len(record) < max(options.column, options.topic_column if options.topics else 0):
            return b"fault 23 at record %d\n" % number
        if options.topics and record[options.topic_column - 1] not in options.names():
            return b"fault 32 at record %d\n" % number
    return b""


def keyed(records: list[list[bytes]], options: Options) -> list[tuple[int, bytes]]:
    """The topics and keys of good records, in order."""
    return [(topic_of(record, options), record[options.column - 1]) for record in records[options.header:]]


def topic_of(record: list[bytes], options: Options) -> int:
    """The index of a good record's topic."""
    return options.names().index(record[options.topic_column - 1]) if options.topics else 0


def plain_rows(rows: list[list[bytes]], options: Options) -> list[list[bytes]]:
    """Rows with topics, rewritten with partitions counted over all topics."""
    at = {b"move": 2, b"owner": 1, b"offset": 1} if options.topics else {}
    return [[*fields[:at[fields[0]]], b"%d" % options.partition(fields[at[fields[0]]:at[fields[0]] + 2]),
             *fields[at[fields[0]] + 2:]] if fields[0] in at else fields for fields in rows]


def topical_rows(rows: list[list[bytes]], options: Options) -> list[list[bytes]]:
    """Plain rows, rewritten with topics."""
    at = {b"move": 2, b"owner": 1, b"offset": 1} if options.topics else {}
    return [[*fields[:at[fields[0]]], *options.fields_of(int(fields[at[fields[0]]])), *fields[at[fields[0]] + 1:]]
            if fields[0] in at else fields for fields in rows]


@lru_cache(maxsize=4096)
def murmur2(key: bytes) -> int:
    """The hash of a key, as Kafka's client utilities compute it."""
    value = 0x9747B28C ^ len(key)
    whole = len(key) & ~3
    for start in range(0, whole, 4):
        word = int.from_bytes(key[start:start + 4], "little") * MIX & WORD
        value = (value * MIX & WORD) ^ ((word ^ word >> 24) * MIX & WORD)
    if key[whole:]:
        value = (value ^ int.from_bytes(key[whole:], "little")) * MIX & WORD
    value = (value ^ value >> 13) * MIX & WORD
    return value ^ value >> 15


def place(key: bytes, partitions: int) -> int:
    """The partition of a key."""
    return (murmur2(key) & 0x7FFFFFFF) % partitions


def random_key(rng: Random) -> bytes:
    """A key: mostly short, of letters or of special bytes."""
    length = rng.choices((0, 1, rng.randint(2, 9), rng.randint(10, 40), rng.randint(41, 700)), (4, 30, 50, 14, 2))[0]
    alphabets = (b"abc0123456789", b'a,"\n\r \xff', bytes(range(256)), b"\xc3\xa4\xe2\x82\xac")
    letters = rng.choices(alphabets, (50, 25, 15, 10))[0]
    return bytes(rng.choice(letters) for _ in range(length))


def random_keys(rng: Random) -> list[bytes]:
    """A few keys to choose from."""
    return [random_key(rng) for _ in range(rng.choice((1, 3, 12, 40)))]


def written(rng: Random, field: bytes, alone: bool, delimiter: bytes) -> bytes:
    """A field in valid CSV, sometimes quoted without need."""
    needed = SPECIAL.search(field) or delimiter in field or (alone and not field)
    return quoted(field) if needed or rng.random() < 0.1 else field


def careful_file(rng: Random, options: Options, keys: list[bytes]) -> bytes:
    """Records of one width, with all kinds of line ends and blank lines; seldom one of another width, or a long key."""
    widest = max(options.column, options.topic_column if options.topics else 0)
    width = max(1, widest + rng.choices((0, 1, 2, -1), (60, 20, 17, 3))[0])
    count = rng.choices((0, rng.randint(1, 12), rng.randint(13, 60), rng.randint(61, 400)), (5, 45, 40, 10))[0]
    odd = rng.randrange(count * 20 + 20)
    end = rng.choices((b"\n", b"\r\n", b"\r"), (70, 20, 10))[0]
    pieces = []
    for number in range(count):
        record = [rng.choice(keys) for _ in range(width + (rng.choice((-1, 1)) if number == odd else 0))]
        if options.topics and len(record) >= options.topic_column and rng.random() < 0.999:
            record[options.topic_column - 1] = rng.choice(options.names())
        pieces.append(options.delimiter.join(written(rng, field, len(record) == 1, options.delimiter) for field in record))
        pieces.append(end * rng.choices((1, 2), (95, 5))[0])
    if rng.random() < 0.01:
        # The longest valid key, or one that is a byte longer.
        record = [b"k" * (LONGEST_KEY + rng.randint(0, 1))] * width
        if options.topics and width >= options.topic_column:
            record[options.topic_column - 1] = rng.choice(options.names())
        pieces.append(options.delimiter.join(quoted(field) if options.delimiter in field else field for field in record))
    elif pieces and rng.random() < 0.3:
        pieces.pop()
    return b"".join(pieces)


def careless_file(rng: Random, options: Options) -> bytes:
    """Random bytes, most of which are special in CSV."""
    letters = rng.choice((b'ab,"\n', b'a,"\r\n\xff', b'ab"\n', b"ab\n\r")).replace(b",", options.delimiter)
    return bytes(rng.choice(letters) for _ in range(rng.choice((1, 3, 8, 40, 200))))


def random_file(rng: Random, options: Options, keys: list[bytes]) -> bytes:
    """A file of records, or with a chance of one in six one of random bytes."""
    return careless_file(rng, options) if rng.random() < 0.16 else careful_file(rng, options, keys)
