"""The tables of `place`, for random files and options, compared with those that are computed here: plain counts by partition and by
key, and a comparison with a given column of which some fields are altered."""
import tempfile
from collections import Counter
from pathlib import Path
from random import Random
from typing import Iterator

from simulator.records import (LONGEST_KEY, Options, keyed, place, random_file, random_keys, random_options, read,
                               record_fault, row, written)

from .program import Cases, Outcome, run

MOST_TOLD = 20
TRIALS = 400
Records = list[list[bytes]]


def header(options: Options, *columns: bytes) -> bytes:
    """The first row: with topics, the column of the topic precedes that of the partition."""
    named = {b"partition": (b"topic", b"partition"), b"place": (b"topic", b"place")} if options.topics else {}
    return row(*(word for column in columns for word in named.get(column, (column,))))


def of_partitions(records: Records, options: Options) -> bytes:
    """A row for each partition."""
    keys: list[list[bytes]] = [[] for _ in range(options.total())]
    for topic, key in keyed(records, options):
        keys[options.place(topic, key)].append(key)
    rows = []
    for partition, there in enumerate(keys):
        # Equal counts stay in the order of first appearance.
        largest, times = max(Counter(there).items(), key=lambda item: item[1], default=(b"", 0))
        rows.append(row(*options.fields_of(partition), b"%d" % len(there), b"%d" % len(set(there)), largest, b"%d" % times))
    return header(options, b"partition", b"records", b"keys", b"largest", b"records_of_largest") + b"".join(rows)


def of_keys(records: Records, options: Options) -> bytes:
    """A row for each key and topic that has it."""
    times = Counter(keyed(records, options))
    keys = dict.fromkeys(key for _, key in keyed(records, options))
    rows = [row(key, *options.fields_of(options.place(topic, key)), b"%d" % times[topic, key])
            for key in keys for topic in range(len(options.counts())) if times[topic, key]]
    return header(options, b"key", b"partition", b"records") + b"".join(rows)


def misplaced(records: Records, options: Options, given: int) -> list[bytes]:
    """The rows of the records that do not lie where their keys belong."""
    rows = []
    for number, (record, (topic, key)) in enumerate(zip(records[options.header:], keyed(records, options)), 1 + options.header):
        fields = options.fields_of(options.place(topic, key))
        if record[given - 1] != fields[-1]:
            rows.append(row(b"%d" % number, key, record[given - 1], *fields))
    return rows


def given_fault(records: Records, given: int, options: Options) -> int:
    """The number of the first record that lacks the given column; 0 if none does."""
    return next((number for number, record in enumerate(records, 1) if number > options.header and len(record) < given), 0)


def fault_of(records: Records, options: Options, given: int) -> bytes:
    """The fault of the first bad record, or of the first long key, or nothing."""
    bad = record_fault(records, options)
    lacking = given_fault(records, given, options)
    if lacking and (not bad or lacking < int(bad.split()[-1])):
        return b"fault 23 at record %d\n" % lacking
    return bad or (b"fault 20\n" if any(len(key) > LONGEST_KEY for _, key in keyed(records, options)) else b"")


def expected(text: bytes, options: Options, keys: bool, given: int) -> Outcome:
    records = read(text, options.delimiter)
    if fault := fault_of(records, options, given):
        return Outcome(b"", fault, 1)
    if given:
        rows = misplaced(records, options, given)
        return Outcome(header(options, b"record", b"key", b"given", b"place") + b"".join(rows[:MOST_TOLD]), b"", int(bool(rows)))
    return Outcome((of_keys if keys else of_partitions)(records, options), b"", 0)


def with_given(rng: Random, text: bytes, options: Options) -> tuple[bytes, int]:
    """A file with one more column, which mostly has the partitions of the keys, and that column's number."""
    records = read(text, options.delimiter)
    if record_fault(records, options):
        return text, rng.randint(1, 4)
    altered = rng.choice((0, 0.3, 0.02))
    texts = [b"place"] * options.header + [options.fields_of(options.place(topic, key))[-1]
                                           for topic, key in keyed(records, options)]
    wrong = (b"", b"x", b"4096", b"-1", b"1", b"\xb2", b"1 000", b'"', b"0x1")
    for number, right in enumerate(texts):
        if rng.random() < altered:
            texts[number] = rng.choice((*wrong, b"0" + right, b"+" + right, right + b" ", right))
    lines = [options.delimiter.join(written(rng, field, False, options.delimiter) for field in (*record, text))
             for record, text in zip(records, texts)]
    return b"".join(line + b"\n" for line in lines), len(records[0]) + 1 if records else 1


def trial_faults(seed: int) -> Iterator[str]:
    rng = Random(f"place {seed}")
    options = random_options(rng, False)
    text, given, keys = random_file(rng, options, random_keys(rng)), 0, rng.random() < 0.5
    if rng.random() < 0.5:
        text, given = with_given(rng, text, options)
        given, keys = max(1, given + rng.choices((0, 1, -1), (90, 5, 5))[0]), False
    words = [b"place", b"f", *options.words(), *[b"--keys"] * keys, *((b"--given", b"%d" % given) if given else ())]
    wanted = expected(text, options, keys, given)
    with tempfile.TemporaryDirectory() as folder:
        (Path(folder) / "f").write_bytes(text)
        ended = run(words, folder)
    if ended != wanted:
        yield f"{words} of {text[:300]!r} ends with {ended}, not with {wanted}"


def file_faults(text: bytes, options: Options, keys: bool, given: int, words: str) -> Iterator[str]:
    with tempfile.TemporaryDirectory() as folder:
        (Path(folder) / "f").write_bytes(text)
        ended = run([b"place", b"f", *words.encode().split()], folder)
    if ended != expected(text, options, keys, given):
        yield f"it ends with {ended}"


def large() -> Cases:
    """Files that are read in several chunks, and each limit."""
    many = b"".join(b"%d,%d\n" % (n * n % 250_007, n % 7) for n in range(400_000))
    for partitions in (1, 64, 4096):
        options, words = Options(partitions), f"--partitions {partitions}"
        yield f"place: 400,000 records, {words}", file_faults(many, options, False, 0, words)
        yield f"place --keys: 400,000 records, {words}", file_faults(many, options, True, 0, f"{words} --keys")
        yield f"place --given: 400,000 records, {words}", file_faults(many, options, False, 2, f"{words} --given 2")
    right = b"".join(b"%d,%d\n" % (n % 1000, place(b"%d" % (n % 1000), 12)) for n in range(400_000))
    yield "place --given: no misplaced record of 400,000", file_faults(
        right, Options(12), False, 2, "--partitions 12 --given 2")
    yield "place --given: the last record of 400,001 is misplaced", file_faults(
        right + b"0,12\n", Options(12), False, 2, "--partitions 12 --given 2")
    topics = tuple((b"t%d" % n, 512) for n in range(8))
    text = b"".join(b"%d,t%d\n" % (n % 997, n % 8) for n in range(50_000))
    words = "--topics " + ",".join(f"t{n}:512" for n in range(8))
    yield "place: eight topics", file_faults(text, Options(topics=topics), False, 0, words)
    yield "place --keys: eight topics", file_faults(text, Options(topics=topics), True, 0, words + " --keys")
    longest = b"k" * LONGEST_KEY + b"\na\n" + b"k" * LONGEST_KEY + b"\n"
    yield "place: a key of 65535 bytes", file_faults(longest, Options(), False, 0, "")
    yield "place --given: column 65535", file_faults(b"k" + b"," * 65_533 + b",0\n", Options(), False, 65_535, "--given 65535")


def cases() -> Cases:
    yield from large()
    for seed in range(TRIALS):
        yield f"place, trial {seed}", trial_faults(seed)
