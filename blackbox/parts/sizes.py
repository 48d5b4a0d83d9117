"""Files and outputs of many sizes, up to some MiB, and each limit that can be reached. The expected output is computed here:
the partitions of keys by murmur2, and the counts by a Counter."""
import os
import subprocess
import tempfile
from collections import Counter
from functools import lru_cache
from pathlib import Path
from typing import Callable, Iterator

from .program import Cases, Outcome, program, run

MIB = 1 << 20
TABLE = b"line,step,event,member,partition,from,to,commit,code,reason,generation,phase,waiting,granted,unread,lag"
Keys = list[bytes]


@lru_cache(maxsize=100_000)
def murmur2(key: bytes) -> int:
    m, whole = 0x5BD1E995, len(key) & ~3
    h = 0x9747B28C ^ len(key)
    for at in range(0, whole, 4):
        k = int.from_bytes(key[at:at + 4], "little") * m & 0xFFFFFFFF
        k = (k ^ k >> 24) * m & 0xFFFFFFFF
        h = (h * m & 0xFFFFFFFF) ^ k
    if whole < len(key):
        h = (h ^ int.from_bytes(key[whole:], "little")) * m & 0xFFFFFFFF
    h = (h ^ h >> 13) * m & 0xFFFFFFFF
    return h ^ h >> 15


def place(key: bytes, partitions: int) -> int:
    return (murmur2(key) & 0x7FFFFFFF) % partitions if partitions > 1 else 0


def field(key: bytes) -> bytes:
    """A key as a field of a row."""
    return b'"%s"' % key.replace(b'"', b'""') if any(byte in key for byte in b',"\r\n') else key


def counts(keys: Keys) -> bytes:
    rows = b"".join(b"count,%s,%d\n" % (field(key), times) for key, times in Counter(keys).items())
    return rows + b"total,%d,%d\n" % (len(keys), len(keys))


def text_of_one(keys: Keys, partitions: int) -> bytes:
    """What a run with one member prints, and so does a replay with one that drains."""
    ends = Counter(place(key, partitions) for key in keys)
    each = range(partitions)
    return (b"".join(b"move,1,%d,,A\n" % p for p in each) + b"".join(b"owner,%d,A\n" % p for p in each)
            + b"".join(b"offset,%d,%d,%d\n" % (p, ends[p], ends[p]) for p in each) + counts(keys))


def lines(keys: Keys) -> bytes:
    return b"".join(field(key) + b"\n" for key in keys)


def fitted(size: int, extra: int, end: Callable[[int], int]) -> Keys:
    """Different keys of about 1000 bytes, which make a text of exactly this size that has `extra` more bytes for each key, and
    at its end those that `end` returns for the number of keys."""
    number = max(1, size // 1000)
    total = size - end(number) - number * extra
    common = total // number
    return [b"%0*d" % (common, n) for n in range(number - 1)] + [b"x" * (total - common * (number - 1))]


def faults(words: str, files: dict[str, bytes], wanted: bytes | Outcome, stdin: bytes = b"") -> Iterator[str]:
    wanted = wanted if isinstance(wanted, Outcome) else Outcome(wanted, b"", 0)
    with tempfile.TemporaryDirectory() as folder:
        for name, text in files.items():
            (Path(folder) / name).write_bytes(text)
        ended = run([word.encode() for word in words.split()], folder, stdin=stdin)
    if ended != wanted:
        yield f"`{words}` ends with {ended}, not with {wanted}"


def each_faults(keys: Keys, partitions: int, options: str = "") -> Iterator[str]:
    """A count, a replay and a run over these keys."""
    options = f"--partitions {partitions} {options}"
    wanted, file = text_of_one(keys, partitions), lines(keys)
    yield from faults(f"count f --partitions {partitions}", {"f": file}, counts(keys))
    yield from faults(f"replay f s {options}", {"f": file, "s": b"join A\ndrain\n"}, wanted)
    yield from faults(f"replay - s {options}", {"s": b"join A\ndrain\n"}, wanted, file)
    yield from faults(f"run f p {options}", {"f": file, "p": b"join A\n"}, wanted)


def topics_faults(keys: Keys, topics: dict[bytes, int]) -> Iterator[str]:
    """A replay of records of these keys, in each of these topics by turns."""
    names = list(topics)
    records = [(names[nth % len(names)], key) for nth, key in enumerate(keys)]
    ends = Counter((name, place(key, topics[name])) for name, key in records)
    each = [(name, p) for name, count in topics.items() for p in range(count)]
    wanted = (b"".join(b"move,1,%s,%d,,A\n" % one for one in each) + b"".join(b"owner,%s,%d,A\n" % one for one in each)
              + b"".join(b"offset,%s,%d,%d,%d\n" % (*one, ends[one], ends[one]) for one in each) + counts(keys))
    file = b"".join(b"%s,%s\n" % (name, field(key)) for name, key in records)
    words = ",".join(f"{name.decode()}:{count}" for name, count in topics.items())
    yield from faults(f"replay f s --column 2 --topic-column 1 --topics {words}", {"f": file, "s": b"join A\ndrain\n"}, wanted)


def size_faults(power: int) -> Iterator[str]:
    """Files, and then outputs, of two to this power of bytes, one less and one more."""
    for size in range((1 << power) - 1, (1 << power) + 2):
        keys = fitted(size, 1, lambda number: 0)
        assert len(lines(keys)) == size
        yield from faults("count f", {"f": lines(keys)}, counts(keys))
        keys = fitted(size, 9, lambda number: len(f"total,{number},{number}\n"))
        assert len(counts(keys)) == size
        yield from faults("count f", {"f": lines(keys)}, counts(keys))


def peak_memory(process: int) -> int:
    """The highest resident memory of a process so far, in bytes."""
    lines = Path(f"/proc/{process}/status").read_text(encoding="ascii").splitlines()
    return next(int(line.split()[1]) * 1024 for line in lines if line.startswith("VmHWM:"))


def stream_faults(blocks: int, records: int, length: int, digits: int = 4) -> Iterator[str]:
    """So many blocks through a pipe, of so many records of this length, with keys of so many digits: their counts, in memory that
    has nothing to do with how many there are."""
    keys = [b"%0*d" % (digits, n) for n in range(records)]
    block = b"".join(b"%s,%s\n" % (key, b"z" * (length - digits - 2)) for key in keys)
    most = (24 + 8 * (os.cpu_count() or 1)) * MIB
    with subprocess.Popen([program(), "count", "-"], stdin=subprocess.PIPE, stdout=subprocess.PIPE) as job:
        for _ in range(blocks):
            job.stdin.write(block)
        peak = peak_memory(job.pid)
        text, _ = job.communicate(timeout=120)
    total = blocks * records
    if text != b"".join(b"count,%s,%d\n" % (key, blocks) for key in keys) + b"total,%d,%d\n" % (total, total):
        yield f"it prints {text[:300]!r} ({len(text)} bytes)"
    if peak > most:
        yield f"it takes {peak} bytes, and not at most {most}"


def file_sizes() -> Cases:
    yield "a count of 400 MB through a pipe", stream_faults(400, 10_000, 100)
    yield "the same of records of 100,000 bytes", stream_faults(400, 10, 100_000)
    yield "the same of keys of 90 bytes", stream_faults(400, 10_000, 100, 90)
    for power in range(5, 24):
        yield f"a file and an output of about {1 << power} bytes", size_faults(power)
    for size in (MIB, 2 * MIB, 4 * MIB, 8 * MIB):
        for partitions in (1, 64):
            keys = fitted(size + 1, 1, lambda number: 0)
            yield f"count, replay and run of {size} bytes and {partitions} partitions", each_faults(keys, partitions)
    keys = [b'%d,"\n' % n * 5000 for n in range(100)]
    yield "count, replay and run of some MiB of quoted fields", each_faults(keys, 4)
    keys = [b"%d" % (n * n % 250_007) for n in range(400_000)]
    yield "count, replay and run of 400,000 records of many keys", each_faults(keys, 64, "--batch 1000")
    yield "a replay of 400,000 records in three topics", topics_faults(keys, {b"a": 5, b"bb": 64, b"c": 1})
    # Enough different keys that their tables are dropped in parallel.
    keys = [b"%d" % (n * 7919 % 300_007) for n in range(400_000)]
    yield "a count of 400,000 records of 300,007 keys", faults("count f", {"f": lines(keys)}, counts(keys))


def script_sizes() -> Cases:
    five = [b"21", b"4", b"foobar", b"abc", b"21"]
    comments = (b"#" * 255 + b"\n") * 20_000
    wanted = text_of_one(five, 4)
    yield "replay: comments of 5 MB", faults("replay f s", {"f": lines(five), "s": comments + b"join A\ndrain\n"}, wanted)
    yield "run: comments of 5 MB", faults("run f p", {"f": lines(five), "p": comments + b"join A\n"}, wanted)
    yield "replay: a script of 5 MB on standard input", faults(
        "replay f -", {"f": lines(five)}, wanted, comments + b"join A\ndrain\n")
    more = [b"%0240d" % (n % 15_000) for n in range(20_000)]
    script = b"".join(b"append %s\n" % key for key in more) + b"join A\ndrain\n"
    yield "replay: 20,000 lines that append", faults(
        "replay f s", {"f": lines(five), "s": script}, text_of_one(five + more, 4))
    sends = b"join A\nsync A\npoll A 0 1\n" + b"send A 0\n" * 65_537
    yield "replay: 65,536 commits, and one more", faults(
        "replay f s --partitions 1", {"f": b"k\n", "s": sends},
        b"move,1,0,,A\nrefused,65540,30\nowner,0,A\noffset,0,0,1\ntotal,0,1\n")
    yield "trace: 65,536 commits, and one more", faults(
        "trace f s --partitions 1", {"f": b"k\n", "s": sends + b"drain\n"}, traced_commits())
    names = [b"%032d" % n for n in range(512)]
    joins = b"".join(b"join %s\n" % name for name in names)
    yield "replay: 512 members, and one more", max_members_faults(names, joins)
    yield "trace: 512 members, and one more", faults(
        "trace f s --partitions 512", {"f": b"k\n", "s": joins + b"join Z\n"}, traced_members(names))


def traced_commits() -> bytes:
    """The table of A, who sends one record until the mail is full; a drain then reads nothing and sends in vain."""
    rows = [b"1,1,join,A,,,,,,,1,stable,,A 0,0,1", b"2,1,sync,A,,,,,,,1,stable,,A 0,,1", b"3,1,poll,A,0,0,1,,,,1,stable,,A 0,,1"]
    rows += [b"%d,1,send,A,0,0,1,%d,,,1,stable,,A 0,,1" % (3 + sent, sent) for sent in range(1, 65_537)]
    full = b"30,mail full,1,stable,,A 0,,1"
    rows += [b"65540,1,send,A,0,,,," + full, b"65541,1,poll,A,0,1,1,,,,1,stable,,A 0,,1", b"65541,2,send,A,0,,,," + full,
             b"65541,3,drain,,,,,," + full]
    return b"".join(row + b"\n" for row in (TABLE, *rows))


def traced_members(names: Keys) -> bytes:
    """The table of members that join one after the other: the first has all partitions, and the others wait for it."""
    rows = [b"1,1,join,%s,,,,,,,1,stable,,%s 0-511,0-511,1" % (names[0], names[0])]
    states = [b"1,preparing,%s,%s,0-511,1" % (names[0], b";".join([names[0] + b" 0-511", *names[1:nth + 1]])) for nth in range(512)]
    rows += [b"%d,1,join,%s,,,,,,,%s" % (nth + 1, names[nth], states[nth]) for nth in range(1, 512)]
    rows.append(b"513,1,join,Z,,,,,9,too many members," + states[511])
    return b"".join(row + b"\n" for row in (TABLE, *rows))


def max_members_faults(names: Keys, joins: bytes) -> Iterator[str]:
    """512 members over 512 partitions: each gets one, in one generation; a 513th is refused."""
    files = {"f": b"k\n", "s": joins + b"join Z\n"}
    with tempfile.TemporaryDirectory() as folder:
        for name, text in files.items():
            (Path(folder) / name).write_bytes(text)
        ended = run([b"replay", b"f", b"s", b"--partitions", b"512"], folder)
    rows = ended.stdout.split(b"\n")
    if ended.stderr or ended.status or b"refused,513,9" not in rows or sum(row.startswith(b"owner,") for row in rows) != 512:
        yield f"it ends with {ended}"


def limits() -> Cases:
    longest = b"k" * 65_535
    for keys, name in (([longest, b"a", longest], "a key of 65535 bytes"), ([b'"' * 65_535], "65535 double quotes")):
        yield f"count, replay and run of {name}", each_faults(keys, 4)
    for words in ("count f", "replay f s", "run f s"):
        def ends(what: str, file: bytes, wanted: bytes | Outcome, options: str = "") -> tuple[str, Iterator[str]]:
            files = {"f": file, "s": b"join A\n" + b"drain\n" * (words[:6] == "replay")}
            return f"{words}: {what}", faults(f"{words} {options}", files, wanted)

        def text(keys: Keys, partitions: int = 4) -> bytes:
            return counts(keys) if words == "count f" else text_of_one(keys, partitions)

        yield ends("a key of 65536 bytes", longest + b"k\n", Outcome(b"", b"fault 20\n", 1))
        yield ends("a quoted key of 65536 bytes", b'a\n"%s"\n' % (b'""' * 65_536), Outcome(b"", b"fault 20\n", 1))
        yield ends("a long field that is not the key", b"k," + b"z" * 3 * MIB + b"\n", text([b"k"]))
        yield ends("column 65535", b"," * 65_534 + b"k\n", text([b"k"]), "--column 65535")
        yield ends("column 65535 of 65534", b"," * 65_533 + b"k\n", Outcome(b"", b"fault 23 at record 1\n", 1),
                   "--column 65535")
        yield ends("records of a million fields", (b"k" + b"," * 999_999 + b"\n") * 3, text([b"k"] * 3))
        yield ends("a million fields and one more", (b"k" + b"," * 999_999 + b"\n") + b"k" + b"," * 1_000_000 + b"\n",
                   Outcome(b"", b"fault 24 at record 2\n", 1))
        yield ends("4096 partitions", b"".join(b"%d\n" % n for n in range(9000)),
                   text([b"%d" % n for n in range(9000)], 4096), "--partitions 4096")
    keys = [b"%d" % (n % 700) for n in range(5000)]
    for batch in (1, 1_000_000):
        yield f"replay and run, batch {batch}", each_faults(keys, 4, f"--batch {batch}")
    yield "replay and run, batch 1000000, of a million records and one", each_faults(
        [b"%d" % (n % 10) for n in range(1_000_001)], 1, "--batch 1000000")


def cases() -> Cases:
    yield from file_sizes()
    yield from script_sizes()
    yield from limits()
