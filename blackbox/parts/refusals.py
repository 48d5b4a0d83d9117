"""Fault injection: the first system call of a kind fails, then the second, and so on until a run makes no more such calls. The
kinds are allocations (malloc and realloc), reads, writes, starts of threads, openings of files and random bytes, over several
files, scripts and plans: that call alone fails, or every later one of its kind too. Reads and writes of one byte per call
must change nothing; in short runs each of these calls fails in turn too.

The run must end with the fault of its kind and without output (after a failed write: with a prefix of it). After a failed
allocation it may also end as usual: the C library can do without some memory. A file can be read, and its keys numbered,
without threads."""
import os
import subprocess
import tempfile
from pathlib import Path
from typing import Iterator, NamedTuple

from .program import FOLDER, Cases, Outcome, run

FAULTS = {"malloc": b"fault 90\n", "thread": b"fault 90\n", "random": b"fault 90\n", "open": b"fault 25\n",
          "read": b"fault 25\n", "write": b"fault 26\n"}
# The maximum size of a run in which each byte is read and written by a call that fails in turn.
MAX_BYTES = 1_000
FIVE = b"21\n4\nfoobar\nabc\n21\n"
FIVE_COUNTS = b"count,21,2\ncount,4,1\ncount,foobar,1\ncount,abc,1\ntotal,5,5\n"
FOUR_MOVES = b"move,1,0,,A\nmove,1,1,,A\nmove,1,2,,A\nmove,1,3,,A\n"
# Quoted fields with commas, line feeds and double quotes; a header; keys of 22, 23 and the maximum number of bytes; many keys.
QUOTED = (b'number,"the\nkey"\n1,"a,b"\n"2","say ""so"""\n3,"two\nlines"\n4,plain\n5,"a,b"\n6,\n')
QUOTED_COUNTS = b'count,"a,b",2\ncount,"say ""so""",1\ncount,"two\nlines",1\ncount,plain,1\ncount,,1\ntotal,6,6\n'
LONG_KEYS = [b"k" * 22, b"k" * 23, b"k" * 65_535, b"k" * 22, b"k" * 65_535]
MANY_KEYS = [b"%d" % n for n in range(1500)] + [b"a key of its own memory %d" % n for n in range(150)]
# More than 2 MiB in quotes, with a line feed in each key: the file is read in chunks, and none begins at a record.
KEYS_IN_BLOCKS = [b'"' + bytes([97 + n % 10]) * 30_000 + b"\n" + b"k" * 30_000 + b'"' for n in range(40)]
SCRIPT = (b"join A\r\n# a comment\njoin B\nsettle\nappend 21\nappend " + b"long" * 60 + b"\npoll A 0 2\nsend A 0\ndeliver 1\n"
          b"poll B 2 5\nsend B 2\nunanswered 2\njoin C\nrejoin A\nlose B\nsync C\nleave A\nsettle\ndrain\ndeliver 1\n")


class Subject(NamedTuple):
    """A run whose system calls fail in turn."""

    name: str
    words: str
    files: dict[str, bytes]
    # The outcome without failures; if it is None, a run shows it, whose rows are tested elsewhere.
    outcome: Outcome | None = None
    # The kinds of calls that it does not make.
    without: frozenset[str] = frozenset({"thread"})
    # The kinds that it can do without.
    spared: frozenset[str] = frozenset({"malloc"})
    # How many of its first threads it can do without: one helps to number the keys.
    helpers: int = 0
    stdin: bytes = b""


def lines_of(keys: list[bytes]) -> bytes:
    return b"".join(key + b"\n" for key in keys)


def counts_of(keys: list[bytes]) -> bytes:
    rows = b"".join(b"count,%s,%d\n" % (key, keys.count(key)) for key in dict.fromkeys(keys))
    return rows + b"total,%d,%d\n" % (len(keys), len(keys))


def done(stdout: bytes) -> Outcome:
    return Outcome(stdout, b"", 0)


SUBJECTS = [
    Subject("a count", "count f", {"f": FIVE}, done(FIVE_COUNTS)),
    Subject("a count of quoted fields", "count f --header --column 2", {"f": QUOTED}, done(QUOTED_COUNTS)),
    Subject("a count of long keys", "count f --partitions 4096", {"f": lines_of(LONG_KEYS)}, done(counts_of(LONG_KEYS))),
    Subject("a count of many keys", "count f", {"f": lines_of(MANY_KEYS)}, done(counts_of(MANY_KEYS))),
    Subject("a count from a pipe that fills the first window", "count -", {}, done(counts_of(MANY_KEYS * 8)),
            frozenset({"open", "thread"}), stdin=lines_of(MANY_KEYS * 8)),
    Subject("a count of blocks", "count f", {"f": b"".join(key + b",more\n" for key in KEYS_IN_BLOCKS)},
            done(counts_of(KEYS_IN_BLOCKS)), frozenset(), frozenset({"malloc", "thread"})),
    Subject("a count of a bad record", "count f --header --column 2", {"f": QUOTED + b"7,8,9\n"},
            Outcome(b"", b"fault 24 at record 8\n", 1), frozenset({"thread", "write"})),
    Subject("a replay of a join", "replay f s", {"f": FIVE, "s": b"join A\n"},
            done(FOUR_MOVES + b"owner,0,A\nowner,1,A\nowner,2,A\nowner,3,A\n"
                 b"offset,0,0,2\noffset,1,0,1\noffset,2,0,1\noffset,3,0,1\ntotal,0,5\n"), frozenset(), helpers=1),
    Subject("a replay of a drain", "replay f s", {"f": FIVE, "s": b"join A\nsettle\njoin B\ndrain\nappend 21\n"},
            done(FOUR_MOVES + b"move,3,2,A,B\nmove,3,3,A,B\nowner,0,A\nowner,1,A\nowner,2,B\nowner,3,B\n"
                 b"offset,0,2,3\noffset,1,1,1\noffset,2,1,1\noffset,3,1,1\n"
                 b"count,21,2\ncount,4,1\ncount,foobar,1\ncount,abc,1\ntotal,5,6\n"), frozenset(), helpers=1),
    Subject("a replay of each line over quoted fields", "replay f s --header --column 2", {"f": QUOTED, "s": SCRIPT}, None,
            frozenset(), helpers=1),
    Subject("a replay over long keys", "replay f s --batch 1", {"f": lines_of(LONG_KEYS), "s": b"join A\njoin B\ndrain\n"},
            None, frozenset(), helpers=1),
    Subject("a replay over many keys", "replay f s", {"f": lines_of(MANY_KEYS), "s": b"join A\njoin B\ndrain\n"}, None,
            frozenset(), helpers=1),
    Subject("a replay of a bad line", "replay f s", {"f": FIVE, "s": b"join A\njion B\n"},
            Outcome(b"", b"fault 22 at line 2\n", 1), frozenset({"thread", "write"})),
    Subject("a trace of a join", "trace f s", {"f": FIVE, "s": b"join A\nsync A\n"},
            done(b"line,step,event,member,partition,from,to,commit,code,reason,generation,phase,waiting,granted,unread,lag\n"
                 b"1,1,join,A,,,,,,,1,stable,,A 0-3,0-3,5\n2,1,sync,A,,,,,,,1,stable,,A 0-3,,5\n"), frozenset(), helpers=1),
    Subject("a trace of each line over quoted fields", "trace f s --header --column 2", {"f": QUOTED, "s": SCRIPT}, None,
            frozenset(), helpers=1),
    Subject("a trace of a bad line", "trace f s", {"f": FIVE, "s": b"join A\njion B\n"},
            Outcome(b"", b"fault 22 at line 2\n", 1), frozenset({"thread", "write"})),
    Subject("a picture of each line over quoted fields", "draw f s --header --column 2", {"f": QUOTED, "s": SCRIPT}, None,
            frozenset(), helpers=1),
    Subject("a table of partitions", "place f", {"f": FIVE}, None, frozenset(), helpers=1),
    Subject("a table of many keys", "place f --keys", {"f": lines_of(MANY_KEYS)}, None, frozenset(), helpers=1),
    Subject("misplaced records", "place f --given 1 --header", {"f": FIVE}, Outcome(
        b"record,key,given,place\n2,4,4,1\n3,foobar,foobar,2\n4,abc,abc,3\n5,21,21,0\n", b"", 1), frozenset(), helpers=1),
    Subject("places of blocks", "place f --partitions 1 --given 2", {"f": b"".join(key + b",0\n" for key in KEYS_IN_BLOCKS)},
            done(b"record,key,given,place\n"), frozenset(), frozenset({"malloc", "thread", "random"})),
    Subject("an explanation", "explain 11", {}, None, frozenset(FAULTS) - {"write", "malloc"}),
    Subject("a list of codes", "explain", {}, None, frozenset(FAULTS) - {"write", "malloc"}),
    Subject("a run", "run f s", {"f": FIVE, "s": b"join A\njoin B\nleave A\n"},
            done(FOUR_MOVES + b"move,3,2,A,B\nmove,3,3,A,B\nmove,4,0,A,B\nmove,4,1,A,B\n"
                 b"owner,0,B\nowner,1,B\nowner,2,B\nowner,3,B\n"
                 b"offset,0,2,2\noffset,1,1,1\noffset,2,1,1\noffset,3,1,1\n" + FIVE_COUNTS), frozenset(), helpers=1),
    Subject("a run over quoted fields", "run f s --header --column 2 --batch 1",
            {"f": QUOTED, "s": b"# a plan\njoin A\njoin B\nlose A\njoin C\n"}, None, frozenset(), helpers=1),
    Subject("a run over long keys", "run f s", {"f": lines_of(LONG_KEYS), "s": b"join A\njoin B\n"}, None, frozenset(),
            helpers=1),
]


def is_right(subject: Subject, wanted: Outcome, kind: str, nth: int, ended: Outcome) -> bool:
    """Whether a run may end like this after this call of a kind failed."""
    if ended == wanted:
        return kind in subject.spared or kind == "thread" and nth <= subject.helpers
    written = wanted.stdout.startswith(ended.stdout) if kind == "write" else ended.stdout == b""
    return written and (ended.stderr, ended.status) == (FAULTS[kind], 3)


class Sweep:
    """A subject in its folder, with the library that makes its calls fail."""

    def __init__(self, subject: Subject, library: Path, folder: Path) -> None:
        self.subject, self.library, self.folder = subject, library, folder
        self.words = [word.encode() for word in subject.words.split()]
        self.failures: dict[str, int] = {}
        for name, text in subject.files.items():
            (folder / name).write_bytes(text)
        shown = run(self.words, folder, stdin=subject.stdin)
        self.wanted = subject.outcome or shown
        self.is_well = shown == self.wanted and (subject.outcome is not None or shown.status == 0 and shown.stdout != b"")

    def run(self, **environment: str) -> Outcome:
        preloaded = dict(os.environ, LD_PRELOAD=str(self.library), **environment)
        return run(self.words, self.folder, preloaded, stdin=self.subject.stdin)

    def faults(self, kind: str, **how: str) -> Iterator[str]:
        """Lets the first call of this kind fail, then the second, until a run makes no more such calls."""
        mark = self.folder / "mark"
        if not self.is_well:
            yield "it does not end as it should without failures"
        for nth in range(1, 20_000):
            ended = self.run(REFUSE=kind, REFUSE_NTH=str(nth), REFUSE_MARK=str(mark), **how)
            if not mark.exists():
                self.failures[f"short {kind}" if "REFUSE_SHORT" in how else kind] = nth - 1
                if ended != self.wanted or (nth == 1) != (kind in self.subject.without):
                    yield f"with no failure (call {nth}) it ends with {ended}"
                return
            mark.unlink()
            if not is_right(self.subject, self.wanted, kind, nth, ended):
                yield f"after call {nth} failed it ends with {ended}"

    def is_short(self) -> bool:
        """Whether it reads and writes so little that the call of each byte can fail in turn."""
        read = sum(len(text) for text in self.subject.files.values())
        return max(read, len(self.wanted.stdout)) <= MAX_BYTES

    def short_faults(self) -> Iterator[str]:
        """Reads and writes of one byte per call change nothing."""
        ended = self.run(REFUSE_SHORT="1")
        if ended != self.wanted:
            yield f"it ends with {ended}"


def cases() -> Cases:
    with tempfile.TemporaryDirectory() as top:
        library = Path(top) / "refuse.so"
        subprocess.run(["cc", "-shared", "-fPIC", "-O1", "-o", str(library), str(FOLDER / "refuse.c")], check=True)
        for subject in SUBJECTS:
            folder = Path(tempfile.mkdtemp(dir=top))
            sweep = Sweep(subject, library, folder)
            for kind in FAULTS:
                yield f"{subject.name}, each {kind} fails", sweep.faults(kind)
                yield f"{subject.name}, each {kind} and all later ones fail", sweep.faults(kind, REFUSE_LASTS="1")
            yield f"{subject.name}, one byte per call", sweep.short_faults()
            for kind in ("read", "write") if sweep.is_short() else ():
                yield f"{subject.name}, one byte per call, each {kind} fails", sweep.faults(kind, REFUSE_SHORT="1")
            failures = ", ".join(f"{kind} {times}" for kind, times in sweep.failures.items())
            print(f"failures in {subject.name}: {failures}", flush=True)
