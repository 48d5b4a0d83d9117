"""What `check` tells of files and scripts, compared with a reading that is written here anew: of files byte by byte, of lines by
regular expressions, and of the forms of lines in the help; and by hand for each code and each warning."""
import re
import tempfile
from functools import lru_cache
from pathlib import Path
from random import Random
from typing import Iterator, NamedTuple

from simulator.records import LONGEST_KEY, Options, random_file, random_keys, random_options, read, row

from .program import FOLDER, Cases, Outcome, run

TRIALS = 400
MARK = b"\xef\xbb\xbf"
HEADER = b"input,code,record,line,byte,problem\n"
FORMATS = {b"\x1f\x8b": b"gzip file", b"\x28\xb5\x2f\xfd": b"zstd file", b"\xff\xfe": b"UTF-16 text", b"\xfe\xff": b"UTF-16 text"}
NAME = rb"[A-Za-z0-9_-]{1,32}"
SHOWN = 80
MOST_EDITS = 2


class Found(NamedTuple):
    """A record, its first byte, and the first byte of its last field if that is in quotes that are never closed."""

    fields: list[bytes]
    byte: int
    open_quote: int | None


def records_of(text: bytes, delimiter: bytes) -> list[Found]:
    """The records of a text, read byte by byte."""
    at = len(MARK) if text.startswith(MARK) else 0
    found = []
    while at < len(text):
        if text[at] in b"\r\n":
            at += 1
            continue
        fields, first, opened, ended = [], at, None, False
        while not ended:
            field, start, opened = bytearray(), at, None
            if text[at:at + 1] == b'"':
                at, opened = at + 1, start
                while at < len(text) and opened is not None:
                    if text[at:at + 2] == b'""':
                        field, at = field + b'"', at + 2
                    elif text[at] == ord('"'):
                        at, opened = at + 1, None
                    else:
                        field, at = field + text[at:at + 1], at + 1
            while at < len(text) and text[at] not in delimiter + b"\r\n":
                field, at = field + text[at:at + 1], at + 1
            fields.append(bytes(field))
            ended = at == len(text) or text[at] != ord(delimiter)
            at += 1
        found.append(Found(fields, first, opened))
    return found


def shown(text: bytes) -> bytes:
    return b"'" + text[:SHOWN] + b"'"


def fields_of(count: int) -> bytes:
    return b"%d field%s" % (count, b"" if count == 1 else b"s")


def problem_of(record: list[bytes], width: int, options: Options) -> tuple[int, bytes] | None:
    """The code of a record that is to have so many fields, and what is wrong with it."""
    if len(record) != width:
        return 24, fields_of(len(record)) + b", the first record has %d" % width
    for column in (options.column, *([options.topic_column] if options.topics else [])):
        if len(record) < column:
            return 23, b"no column %d: it has " % column + fields_of(len(record))
    if options.topics and record[options.topic_column - 1] not in options.names():
        return 32, b"no topic of that name: " + shown(record[options.topic_column - 1])
    length = len(record[options.column - 1])
    return (20, b"the key has %d bytes, 65535 are the most" % length) if length > LONGEST_KEY else None


def file_rows(text: bytes, options: Options) -> list[bytes]:
    records = records_of(text, options.delimiter)
    rows = []
    for number, found in enumerate(records[options.header:], 1 + options.header):
        if problem := problem_of(found.fields, len(records[0].fields), options):
            line = 1 + text[:found.byte].count(b"\n")
            rows.append(row(b"file", b"%d" % problem[0], b"%d" % number, b"%d" % line, b"%d" % found.byte, problem[1]))
    return rows


def warnings_of(text: bytes, delimiter: bytes) -> list[bytes]:
    records = records_of(text, delimiter)
    rows = []
    if not records:
        rows.append(row(b"file", b"", b"", b"", b"", b"the file has no record" if text else b"the file is empty"))
    rows += [row(b"file", b"", b"", b"1", b"0", b"the file begins like " + (b"a " if b"file" in name else b"") + name)
             for mark, name in FORMATS.items() if text.startswith(mark)]
    if records and len(records[0].fields) == 1:
        line = 1 + text[:records[0].byte].count(b"\n")
        for byte, name in ((b"\t", b"tab"), (b";", b"semicolon")):
            if byte in records[0].fields[0]:
                rows.append(row(b"file", b"", b"1", b"%d" % line, b"%d" % records[0].byte,
                                b"one field with a %s in it: is the delimiter a %s?" % (name, name)))
                break
    if records and (byte := records[-1].open_quote) is not None:
        line = 1 + text[:byte].count(b"\n")
        rows.append(row(b"file", b"", b"%d" % len(records), b"%d" % line, b"%d" % byte,
                        b"the quotes that open here are never closed"))
    return rows


def lines_of(script: bytes) -> Iterator[tuple[int, int, bytes]]:
    """The number, the first byte and the bytes of each line."""
    at = 0
    for number, line in enumerate(script.split(b"\n")[:-1] if script.endswith(b"\n") or not script else script.split(b"\n"), 1):
        yield number, at, line.removesuffix(b"\r")
        at += len(line) + 1


def is_number(word: bytes) -> bool:
    return bool(re.fullmatch(rb"[0-9]{1,10}", word)) and int(word) < 1 << 32


def is_line(line: bytes, options: Options) -> bool:
    """Whether a script can have this line."""
    topic = b"(?:" + b"|".join(map(re.escape, options.names())) + b") " if options.topics else b""
    if len(line) > 256:
        return False
    if not line or line[:1] == b"#" or line in (b"settle", b"drain"):
        return True
    if re.fullmatch(rb"(join|keep|return|rejoin|sync|leave|lose) " + NAME, line):
        return True
    if re.fullmatch(rb"(?s:append " + topic + rb".*)", line):
        return True
    numbers = re.fullmatch(rb"(?:deliver|unanswered) (?P<a>\d+)|send " + NAME + rb" " + topic + rb"(?P<b>\d+)|poll " + NAME + rb" "
                           + topic + rb"(?P<c>\d+) (?P<d>\d+)", line)
    return bool(numbers) and all(map(is_number, filter(None, numbers.groups())))


@lru_cache
def forms(job: str, topics: bool) -> list[bytes]:
    """The forms of the lines that the help of a job lists."""
    text = (FOLDER / "texts" / f"help_{job}").read_bytes()
    listed = text[text.index(b"\nLines of a "):].split(b"\n\n")[0].split(b"\n")
    found = [line[2:27].rstrip() for line in listed if line.startswith(b"  ") and not line.startswith(b"  #")]
    others = [form for line in listed if line.startswith(b"With --topics: ") for form in line[15:].split(b", ")] if topics else []
    return [next((other for other in others if word(other) == word(form)), form) for form in found]


def word(line: bytes) -> bytes:
    return line.split(b" ")[0]


@lru_cache
def distance(a: bytes, b: bytes) -> int:
    """How many bytes are to be put in, taken out or replaced."""
    if not a or not b:
        return len(a) + len(b)
    return min(distance(a[1:], b) + 1, distance(a, b[1:]) + 1, distance(a[1:], b[1:]) + (a[0] != b[0]))


def unread(line: bytes, job: str, topics: bool) -> bytes:
    if len(line) > 256:
        return b"the line has %d bytes, 256 are the most" % len(line)
    near = [(distance(word(line), word(form)), form) for form in forms(job, topics)]
    edits, form = min(near, key=lambda item: item[0])
    return b"no such line: " + shown(line) + (b"; did you mean '" + form + b"'?" if edits <= MOST_EDITS else b"")


def script_rows(script: bytes, options: Options) -> list[bytes]:
    return [row(b"script", b"22", b"", b"%d" % number, b"%d" % at, unread(line, "replay", bool(options.topics)))
            for number, at, line in lines_of(script) if not is_line(line, options)]


def plan_rows(script: bytes) -> list[bytes]:
    joined: list[bytes] = []
    present: list[bytes] = []
    rows, changes = [], 0
    for number, at, line in lines_of(script):
        if len(line) <= 256 and (not line or line[:1] == b"#"):
            continue
        code, problem = 22, b""
        change = re.fullmatch(rb"(join|leave|lose) (" + NAME + rb")", line)
        if len(line) > 256 or not change:
            problem = unread(line, "run", False)
        else:
            changes += 1
            name = change[2]
            if change[1] == b"join" and name in joined:
                problem = name + b" has joined before"
            elif change[1] == b"join" and len(joined) == 512:
                problem = b"512 members have joined, which are the most"
            elif change[1] != b"join" and name not in present:
                problem = name + b" is not a name that is present"
            elif change[1] == b"join":
                joined.append(name)
                present.append(name)
            else:
                present.remove(name)
            if not problem and not present:
                code, problem = 27, b"nobody is present after this line"
        if problem:
            rows.append(row(b"script", b"%d" % code, b"", b"%d" % number, b"%d" % at, problem))
    if not rows and not changes:
        rows.append(row(b"script", b"27", b"", b"", b"", b"the plan has no join"))
    return rows


def expected(text: bytes, script: bytes | None, options: Options, plan: bool, most: int) -> Outcome:
    faults = file_rows(text, options)[:most]
    if script is not None:
        faults += (plan_rows(script) if plan else script_rows(script, options))[:most]
    return Outcome(HEADER + b"".join(faults) + b"".join(warnings_of(text, options.delimiter)), b"", int(bool(faults)))


def checked(text: bytes, script: bytes | None, words: list[bytes]) -> Outcome:
    with tempfile.TemporaryDirectory() as folder:
        (Path(folder) / "f").write_bytes(text)
        if script is not None:
            (Path(folder) / "s").write_bytes(script)
        return run([b"check", b"f", *([b"s"] if script is not None else []), *words], folder)


def random_script(rng: Random, options: Options) -> bytes:
    """Lines of all kinds, some of which no script has."""
    name = lambda: rng.choice((b"A", b"B", b"C-1", b"a" * 32, b"a" * 33, b"A ", b""))
    number = lambda: rng.choice((b"0", b"1", b"4096", b"4294967295", b"4294967296", b"00000000001", b"", b"-1", b"x"))
    topic = lambda: rng.choice((b"", b"", b"none ", *(n + b" " for n in options.names() * 3)))
    lines = (lambda: rng.choice((b"join ", b"leave ", b"lose ", b"keep ", b"return ", b"rejoin ", b"sync ", b"jion ", b"jo ", b"leav ",
                                b"sand ", b"JOIN ", b" join ", b"lost ", b"kep ")) + name(),
             lambda: b"append " + topic() + rng.choice((b"", b"k", b'"\xff ')),
             lambda: b"poll " + name() + b" " + topic() + number() + b" " + number(),
             lambda: b"send " + name() + b" " + topic() + number(),
             lambda: rng.choice((b"deliver ", b"unanswered ", b"deliver")) + number(),
             lambda: rng.choice((b"settle", b"drain", b"", b"# c", b"#" * 256, b"#" * 257, b"drain ", b"\tdrain", b"append",
                                b"setl", b"dran", b"setlers", b"x" * 256)))
    weights = (60, 5, 10, 10, 5, 10)
    text = b"".join(rng.choices(lines, weights)[0]() + rng.choice((b"\n", b"\n", b"\r\n")) for _ in range(rng.choice((0, 1, 4, 30))))
    return text[:-1] if rng.random() < 0.2 else text


def trial_faults(seed: int) -> Iterator[str]:
    rng = Random(f"check {seed}")
    options = random_options(rng, False)
    text = rng.choice((b"", b"", b"", MARK)) + random_file(rng, options, random_keys(rng))
    if [found.fields for found in records_of(text, options.delimiter)] != read(text, options.delimiter):
        yield f"the reading here differs from Python's csv: {text[:300]!r}"
    plan = rng.random() < 0.4
    script = None if rng.random() < 0.4 else random_script(rng, options)
    most = rng.choice((20, 20, 1, 3, 4_294_967_295))
    words = [*options.words(), *[b"--plan"] * plan, *([b"--most", b"%d" % most] if most != 20 else [])]
    wanted, ended = expected(text, script, options, plan, most), checked(text, script, words)
    if ended != wanted:
        yield f"{words} of {text[:300]!r} and {script!r} ends with {ended}, not with {wanted}"


def told_faults(text: bytes, script: bytes | None, words: str, rows: bytes) -> Iterator[str]:
    wanted = Outcome(HEADER + rows, b"", int(bool(re.search(rb"^\w+,\d", rows, re.M))))
    if (ended := checked(text, script, words.encode().split())) != wanted:
        yield f"it ends with {ended}"


def by_hand() -> Cases:
    """A row for each code and each warning, worked out by hand."""
    long = b"k" * 65_536
    for name, text, script, words, rows in (
            ("nothing to tell", b"21,a\n4,b\n", None, "", b""),
            ("20", b"a\n" + long + b"\n", None, "", b'file,20,2,2,2,"the key has 65536 bytes, 65535 are the most"\n'),
            ("22", b"a\n", b"join A\njion B\n", "", b"script,22,,2,7,no such line: 'jion B'; did you mean 'join NAME'?\n"),
            ("22 of too few words", b"a\n", b"poll A 0\n", "",
             b"script,22,,1,0,no such line: 'poll A 0'; did you mean 'poll NAME P N'?\n"),
            ("22 with topics", b"a,t\n", b"pol A 0 1\n", "--topics t:1",
             b"script,22,,1,0,no such line: 'pol A 0 1'; did you mean 'poll NAME TOPIC P N'?\n"),
            ("22, as near to send as to sync: sync is the first", b"a\n", b"synd A 0\n", "",
             b"script,22,,1,0,no such line: 'synd A 0'; did you mean 'sync NAME'?\n"),
            ("22, three edits away", b"a\n", b"jo A\njn A\nj A\n", "",
             b"script,22,,1,0,no such line: 'jo A'; did you mean 'join NAME'?\n"
             b"script,22,,2,5,no such line: 'jn A'; did you mean 'join NAME'?\nscript,22,,3,10,no such line: 'j A'\n"),
            ("22 of a plan that polls", b"a\n", b"join A\npoll A 0 1\nlaeve A\n", "--plan",
             b"script,22,,2,7,no such line: 'poll A 0 1'\nscript,22,,3,18,no such line: 'laeve A'; did you mean 'leave NAME'?\n"),
            ("22 of a plan", b"a\n", b"join A\nleave 17\n", "--plan", b"script,22,,2,7,17 is not a name that is present\n"),
            ("23", b"a,b\nc,d\n", None, "--column 5 --most 1", b"file,23,1,1,0,no column 5: it has 2 fields\n"),
            ("23 of a name", b"user,x\nc,d\n", None, "--header --column id", b"file,23,1,1,0,the header has no field 'id'\n"),
            ("24", b"a,b\n\nc,d,e\n", None, "", b'file,24,2,3,5,"3 fields, the first record has 2"\n'),
            ("24 on several lines", b'a,"b\nc"\nd\n', None, "", b'file,24,2,3,8,"1 field, the first record has 2"\n'),
            ("24 behind a byte order mark", MARK + b"a,b\nc\n", None, "", b'file,24,2,2,7,"1 field, the first record has 2"\n'),
            ("24 by another delimiter", b"a;b\nc,d\n", None, "--delimiter ;",
             b'file,24,2,2,4,"1 field, the first record has 2"\n'),
            ("27", b"a\n", b"join A\nlose A\n", "--plan", b"script,27,,2,7,nobody is present after this line\n"),
            ("27 of no line", b"a\n", b"# none\n", "--plan", b"script,27,,,,the plan has no join\n"),
            ("32", b"a,orders\nb,ordres\n", None, "--topics orders:2", b"file,32,2,2,9,no topic of that name: 'ordres'\n"),
            ("an empty file", b"", None, "", b"file,,,,,the file is empty\n"),
            ("blank lines alone", b"\n\r\n", None, "", b"file,,,,,the file has no record\n"),
            ("gzip", b"\x1f\x8b\x08a\n", None, "", b"file,,,1,0,the file begins like a gzip file\n"),
            ("zstd", b"\x28\xb5\x2f\xfda\n", None, "", b"file,,,1,0,the file begins like a zstd file\n"),
            ("UTF-16", b"\xff\xfea\0\n\0", None, "", b"file,,,1,0,the file begins like UTF-16 text\n"),
            ("UTF-16, big-endian", b"\xfe\xff\0a\0\n", None, "", b"file,,,1,0,the file begins like UTF-16 text\n"),
            ("tabs", b"a\tb\nc\td\n", None, "", b"file,,1,1,0,one field with a tab in it: is the delimiter a tab?\n"),
            ("semicolons", b"\na;b\n", None, "",
             b"file,,1,2,1,one field with a semicolon in it: is the delimiter a semicolon?\n"),
            ("an open quote", b'a,b\nc,"d\ne,f\n', None, "", b"file,,2,2,6,the quotes that open here are never closed\n")):
        yield f"check: {name}", told_faults(text, script, words, rows)


def lack_faults() -> Iterator[str]:
    """A file that can't be read is a fault of the job."""
    if (ended := run([b"check", b"none"], "/")) != Outcome(b"", b"fault 25\n", 3):
        yield f"without a file it ends with {ended}"
    if (ended := run([b"check", b"-", b"none"], "/")) != Outcome(b"", b"fault 25\n", 3):
        yield f"without a script it ends with {ended}"


def cases() -> Cases:
    yield from by_hand()
    yield "check: a file that is not there", lack_faults()
    for seed in range(TRIALS):
        yield f"check, trial {seed}", trial_faults(seed)
