#!/usr/bin/env python3
"""Runs the program over hostile lines and truncated inputs. The last line is 'N passed, M failed'.

    blackbox/hostile.py [PROGRAM]

Each bad line is reported with its number, wherever it is; each line at a limit is accepted; and of each prefix of a file the
program reads what Python's csv reads, or reports a fault."""

from __future__ import annotations

import os
import re
import sys
from pathlib import Path
from typing import Iterator

sys.dont_write_bytecode = True
sys.path.insert(0, str(Path(__file__).resolve().parent))

from simulator import programs, records, scripts
from simulator.group import Broken
from simulator.laws import check_replay, count_text
from simulator.programs import Outcome
from simulator.records import Options

FIVE = b"21\n4\nfoobar\nabc\n21\n"
FIVE_KEYS = [(0, key) for key in FIVE.split()]

# Lines at a limit, each a script of its own.
GOOD = [
    b"append " + b"k" * 249, b"append ", b"append  two spaces, at its end ", b'append "', b"append \x00\x80\xff",
    b"append \r", b"append join A", b"#" * 256, b"# join\tA", b"#", b"poll A 00 01", b"poll A 4294967295 4294967295",
    b"poll A 4096 0", b"deliver 0", b"deliver 0000000000", b"deliver 4294967295", b"unanswered 0000000001",
    b"send A 0004294967", b"join " + b"n" * 32, b"join -", b"join _", b"join 0", b"join join", b"rejoin A", b"sync A",
    b"leave A", b"lose A", b"settle", b"drain", b"keep B", b"return A",
]

# The lines other than comments, and the largest number in one.
LINE = re.compile(
    rb"append .*|(join|keep|return|rejoin|sync|leave|lose) N|poll N D D|send N D|(deliver|unanswered) D|settle|drain"
    .replace(b"N", rb"[A-Za-z0-9_-]{1,32}").replace(b"D", rb"[0-9]{1,10}"), re.DOTALL)
LARGEST = 4_294_967_295

# Files whose prefixes are counted, with options.
FILES = [
    (FIVE, Options()),
    (FIVE, Options(header=True)),
    (b"21,x\n4,y\nab,z\n", Options()),
    (b'key,note\r\n"a,b","say ""no"""\r\n"x\r\ny",\r\n"","2"\r\n\r\n"a,b",3\r\n', Options(column=1, header=True)),
    (b'note,key\n"1\n2","a""b"\n3,"a""b"\n"",\n,"\xff,"\n"4"x,"""q"""z\n5,"last"', Options(column=2, header=True)),
    (b'a"b\n"c"d"\n""""\n"\n"\n', Options()),
    (b'no,te\tkey\n"1\t2"\ta"\tb\n,"\t"a\t""\r\n"",""\n', Options(column=2, delimiter=b"\t")),
    (b'key,topic\n21,a\n"x,y","b-1"\r\n"",a\n4,b-1\n', Options(header=True, topics=((b"a", 2), (b"b-1", 3)))),
]

SCRIPT = (b"# two\njoin A\r\nsettle\n\njoin B\nsettle\npoll A 0 2\nsend A 0\ndeliver 1\nappend a,b \nlose B\n"
              b"drain\nunanswered 01\nkeep C\nreturn C\nreturn A\ndrain\n")
PLAN = b"join A\n# x\r\njoin B-1\nleave A\njoin C\nlose B-1\n"


def fault(code: int, line: int) -> Outcome:
    """The outcome of a run whose script has a bad line, or whose plan leaves no member."""
    return Outcome(b"", b"fault %d at line %d\n" % (code, line), 1)


def unless_equal(done: Outcome, wanted: Outcome, what: object) -> Iterator[str]:
    if done != wanted:
        yield f"{what!r} ends with {done}, not with {wanted}"


def replay_faults(program: Path, script: bytes) -> Iterator[str]:
    """A replay of five keys obeys all laws."""
    [done] = programs.outcomes(program, {"five": FIVE, "script": script}, [[b"replay", b"five", b"script"]])
    if (done.stderr, done.status) != (b"", 0):
        yield f"{script!r} ends with {done}"
        return
    try:
        check_replay(Options(), FIVE_KEYS, script, done.stdout)
    except Broken as broken:
        yield f"{script!r}: {broken}"


def bad_line_faults(program: Path, line: bytes, commands: list[bytes]) -> Iterator[str]:
    """A bad line is reported with its number: alone, without a line feed, after other lines, and before another bad one. In a
    plan it follows a join, since a member must be present."""
    texts = [(line + b"\n", 1), (b"join first\n" + line, 2), (b"join first\n" + line + b"\r\n", 2),
             (b"\n# x\r\njoin first\n\r\n\n" + line + b"\njion\n", 6), (b"join first\n" + b"#\n" * 298 + line + b"\n", 300)]
    for text, number in texts:
        runs = [[command, b"five", b"script"] for command in commands]
        for done in programs.outcomes(program, {"five": FIVE, "script": text}, runs):
            yield from unless_equal(done, fault(22, number), text)


def is_line(line: bytes) -> bool:
    """Whether this is a valid line of a script."""
    line = line.removesuffix(b"\r")
    if len(line) > scripts.LONGEST_LINE:
        return False
    numbers = [int(word) for word in line.split(b" ")[1:] if word.isdigit()] if line[:4] in (b"poll", b"send") else []
    return not line or line.startswith(b"#") or (LINE.fullmatch(line) is not None and max(numbers, default=0) <= LARGEST)


def script_prefix_faults(program: Path) -> Iterator[str]:
    """A truncated script obeys all laws, or its last line is reported."""
    for end in range(len(SCRIPT) + 1):
        text = SCRIPT[:end]
        lines = text.split(b"\n")
        if is_line(lines[-1]):
            yield from replay_faults(program, text)
        else:
            [done] = programs.outcomes(program, {"five": FIVE, "script": text}, [[b"replay", b"five", b"script"]])
            yield from unless_equal(done, fault(22, len(lines)), text)


def plan_outcome(text: bytes) -> Outcome | None:
    """The fault of a truncated plan, or nothing."""
    lines, present = list(scripts.lines_of(text)), set()
    for number, line in lines:
        if not is_line(line) or (line.startswith((b"leave ", b"lose ")) and line.split(b" ")[1] not in present):
            return fault(22, number)
        present = present | {line[5:]} if line.startswith(b"join ") else present - {line.split(b" ")[1]}
    return None if lines else fault(27, 0)


def plan_prefix_faults(program: Path) -> Iterator[str]:
    """A run of a truncated plan prints what the replay prints, or its fault is reported."""
    for end in range(len(PLAN) + 1):
        text = PLAN[:end]
        files = {"five": FIVE, "plan": text, "script": scripts.settled_after_each(text)}
        done, replay = programs.outcomes(program, files, [[b"run", b"five", b"plan"], [b"replay", b"five", b"script"]])
        yield from unless_equal(done, plan_outcome(text) or replay, text)


def file_prefix_faults(program: Path, text: bytes, options: Options) -> Iterator[str]:
    """A truncated file is counted as Python's csv reads it, or its first bad record is reported."""
    for end in range(len(text) + 1):
        prefix = text[:end]
        read = records.read(prefix, options.delimiter)
        fault_line = records.record_fault(read, options)
        if fault_line:
            wanted = Outcome(b"", fault_line, 1)
        else:
            wanted = Outcome(count_text([key for _, key in records.keyed(read, options)]), b"", 0)
        [done] = programs.outcomes(program, {"file": prefix}, [[b"count", b"file", *options.words()]])
        yield from unless_equal(done, wanted, prefix)


def order_faults(program: Path) -> Iterator[str]:
    """A bad record is reported before a bad line."""
    bad_record = b"fault 24 at record 2\n"
    for text, fault_line in ((b"a,1\nb\n", bad_record), (b'a\n"', b""), (b'a\n"b,c', b""), (b'a\nb,"', bad_record)):
        files = {"file": text, "script": b"join A\nA\n"}
        runs = [[command, b"file", b"script"] for command in (b"replay", b"run")]
        for done in programs.outcomes(program, files, runs):
            yield from unless_equal(done, Outcome(b"", fault_line or b"fault 22 at line 2\n", 1), text)


def cases(program: Path) -> Iterator[tuple[str, Iterator[str]]]:
    """The cases, with their faults."""
    for line in scripts.BAD:
        yield f"a bad line {line[:40]!r}", bad_line_faults(program, line, [b"replay"])
    for line in scripts.BAD:
        yield f"a bad line of a plan {line[:40]!r}", bad_line_faults(program, line, [b"run"])
    for line in scripts.BAD_IN_PLAN:
        yield f"a line that a plan can't have {line[:40]!r}", bad_line_faults(program, line, [b"run"])
    for line in GOOD:
        for end in (b"\n", b"\r\n") + ((b"",) if not line.endswith(b"\r") else ()):
            yield f"a line {line[:40]!r} with the end {end!r}", replay_faults(program, line + end)
    for text, options in FILES:
        yield f"each prefix of {text[:30]!r}, {options}", file_prefix_faults(program, text, options)
    yield "each prefix of a script", script_prefix_faults(program)
    yield "each prefix of a plan", plan_prefix_faults(program)
    yield "a bad record before a bad line", order_faults(program)


def main(words: list[str]) -> int:
    program = Path(words[0]).resolve() if words else programs.BUILT
    if not os.access(program, os.X_OK):
        print(f"{program} is missing: ./keycount --help builds it", file=sys.stderr)
        return 2
    passed = failed = 0
    for name, faults in cases(program):
        found = list(faults)
        passed, failed = (passed, failed + 1) if found else (passed + 1, failed)
        for text in found:
            print(f"FAILED {name}: {text}")
    print(f"{passed} passed, {failed} failed")
    return 1 if failed else 0


if __name__ == "__main__":
    sys.exit(main(sys.argv[1:]))
