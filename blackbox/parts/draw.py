"""The pictures of `draw`: each must be well-formed XML that stands alone, and show what the rows of a `trace` of the same script
tell, no less and no more: lanes with their spans, generations, polls, commits from their sending to each delivery, and the
figures. Altered pictures show that the check notices."""
import re
import tempfile
from pathlib import Path
from random import Random
from typing import Iterator, NamedTuple
from xml.etree import ElementTree
from xml.etree.ElementTree import Element

from simulator import scripts, trials

from .pictures import Column, Delivery, Lane, Painter, Picture, Place, Read, Span, rows_of
from .program import TOP, Cases, run

SVG = "{http://www.w3.org/2000/svg}"
# The elements of a picture. None of them loads or runs anything.
ELEMENTS = {"svg", "title", "desc", "style", "defs", "pattern", "g", "rect", "path", "circle", "text", "tspan"}
SHAPES = {SVG + name for name in ("rect", "path", "circle", "text")}
NOWHERE = Read("", ("", 0), 0, 0)
# What would make a picture depend on something else, in an attribute's name, and in its value or the style.
OUTSIDE_NAME = re.compile(r"on|src|(?:\{.*\})?href")
OUTSIDE = re.compile(r"@import|url\((?!#)|//|javascript:")


class Wrong(Exception):
    """What is wrong with a picture."""


def require(holds: bool, what: str) -> None:
    """Raises `Wrong` unless it holds."""
    if not holds:
        raise Wrong(what)


# What a picture shows


def classes(element: Element) -> list[str]:
    return element.get("class", "").split()


def found(element: Element, name: str) -> Iterator[Element]:
    """The elements below this one that have a class."""
    return (below for below in element.iter() if name in classes(below))


def number(element: Element, name: str) -> int:
    """The number in a data attribute."""
    value = element.get(f"data-{name}", "")
    require(value.isdigit(), f"data-{name} is {value!r}")
    return int(value)


def span_of(band: Element) -> Span:
    """The span that a band shows."""
    colours = [int(name[1:]) for name in classes(band) if re.fullmatch("m[1-8]", name)]
    require(len(colours) == 1, f"a band has the colours {colours}")
    return Span(number(band, "from"), number(band, "to"), band.get("data-member", ""), colours[0], "unread" in classes(band))


def lane_of(lane: Element) -> Lane:
    """The partitions of a lane, and its spans."""
    spans = tuple(span_of(band) for band in found(lane, "span"))
    return Lane(lane.get("data-topic", ""), number(lane, "first"), number(lane, "last"), spans)


def records_in(element: Element) -> Read:
    """The records of a poll or of a commit."""
    place = element.get("data-topic", ""), number(element, "partition")
    return Read(element.get("data-member", ""), place, number(element, "from"), number(element, "to"))


def delivery_in(arc: Element) -> Delivery:
    """How a delivery ended, by its class and by its tick or cross."""
    accepted = "accepted" in classes(arc)
    require(accepted != ("refused" in classes(arc)), f"a commit of class {classes(arc)}")
    ends = [mark for mark in ("tick", "cross") for _ in found(arc, mark)]
    require(ends == ["tick" if accepted else "cross"], f"an arc of class {classes(arc)} ends in {ends}")
    answered = "unanswered" not in classes(arc)
    shown = [text.text or "" for text in found(arc, "reason")]
    reason = "" if accepted else shown[0] if shown else "nothing"
    return Delivery(number(arc, "commit"), number(arc, "sent"), accepted, answered, reason if answered else "")


def column_of(group: Element) -> Column:
    """A column, with what is marked in it."""
    column = Column(number(group, "line"), number(group, "step"))
    for _ in found(group, "generation"):
        column.generation = int("".join(text.text or "" for text in group.findall(f"{SVG}text")))
    for poll in found(group, "poll"):
        column.poll = records_in(poll)
    for dot in found(group, "send"):
        column.sent = number(dot, "commit"), records_in(dot)
    for arc in found(group, "commit"):
        column.delivery = delivery_in(arc)
    for refusal in found(group, "refusal"):
        column.refusal = refusal.get("data-reason", "")
    return column


def picture_in(root: Element) -> Picture:
    """What a picture shows."""
    groups = list(found(root, "column"))
    require([number(group, "column") for group in groups] == list(range(len(groups))), "columns are out of order")
    return Picture([column_of(group) for group in groups], [lane_of(lane) for lane in found(root, "lane")])


# The check


class Subject(NamedTuple):
    """A file and a script, with the partitions of each topic, or of all records where there is none."""

    name: str
    file: bytes
    script: bytes
    options: list[bytes]
    counts: dict[str, int]

    def places(self) -> list[Place]:
        return [(topic, partition) for topic, count in self.counts.items() for partition in range(count)]


def subject(name: str, file: bytes, script: bytes, partitions: int = 4, topics: str = "") -> Subject:
    """A subject with a number of partitions, or with topics such as `a:2,b:3`."""
    counts = dict(item.split(":") for item in topics.split(",")) if topics else {"": partitions}
    options = [b"--topics", topics.encode()] if topics else [b"--partitions", b"%d" % partitions]
    return Subject(name, file, script, options, {topic: int(count) for topic, count in counts.items()})


def coloured(lane: Lane) -> Lane:
    """A lane with the colours of its members, of which there are eight, in place of their numbers."""
    return lane._replace(spans=tuple(span._replace(number=(span.number + 7) % 8 + 1) for span in lane.spans))


def check_document(text: str) -> Element:
    """A picture is one SVG element in ASCII that needs nothing else, with a title, a description, and its size."""
    require(text.isascii() and text.startswith("<svg ") and text.endswith("</svg>\n"), "it is not an SVG element in ASCII")
    root = ElementTree.fromstring(text)
    names = {element.tag for element in root.iter()}
    require(names <= {SVG + name for name in ELEMENTS}, f"it has the elements {names}")
    attributes = [pair for element in root.iter() for pair in element.items()]
    style = "".join(element.text or "" for element in root.iter(f"{SVG}style"))
    outside = [pair for pair in [*attributes, ("style", style)] if OUTSIDE_NAME.match(pair[0]) or OUTSIDE.search(pair[1])]
    require(not outside, f"it needs {outside}")
    require([child.tag for child in root[:2]] == [f"{SVG}title", f"{SVG}desc"] and all(child.text for child in root[:2]),
            "it does not begin with a title and a description")
    require(root.get("viewBox") is not None and root.get("aria-labelledby") is not None, "it has no view box, or no label")
    hatch = re.search(r"\.unread *\{[^}]*url\(#([\w-]+)\)", style)
    require(bool(hatch) and [pattern.get("id") for pattern in root.iter(f"{SVG}pattern")].count(hatch[1]) == 1,
            "what nobody reads is not hatched")
    require("prefers-color-scheme: dark" in style, "it has no dark colours")
    return root


def corner_of(shape: Element) -> tuple[int, int]:
    """Where a shape stands or begins."""
    text = shape.get("d") or shape.get("transform") or " ".join(
        shape.get(name, "") for name in (("cx", "cy") if shape.tag == f"{SVG}circle" else ("x", "y")))
    found_at = re.match(r"(?:M|translate\()?(\d+) (\d+)", text)
    require(bool(found_at), f"a {shape.tag} at {text!r}")
    return int(found_at[1]), int(found_at[2])


def bands_of(root: Element) -> Iterator[tuple[int, int, int, int]]:
    """The columns, the left end and the width of each band."""
    for band in found(root, "span"):
        yield number(band, "from"), number(band, "to"), corner_of(band)[0], int(band.get("width", ""))


def check_bands(root: Element) -> int:
    """Bands stand where their columns are, and those of a lane side by side. Returns the width of a column."""
    widths = {width // (end - start) for start, end, _, width in bands_of(root) if end > start}
    require(len(widths) == 1 and min(widths) > 0, f"columns have the widths {widths}")
    wide = min(widths)
    for start, end, x, width in bands_of(root):
        require((x, width) == (wide * start, wide * (end - start)), f"the band from column {start} to {end} is misplaced")
    heights = [{corner_of(band)[1] for band in found(lane, "span")} for lane in found(root, "lane")]
    require(all(len(height) == 1 for height in heights), "a lane has bands at several heights")
    tops = [min(height) for height in heights]
    require(tops == sorted(set(tops)), "lanes lie over one another")
    return wide


def check_marks(root: Element, picture: Picture) -> None:
    """What happens in a column is drawn there, at the lane of its partition; an arc begins where its commit was sent."""
    wide = check_bands(root)
    tops = [corner_of(next(found(lane, "span")))[1] for lane in found(root, "lane")]
    partitions = {column.sent[0]: column.sent[1].place for column in picture.columns if column.sent}
    for at, (group, column) in enumerate(zip(found(root, "column"), picture.columns)):
        arcs = list(found(group, "arc"))
        shapes = [shape for shape in group.iter() if shape.tag in SHAPES and shape not in arcs]
        for x, _ in map(corner_of, shapes):
            require(wide * at <= x <= wide * (at + 1), f"column {at} has a mark at {x}")
        for arc in arcs:
            x, reach = corner_of(arc)[0], int(re.findall(r"\d+", arc.get("d", ""))[-2])
            require((x // wide, (x + reach) // wide) == (column.delivery.sent, at), f"the arc in column {at} is misplaced")
        place = (column.poll or column.sent and column.sent[1] or NOWHERE).place
        place = partitions[column.delivery.commit] if column.delivery else place
        marks = [shape for name in ("poll", "send", "commit") for mark in found(group, name) for shape in mark.iter()]
        for y in [corner_of(shape)[1] for shape in marks if shape.tag in SHAPES]:
            lane = picture.lanes[max((nth for nth, top in enumerate(tops) if top <= y), default=0)]
            require(lane.topic == place[0] and lane.first <= place[1] <= lane.last, f"a mark of {place} is at lane {lane[:3]}")


def check_same(shown: list, wanted: list, what: str) -> None:
    """Raises `Wrong` at the first difference."""
    for one, other in zip(shown, wanted):
        require(one == other, f"of the {what} one is {one}, not {other}")
    require(len(shown) == len(wanted), f"there are {len(shown)} {what}, not {len(wanted)}")


def check_headings(root: Element, columns: list[Column], script: bytes) -> None:
    """Each line stands over its first column, with its number and the beginning of its text."""
    first = {column.line: at for at, column in reversed(list(enumerate(columns)))}
    shown = {number(line, "line"): number(line, "column") for line in found(root, "line")}
    require(shown == first, f"lines stand over the columns {shown}, not {first}")
    lines = script.split(b"\n")
    for line in found(root, "line"):
        text = plain(lines[number(line, "line") - 1].removesuffix(b"\r"))
        words = "".join(element_text(line, f"{SVG}text"))
        require(words == f"{number(line, 'line')} {text[:20]}", f"line {text!r} is shown as {words!r}")


def figures(painter: Painter, picture: Picture, replayed: str) -> Iterator[str]:
    """The lines below the lanes: in which lines each had no reader, and the sums."""
    for lane in picture.lanes:
        times = [(picture.columns[span.start].line, picture.columns[span.end - 1].line) for span in unread_times(lane)]
        shown = " ".join(f"{first}-{last}" if first != last else f"{first}" for first, last in times)
        yield f"No reader of {label(lane)}: " + (f"lines {shown}" if times else "never")
    rows = replayed.splitlines()
    committed, appended = rows[-1].split(",")[1:]
    yield f"Records read more than once: {painter.read_again()}"
    yield f"Records counted: {committed} of {appended}, none twice"
    yield f"Moves: {sum(row.startswith('move,') for row in rows)}"


def label(lane: Lane) -> str:
    """The name of a lane."""
    numbers = f"{lane.first}-{lane.last}" if lane.first != lane.last else f"{lane.first}"
    return f"{lane.topic} {numbers}".lstrip()


def unread_times(lane: Lane) -> list[Span]:
    """The times without a reader: neighbouring spans without one are one."""
    times: list[Span] = []
    for span in lane.spans:
        if span.unread and times and times[-1].end == span.start:
            times[-1] = times[-1]._replace(end=span.end)
        elif span.unread:
            times.append(span)
    return times


def plain(text: bytes) -> str:
    """Text as it is shown: a dot for each byte that is no printable ASCII."""
    return "".join(chr(byte) if 32 <= byte < 127 else "." for byte in text)


def element_text(element: Element, tag: str) -> Iterator[str]:
    """The text of the elements of a tag."""
    return ("".join(below.itertext()) for below in element.iter(tag))


def check_picture(about: Subject, text: str, table: str, replayed: str) -> None:
    """Raises `Wrong` unless a picture shows what a trace and a replay tell."""
    root = check_document(text)
    painter = Painter(about.places())
    wanted = painter.paint(rows_of(table))
    shown = picture_in(root)
    check_same(shown.columns, wanted.columns, "columns")
    check_same(shown.lanes, [coloured(lane) for lane in wanted.lanes], "lanes")
    if wanted.columns:
        check_marks(root, wanted)
    check_headings(root, wanted.columns, about.script)
    check_same([element.text for element in found(root, "figure")], list(figures(painter, wanted, replayed)), "figures")
    check_same([element.text for element in found(root, "label")][:len(wanted.lanes)], [label(lane) for lane in wanted.lanes],
               "labels")


def printed(about: Subject) -> tuple[str, str, str]:
    """The picture, the table, and what a replay prints."""
    with tempfile.TemporaryDirectory() as folder:
        (Path(folder) / "f").write_bytes(about.file)
        (Path(folder) / "s").write_bytes(about.script)
        done = [run([job, b"f", b"s", *about.options], folder) for job in (b"draw", b"trace", b"replay")]
    for outcome in done:
        require((outcome.stderr, outcome.status) == (b"", 0), f"it ends with {outcome}")
    return tuple(outcome.stdout.decode("latin-1") for outcome in done)


def faults(about: Subject) -> Iterator[str]:
    try:
        check_picture(about, *printed(about))
    except (Wrong, ElementTree.ParseError) as wrong:
        yield str(wrong)


# Subjects


ROLLING = ("roll_stop", "roll_add", "roll_swap", "roll_static")
HOSTILE = (b"# <g/>\nappend <&>\"'\nappend ]]>\xff\x00\x01\xc3\xa4\njoin A\r\nsettle\n\njoin -\nappend &amp;\nsettle\npoll A 0 1\n"
           b"send A 0\ndeliver 1\nrejoin A\nsync B\n" + b"append " + b"<" * 249 + b"\ndrain")


def sample(name: str) -> bytes:
    return (TOP / "samples" / name).read_bytes()


def many_members() -> bytes:
    """Twenty members join with a settle after each, some leave, are lost or return, and all is drained."""
    lines = [line for n in range(20) for line in (f"{'keep' if n % 5 == 4 else 'join'} member-{n}", "settle")]
    lines += ["leave member-3", "lose member-7", "settle", "return member-9", "lose member-0", "drain"]
    return "".join(f"{line}\n" for line in lines).encode()


def subjects() -> Iterator[Subject]:
    keys = sample("keys.csv")
    for name in ("loss", "join", "return", "unanswered", "restart"):
        yield subject(f"{name}.txt", keys, sample(f"{name}.txt"))
    for name in ROLLING:
        yield subject(f"{name}.txt", keys, sample(f"{name}.txt"), partitions=12)
    yield subject("join.txt over topics", sample("topics.csv"), sample("join.txt"), topics="a:2,b:3")
    yield subject("20 members over 4096 partitions", b"".join(b"%d\n" % n for n in range(200)), many_members(), partitions=4096)
    yield subject("an empty script", keys, b"")
    yield subject("an empty script over topics", b"", b"", topics="a:1,b-1:3,_:4")
    yield subject("comments alone", keys, b"# nothing\n\n")
    yield subject("lines with markup and other bytes", keys, HOSTILE)
    rng = Random("draw")
    for nth in range(40):
        yield random_subject(rng, nth)


def random_subject(rng: Random, nth: int) -> Subject:
    """A random script over few partitions."""
    source = trials.random_input(rng, batch=True, good=True)
    while source.options.total() > 40:
        source = trials.random_input(rng, batch=True, good=True)
    script = scripts.random_script(rng, source.options, source.pool, wild=nth % 2 == 1)
    names = [topic.decode() for topic in source.options.names()] or [""]
    return Subject(f"random script {nth}", source.text, script, source.options.words(), dict(zip(names, source.options.counts())))


# Pictures that are altered


ALTERATIONS: dict[str, tuple[str, str]] = {
    "a band has its owner's colour where nobody reads": (r' unread(" data-from)', r"\1"),
    "a band ends a column late": (r'(<rect class="span[^>]*data-to=")\d+', r"\g<1>99"),
    "a band is of another member": (r'(<rect class="span[^>]*data-member=")A', r"\1B"),
    "a generation is missing": (r'<path class="generation"[^>]*/><text[^>]*>2</text>', ""),
    "a refused delivery has a tick": (r'class="cross"([^<]*)<text class="reason"[^>]*>[^<]*</text>', r'class="tick"\1'),
    "a delivery is missing": (r'<g class="commit.*?</g>(?=</g>)', ""),
    "a commit is of another number": (r'(class="commit[^>]*data-commit=")1', r"\g<1>2"),
    "a reason is another": (r'(class="reason"[^>]*>)not a member', r"\1stale generation"),
    "a poll is missing": (r'<g class="poll".*?</g>', ""),
    "lanes are one": (r'(<g class="lane"[^>]*data-last=")1', r"\g<1>3"),
    "a record that was read again is not counted": (r"more than once: 2", "more than once: 0"),
    "a line without a reader is missing": (r"(No reader[^<]*) \d+(-\d+)?</text>", r"\1</text>"),
    "a name is not escaped": (r"</desc>", "<</desc>"),
    "a band stands a column late": (r'(class="span[^>]* x=")0"', r'\g<1>28"'),
    "an arc ends a column early": (r'(class="arc" d="M[^"]* )56 12 56 ', r"\g<1>28 12 28 "),
    "a poll is drawn at another lane": (r'(class="poll"[^>]*><rect[^>]* y=")\d+', r"\g<1>300"),
    "a font is loaded": (r"<style>", '<style>@import "font";'),
    "a picture is loaded": (r"<defs>", '<defs><image href="picture.png"/>'),
}


def alteration_faults(how: tuple[str, str]) -> Iterator[str]:
    """The check must notice what was altered in the picture of loss.txt."""
    about = subject("loss.txt", sample("keys.csv"), sample("loss.txt"))
    picture, table, replayed = printed(about)
    altered = re.sub(how[0], how[1], picture, count=1, flags=re.DOTALL)
    if altered == picture:
        yield "nothing was altered"
        return
    try:
        check_picture(about, altered, table, replayed)
    except (Wrong, ElementTree.ParseError):
        return
    yield "the check does not notice"


def repeated_faults() -> Iterator[str]:
    """The same bytes each time, from files and from standard input, whatever their names."""
    first = run([b"draw", b"samples/keys.csv", b"samples/loss.txt"], TOP)
    again = run([b"draw", b"samples/keys.csv", b"-"], TOP, stdin=sample("loss.txt"))
    if first != again or first.status:
        yield f"it ends with {first}, then with {again}"


def cases() -> Cases:
    for about in subjects():
        yield f"draw: {about.name}", faults(about)
    yield "draw: the same bytes each time", repeated_faults()
    for name, how in ALTERATIONS.items():
        yield f"draw, altered: {name}", alteration_faults(how)
