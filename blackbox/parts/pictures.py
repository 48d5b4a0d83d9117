"""What a picture must show, by the rows of a trace of the same script."""
import csv
import io
from collections import Counter
from dataclasses import dataclass, field
from typing import Iterator, NamedTuple

Rows = list[dict[str, str]]
# A partition of a topic; without topics the name is empty.
Place = tuple[str, int]


class Span(NamedTuple):
    """A part of a partition's course, from a column to another: the name of its owner, whose number tells the colour, or an
    empty one and 0, and whether nobody reads it."""

    start: int
    end: int
    owner: str
    number: int
    unread: bool


class Lane(NamedTuple):
    """Neighbouring partitions of a topic, with their course."""

    topic: str
    first: int
    last: int
    spans: tuple[Span, ...]


class Read(NamedTuple):
    """A poll, or a commit that is sent: whose, which partition, and which records."""

    member: str
    place: Place
    start: int
    end: int


class Delivery(NamedTuple):
    """How a delivery of a commit ended."""

    commit: int
    sent: int
    accepted: bool
    answered: bool
    reason: str


@dataclass
class Column:
    """A step that shows: its line, its number in it, and what it brings."""

    line: int
    step: int
    generation: int | None = None
    poll: Read | None = None
    sent: tuple[int, Read] | None = None
    delivery: Delivery | None = None
    refusal: str = ""


@dataclass
class Picture:
    """All that a picture shows, without where it stands."""

    columns: list[Column] = field(default_factory=list)
    lanes: list[Lane] = field(default_factory=list)


def rows_of(table: str) -> Rows:
    """The rows of a trace."""
    return list(csv.DictReader(io.StringIO(table, newline="")))


def places_in(words: str, topics: list[str]) -> Iterator[Place]:
    """The partitions in ranges, such as `0-1 3` or `orders 0-1 clicks 0`."""
    topic = ""
    for word in words.split():
        if word in topics:
            topic = word
            continue
        first, _, last = word.partition("-")
        yield from ((topic, number) for number in range(int(first), int(last or first) + 1))


def place_of(row: dict[str, str]) -> Place:
    """The partition of an event."""
    return row.get("topic", ""), int(row["partition"])


def records_of(row: dict[str, str]) -> Read:
    """The records of a poll or of a commit."""
    return Read(row["member"], place_of(row), int(row["from"]), int(row["to"]))


class Painter:
    """Follows the rows, and notes what they show."""

    def __init__(self, places: list[Place]) -> None:
        self.places = places
        self.topics = list(dict.fromkeys(topic for topic, _ in places if topic))
        self.columns: list[Column] = []
        # The course of each partition: columns, and who owns it from there on with whether nobody reads it.
        self.courses: dict[Place, list[tuple[int, tuple[str, int, bool]]]] = {place: [] for place in places}
        # The number of the newest member of each name, and how many have joined.
        self.numbers: dict[str, int] = {"": 0}
        self.joined = 0
        # The column in which each commit was sent, and how often each record was read.
        self.sent_in: dict[int, int] = {}
        self.times: Counter[tuple[Place, int]] = Counter()
        self.before = {"generation": "0", "lag": ""}

    def paint(self, rows: Rows) -> Picture:
        """The picture of all rows."""
        for row in rows:
            self.add(row)
            self.before = row
        return Picture(self.columns, list(self.lanes()))

    def read_again(self) -> int:
        """How many records were read more than once."""
        return sum(times > 1 for times in self.times.values())

    def add(self, row: dict[str, str]) -> None:
        """The first row of a line becomes a column, and so does each other one that shows something."""
        if row["event"] in ("join", "keep", "return") and not row["code"]:
            self.joined += 1
            self.numbers[row["member"]] = self.joined
        column = self.column_of(row)
        changed = self.note_holders(row)
        marked = column.generation is not None or column.poll or column.sent or column.delivery or column.refusal
        if changed or marked or column.step == 1:
            self.columns.append(column)

    def column_of(self, row: dict[str, str]) -> Column:
        """What the event of a row brings."""
        column = Column(int(row["line"]), int(row["step"]))
        if row["generation"] != self.before["generation"]:
            column.generation = int(row["generation"])
        event, done = row["event"], not row["code"]
        if event == "poll" and done:
            column.poll = records_of(row)
            self.times.update((column.poll.place, offset) for offset in range(column.poll.start, column.poll.end))
        elif event == "send" and done:
            column.sent = int(row["commit"]), records_of(row)
            self.sent_in[int(row["commit"])] = len(self.columns)
        elif event in ("deliver", "unanswered") and row["partition"]:
            column.delivery = self.delivery_of(row)
        elif not done:
            column.refusal = row["reason"]
        return column

    def delivery_of(self, row: dict[str, str]) -> Delivery:
        """A delivery. Whether an unanswered one was accepted is seen by the lag."""
        answered, number = row["event"] == "deliver", int(row["commit"])
        accepted = not row["code"] if answered else row["lag"] != self.before["lag"]
        return Delivery(number, self.sent_in[number], accepted, answered, row["reason"])

    def note_holders(self, row: dict[str, str]) -> bool:
        """Notes who owns each partition and which nobody reads, and returns whether that changed."""
        unread = set(places_in(row["unread"], self.topics))
        owners = {place: name for name, _, words in (member.partition(" ") for member in row["granted"].split(";"))
                  for place in places_in(words, self.topics)}
        changed = False
        for place, course in self.courses.items():
            name = owners.get(place, "")
            holder = (name, self.numbers[name], place in unread)
            if not course or course[-1][1] != holder:
                course.append((len(self.columns), holder))
                changed = True
        return changed

    def lanes(self) -> Iterator[Lane]:
        """The lanes: each has the neighbours of one topic with one course."""
        first = 0
        for at, place in enumerate(self.places):
            after = self.places[at + 1] if at + 1 < len(self.places) else ("", -1)
            if after[0] != place[0] or after[1] < 0 or self.courses[after] != self.courses[place]:
                yield Lane(place[0], self.places[first][1], place[1], self.spans(self.courses[place]))
                first = at + 1

    def spans(self, course: list[tuple[int, tuple[str, int, bool]]]) -> tuple[Span, ...]:
        """The spans of a course."""
        ends = [start for start, _ in course[1:]] + [len(self.columns)]
        return tuple(Span(start, end, *holder) for (start, holder), end in zip(course, ends))
