"""The inputs, made from a fixed seed: the same bytes on every machine."""

from __future__ import annotations

import hashlib
import json
import os
from dataclasses import dataclass
from itertools import accumulate, islice
from pathlib import Path
from random import Random
from typing import Callable, Iterator

SEED = 1729
CHUNK = 100_000
WORD = (1 << 64) - 1


@dataclass(frozen=True)
class Shape:
    """A kind of input. Its tenth is the beginning of its full size."""

    name: str
    title: str
    full: int
    column: int
    chunks: Callable[[int], Iterator[str]]


@dataclass(frozen=True)
class Input:
    """An input of a shape and a number of records."""

    shape: Shape
    records: int
    path: Path

    @property
    def stamp(self) -> Path:
        """The file that notes how the input was made."""
        return self.path.with_suffix(".made")


@dataclass(frozen=True)
class Made:
    """The note about a made file: the maker, and the size and the hash of the file."""

    maker: str
    size: int
    digest: str


def chunk_sizes(records: int) -> Iterator[int]:
    """The numbers of records of the chunks of a file."""
    for start in range(0, records, CHUNK):
        yield min(CHUNK, records - start)


def lines_of(records: Iterator[str] | list[str]) -> str:
    """Records as lines."""
    return "\n".join(records) + "\n"


def zipf(count: int) -> list[float]:
    """Cumulative weights, where rank n weighs 1/n."""
    return list(accumulate(1 / rank for rank in range(1, count + 1)))


def short_keys(records: int) -> Iterator[str]:
    """Short keys, Zipf-like over 100,000."""
    rng = Random(SEED)
    keys = [f"u{number}" for number in range(100_000)]
    rng.shuffle(keys)
    weights = zipf(len(keys))
    for size in chunk_sizes(records):
        yield lines_of(rng.choices(keys, cum_weights=weights, k=size))


def distinct_words() -> Iterator[str]:
    """Different words of 16 digits: the states of a generator with full period, mixed by a bijection."""
    state = SEED
    while True:
        state = (state * 6364136223846793005 + 1442695040888963407) & WORD
        yield "%016x" % (state ^ (state >> 33))


def distinct_keys(records: int) -> Iterator[str]:
    """Keys of 16 bytes, each once."""
    words = distinct_words()
    for size in chunk_sizes(records):
        yield lines_of(islice(words, size))


def field(text: str) -> str:
    """A field of a record, quoted if necessary."""
    if "," in text or '"' in text:
        return '"' + text.replace('"', '""') + '"'
    return text


def customer(number: int) -> str:
    """A name: two of nine have a comma, and one a comma and quotes."""
    if number % 9 == 0:
        return f'The "{number}" Shop, Ltd'
    return f"Customer {number}, Sons" if number % 3 == 0 else f"Customer {number}"


def item(number: int) -> str:
    """A key: three of two hundred have a comma, and one quotes."""
    if number % 200 == 0:
        return f'item-{number} 3" wide'
    return f"item-{number}, red" if number % 50 == 0 else f"item-{number}"


def note(number: int) -> str:
    """A note: one of four has a comma and quotes."""
    return f'said "call {number}", twice' if number % 4 == 0 else f"note {number}"


def quoted_records(records: int) -> Iterator[str]:
    """Records of five fields, some of them quoted, the key in the third, Zipf-like over 20,000."""
    rng = Random(SEED)
    customers = [field(customer(number)) for number in range(5_000)]
    items = [field(item(number)) for number in range(20_000)]
    amounts = [f"{cents // 100}.{cents % 100:02}" for cents in range(0, 100_000, 7)]
    notes = [field(note(number)) for number in range(5_000)]
    rng.shuffle(items)
    weights = zipf(len(items))
    numbers = iter(range(1, records + 1))
    for size in chunk_sizes(records):
        columns = (
            map(str, islice(numbers, size)),
            rng.choices(customers, k=size),
            rng.choices(items, cum_weights=weights, k=size),
            rng.choices(amounts, k=size),
            rng.choices(notes, k=size),
        )
        yield lines_of(map(",".join, zip(*columns)))


SHAPES = (
    Shape("short", "short keys, Zipf-like over 100,000", 10_000_000, 1, short_keys),
    Shape("quoted", "records of five fields, some quoted, key in the third", 1_000_000, 3, quoted_records),
    Shape("distinct", "distinct keys of 16 bytes", 5_000_000, 1, distinct_keys),
)


def input_of(shape: Shape, folder: Path, tenth: bool) -> Input:
    """The input of a shape, in its full size or a tenth of it."""
    if tenth:
        return Input(shape, shape.full // 10, folder / f"{shape.name}-tenth.csv")
    return Input(shape, shape.full, folder / f"{shape.name}.csv")


def digest_of(path: Path) -> str:
    """The hash of the bytes of a file."""
    digest = hashlib.sha256()
    with open(path, "rb") as file:
        while block := file.read(1 << 20):
            digest.update(block)
    return digest.hexdigest()


def maker() -> str:
    """The version of the maker: the hash of this file."""
    return digest_of(Path(__file__))


def noted(target: Input) -> Made | None:
    """The note about an input, if this maker made it and it has not changed."""
    try:
        made = Made(**json.loads(target.stamp.read_text()))
        same = made.maker == maker() and made.digest == digest_of(target.path)
    except (OSError, ValueError, TypeError):
        return None
    return made if same else None


def write(target: Input) -> Made:
    """Writes an input, and returns its note."""
    digest, size = hashlib.sha256(), 0
    part = target.path.with_suffix(".part")
    with open(part, "wb") as file:
        for chunk in target.shape.chunks(target.records):
            data = chunk.encode("ascii")
            digest.update(data)
            size += file.write(data)
    os.replace(part, target.path)
    return Made(maker(), size, digest.hexdigest())


def make(target: Input) -> Made:
    """Makes an input, unless it exists."""
    made = noted(target)
    if made is not None:
        return made
    target.stamp.unlink(missing_ok=True)
    made = write(target)
    target.stamp.write_text(json.dumps(made.__dict__) + "\n")
    return made
