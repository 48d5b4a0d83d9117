#!/usr/bin/env python3
"""Writes different keys that share one murmur2 hash, or others of the same length that share one partition.

    bench/hostile_keys.py COUNT [--blocks N] [--others PARTITIONS]

The keys go to standard output, one per line, each of N blocks of 8 bytes (default 1). No two are equal, none needs quotes in a
record, and each is verified with the definition of the hash.

Murmur2 has no secret, and each of its steps can be inverted: for any state and any first word of a block there is one second
word that leads to a wanted state. So 2^32 forms of a block lead to the same state. Each block of a key except the last has one
of two forms, and the last block leads to the hash."""

from __future__ import annotations

import argparse
import sys
from itertools import islice, product
from pathlib import Path
from random import Random
from typing import Iterator

sys.dont_write_bytecode = True
sys.path.insert(0, str(Path(__file__).resolve().parent.parent / "blackbox"))

from simulator.records import MIX, WORD, murmur2

SEED = 1729
BLOCK = 8
LETTERS = b"abcdefghijklmnopqrstuvwxyzABCDEFGHIJKLMNOPQRSTUVWXYZ0123456789"
# The mask for the hash without its highest bit, which selects the partition.
LOW = 0x7FFFFFFF
START = 0x9747B28C
INVERSE = pow(MIX, -1, 1 << 32)
# The bytes for which a field is quoted.
SPECIAL = frozenset(b',"\r\n')
# The hash that the keys share.
SHARED = murmur2(b"21")


def mixed(word: int) -> int:
    """The mixed word, which is added to the state."""
    word = word * MIX & WORD
    return (word ^ word >> 24) * MIX & WORD


def unmixed(value: int) -> int:
    """The inverse of `mixed`."""
    value = value * INVERSE & WORD
    return (value ^ value >> 24) * INVERSE & WORD


def unfinished(value: int) -> int:
    """The state after the last word of a key with this hash."""
    value ^= value >> 15 ^ value >> 30
    value = value * INVERSE & WORD
    return value ^ value >> 13 ^ value >> 26


def block_to(state: int, first: int, wanted: int) -> bytes:
    """The block that begins with this word and leads from a state to the wanted one."""
    middle = (state * MIX & WORD) ^ mixed(first)
    second = unmixed((middle * MIX & WORD) ^ wanted)
    return first.to_bytes(4, "little") + second.to_bytes(4, "little")


def words() -> Iterator[int]:
    """All words of four letters or digits."""
    for letters in product(LETTERS, repeat=4):
        yield int.from_bytes(bytes(letters), "little")


def is_plain(block: bytes) -> bool:
    """Whether a block needs no quotes."""
    return not SPECIAL.intersection(block)


def beginnings(rng: Random, blocks: int) -> Iterator[tuple[bytes, int]]:
    """All values of the first blocks, each in two forms, with the state that they lead to; repeated forever."""
    state = START ^ (blocks + 1) * BLOCK
    forms = []
    for _ in range(blocks):
        wanted = rng.getrandbits(32)
        forms.append(list(islice((block for word in words() if is_plain(block := block_to(state, word, wanted))), 2)))
        state = wanted
    while True:
        for choice in product(*forms):
            yield b"".join(choice), state


def keys(rng: Random, blocks: int, partitions: int) -> Iterator[bytes]:
    """Keys with the shared hash, or, if there are `partitions`, with any hash of the same partition. The last block of each
    begins with another word."""
    part = (SHARED & LOW) % partitions if partitions else 0
    for word, (beginning, state) in zip(words(), beginnings(rng, blocks - 1)):
        value = SHARED
        if partitions:
            value = rng.randrange((LOW - part) // partitions) * partitions + part | rng.getrandbits(1) << 31
        block = block_to(state, word, unfinished(value))
        if is_plain(block):
            yield beginning + block


def checked(key: bytes, partitions: int) -> bytes:
    """The key, after its hash was verified."""
    value = murmur2(key)
    if value != SHARED if not partitions else (value & LOW) % partitions != (SHARED & LOW) % partitions:
        raise SystemExit(f"{key!r} has the hash {value:#x}")
    return key


def write(path: Path, count: int, blocks: int, partitions: int) -> None:
    """Writes keys to a file."""
    made = keys(Random(SEED), blocks, partitions)
    with path.open("wb") as out:
        for _ in range(count):
            out.write(checked(next(made), partitions) + b"\n")


def main() -> None:
    parser = argparse.ArgumentParser(prog="bench/hostile_keys.py", description=__doc__,
                                     formatter_class=argparse.RawDescriptionHelpFormatter)
    parser.add_argument("count", type=int, metavar="COUNT")
    parser.add_argument("--blocks", type=int, default=1, metavar="N")
    parser.add_argument("--others", type=int, default=0, metavar="PARTITIONS")
    options = parser.parse_args()
    write(Path("/dev/stdout"), options.count, options.blocks, options.others)


if __name__ == "__main__":
    main()
