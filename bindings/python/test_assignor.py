"""A property test of an assignor of your own against the proved one, by random owners.

Put your assignor in the place of `assign`. It is given what each present member owns, and the number
of partitions; it returns what each is to own. The library gives the answer to compare with: it is
balanced, and no balanced assignment leaves more partitions with their owners.
"""

import random
import unittest
from typing import Dict, Set

import keycount

Owned = Dict[int, Set[int]]


def assign(owned: Owned, partitions: int) -> Owned:
    """Even shares, the larger ones for those who own most, and each keeps what it can."""
    share, more = divmod(partitions, len(owned))
    kept: Owned = {}
    room = {}
    for rank, member in enumerate(sorted(owned, key=lambda m: -len(owned[m]))):
        quota = share + (rank < more)
        kept[member] = set(sorted(owned[member])[:quota])
        room[member] = quota - len(kept[member])
    free = [p for p in range(partitions) if not any(p in row for row in kept.values())]
    for member, n in room.items():
        kept[member].update(free[:n])
        free = free[n:]
    return kept


def withhold(target: Owned, owned: Owned) -> Owned:
    """What of a target nobody else owns."""
    return {
        member: {p for p in row if not any(p in owned[other] for other in owned if other != member)}
        for member, row in target.items()
    }


def random_owners(rng: random.Random, partitions: int) -> Owned:
    """Some members, of whom a few own most, and some partitions that nobody owns."""
    owned: Owned = {member: set() for member in rng.sample(range(100), rng.randint(1, 12))}
    few = list(owned)[: rng.randint(1, len(owned))]
    for p in range(partitions):
        if rng.random() < 0.9:
            owned[rng.choice(few)].add(p)
    return owned


def kept(before: Owned, after: Owned) -> int:
    """How many partitions stay with their owners."""
    return sum(len(before[m] & after[m]) for m in after)


class RandomOwners(unittest.TestCase):
    def test_an_assignor_does_as_well_as_the_library(self):
        for seed in range(500):
            with self.subTest(seed=seed):
                rng = random.Random(seed)
                partitions = rng.randint(1, 60)
                owned = random_owners(rng, partitions)
                proved, yours = keycount.assign(partitions, owned), assign(owned, partitions)
                self.assertEqual(yours.keys(), proved.keys())
                self.assertEqual(sorted(p for row in yours.values() for p in row),
                                 list(range(partitions)))
                self.assertEqual(sorted(map(len, yours.values())),
                                 sorted(map(len, proved.values())))
                self.assertEqual(kept(owned, yours), kept(owned, proved))
                self.assertEqual(withhold(yours, owned),
                                 keycount.withhold(partitions, yours, owned))


if __name__ == "__main__":
    unittest.main()
