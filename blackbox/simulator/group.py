"""The laws of a group: how joins, departures and moves must fit together."""

from __future__ import annotations

from collections import Counter
from typing import NamedTuple, Sequence

NOBODY = b""
MOST_MEMBERS = 512


class Broken(Exception):
    """A law that the output breaks."""


def require(holds: bool, law: str, *details: object) -> None:
    """Raises `Broken` unless the law holds."""
    if not holds:
        raise Broken(law.format(*details))


def name_of(member: bytes) -> bytes:
    """The name of a member. A member that took over a seat has the old one's name, with a number appended here."""
    return member.partition(b"#")[0]


class Move(NamedTuple):
    """A printed move, with members in place of names."""

    partition: int
    last: bytes
    holder: bytes


def is_balanced(sizes: Sequence[int]) -> bool:
    """Whether no two sizes differ by more than one."""
    return max(sizes) - min(sizes) <= 1


def most_retained(sizes: Sequence[int], partitions: int) -> int:
    """How many partitions a balanced assignment can leave with owners of these many partitions: an even share of each owner,
    and one more of as many owners as there are partitions left over."""
    share, over = divmod(partitions, len(sizes))
    return sum(min(size, share) for size in sizes) + min(over, sum(size > share for size in sizes))


def target_of(members: list[bytes], owned: dict[bytes, list[int]], partitions: int) -> dict[int, bytes]:
    """The owner of each partition in the target assignment. Ties are broken by order: first the members with more than an even
    share get one more, then the others; each retains its lowest partitions; the rest fills the gaps in order of members."""
    share, over = divmod(partitions, len(members))
    by_need = sorted(members, key=lambda name: len(owned[name]) <= share)
    quota = {name: share + (nth < over) for nth, name in enumerate(by_need)}
    holder = {partition: name for name in members for partition in owned[name][:quota[name]]}
    gaps = [name for name in members for _ in range(quota[name] - len(owned[name]))]
    free = [partition for partition in range(partitions) if partition not in holder]
    return {**holder, **dict(zip(free, gaps))}


class Group:
    """The members that are present, and their partitions by the printed moves."""

    def __init__(self, partitions: int) -> None:
        self.partitions = partitions
        self.generation = 0
        # The newest member of each name, and the number of members that ever joined.
        self.newest: dict[bytes, bytes] = {}
        self.given = 0
        # By member number.
        self.present: list[bytes] = []
        self.static: set[bytes] = set()
        self.joined: set[bytes] = set()
        self.synced: set[bytes] = set()
        self.preparing = False
        # The last owner of each partition, its generation, and the partitions that were revoked since the last completion.
        self.holder = [NOBODY] * partitions
        self.since = [0] * partitions
        self.released: set[int] = set()
        # The partitions that each member must revoke.
        self.excess: dict[bytes, list[int]] = {}
        # Since the last join or departure: the number of completions, of their moves, and of the moves that are necessary.
        self.changed = True
        self.rounds = self.moved = self.least = 0

    def owned(self) -> dict[bytes, list[int]]:
        """The partitions of each present member, in order."""
        owned: dict[bytes, list[int]] = {name: [] for name in self.present}
        for partition, holder in enumerate(self.holder):
            if holder in owned and partition not in self.released:
                owned[holder].append(partition)
        return owned

    def owner(self, partition: int) -> bytes:
        """The owner of a partition."""
        holder = self.holder[partition]
        return holder if holder in self.present and partition not in self.released else NOBODY

    def completes(self) -> bool:
        """Whether the next completion is due."""
        return bool(self.present) and self.joined.issuperset(self.present)

    def member(self, name: bytes) -> bytes:
        """The newest member of a name."""
        return self.newest.get(name, name)

    def move(self, partition: int, last: bytes, holder: bytes) -> Move:
        """A printed move. The old owner is printed by its name alone."""
        was = self.holder[partition] if partition < self.partitions else NOBODY
        return Move(partition, was if name_of(was) == last else last, self.member(holder))

    def number(self, name: bytes, member: bytes) -> None:
        """Gives a member the next number."""
        self.newest[name] = member
        self.given += 1
        self.present.append(member)

    def take_over(self, name: bytes) -> bytes:
        """A new member takes over the seat of a static member: its partitions, and those of them that it must revoke. It has
        joined if the old one had, and has not synced."""
        old, new = self.member(name), b"%s#%d" % (name, self.given)
        for partition in self.owned()[old]:
            self.holder[partition] = new
        self.present.remove(old)
        self.number(name, new)
        self.static.add(new)
        self.excess[new] = self.excess.pop(old, [])
        if old in self.joined:
            self.joined.add(new)
        self.joined.discard(old)
        self.synced.discard(old)
        return new

    def join(self, name: bytes) -> None:
        self.number(name, name)
        self.joined.add(name)
        self.preparing = self.changed = True

    def part(self, name: bytes) -> None:
        self.present.remove(name)
        self.joined.discard(name)
        self.synced.discard(name)
        self.excess.pop(name, None)
        self.preparing = bool(self.present)
        self.changed = True

    def rejoin(self, name: bytes) -> None:
        self.joined.add(name)
        self.preparing = True
        self.released.update(self.excess.pop(name, []))

    def check_moves(self, moves: list[Move]) -> None:
        """The laws of the moves of one completion: each partition at most once, in order, from its last owner, which is gone
        or has revoked it, to a present member."""
        numbers = [move.partition for move in moves]
        require(numbers == sorted(set(numbers)), "generation {} moves partitions twice or out of order", self.generation)
        for partition, last, holder in moves:
            at = f"generation {self.generation}, partition {partition}"
            require(0 <= partition < self.partitions, "{}: there is no such partition", at)
            require(last == self.holder[partition], "{}: moved from {}, but {} had it", at, last, self.holder[partition])
            require(holder in self.present, "{}: moved to {}, who is not present", at, holder)
            if last in self.present:
                require(partition in self.released, "{}: it has two owners, since {} did not revoke it", at, last)
                require(self.since[partition] + 2 <= self.generation, "{}: moved again in the next generation", at)

    def check_owners(self, moves: list[Move], owned: dict[bytes, list[int]]) -> None:
        """After a completion each partition has a present owner. A member that got one has at most a balanced share, and is
        its owner in the target assignment; each member must revoke what the target gives to others."""
        share = -(-self.partitions // len(self.present))
        target = target_of(self.present, owned, self.partitions)
        after = self.owned()
        for partition, _, holder in moves:
            require(len(after[holder]) <= share, "generation {}: {} gets too many", self.generation, holder)
            require(target[partition] == holder, "generation {}: partition {} is moved to {}, not to {}",
                    self.generation, partition, holder, target[partition])
        missing = set(range(self.partitions)).difference(*after.values())
        require(not missing, "generation {}: nobody owns the partitions {}", self.generation, missing)
        self.excess = {name: [partition for partition in after[name] if target[partition] != name] for name in self.present}

    def check_stickiness(self, moves: int, sizes: list[int]) -> None:
        """From the first completion after a join or a departure to the end of the rebalance, as few partitions move as balance
        allows, and two completions are enough."""
        if self.changed:
            self.rounds = self.moved = 0
            self.least = self.partitions - most_retained(sizes, self.partitions)
            self.changed = False
        self.rounds += 1
        self.moved += moves
        balanced = is_balanced([len(partitions) for partitions in self.owned().values()])
        require(balanced == (not any(self.excess.values())), "generation {}: balanced {}, to revoke {}",
                self.generation, balanced, self.excess)
        if balanced:
            require(self.moved == self.least, "generation {}: {} moves, but {} are enough",
                    self.generation, self.moved, self.least)
        else:
            require(self.rounds < 2, "generation {}: two completions do not balance", self.generation)
            require(self.moved < self.least, "generation {}: {} moves and not balanced", self.generation, self.moved)

    def complete(self, moves: list[Move]) -> None:
        """Makes the next completion, with these moves."""
        self.generation += 1
        self.check_moves(moves)
        owned = self.owned()
        for partition, _, holder in moves:
            self.holder[partition], self.since[partition] = holder, self.generation
            self.released.discard(partition)
        self.check_owners(moves, owned)
        self.check_stickiness(len(moves), [len(partitions) for partitions in owned.values()])
        self.preparing = False
        self.joined.clear()
        self.synced.clear()

    def check_settled(self) -> None:
        """A settled group is balanced."""
        sizes = Counter(self.holder)
        require(is_balanced([sizes[name] for name in self.present]), "generation {}: settled but not balanced",
                self.generation)
