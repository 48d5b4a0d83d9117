"""The coordinator of a consumer group: who reads which partition, and what is committed.

    from keycount import Cluster

    with Cluster(partitions=12) as c:
        c.append(b"user-17")
        member = c.join("worker-1")
        lease = c.sync(member)
        for partition, offset in lease.offsets.items():
            keys = c.read(partition, offset)
            if keys:
                c.commit(member, lease.generation, partition, offset, keys)
        assert c.counts() == {b"user-17": 1}

It is a state machine without threads, files or a clock: each event is a call. A call that is
refused raises a `Refusal`, and changes nothing. Each step is the one that is proved of the library
(docs/LIBRARY.md); this module only calls it.
"""

import ctypes
import itertools
import os
import threading
from typing import (
    Callable, Dict, Hashable, Iterable, List, Mapping, NamedTuple, Optional, Sequence, Set, Tuple,
    TypeVar, Union,
)

__all__ = [
    "Cluster", "Consumer", "Lease", "Move", "Step", "Phase", "Refusal", "AlreadyJoined", "ClaimDiffers", "Closed",
    "EmptyCommit", "GenerationsOver", "KeyTooLong", "LogFull", "NameUsed", "NotKept", "NotHeld", "NotOwner",
    "NothingToGive", "OutOfGroup", "OffsetMismatch", "PastEnd", "RebalanceInProgress", "StaleGeneration",
    "SyncFirst", "TooManyMembers", "UnknownMember", "WrongRecords", "assign", "murmur2", "place",
    "place_all", "withhold",
]

_U8, _U32, _U64, _SIZE = ctypes.c_uint8, ctypes.c_uint32, ctypes.c_uint64, ctypes.c_size_t


class _Handle(ctypes.Structure):
    _fields_ = [("at", ctypes.c_void_p)]


class _Move(ctypes.Structure):
    _fields_ = [(name, _U32) for name in ("generation", "partition", "last", "holder")]


_HANDLE, _U32S, _U8S = (ctypes.POINTER(t) for t in (_Handle, _U32, _U8))
_COUNT, _U64S = ctypes.POINTER(_SIZE), ctypes.POINTER(_U64)
_CALLS = {
    "new": [_U32S, _SIZE, _U8S, _SIZE],
    "free": [],
    "append": [_U32, _U8S, _SIZE, _U32S, _U32S],
    "join": [_U8S, _SIZE, _U32S],
    "join_kept": [_U8S, _SIZE, _U32S],
    "take_over": [_U8S, _SIZE, _U32S],
    "rejoin": [_U32, _U32, _U32S, _SIZE],
    "sync": [_U32, _U32S, _U32S, _SIZE, _U32S, _SIZE, _COUNT],
    "leave": [_U32],
    "lose": [_U32],
    "commit": [_U32, _U32, _U32, _U32, _U32S, _SIZE, _U32S],
    "next_step": [_U32, _U32S],
    "phase": [_U32S],
    "generation": [_U32S],
    "settled": [_U32S],
    "partitions": [_U32S],
    "keys": [_U32S],
    "members": [_U32S, _SIZE, _COUNT],
    "granted": [_U32, _U32S, _SIZE, _COUNT],
    "assigned": [_U32, _U32S, _SIZE, _COUNT],
    "moves": [_SIZE, ctypes.POINTER(_Move), _SIZE, _COUNT],
    "owner": [_U32, _U32S],
    "name": [_U32, _U8S, _SIZE, _COUNT],
    "member_named": [_U8S, _SIZE, _U32S],
    "kept": [_U32, _U32S],
    "end": [_U32, _U32S],
    "committed": [_U32, _U32S],
    "read": [_U32, _U32, _U32S, _SIZE, _COUNT],
    "key": [_U32, _U8S, _SIZE, _COUNT],
    "count": [_U32, _U64S],
}


_CONSUMER_CALLS = {
    "new": [_U32],
    "free": [],
    "joined": [_U32],
    "drop_all": [],
    "sync": [_HANDLE],
    "rejoin": [_HANDLE],
    "give_up": [],
    "poll": [_HANDLE, _U32, _U32, _U32S, _U32S],
    "pending": [_U32, _U32S, _U32S, _U32S, _U32S],
    "answered": [_U32, _U32, _U32],
    "member": [_U32S],
    "generation": [_U32S],
    "holding": [_U32S, _SIZE, _COUNT],
    "base": [_U32, _U32S],
    "position": [_U32, _U32S],
}


def _load() -> ctypes.CDLL:
    lib = ctypes.CDLL(os.environ.get("KEYCOUNT_LIBRARY", "libkeycount.so.1"))
    for kind, calls in ("cluster", _CALLS), ("consumer", _CONSUMER_CALLS):
        for name, types in calls.items():
            call = getattr(lib, f"keycount_{kind}_{name}")
            call.argtypes = [_HANDLE, *types]
            call.restype = _U32
    lib.keycount_murmur2.argtypes = [_U8S, _SIZE]
    lib.keycount_place.argtypes = [_U32, _U8S, _SIZE, _U32S]
    lib.keycount_place_all.argtypes = [_U32, _U8S, _SIZE, _COUNT, _SIZE, _U32S, _SIZE]
    lib.keycount_assign.argtypes = [_U32S, _SIZE] * 3
    lib.keycount_withhold.argtypes = [_U32S, _SIZE] * 4
    for name in "murmur2", "place", "place_all", "assign", "withhold":
        getattr(lib, "keycount_" + name).restype = _U32
    return lib


_lib = _load()


class Refusal(Exception):
    """Why a call was refused. Nothing has changed. `code` is its number, as in `keycount explain`."""

    code = 0


class UnknownMember(Refusal):
    """No present member has this number."""

    code = 1


class StaleGeneration(Refusal):
    """The generation is not the group's present one."""

    code = 2


class RebalanceInProgress(Refusal):
    """The member has joined a rebalance that is not complete."""

    code = 3


class NothingToGive(Refusal):
    """The group is stable and the member has nothing to revoke."""

    code = 4


class SyncFirst(Refusal):
    """The member has not synced in this generation."""

    code = 5


class ClaimDiffers(Refusal):
    """The claim is not what the member is assigned."""

    code = 6


class AlreadyJoined(Refusal):
    """The member has joined this rebalance before."""

    code = 7


class NameUsed(Refusal):
    """Somebody joined under this name before."""

    code = 8


class TooManyMembers(Refusal):
    """The group has had its 512 members."""

    code = 9


class NotOwner(Refusal):
    """The partition is not granted to the member."""

    code = 10


class OffsetMismatch(Refusal):
    """The commit does not begin at the committed offset, which is `committed`."""

    code = 11

    def __init__(self, committed: int):
        super().__init__(f"the commit does not begin at the committed offset, {committed}")
        self.committed = committed


class PastEnd(Refusal):
    """The commit ends past the end of its log."""

    code = 12


class WrongRecords(Refusal):
    """The commit's records are not those of its log."""

    code = 13


class EmptyCommit(Refusal):
    """The commit has no records."""

    code = 14


class NotHeld(Refusal):
    """The consumer does not hold the partition."""

    code = 15


class OutOfGroup(Refusal):
    """The consumer is out of the group."""

    code = 16


class KeyTooLong(Refusal):
    """The key is longer than 65535 bytes."""

    code = 20


class LogFull(Refusal):
    """The log is full, or no number is left for a new key."""

    code = 21


class GenerationsOver(Refusal):
    """The group has had its last generation."""

    code = 31


class NotKept(Refusal):
    """No present static member has this name."""

    code = 33


class Closed(ValueError):
    """The cluster is closed."""


_REFUSALS = {kind.code: kind for kind in Refusal.__subclasses__()}
_OUT_OF_MEMORY, _NO_VALUE, _BAD_ARGUMENT, _TOO_SHORT = 90, 101, 103, 104


class Step:
    """What a member does next: see `Cluster.next_step`."""

    SYNC, REJOIN, READ = range(3)


class Phase:
    """Whether the group is empty, prepares a generation, or is stable."""

    EMPTY, PREPARING, STABLE = range(3)


class Lease(NamedTuple):
    """What a member is assigned in a generation, and the offset to read each partition from."""

    generation: int
    offsets: Dict[int, int]

    @property
    def partitions(self) -> Set[int]:
        """The partitions that it is assigned."""
        return set(self.offsets)


class Move(NamedTuple):
    """A partition that a completed generation granted to a member that did not have it."""

    generation: int
    partition: int
    last: Optional[int]
    holder: int


def _bytes(text: Union[bytes, bytearray, str]) -> Tuple[ctypes.Array, int]:
    raw = text.encode() if isinstance(text, str) else bytes(text)
    return (_U8 * max(1, len(raw))).from_buffer_copy(raw or b"\0"), len(raw)


def _numbers(numbers: Sequence[int]) -> Tuple[ctypes.Array, int]:
    if not all(0 <= n < 2**32 for n in numbers):
        raise ValueError("a number has 32 bits")
    return (_U32 * max(1, len(numbers)))(*numbers), len(numbers)


def _number(n: int) -> int:
    if not 0 <= n < 2**32:
        raise ValueError("a number has 32 bits")
    return n


def murmur2(key: Union[bytes, str]) -> int:
    """The murmur2 hash of a key, as in Kafka's Java client, without a sign."""
    return _lib.keycount_murmur2(*_bytes(key))


def place(partitions: int, key: Union[bytes, str]) -> int:
    """The partition of a key among 1 to 4096, as in Kafka's Java client."""
    partition = _U32()
    _raise(_lib.keycount_place(_number(partitions), *_bytes(key), partition))
    return partition.value


def place_all(partitions: int, keys: Iterable[Union[bytes, str]]) -> List[int]:
    """The partition of each key among 1 to 4096, in their order."""
    raw = [key.encode() if isinstance(key, str) else bytes(key) for key in keys]
    ends = list(itertools.accumulate(map(len, raw)))
    n = len(raw)
    places = (_U32 * max(1, n))()
    _raise(_lib.keycount_place_all(_number(partitions), *_bytes(b"".join(raw)),
                                   (_SIZE * max(1, n))(*ends), n, places, n))
    return places[:n]


Member = TypeVar("Member", bound=Hashable)


def assign(partitions: int, owned: Mapping[Member, Iterable[int]]) -> Dict[Member, Set[int]]:
    """What each member is to own of 1 to 4096 partitions, by what each owns: even shares, and as
    many partitions as possible stay with their owners. Of shares that differ by one, the larger go
    to members that own more than the smaller, and then to the first, in the order of the mapping.
    """
    members = list(owned)
    return _assigned("assign", members, _owners(partitions, members, owned))


def withhold(partitions: int, target: Mapping[Member, Iterable[int]],
             owned: Mapping[Member, Iterable[int]]) -> Dict[Member, Set[int]]:
    """What to assign of a target at once, in a cooperative rebalance: each member's part of it, but
    not what another still owns. Who is not in the target has left."""
    members = list(target)
    return _assigned("withhold", members, _owners(partitions, members, target),
                     _owners(partitions, members, owned))


def _owners(partitions: int, members: List[Member],
            owned: Mapping[Member, Iterable[int]]) -> List[int]:
    """The number of the member that owns each partition, counted from 1, or 0."""
    owners = [0] * _number(partitions)
    for number, member in enumerate(members, 1):
        for partition in owned.get(member, ()):
            if not 0 <= partition < partitions:
                raise ValueError("there is no such partition")
            if owners[partition] not in (0, number):
                raise ValueError("two members own a partition")
            owners[partition] = number
    return owners


def _assigned(name: str, members: List[Member], *lists: List[int]) -> Dict[Member, Set[int]]:
    n = len(lists[0])
    out = (_U32 * max(1, n))()
    args = [arg for numbers in (range(1, len(members) + 1), *lists) for arg in _numbers(numbers)]
    _raise(getattr(_lib, "keycount_" + name)(*args, out, n))
    rows: Dict[Member, Set[int]] = {member: set() for member in members}
    for partition, number in enumerate(out[:n]):
        if number:
            rows[members[number - 1]].add(partition)
    return rows


class Cluster:
    """A group of members, the logs that they read, and the committed offsets and counts.

    `partitions` is a number of partitions, 1 to 4096, or of several topics a list of such numbers,
    1 to 8 with 4096 at most in all; partitions are numbered from 0 over all topics. `seed`, 32
    bytes, seeds the hash table of the keys.

    Threads may share it: a lock lets one call in at a time.
    """

    def __init__(self, partitions: Union[int, Sequence[int]], seed: Optional[bytes] = None):
        counts = [partitions] if isinstance(partitions, int) else list(partitions)
        self._handle = _Handle()
        self._lock = threading.Lock()
        self._call("new", *_numbers(counts), *_bytes(os.urandom(32) if seed is None else seed))

    # ---- steps

    def append(self, key: Union[bytes, str], topic: int = 0) -> Tuple[int, int]:
        """Appends a record with this key to a topic. Returns its partition, which murmur2 gives as
        in Kafka's Java client, and its offset there. KeyTooLong, LogFull."""
        partition, offset = _U32(), _U32()
        self._call("append", _number(topic), *_bytes(key), partition, offset)
        return partition.value, offset.value

    def join(self, name: str, static: bool = False) -> int:
        """A member joins under a name that nobody has used: 1 to 32 ASCII letters, digits, '-' and
        '_'. Returns its number. The seat of a static member can be taken over by name. NameUsed,
        TooManyMembers, GenerationsOver."""
        member = _U32()
        self._call("join_kept" if static else "join", *_bytes(name), member)
        return member.value

    def take_over(self, name: str) -> int:
        """The seat of the static member of this name goes to a new number, which is returned,
        without a rebalance. NotKept, TooManyMembers."""
        member = _U32()
        self._call("take_over", *_bytes(name), member)
        return member.value

    def rejoin(self, member: int, generation: int, claim: Iterable[int]) -> None:
        """A member gives up what it is not assigned and joins the rebalance. It tells the
        generation of its lease, and claims the partitions of it. UnknownMember, StaleGeneration,
        AlreadyJoined, SyncFirst, NothingToGive, ClaimDiffers, GenerationsOver."""
        self._call("rejoin", _number(member), _number(generation), *_numbers(sorted(claim)))

    def sync(self, member: int) -> Lease:
        """A member takes its lease of the present generation. UnknownMember,
        RebalanceInProgress."""
        room = self.partitions()
        generation, count = _U32(), _SIZE()
        partitions, offsets = (_U32 * room)(), (_U32 * room)()
        self._call("sync", _number(member), generation, partitions, room, offsets, room, count)
        n = count.value
        return Lease(generation.value, dict(zip(partitions[:n], offsets[:n])))

    def leave(self, member: int) -> None:
        """A member leaves, and its partitions go to others. UnknownMember, GenerationsOver."""
        self._call("leave", _number(member))

    def lose(self, member: int) -> None:
        """A member is lost, which is the same to the group."""
        self._call("lose", _number(member))

    def commit(self, member: int, generation: int, partition: int, offset: int,
               keys: Sequence[int]) -> int:
        """A member commits the records of a partition from this offset on, by their key numbers,
        as a whole. Returns the new committed offset. UnknownMember, StaleGeneration, NotOwner,
        EmptyCommit, OffsetMismatch, PastEnd, WrongRecords."""
        committed = _U32()
        try:
            self._call("commit", _number(member), _number(generation), _number(partition),
                       _number(offset), *_numbers(keys), committed)
        except OffsetMismatch:
            raise OffsetMismatch(committed.value) from None
        return committed.value

    # ---- what can be read

    def next_step(self, member: int) -> int:
        """What a member does next: `Step.SYNC`, `Step.REJOIN` or `Step.READ`. One that is not
        present is told to sync, which then raises UnknownMember."""
        return self._read("next_step", _number(member))

    def phase(self) -> int:
        """`Phase.EMPTY`, `Phase.PREPARING` or `Phase.STABLE`."""
        return self._read("phase")

    def generation(self) -> int:
        """The generation, 0 before the first."""
        return self._read("generation")

    def is_settled(self) -> bool:
        """Whether the group is stable and no member has a partition to give up."""
        return self._read("settled") == 1

    def partitions(self) -> int:
        """The number of partitions of all topics."""
        return self._read("partitions")

    def members(self) -> List[int]:
        """The present members, in rising order."""
        return self._list(_U32, "members")

    def granted(self, member: int) -> Set[int]:
        """The partitions that a member may read and commit. UnknownMember."""
        return set(self._list(_U32, "granted", _number(member)))

    def assigned(self, member: int) -> Set[int]:
        """The partitions of a member's next lease. UnknownMember."""
        return set(self._list(_U32, "assigned", _number(member)))

    def moves(self, start: int = 0) -> List[Move]:
        """The moves so far, in order, from this index on."""
        return [
            Move(m.generation, m.partition, m.last or None, m.holder)
            for m in self._list(_Move, "moves", start)
        ]

    def owner(self, partition: int) -> Optional[int]:
        """The member that a partition is granted to, if there is one."""
        return self._read("owner", _number(partition)) or None

    def name(self, member: int) -> str:
        """The name of a member number that was given out, present or not. UnknownMember."""
        return bytes(self._list(_U8, "name", _number(member))).decode()

    def member_named(self, name: str) -> Optional[int]:
        """The newest member number with this name, present or not, if there is one."""
        return self._read("member_named", *_bytes(name)) or None

    def is_kept(self, member: int) -> bool:
        """Whether a member is present and static."""
        return self._read("kept", _number(member)) == 1

    def end(self, partition: int) -> int:
        """The offset of a partition's next record."""
        return self._read("end", _number(partition))

    def committed(self, partition: int) -> int:
        """The committed offset of a partition."""
        return self._read("committed", _number(partition))

    def read(self, partition: int, offset: int, most: int = 1000) -> List[int]:
        """At most `most` records of a partition from an offset on, as key numbers."""
        keys, count = (_U32 * max(1, most))(), _SIZE()
        self._call("read", _number(partition), _number(offset), keys, most, count)
        return keys[: count.value]

    def key(self, number: int) -> bytes:
        """The key with this number. Keys are numbered from 0, in the order in which they were
        first appended."""
        return bytes(self._list(_U8, "key", _number(number)))

    def count(self, number: int) -> int:
        """How often the key with this number is among the committed records."""
        count = _U64()
        self._call("count", _number(number), count)
        return count.value

    def counts(self) -> Dict[bytes, int]:
        """How often each key is among the committed records."""
        return {self.key(n): self.count(n) for n in range(self._read("keys"))}

    # ---- its end

    def close(self) -> None:
        """Frees the cluster. A later call raises Closed."""
        with self._lock:
            _lib.keycount_cluster_free(self._handle)

    def __enter__(self) -> "Cluster":
        return self

    def __exit__(self, *_: object) -> None:
        self.close()

    def __del__(self) -> None:
        if hasattr(self, "_lock"):
            self.close()

    # ---- calls

    def _answer(self, name: str, *args: object) -> int:
        with self._lock:
            return getattr(_lib, "keycount_cluster_" + name)(self._handle, *args)

    def _call(self, name: str, *args: object) -> None:
        _raise(self._answer(name, *args))

    def _read(self, name: str, *args: object) -> int:
        value = _U32()
        self._call(name, *args, value)
        return value.value

    def _list(self, item: type, name: str, *args: object) -> list:
        return _listed(item, lambda *out: self._answer(name, *args, *out))


class Consumer:
    """One member of a cluster: what it holds, how far it has read, and what it has not committed.

    It follows its group by `step`, reads by `poll`, and commits by `commit`. One thread at a time
    uses it; several consumers, each in its thread, may share a cluster.
    """

    def __init__(self, cluster: Cluster):
        self._cluster = cluster
        self._handle = _Handle()
        self._call("new", cluster.partitions())

    def join(self, name: str, static: bool = False) -> int:
        """Joins the cluster, as `Cluster.join`, and holds nothing yet."""
        member = self._cluster.join(name, static)
        self._call("joined", member)
        return member

    def step(self) -> int:
        """Does what the group asks of it, which is returned: it syncs, rejoins, or reads on. Before
        it rejoins, commit what is to be kept: it drops what it gives up. OutOfGroup, and what
        `Cluster.sync` and `Cluster.rejoin` raise."""
        step = self._cluster.next_step(self.member() or 0)
        if step != Step.READ:
            with self._cluster._lock:
                answer = getattr(_lib, "keycount_consumer_" + ("sync", "rejoin")[step])(
                    self._handle, self._cluster._handle)
            _raise(answer)
        return step

    def poll(self, partition: int, most: int = 1000) -> List[int]:
        """Reads at most `most` records of a partition, as key numbers. They are then pending.
        NotHeld, OutOfGroup."""
        offset, count = _U32(), _U32()
        with self._cluster._lock:
            answer = _lib.keycount_consumer_poll(self._handle, self._cluster._handle,
                                                 _number(partition), _number(most), offset, count)
        _raise(answer)
        return self._cluster.read(partition, offset.value, count.value)

    def pending(self, partition: int) -> Tuple[int, int, int, List[int]]:
        """The commit of all pending records of a partition: its member, its generation, the offset
        from which its records are, and their key numbers. EmptyCommit, NotHeld, OutOfGroup."""
        member, generation, start, end = _U32(), _U32(), _U32(), _U32()
        self._call("pending", _number(partition), member, generation, start, end)
        keys = self._cluster.read(partition, start.value, end.value - start.value)
        return member.value, generation.value, start.value, keys

    def commit(self, partition: int) -> int:
        """Commits all pending records of a partition, and takes the reply. Returns the committed
        offset. EmptyCommit, NotHeld, OutOfGroup, and what `Cluster.commit` raises."""
        member, generation, start, keys = self.pending(partition)
        try:
            committed = self._cluster.commit(member, generation, partition, start, keys)
        except OffsetMismatch as mismatch:
            self.answered(partition, mismatch.code, mismatch.committed)
            raise
        except Refusal as refusal:
            self.answered(partition, refusal.code)
            raise
        self.answered(partition, 0, committed)
        return committed

    def answered(self, partition: int, code: int, committed: int = 0) -> None:
        """Takes the reply to a commit of a partition: 0 or the refusal's code, and the committed
        offset."""
        self._call("answered", _number(partition), _number(code), _number(committed))

    def give_up(self) -> None:
        """Drops what it holds and its last lease has not, as `step` does when it rejoins."""
        self._call("give_up")

    def leave(self) -> None:
        """Leaves the cluster, and drops everything. UnknownMember."""
        self._cluster.leave(self.member() or 0)
        self._call("drop_all")

    def member(self) -> Optional[int]:
        """Its member number, unless it is out of the group."""
        member = _U32()
        self._call("member", member)
        return member.value or None

    def generation(self) -> int:
        """The generation of its last lease, 0 before the first."""
        generation = _U32()
        self._call("generation", generation)
        return generation.value

    def holding(self) -> Set[int]:
        """The partitions that it holds."""
        call = _lib.keycount_consumer_holding
        return set(_listed(_U32, lambda *out: call(self._handle, *out)))

    def base(self, partition: int) -> int:
        """The offset below which it knows the records of a partition to be committed."""
        offset = _U32()
        self._call("base", _number(partition), offset)
        return offset.value

    def position(self, partition: int) -> int:
        """The offset of the next record of a partition that it reads."""
        offset = _U32()
        self._call("position", _number(partition), offset)
        return offset.value

    def _call(self, name: str, *args: object) -> None:
        _raise(getattr(_lib, "keycount_consumer_" + name)(self._handle, *args))

    def __del__(self) -> None:
        if hasattr(self, "_handle"):
            _lib.keycount_consumer_free(self._handle)


def _listed(item: type, call: Callable[..., int]) -> list:
    """What a call lists, which is made again if it does not fit."""
    room, count = 16, _SIZE()
    while True:
        items = (item * room)()
        answer = call(items, room, count)
        if answer != _TOO_SHORT:
            _raise(answer)
            return items[: count.value]
        room = count.value


def _raise(answer: int) -> None:
    if answer == 0:
        return
    if answer == OffsetMismatch.code:
        raise OffsetMismatch(0)
    if answer in _REFUSALS:
        raise _REFUSALS[answer](_REFUSALS[answer].__doc__)
    if answer == _OUT_OF_MEMORY:
        raise MemoryError
    if answer == _NO_VALUE:
        raise Closed("the cluster is closed")
    raise ValueError("an argument is out of range")
