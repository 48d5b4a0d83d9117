"""Workers that count the keys of records, while members are lost and old commits come again. At the
end each record has been counted once.

Copy the loop of `work` to begin with: it is all that a member does.
"""

import itertools
import random
import threading
import time
from collections import Counter

from keycount import (
    Cluster, NotOwner, OffsetMismatch, StaleGeneration, Step, UnknownMember,
)

PARTITIONS, RECORDS, WORKERS, LOSSES, BATCH = 12, 5_000, 4, 40, 25

names = (f"worker-{n}" for n in itertools.count())
sent = []  # each commit as it was sent


def is_done(cluster):
    return all(cluster.committed(p) == cluster.end(p) for p in range(PARTITIONS))


def work(cluster):
    """One member: it follows its group, and reads and commits what it is leased."""
    member, lease = cluster.join(next(names)), None
    while not is_done(cluster):
        try:
            step = cluster.next_step(member)
            if step == Step.SYNC:
                lease = cluster.sync(member)
            elif step == Step.REJOIN:
                cluster.rejoin(member, lease.generation, lease.partitions)
            elif lease is not None:
                read(cluster, member, lease)
        except (StaleGeneration, NotOwner):
            pass  # somebody was faster: ask again for the next step
        except UnknownMember:
            # The group takes it for lost. What it has not committed, others read again.
            member, lease = cluster.join(next(names)), None


def read(cluster, member, lease):
    """Reads some records of each leased partition and commits them."""
    for partition, offset in lease.offsets.items():
        keys = cluster.read(partition, offset, BATCH)
        if not keys:
            continue
        time.sleep(0.0001)  # here a worker does its work
        commit = member, lease.generation, partition, offset, keys
        sent.append(commit)
        try:
            lease.offsets[partition] = cluster.commit(*commit)
        except OffsetMismatch as mismatch:
            lease.offsets[partition] = mismatch.committed


def disturb(cluster, rng):
    """Loses a member again and again, and sends old commits once more."""
    for _ in range(LOSSES):
        time.sleep(0.002)
        members = cluster.members()
        try:
            if members:
                cluster.lose(rng.choice(members))
            if sent:
                # Refused, unless it was late and is still due: then it counts, and only then.
                cluster.commit(*rng.choice(sent))
        except (UnknownMember, StaleGeneration, NotOwner, OffsetMismatch):
            pass


def main():
    keys = [f"user-{i * i % 257}".encode() for i in range(RECORDS)]
    with Cluster(partitions=PARTITIONS) as cluster:
        for key in keys:
            cluster.append(key)
        threads = [threading.Thread(target=work, args=(cluster,)) for _ in range(WORKERS)]
        threads.append(threading.Thread(target=disturb, args=(cluster, random.Random(1))))
        for thread in threads:
            thread.start()
        for thread in threads:
            thread.join()
        counts = cluster.counts()
        assert counts == Counter(keys), "a count differs from the plain one"
        print(f"{len(counts)} keys counted once, in generation {cluster.generation()}")


if __name__ == "__main__":
    main()
