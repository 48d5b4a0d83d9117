"""Calls each function of the module, and compares with what the rules say."""

import gc
import unittest

import keycount
from keycount import Cluster, Consumer, Phase, Step


class Calls(unittest.TestCase):
    def test_records_are_appended_and_read(self):
        # The partitions are those of Kafka's own tests of murmur2.
        with Cluster(partitions=4) as c:
            self.assertEqual(c.append(b"foobar"), (2, 0))
            self.assertEqual(c.append("21"), (0, 0))
            self.assertEqual(c.append(b"21"), (0, 1))
            self.assertEqual(c.read(0, 0), [1, 1])
            self.assertEqual(c.read(0, 0, most=1), [1])
            self.assertEqual(c.read(0, 2), [])
            self.assertEqual([c.key(0), c.key(1)], [b"foobar", b"21"])
            self.assertEqual([c.end(p) for p in range(4)], [2, 0, 1, 0])
            self.assertEqual(c.counts(), {b"foobar": 0, b"21": 0})
            with self.assertRaises(keycount.KeyTooLong):
                c.append(b"x" * 65536)
            c.append(b"")
            self.assertEqual(c.key(2), b"")
            self.assertEqual(c.append(b"x" * 65535)[1], c.end(c.append(b"x" * 65535)[0]) - 2)
            self.assertEqual(c.key(3), b"x" * 65535)

    def test_keys_have_their_places(self):
        self.assertEqual(keycount.murmur2(b"foobar"), 2**32 - 790332482)
        self.assertEqual(keycount.murmur2("21"), 2**32 - 973932308)
        self.assertEqual([keycount.place(n, b"foobar") for n in (1, 3, 4)], [0, 0, 2])
        self.assertEqual(keycount.place_all(4, [b"foobar", "", "21"]), [2, 275646681 % 4, 0])
        self.assertEqual(keycount.place_all(4, []), [])
        for partitions in (0, 4097):
            with self.assertRaises(ValueError):
                keycount.place(partitions, b"foobar")
            with self.assertRaises(ValueError):
                keycount.place_all(partitions, [b"foobar"])

    def test_partitions_are_assigned_and_withheld(self):
        # Two of six each: b keeps its lowest two, a its only one, and the free ones go to a, then
        # to c. What b still owns is withheld; d has left.
        owned = {"a": {5}, "b": {0, 1, 2, 3}, "c": ()}
        target = {"a": {2, 5}, "b": {0, 1}, "c": {3, 4}}
        self.assertEqual(keycount.assign(6, owned), target)
        self.assertEqual(keycount.withhold(6, target, {**owned, "d": [4]}),
                         {"a": {5}, "b": {0, 1}, "c": {4}})
        # The larger shares go to those who own more than the smaller, and then to the first.
        self.assertEqual(keycount.assign(5, {1: [0], 2: [1, 2, 3], 3: []}),
                         {1: {0, 3}, 2: {1, 2}, 3: {4}})
        for partitions, rows in [(6, {}), (0, {1: ()}), (4097, {1: ()}), (2, {1: [2]}), (2, {1: [-1]}),
                                 (2, {1: [0], 2: [0]})]:
            with self.assertRaises(ValueError):
                keycount.assign(partitions, rows)

    def test_partitions_move_when_they_are_given_up(self):
        with Cluster(partitions=4) as c:
            self.assertEqual(c.phase(), Phase.EMPTY)
            a, b = c.join("A"), c.join("B")
            self.assertEqual((a, b), (1, 2))
            self.assertEqual(c.phase(), Phase.PREPARING)
            self.assertEqual(c.next_step(a), Step.SYNC)
            lease = c.sync(a)
            self.assertEqual(lease, (1, {0: 0, 1: 0, 2: 0, 3: 0}))
            self.assertEqual(c.next_step(a), Step.REJOIN)
            c.rejoin(a, lease.generation, lease.partitions)
            self.assertEqual((c.granted(a), c.assigned(a)), ({0, 1, 2, 3}, {0, 1}))
            lease = c.sync(a)
            c.rejoin(a, lease.generation, lease.partitions)
            lease = c.sync(b)
            self.assertEqual(lease.partitions, set())
            self.assertFalse(c.is_settled())
            c.rejoin(b, lease.generation, lease.partitions)
            self.assertTrue(c.is_settled())
            self.assertEqual((c.generation(), c.phase()), (3, Phase.STABLE))
            self.assertEqual((c.granted(a), c.granted(b)), ({0, 1}, {2, 3}))
            self.assertEqual([c.owner(p) for p in range(5)], [a, a, b, b, None])
            self.assertEqual(c.moves()[:4], [(1, p, None, a) for p in range(4)])
            self.assertEqual(c.moves(4), [(3, 2, a, b), (3, 3, a, b)])
            c.sync(a)
            self.assertEqual(c.next_step(a), Step.READ)
            c.leave(a)
            c.lose(b)
            self.assertEqual(c.members(), [])

    def test_a_static_member_comes_back(self):
        with Cluster(partitions=2) as c:
            self.assertIsNone(c.member_named("A"))
            first = c.join("A", static=True)
            self.assertTrue(c.is_kept(first))
            again = c.take_over("A")
            self.assertEqual((again, c.members()), (2, [2]))
            self.assertEqual((c.is_kept(first), c.is_kept(again)), (False, True))
            self.assertEqual((c.member_named("A"), c.name(first)), (again, "A"))
            self.assertEqual(c.sync(again).partitions, {0, 1})

    def test_a_commit_counts_once(self):
        with Cluster(partitions=[2, 3]) as c:
            for _ in range(3):
                self.assertEqual(c.append(b"foobar", topic=1)[0], 2)
            a = c.join("A")
            g = c.sync(a).generation
            self.assertEqual(c.commit(a, g, 2, 0, c.read(2, 0, most=2)), 2)
            with self.assertRaises(keycount.OffsetMismatch) as caught:
                c.commit(a, g, 2, 0, [0, 0])
            self.assertEqual(caught.exception.committed, 2)
            self.assertEqual((c.committed(2), c.counts()), (2, {b"foobar": 2}))

    def test_a_consumer_follows_its_group(self):
        with Cluster(partitions=4) as c:
            for _ in range(3):
                c.append(b"foobar")
            a = Consumer(c)
            with self.assertRaises(keycount.OutOfGroup):
                a.poll(2)
            member = a.join("A")
            self.assertEqual((a.member(), a.step(), a.step()), (member, Step.SYNC, Step.READ))
            self.assertEqual((a.generation(), a.holding()), (1, {0, 1, 2, 3}))
            with self.assertRaises(keycount.EmptyCommit):
                a.commit(2)
            self.assertEqual((a.poll(2, most=2), a.base(2), a.position(2)), ([0, 0], 0, 2))
            self.assertEqual(a.commit(2), 2)
            # Somebody else commits in its name: it is told so, and goes on from there.
            self.assertEqual(a.poll(2), [0])
            c.commit(*a.pending(2)[:2], 2, *a.pending(2)[2:])
            with self.assertRaises(keycount.OffsetMismatch):
                a.commit(2)
            self.assertEqual((a.base(2), c.counts()), (3, {b"foobar": 3}))
            # Half of its partitions go to another.
            b = Consumer(c)
            b.join("B")
            self.assertEqual((a.step(), a.step()), (Step.REJOIN, Step.SYNC))
            self.assertEqual((a.generation(), a.holding()), (2, {0, 1, 2, 3}))
            a.give_up()
            self.assertEqual(a.holding(), {0, 1})
            while not c.is_settled():
                a.step(), b.step()
            self.assertEqual((c.granted(member), c.granted(b.member())), ({0, 1}, {2, 3}))
            with self.assertRaises(keycount.NotHeld):
                a.poll(2)
            b.step()
            self.assertEqual((b.position(2), b.poll(2)), (3, []))
            c.lose(member)
            with self.assertRaises(keycount.UnknownMember):
                a.step()
            b.leave()
            self.assertEqual((b.member(), c.members()), (None, []))

    def test_refusals_have_their_names(self):
        with Cluster(partitions=4) as c:
            a = c.join("A")
            c.append(b"21")
            for refusal, call in [
                (keycount.NameUsed, lambda: c.join("A")),
                (keycount.NotKept, lambda: c.take_over("A")),
                (keycount.UnknownMember, lambda: c.leave(9)),
                (keycount.UnknownMember, lambda: c.granted(9)),
                (keycount.UnknownMember, lambda: c.name(9)),
                (keycount.SyncFirst, lambda: c.rejoin(a, 1, range(4))),
                (keycount.StaleGeneration, lambda: c.rejoin(a, 2, range(4))),
                (keycount.StaleGeneration, lambda: c.commit(a, 2, 0, 0, [0])),
                (keycount.NotOwner, lambda: c.commit(a, 1, 4, 0, [0])),
                (keycount.EmptyCommit, lambda: c.commit(a, 1, 0, 0, [])),
                (keycount.PastEnd, lambda: c.commit(a, 1, 0, 0, [0, 0])),
                (keycount.WrongRecords, lambda: c.commit(a, 1, 0, 0, [1])),
            ]:
                with self.assertRaises(refusal) as caught:
                    call()
                self.assertEqual(type(caught.exception), refusal)
            c.sync(a)
            with self.assertRaises(keycount.NothingToGive):
                c.rejoin(a, 1, range(4))
            b = c.join("B")
            with self.assertRaises(keycount.RebalanceInProgress):
                c.sync(b)
            with self.assertRaises(keycount.ClaimDiffers):
                c.rejoin(a, 1, {0})
            with self.assertRaises(keycount.AlreadyJoined):
                c.rejoin(b, 1, [])
            for n in range(510):
                c.join(f"n{n}")
            with self.assertRaises(keycount.TooManyMembers):
                c.join("one-more")
            self.assertEqual(len(c.members()), 512)

    def test_arguments_are_tested(self):
        for partitions in [0, 4097, [], [1] * 9, [4096, 1], -1]:
            with self.assertRaises(ValueError):
                Cluster(partitions=partitions)
        with self.assertRaises(ValueError):
            Cluster(partitions=1, seed=b"short")
        with Cluster(partitions=1, seed=bytes(32)) as c:
            for call in [
                lambda: c.append(b"k", topic=1),
                lambda: c.join("a b"),
                lambda: c.member_named("a b"),
                lambda: c.rejoin(1, 1, [1]),
                lambda: c.end(1),
                lambda: c.committed(-1),
                lambda: c.read(0, 1),
                lambda: c.key(0),
                lambda: c.count(2**32),
            ]:
                with self.assertRaises(ValueError):
                    call()

    def test_a_closed_cluster_says_so(self):
        c = Cluster(partitions=1)
        c.close()
        c.close()
        for call in [c.generation, c.members, lambda: c.join("A"), lambda: c.sync(1)]:
            with self.assertRaises(keycount.Closed):
                call()
        del c
        gc.collect()


if __name__ == "__main__":
    unittest.main()
