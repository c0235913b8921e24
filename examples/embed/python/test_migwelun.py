"""The coordinator inside this program. MIGWELUN_LIBRARY is libmigwelun.so."""

import os
import unittest

import migwelun

LIBRARY = os.environ["MIGWELUN_LIBRARY"]
TOPIC = b"\x11" * 16
FIRST = "00000000-0000-0000-0000-000000000001"
# A join of group g that subscribes t, and its reply (KIP-848; Kafka protocol guide): partitions 0 and 1, at member epoch 1.
JOIN = bytes.fromhex("0044000000000007ffff000267010000000000000000ea60020274000100")
REPLY = bytes.fromhex("0000005700000007000000000000000025") + FIRST.encode()
REPLY += bytes.fromhex("0000000100001388010211111111111111111111111111111111030000000000000001000000")


class Embedded(unittest.TestCase):
    def test_a_member_comes_and_goes(self) -> None:
        with migwelun.Coordinator(LIBRARY, salt=0) as it:
            it.set_topics([("t", TOPIC, 2)])
            found = [it.answer(JOIN, 1, 1, 0), it.epochs("g", FIRST), it.epochs("g", "n"), it.remembers("g", FIRST), it.remembers("h", FIRST)]
            found += [it.answer(JOIN[:-1], 1, 2, 0), it.tick(44_999), it.tick(45_000), it.epochs("g", FIRST), it.remembers("g", FIRST)]
        self.assertEqual(found, [REPLY, (1, 0), None, True, False, None, 0, 1, None, True])

    def test_faults_of_topics(self) -> None:
        with migwelun.Coordinator(LIBRARY) as it:
            for topics, why in (
                ([("t", TOPIC, 1), ("t", b"\x22" * 16, 1)], "name"),
                ([("t", TOPIC, 1), ("u", TOPIC, 1)], "id"),
                ([("t", TOPIC, 0)], "partition"),
                ([("t", TOPIC, 1_000_001)], "partitions"),
                ([("t", TOPIC[1:], 1)], "15 bytes"),
            ):
                self.assertRaisesRegex(ValueError, why, it.set_topics, topics)


class Replicated(unittest.TestCase):
    # Entries have a version and a kind of two bytes each, and a leadership of four; then a frame has its connection, its number, its
    # moment and its body.
    LEADS = bytes.fromhex("0000000300000001")
    TOPICS = bytes.fromhex("0000000200000001020274") + TOPIC + bytes.fromhex("00000002")
    FRAME = bytes.fromhex("00000000000000010000000700000000000000010000000000000000") + JOIN
    TICK = bytes.fromhex("0000000100000001000000000000afc8")
    LOG = (LEADS, TOPICS, FRAME, TICK)
    APPLIED = [
        ("leads", 1, 0, 0, None, 0, None),
        ("topics", 1, 0, 0, None, 0, None),
        ("frame", 1, 7, 1, REPLY, 0, None),
        ("tick", 1, 0, 0, None, 1, None),
    ]

    def test_a_leader_proposes_and_applies(self) -> None:
        with migwelun.Replica(LIBRARY, 0) as it:
            entries = [it.lead()]
            found = [it.apply(1, entries[0])]
            it.begin(5_000)
            for propose in (
                lambda: it.propose_topics([("t", TOPIC, 2)]),
                # The clock went back: time stands still.
                lambda: it.propose(JOIN, connection=7, frame=1, clock=4_000),
                lambda: it.propose_tick(50_000),
            ):
                entries.append(propose())
                found.append(it.apply(len(entries), entries[-1]))
            self.assertEqual((tuple(entries), found, it.place()), (self.LOG, self.APPLIED, (4, 1, 45_000)))
            self.assertEqual((it.remembers("g", FIRST), it.committed("g", "t", 0)), (True, None))

    def test_a_follower_applies_the_same(self) -> None:
        with migwelun.Replica(LIBRARY, 0) as it:
            self.assertEqual([it.apply(place, entry) for place, entry in enumerate(self.LOG, 1)], self.APPLIED)

    def test_entries_are_refused(self) -> None:
        with migwelun.Replica(LIBRARY, 0) as it:
            self.assertRaisesRegex(migwelun.BadEntry, "lead", it.propose_tick, 0)
            for place, entry, why in ((2, self.LEADS, "place"), (1, b"\0\1" + self.LEADS[2:], "version")):
                self.assertRaisesRegex(migwelun.BadEntry, why, it.apply, place, entry)
            self.assertEqual(it.place(), (0, 0, 0))

    def test_refused_entries_are_passed_over(self) -> None:
        """A late one of a leadership that is over, among others. The log goes on behind them as if they weren't there."""
        refused = (
            (self.TICK[:7] + b"\2" + self.TICK[8:], "leadership"),
            (self.LEADS, "leadership"),
            (self.TICK[:8] + bytes(8), "moment"),
            (self.LEADS + b"\0", "left"),
            (self.LEADS[:2] + b"\0\4" + self.LEADS[4:], "kind"),
            (self.LEADS[:-1], "field"),
            (self.TOPICS[:-4] + bytes(4), "partition"),
            (b"", "field"),
        )
        with migwelun.Replica(LIBRARY, 0) as it:
            found = [it.apply(1, self.LEADS), it.apply(2, self.TICK)]
            for place, (entry, why) in enumerate(refused, 3):
                passed = it.apply(place, entry)
                self.assertEqual((passed[:6], why in str(passed.why)), (("passed over", 1, 0, 0, None, 0), True), passed)
            self.assertEqual((found[1].removed, it.place()), (0, (2 + len(refused), 1, 45_000)))
            later = self.FRAME[:20] + self.TICK[8:] + JOIN
            self.assertEqual((it.apply(11, self.TOPICS), it.apply(12, later)), tuple(self.APPLIED[1:3]))

    def test_a_replica_is_restored_of_its_snapshot(self) -> None:
        with migwelun.Replica(LIBRARY, 0) as it, migwelun.Replica(LIBRARY, 5) as other:
            for place, entry in enumerate(self.LOG[:3], 1):
                it.apply(place, entry)
            # The head, and the one group.
            head, group = it.snapshot(1)
            self.assertEqual([*it.snapshot()], [head + group])
            other.restore(head + group)
            self.assertEqual((other.place(), [*other.snapshot(1)], other.epochs("g", FIRST)), (it.place(), [head, group], (1, 0)))
            for snapshot, why in ((head, "cut"), (b"", "byte 0"), (head + group + b"\0", "left"), (b"\0\1" + head[2:] + group, "value")):
                self.assertRaisesRegex(migwelun.BadSnapshot, why, other.restore, snapshot)
            writing = it.snapshot(1)
            next(writing)
            self.assertEqual((other.apply(4, self.TICK), it.apply(4, self.TICK)), (self.APPLIED[3],) * 2)
            self.assertRaisesRegex(migwelun.BadEntry, "place", next, writing)


if __name__ == "__main__":
    unittest.main()
