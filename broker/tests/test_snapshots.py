"""Snapshots of a part in etcd: the log is cut after them, whoever comes late begins with one, and what is left in the middle hurts nobody."""

from __future__ import annotations

import hashlib
import json
import unittest
from typing import List
from unittest import mock

from broker import batches, snapshots
from broker.output import STANDARD_ERROR
from broker.tests.played_etcd import COMPACTED, DONE, LOST, PlayedEtcd, played_etcd, text_of
from broker.tests.support import until
from broker.tests.test_part import Running, in_log, parts

# A batch of one of these entries has some 70 bytes.
LONG = "x" * 40
LOG_BYTES = 300


async def ask_all(it: Running, count: int) -> None:
    for number in range(count):
        await it.ask(f"{number} {LONG}")


def last(played: PlayedEtcd) -> snapshots.Snapshot:
    found = played.values(f"{snapshots.LAST}0")
    return snapshots.decoded(found[f"{snapshots.LAST}0"].encode()) if found else snapshots.NONE


def places(played: PlayedEtcd) -> List[int]:
    return [batches.part_and_place(key)[1] for key in played.values(batches.LOGS)]


def is_whole(played: PlayedEtcd) -> bool:
    """All pieces of the last snapshot are there."""
    it, pieces = last(played), played.values(snapshots.PIECES)
    return all(snapshots.piece_key(0, it.place, number) in pieces for number in range(it.pieces))


def is_tidy(played: PlayedEtcd) -> bool:
    """The log is cut, and only the pieces of the last snapshot and of the one before are there."""
    it, pieces = last(played), played.values(snapshots.PIECES)
    folders = {piece.rpartition("/")[0] for piece in pieces}
    wanted = {snapshots.folder(0, place) for place in (it.before, it.place) if place}
    return places(played)[0] == it.before + 1 and is_whole(played) and folders == wanted


def depose(played: PlayedEtcd) -> None:
    played.delete(played.pairs["migwelun/cluster/leaders/0"]["key"])


@mock.patch("broker.snapshotting.PIECE_BYTES", 100)
@mock.patch("broker.snapshotting.CUT_PLACES", 2)
class Snapshots(unittest.IsolatedAsyncioTestCase):
    async def test_the_log_is_cut_behind_snapshots(self) -> None:
        async with parts(2, LOG_BYTES) as (played, said, it, other):
            await it.lead()
            await until(other.part.follower.has_read_up.is_set)
            await ask_all(it, 30)
            await until(lambda: last(played).place > 15 and is_tidy(played))
            found = last(played)
            self.assertTrue(0 < found.before < found.place <= 32 and found.pieces > 1, found)
            self.assertTrue(played.compacted and max(played.compacted) < played.revision)
            # One that is far behind goes on with the snapshot, and so does one that comes late.
            late = Running(it.lease.etcd, 2)
            other.part.look_again()
            for each in (other, late):
                await until(lambda: each.part.follower.place == 32)
                self.assertEqual((each.replica.applied, each.part.follower.logged), (it.replica.applied, it.part.follower.logged))
            await late.end()
        self.assertEqual(said, [])

    async def test_all_is_there_after_everything_was_killed(self) -> None:
        """And etcd has forgotten more already than it is asked to."""
        async with parts(1, LOG_BYTES) as (played, said, it):
            played.fate = lambda path, request: COMPACTED if path == "kv/compaction" else DONE
            await it.lead()
            await ask_all(it, 30)
            await until(lambda: is_tidy(played))
            before, cut = [*it.replica.applied], last(played)
            await it.end()
            depose(played)
            again = Running(it.lease.etcd, 1, LOG_BYTES)
            await again.lead()
            self.assertEqual((await again.ask("a"), again.replica.applied), ("a", [*before, "leads", "frame a"]))
            # Its snapshots go on where those before ended.
            await ask_all(again, 10)
            await until(lambda: last(played).place > cut.place and is_tidy(played))
            self.assertGreaterEqual(last(played).before, cut.place)
            await again.end()
        self.assertEqual(said, [])

    async def test_a_leader_that_ends_in_the_middle_hurts_nobody(self) -> None:
        """All but the key that names it is written; then another one leads."""
        async with parts(1, LOG_BYTES) as (played, _, it):
            await it.lead()
            played.fate = lambda path, request: LOST if path == "kv/txn" and '"checksum"' in text_of(request) else DONE
            await ask_all(it, 8)
            await until(lambda: played.values(snapshots.PIECES))
            # Whoever asks is answered meanwhile.
            self.assertEqual(await it.ask("a"), "a")
            before = [*it.replica.applied]
            self.assertEqual(([*in_log(played)], last(played)), (before, snapshots.NONE))
            await it.end()
            depose(played)
            other = Running(it.lease.etcd, 1)
            await other.lead()
            await until(lambda: not played.values(snapshots.PIECES))
            self.assertEqual((await other.ask("b"), other.replica.applied), ("b", [*before, "leads", "frame b"]))
            await other.end()

    async def test_snapshots_that_are_refused_stop_the_part(self) -> None:
        piece, key = snapshots.piece_key(0, 2, 0), f"{snapshots.LAST}0"
        whole = json.dumps(["leads", "topics"]).encode()
        named = snapshots.Snapshot(2, 99, 0, 1, len(whole), hashlib.sha256(whole).hexdigest(), 0.1)
        rows = [
            (b"{", whole, "its key can't be read: "),
            (b"{}", whole, "its key can't be read: "),
            (named.encoded(), None, "piece 0 isn't there"),
            (named.encoded(), whole[:-1], "its bytes aren't those that were written"),
            (named._replace(size=1, checksum=hashlib.sha256(b"[").hexdigest()).encoded(), b"[", "Expecting value"),
        ]
        for value, pieces, why in rows:
            said: List[str] = []
            async with played_etcd() as (played, etcd):
                for name, text in ((key, value), (piece, pieces), (batches.key(0, 3), batches.encode(1, 1, [b"tick"]))):
                    if text is not None:
                        played.put(text_of(name), text_of(text))
                with mock.patch.object(STANDARD_ERROR, "line", said.append):
                    it = Running(etcd, 0)
                    await until(lambda: said)
                    await it.end()
            self.assertEqual((len(said), f"the snapshot is refused: {why}" in said[0]), (1, True), said)
