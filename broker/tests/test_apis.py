"""The APIs that are answered here: requests and replies of apis.txt."""

from __future__ import annotations

import pathlib
import unittest
from typing import Any, Iterator, List, Tuple
from unittest import mock

from broker.apis import ANSWERS
from broker.call import Call
from broker.cluster import Cluster, group_number, java_hash
from broker.frames import Reply, read_request
from broker.link import CoordinatorClosed
from broker.turns import Pace
from broker.watch import Watch
from broker.tests.support import data, run_alone, small_cluster

TABLE = pathlib.Path(__file__).with_name("apis.txt")
# `String.hashCode` as Java's own documentation and its users know it; the last is the least number of 32 bits.
HASHES = [("", 0), ("a", 97), ("hello", 99162322), ("Aa", 2112), ("BB", 2112), ("é", 233), ("😀", 1772899), ("polygenelubricants", -(1 << 31))]
# Where a group lies among three.
NUMBERS = [("", 0), ("a", 1), ("b", 2), ("hello", 1), ("Aa", 0), ("polygenelubricants", 0)]


def rows() -> Iterator[Tuple[str, str, str]]:
    """Each entry's title, request and reply."""
    entries = [entry for entry in TABLE.read_text().split("\n\n") if not entry.startswith("#")]
    for entry in entries:
        title, request, reply = entry.strip().split("\n")
        yield title, request[2:], reply[2:]


def answer(cluster: Cluster, text: str, node: int = 0) -> bytes:
    """The reply of a node to a request that doesn't go on to the coordinator."""
    nobody: Any = mock.AsyncMock()

    async def pieces() -> Reply:
        request = read_request(data(text), Pace(cluster.turns))
        return await ANSWERS[request.key](Call(request, cluster, cluster.nodes[node], nobody, Watch(cluster.topics, lambda _: None)))

    return b"".join(run_alone(cluster, pieces))


def five_seconds_later() -> Cluster:
    moments = iter([0.0])
    return small_cluster(clock=lambda: next(moments, 5.0))


class Apis(unittest.TestCase):
    maxDiff = None

    def test_replies(self) -> None:
        found = [(title, answer(five_seconds_later(), request).hex()) for title, request, _ in rows()]
        self.assertEqual(found, [(title, data(reply).hex()) for title, _, reply in rows()])

    def test_hashes(self) -> None:
        self.assertEqual([(text, java_hash(text)) for text, _ in HASHES], HASHES)

    def test_groups_over_three(self) -> None:
        self.assertEqual([(group, group_number(group, 3)) for group, _ in NUMBERS], NUMBERS)

    def test_other_nodes_refuse_the_group(self) -> None:
        cluster = small_cluster(2)
        asked = [
            "0044 0000 00000007 ffff 00 06 'hello' 01 00000000 00 00 0000ea60 02 07 'orders' 00 01 00",
            "0008 0009 00000008 ffff 00 06 'hello' 00000002 02 'm' 00 02 07 'orders' 02 00000001 0000000000000005 ffffffff 00 00 00 00",
        ]
        refused = [
            "00000007 00 00000000 0010 26 'another broker coordinates this group' 00 00000000 00000000 ff 00",
            "00000008 00 00000000 02 07 'orders' 02 00000001 0010 00 00 00",
        ]
        self.assertEqual([answer(cluster, text, node=1).hex() for text in asked], [data(text).hex() for text in refused])
        with self.assertRaisesRegex(CoordinatorClosed, "it asked for the offsets of hello, which isn't coordinated from here"):
            answer(cluster, "0009 0009 00000005 ffff 00 02 06 'hello' 02 'm' 00000002 00 00 01 00", node=1)

    def test_a_partition_may_have_no_leader_for_now(self) -> None:
        cluster = small_cluster(partitions=1)
        with mock.patch.object(cluster, "leader_of", lambda _: None):
            reply = answer(cluster, "0003 000b 00000002 0001 'c' 00 00 00 00 00")
        self.assertIn(data("07 'orders' 11111111111111111111111111111111 00 02 0005 00000000 ffffffff 00000000 01 01 01 00"), reply)

    def test_partitions_have_leaders_all_round(self) -> None:
        leaders: List[int] = [small_cluster(3).leader_of(index).id for index in range(7)]
        self.assertEqual(leaders, [0, 1, 2, 0, 1, 2, 0])
