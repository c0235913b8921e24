"""What is made of the heartbeats and commits that pass: lines, JSON and metrics."""

from __future__ import annotations

import json
import pathlib
import re
import unittest
import uuid
from typing import Any, Dict, Iterable, List, Optional, Tuple
from unittest import mock

from broker import groups
from broker.commits import Asked as Commit
from broker.commits import Partition, Result, Topic
from broker.heartbeats import Asked, ById, Told
from broker.offsets import Committed
from broker.partitions import Partitions
from broker.report import Report
from broker.watch import Watch
from broker.words import in_words, plain
from broker.tests.support import ORDERS, run_alone, small_cluster

README = pathlib.Path(__file__).resolve().parents[2] / "README.md"
A, B, C = (f"00000000-0000-0000-0000-00000000000{number}" for number in (1, 2, 3))


def of_orders(*indexes: int) -> ById:
    return {ORDERS: frozenset(indexes)}


class Conversation:
    """Heartbeats and commits of a group, each at a moment, and what is made of them."""

    def __init__(self, name: str = "g", partitions: int = 2) -> None:
        self.name = name
        self.now = 0.0
        self.cluster = small_cluster(partitions=partitions)
        self.lines: List[str] = []
        self.watch = Watch(self.cluster.topics, self.lines.append, lambda: self.now)

    def beat(self, now: float, member: str, epoch: int, told: Told, **fields: Any) -> None:
        self.now = now
        self.watch.heartbeat("till", Asked(self.name, member, epoch, **fields), told)

    def join(self, now: float, member: str, epoch: int, shown: ById, instance: Optional[str] = None) -> None:
        self.beat(now, member, 0, Told(0, member, epoch, shown), names=["orders"], instance=instance, owned={})

    def commit(self, now: float, member: str, epoch: int, code: int) -> None:
        self.now = now
        topics = [Topic("orders", [Partition("orders", 1, Committed(9, 0, ""))])]
        self.watch.commit(Commit(self.name, epoch, member, topics), [Result("orders", 1, code)])

    def rebalance(self, *, count: int = 2) -> None:
        """A has all partitions; B joins, and gets half of them after five seconds."""
        kept, moved = of_orders(*range(count // 2)), of_orders(*range(count // 2, count))
        self.join(0, A, 1, of_orders(*range(count)))
        self.beat(5, A, 1, Told(0, A, 1))
        self.join(6, B, 2, of_orders())
        self.beat(10, A, 1, Told(0, A, 1, kept))
        self.beat(10.5, A, 1, Told(0, A, 2), owned=kept)
        self.beat(11, B, 2, Told(0, B, 2, moved))

    def group(self) -> Dict[str, Any]:
        found: Dict[str, Any] = self.known()["groups"][0]
        return found

    def known(self) -> Dict[str, Any]:
        found: Dict[str, Any] = json.loads(run_alone(self.cluster, Report(self.cluster, self.watch).groups))
        return found

    def metrics(self) -> str:
        return Report(self.cluster, self.watch).metrics()


REBALANCE = [
    "g  000001  epoch 1  joins; subscribes orders; is assigned orders[0..1]",
    "g  000002  epoch 2  joins; subscribes orders",
    "g  000001  epoch 1  revokes orders[1]",
    "g  000001  epoch 2  has given up orders[1]; was at epoch 1",
    "g  000002  epoch 2  is assigned orders[1]",
    "g  settled after 5.0 s",
]


class Groups(unittest.TestCase):
    maxDiff = None

    def test_a_rebalance_in_words(self) -> None:
        it = Conversation()
        it.rebalance()
        self.assertEqual(it.lines, REBALANCE)

    def test_the_rebalance_that_the_first_page_shows(self) -> None:
        it = Conversation("app", partitions=4)
        it.rebalance(count=4)
        shown = re.findall(r"^    (app  .*)$", README.read_text(encoding="utf-8"), re.M)
        self.assertEqual(it.lines, shown)

    def test_refusals_leaves_and_sessions_in_words(self) -> None:
        it = Conversation()
        it.rebalance()
        it.lines.clear()
        it.commit(12, B, 1, 113)
        it.beat(13, A, 2, Told(25))
        it.beat(14, "x\n", 7, Told(110))
        it.beat(15, B, -1, Told(0, B, -1))
        it.join(16, C, 4, of_orders(0, 1))
        it.now = 61.5
        it.watch.expire()
        self.assertEqual(
            it.lines,
            [
                "g  000002  epoch 1  STALE_MEMBER_EPOCH: its commit of orders[1]; the member is at 2",
                "g  000001  epoch 2  UNKNOWN_MEMBER_ID",
                "g  x\\u000a  epoch 7  FENCED_MEMBER_EPOCH",
                "g  000002  epoch 2  leaves",
                "g  000003  epoch 4  joins; subscribes orders; is assigned orders[0..1]",
                "g  000003  epoch 4  said nothing for 45 s: its session is over",
            ],
        )

    def test_refusals_with_what_is_known_of_the_member(self) -> None:
        it = Conversation()
        it.join(0, A, 1, of_orders(0, 1), instance="i")
        it.lines.clear()
        it.beat(1, "", 0, Told(111), names=["orders"], instance="i")
        it.beat(2, "", 0, Told(112), names=["orders"], assignor="sticky")
        it.beat(3, "", 0, Told(42))
        it.beat(4, A, 7, Told(110))
        self.assertEqual(
            it.lines,
            [
                "g  -  epoch 0  UNRELEASED_INSTANCE_ID; instance i is 000001's",
                "g  -  epoch 0  UNSUPPORTED_ASSIGNOR; the assignor sticky is neither range nor uniform",
                "g  -  epoch 0  INVALID_REQUEST; its topic names are null in a join",
                "g  000001  epoch 7  FENCED_MEMBER_EPOCH; the member is at 1",
            ],
        )

    def test_a_static_member_goes_away_and_comes_back_under_another_id(self) -> None:
        it = Conversation()
        it.join(0, A, 1, of_orders(0, 1), instance="i")
        it.beat(5, A, -2, Told(0, A, -2), instance="i")
        away = [(member["short_id"], member["is_away"]) for member in it.group()["members"]]
        it.join(9, B, 1, of_orders(0, 1), instance="i")
        back = [(member["short_id"], member["is_away"]) for member in it.group()["members"]]
        self.assertEqual((away, back), ([("000001", True)], [("000002", False)]))
        # The epoch is as it was, so that was no rebalance.
        self.assertIn("broker_rebalance_seconds_count 1", it.metrics())
        self.assertEqual(it.lines[1], "g  000001  epoch 1  goes away, and instance i has 45 s to come back")

    def test_members_that_wait_for_a_topic_are_said(self) -> None:
        # The coordinator doesn't have the topic, or not under this id.
        it = Conversation()
        it.join(0, A, 1, {})
        it.join(1, B, 2, {})
        it.beat(5, A, 1, Told(0, A, 2))
        for moment in (19, 21, 22):
            it.now = moment
            it.watch.expire()
        line = f"waits for orders[0..1], which the coordinator assigns to nobody: does it have orders:{ORDERS}:2?"
        self.assertEqual(it.lines[3:], [f"g  -  epoch 2  {line}"])
        self.assertEqual(it.group()["waits_for"], {"orders": [[0, 1]]})
        self.assertIn("broker_groups_waiting 1\n", it.metrics())
        it.beat(23, A, 2, Told(0, A, 2, of_orders(0, 1)))
        self.assertEqual((it.group()["waits_for"], it.group()["is_settled"]), (None, True))

    def test_what_is_known_during_a_rebalance(self) -> None:
        it = Conversation()
        it.join(0, A, 1, of_orders(0, 1))
        it.join(6, B, 2, of_orders())
        it.beat(10, A, 1, Told(0, A, 1, of_orders(0)))
        it.now = 10.25
        member = {"client": "till", "instance": None, "is_away": False, "assignor": None, "topics": ["orders"], "strange": ""}
        a = {"id": A, "short_id": "000001", "epoch": 1, "assigned": {"orders": [[0, 0]]}, "held": {"orders": [[0, 1]]}}
        a.update({"known_seconds": 10.2, "heard_seconds_ago": 0.2})
        b = {"id": B, "short_id": "000002", "epoch": 2, "assigned": {}, "held": {}, "known_seconds": 4.2, "heard_seconds_ago": 4.2}
        self.assertEqual(
            it.group(),
            {
                "name": "g",
                "node": 0,
                "epoch": 2,
                "is_settled": False,
                "rebalancing_seconds": 4.2,
                "changed_seconds_ago": 0.2,
                "waits_for": None,
                "more_members": 0,
                "committed": {"orders": 1},
                "lag": {"orders": 0},
                "members": [{**member, **a}, {**member, **b}],
                "offsets": {"orders": {"1": 7}},
            },
        )

    def test_a_coordinator_that_begins_anew_assigns_what_another_one_reads(self) -> None:
        it = Conversation()
        it.rebalance()
        it.join(12, B, 1, of_orders(0, 1))
        held = {member["short_id"]: member["held"] for member in it.group()["members"]}
        self.assertEqual((it.group()["is_settled"], held), (False, {"000001": {"orders": [[0, 0]]}, "000002": {"orders": [[0, 1]]}}))
        it.beat(13, A, 2, Told(25))
        self.assertEqual((it.group()["is_settled"], it.lines[-1]), (True, "g  settled after 1.0 s"))

    def test_what_is_not_known_is_said(self) -> None:
        # A member that joined before this program began: only its epoch is known until it is told something.
        it = Conversation()
        it.beat(0, A, 3, Told(0, A, 3))
        group = it.group()
        member = group["members"][0]
        self.assertEqual((group["is_settled"], group["rebalancing_seconds"], member["assigned"], member["topics"]), (None, None, None, None))
        self.assertEqual(it.lines, ["g  000001  epoch 3  is heard of for the first time"])

    def test_topics_that_were_not_named_are_left_out(self) -> None:
        it = Conversation()
        it.beat(0, A, 0, Told(0, A, 1, {uuid.UUID(int=5): frozenset([0]), ORDERS: frozenset([1, 2])}), names=["orders", "others"])
        strange = "00000000-0000-0000-0000-000000000005[0] orders[2]"
        line = f"joins; subscribes orders; is assigned orders[1]; is assigned {strange}, which isn't known here: the coordinator has other topics"
        self.assertEqual(it.lines, [f"g  000001  epoch 1  {line}"])
        self.assertEqual(it.group()["members"][0]["strange"], strange)

    def test_metrics_after_a_rebalance(self) -> None:
        it = Conversation()
        it.rebalance()
        it.commit(12, B, 2, 0)
        it.commit(12, B, 1, 113)
        it.beat(13, C, 2, Told(25))
        it.watch.answered("ConsumerGroupHeartbeat", 0.0004)
        wanted = [
            'broker_heartbeats_total{code="0",error="NONE"} 6',
            'broker_heartbeats_total{code="25",error="UNKNOWN_MEMBER_ID"} 1',
            'broker_committed_partitions_total{code="0",error="NONE"} 1',
            'broker_committed_partitions_total{code="113",error="STALE_MEMBER_EPOCH"} 1',
            'broker_answer_seconds_bucket{api="ConsumerGroupHeartbeat",le="0.00025"} 0',
            'broker_answer_seconds_bucket{api="ConsumerGroupHeartbeat",le="0.0005"} 1',
            'broker_answer_seconds_bucket{api="ConsumerGroupHeartbeat",le="+Inf"} 1',
            'broker_answer_seconds_sum{api="ConsumerGroupHeartbeat"} 0.0004',
            'broker_answer_seconds_count{api="ConsumerGroupHeartbeat"} 1',
            'broker_rebalance_seconds_bucket{le="0.5"} 1',
            'broker_rebalance_seconds_bucket{le="5"} 2',
            "broker_rebalance_seconds_sum 5.0",
            "broker_rebalance_seconds_count 2",
            'broker_group_members{group="g"} 2',
            "broker_groups 1",
            "broker_groups_rebalancing 0",
            "broker_committed_offsets 1",
            'broker_connections{node="0"} 0',
        ]
        lines = it.metrics().splitlines()
        self.assertEqual([line for line in wanted if line not in lines], [])

    def test_tables_are_bounded(self) -> None:
        it = Conversation()
        with mock.patch.object(groups, "MOST_WEIGHT", 1_000):
            for number in range(50):
                it.join(0, f"member-{number}", 1, of_orders())
        self.assertEqual((len(it.watch.groups.groups["g"].members), it.watch.groups.unwatched), (7, 43))
        self.assertLessEqual(it.watch.groups.weight, 1_000)
        with mock.patch.object(groups, "MOST_GROUPS", 1):
            it.watch.heartbeat("till", Asked("h", A, 0, names=["orders"]), Told(0, A, 1))
        self.assertEqual((list(it.watch.groups.groups), it.watch.groups.unwatched), (["g"], 44))


class Words(unittest.TestCase):
    def test_partitions(self) -> None:
        rows: List[Tuple[Dict[str, Iterable[int]], str]] = [
            ({}, "nothing"),
            ({"b": [3], "a": [0, 1, 5], "c": []}, "a[0..1,5] b[3]"),
            ({"a": range(0, 28, 2)}, "a[0,2,4,6,8,10,12,14,16,18,20,22,..]"),
            ({chr(97 + number): [0] for number in range(14)}, "a[0] b[0] c[0] d[0] e[0] f[0] g[0] h[0] i[0] j[0] k[0] l[0] .."),
        ]
        sets = [Partitions({topic: frozenset(indexes) for topic, indexes in topics.items()}) for topics, _ in rows]
        self.assertEqual([in_words(partitions) for partitions in sets], [text for _, text in rows])

    def test_texts_of_clients_are_printed_plainly(self) -> None:
        rows = [("orders-app", "orders-app"), ("a\tb\x1b[2J", "a\\u0009b\\u001b[2J"), ("é", "é"), ("x" * 70, "x" * 60 + "..")]
        self.assertEqual([plain(text) for text, _ in rows], [text for _, text in rows])
