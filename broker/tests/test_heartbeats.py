"""The short way of heartbeats that change nothing: which take it, and that it leaves what the long one does."""

from __future__ import annotations

import asyncio
import unittest
from types import SimpleNamespace
from typing import Any, List, Optional, Tuple

from broker.feed import HEARTBEAT, Feed, Passed
from broker.fields import NO_TAGS, compact_nullable_string, compact_string, int16, int32, nullable_string
from broker.frames import SIZE, framed
from broker.heartbeats import Steady, steady
from broker.offsets import Offsets
from broker.tests.support import data, small_cluster, until
from broker.turns import Turns
from broker.watch import Watch

# The fields after the epoch: instance, rack, timeout, names, assignor and partitions; and the reply's: the assignment.
NOTHING_NEW, NOTHING_TOLD = "00 00 ffffffff 00 00 00 00", "ff 00"
ORDERS_0 = "01 02 11111111111111111111111111111111 02 00000000 00 00 00"
STEADY = Steady("g", "m", 3)


def request(new: str = NOTHING_NEW, group: str = "g", member: str = "m", epoch: int = 3, client: Optional[str] = "c", tags: bytes = NO_TAGS) -> bytes:
    return HEARTBEAT + int32(7) + nullable_string(client) + tags + compact_string(group) + compact_string(member) + int32(epoch) + data(new)


def reply(told: str = NOTHING_TOLD, code: int = 0, epoch: int = 3) -> bytes:
    return int32(7) + NO_TAGS + int32(0) + int16(code) + compact_nullable_string(None) + compact_nullable_string("m") + int32(epoch) + int32(5000) + data(told)


# A request and its reply, and what is known of them without reading them.
ROWS: List[Tuple[bytes, bytes, Optional[Steady]]] = [
    (request(), reply(), STEADY),
    (request(client=None), reply(), STEADY),
    (request(client=""), reply(), STEADY),
    (request(group="ä" * 60), reply(), Steady("ä" * 60, "m", 3)),
    (request(member="m" * 126), reply(), Steady("g", "m" * 126, 3)),
    (request(epoch=-1), reply(epoch=-1), Steady("g", "m", -1)),
    # Something new is said: an instance, a timeout, names, an assignor, partitions, tags.
    (request("02 'i' 00 ffffffff 00 00 00 00"), reply(), None),
    (request("00 00 0000ea60 00 00 00 00"), reply(), None),
    (request("00 00 ffffffff 02 07 'orders' 00 00 00"), reply(), None),
    (request("00 00 ffffffff 00 06 'range' 00 00"), reply(), None),
    (request("00 00 ffffffff 00 00 01 00"), reply(), None),
    (request("00 00 ffffffff 00 00 00 01 00 01 00"), reply(), None),
    # Something new is told: an assignment, another epoch, an error.
    (request(), reply(ORDERS_0), None),
    (request(), reply(epoch=4), None),
    (request(), reply(code=25), None),
    # Sizes of more than one byte, tags in the header, texts that are none, and bodies that are cut.
    (request(group="g" * 127), reply(), None),
    (request(member="m" * 127), reply(), None),
    (request(tags=data("01 00 01 00")), reply(), None),
    (request().replace(compact_string("g"), b"\2\xff"), reply(), None),
    (request().replace(compact_string("g"), b"\0"), reply(), None),
    (request()[:9], reply(), None),
    # What looks like a short body at the wrong place: a tag's value, tags in the header, a size of two bytes, and an empty assignment.
    (request(f"00 00 ffffffff 00 00 00 01 00 0a {NOTHING_NEW}"), reply(), None),
    (request(tags=data("01 02 01 05")), reply(), None),
    (request(group="g" * 126 + "\3"), reply(), None),
    (request(epoch=3 << 16), reply("01 01 00 00"), None),
    (data(NOTHING_NEW), reply(), None),
    (request(), reply()[:9], None),
]


class Short(unittest.TestCase):
    def test_which_heartbeats_change_nothing(self) -> None:
        self.assertEqual([(asked, told, steady(asked, told)) for asked, told, _ in ROWS], ROWS)


class Fed(unittest.IsolatedAsyncioTestCase):
    async def watched(self, *passed: Tuple[float, bytes, bytes]) -> Any:
        """What is known of the group after these heartbeats, each at a moment; and what was said and counted."""
        now, lines = [0.0], []
        watch = Watch(small_cluster().topics, lines.append, lambda: now[0], has_log=True)
        feed = Feed(Offsets(), watch, Turns(), lambda *_: False)
        running = asyncio.ensure_future(feed.run())
        for now[0], asked, told in passed:
            feed.put(Passed(bytes(SIZE * 7) + asked, SimpleNamespace(kind="frame", reply=framed(told)), True))
            await until(feed.is_told)
        running.cancel()
        return watch.groups.groups["g"].members, lines, [*watch.heartbeats.lines()]

    async def test_the_short_way_leaves_what_the_long_one_does(self) -> None:
        join = (1.0, request("00 00 0000ea60 02 07 'orders' 00 01 00", epoch=0), reply(ORDERS_0))
        # (The same heartbeat with tags in its header is read.)
        short, read = request(), request(tags=data("01 00 01 00"))
        found = [await self.watched(join, (2.0, asked, reply()), (3.0, asked, reply())) for asked in (short, read)]
        self.assertEqual(found[0], found[1])
        self.assertEqual((found[0][0]["m"].heard, found[0][1]), (3.0, ["g  m  epoch 3  joins; subscribes orders; is assigned orders[0]"]))

    async def test_a_member_that_is_not_known_as_it_says_is_read(self) -> None:
        """It was told its epoch by another broker, which this one hasn't heard; and it was away."""
        join = (1.0, request("00 00 0000ea60 02 07 'orders' 00 01 00", epoch=0), reply(ORDERS_0))
        away = (2.0, request(epoch=-2), reply(epoch=-2))
        for before, epoch in (([], 3), ([join], 4), ([join, away], 3)):
            members, *_ = await self.watched(*before, (5.0, request(epoch=epoch), reply(epoch=epoch)))
            self.assertEqual((members["m"].heard, members["m"].epoch, members["m"].is_away), (5.0, epoch, False), before)
