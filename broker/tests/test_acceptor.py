"""When a connection wasn't open for its client yet: it may be older than the moment at which it is accepted."""

from __future__ import annotations

import asyncio
import contextlib
import socket
import time
import unittest
from typing import Iterator, List
from unittest import mock

from broker.acceptor import Accepted, Door
from broker.newest import Newest
from broker.output import STANDARD_ERROR
from broker.tests.support import HOST, SECONDS


@contextlib.contextmanager
def door(backlog: int) -> Iterator[Door]:
    with socket.create_server((HOST, 0), backlog=backlog) as listener:
        listener.setblocking(False)
        it = Door(listener)
        it.port = listener.getsockname()[1]  # type: ignore[attr-defined]
        yield it


def connected(it: Door) -> socket.socket:
    return socket.create_connection((HOST, it.port))  # type: ignore[attr-defined]


async def next_of(it: Door) -> Accepted:
    return await asyncio.wait_for(it.accept(), SECONDS)


class Acceptor(unittest.IsolatedAsyncioTestCase):
    async def test_what_waited_may_be_as_old_as_the_last_look(self) -> None:
        with door(5) as it, contextlib.ExitStack() as stack:
            moments = [time.monotonic()]
            coming = asyncio.ensure_future(next_of(it))
            await asyncio.sleep(0.05)
            for _ in range(3):
                moments.append(time.monotonic())
                stack.enter_context(connected(it))
            found = [await coming, await next_of(it), await next_of(it)]
            # (Nobody has looked since these came.)
            moments.append(time.monotonic())
            coming = asyncio.ensure_future(next_of(it))
            await asyncio.sleep(0.05)
            stack.enter_context(connected(it))
            found.append(await coming)
            for each in found:
                each.socket.close()
        self.assertTrue(all(moments[0] <= each.since <= moments[1] for each in found[:3]), (moments, found))
        self.assertTrue(moments[4] <= found[3].since <= time.monotonic(), (moments, found))

    async def test_a_connection_that_came_before_the_first_look_may_be_of_any_age(self) -> None:
        with door(5) as it, connected(it):
            accepted = await next_of(it)
            accepted.socket.close()
        self.assertLess(accepted.since, 0)

    async def test_a_connection_whose_opening_took_long_is_closed(self) -> None:
        """(The system says so of one whose last segment of that was lost: `tools/check-failover` has it.)"""
        said: List[str] = []
        opening = mock.patch("broker.acceptor._opening_seconds", mock.Mock(side_effect=[None, 0.5]))
        with door(5) as it, mock.patch.object(STANDARD_ERROR, "line", said.append), opening:
            coming = asyncio.ensure_future(next_of(it))
            await asyncio.sleep(0.05)
            moment = time.monotonic()
            with connected(it) as late, connected(it):
                accepted = await coming
                ended = await asyncio.to_thread(_ended, late)
                accepted.socket.close()
        self.assertEqual((ended, len(said), "took long to open" in said[0]), (True, 1, True))
        self.assertLess(accepted.since, moment - 0.5)


def _ended(connection: socket.socket) -> bool:
    with contextlib.suppress(ConnectionError):
        return not connection.recv(1)
    return True


class Commits(unittest.TestCase):
    def test_a_commit_over_an_earlier_connection_is_late(self) -> None:
        it = Newest()
        rows = [("m", 2, False), ("m", 2, False), ("m", 1, True), ("n", 1, False), ("m", 3, False), ("m", 2, True), ("", 9, False), ("", 1, False)]
        self.assertEqual([(member, number, it.is_late("g", member, number)) for member, number, _ in rows], rows)
        self.assertFalse(it.is_late("h", "m", 1))

    def test_those_that_committed_last_are_known(self) -> None:
        it = Newest()
        with mock.patch("broker.newest.MOST", 2):
            found = [it.is_late("g", member, number) for member, number in (("a", 5), ("b", 5), ("a", 5), ("c", 5), ("a", 1), ("b", 1))]
        self.assertEqual(found, [False, False, False, False, True, False])
