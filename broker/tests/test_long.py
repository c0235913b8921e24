"""Long requests and replies, and clients that read none: what others see of them.

While a long one is under way, another client sends one heartbeat after the other. How many are answered is counted, not how long that took, so
that a busy machine changes nothing.
"""

from __future__ import annotations

import asyncio
import socket
import struct
import unittest
from typing import Awaitable, Dict

from broker.acceptor import listen
from broker.cluster import Cluster
from broker.fields import array, compact_array, compact_string, int8, int16, int32, int64, nullable_string, string
from broker.frames import framed
from broker.offsets import Committed
from broker.status import Status
from broker.tests.support import HOST, SECONDS, Client, accept_all, front, small_cluster
from broker.tests.test_connection import HEARTBEAT
from broker.tests.test_status import get

PARTITIONS = 50_000
ENTRIES = 20_000
# So many heartbeats are answered meanwhile at least. If nobody gives others a turn it is none, or one that came before.
BEATS = 4
# How long a busy machine may take for a long request.
LONG_SECONDS = 180


def cluster_of_many() -> Cluster:
    """A topic with many partitions, of 1,000 records each, and an offset of each."""
    cluster = small_cluster(partitions=PARTITIONS)
    cluster.log.records = 1_000
    for index in range(PARTITIONS):
        cluster.offsets.store("g", "orders", index, Committed(index, 0, ""))
    return cluster


def head(key: int, version: int, is_flexible: bool) -> bytes:
    return int16(key) + int16(version) + int32(1) + nullable_string(None) + (b"\0" if is_flexible else b"")


def of_topic(*entries: bytes) -> bytes:
    return array([string("orders") + array(entries)])


def fetch(entries: int, most_bytes: int) -> bytes:
    parts = (int32(index % PARTITIONS) + int64(0) + int32(most_bytes) for index in range(entries))
    return head(1, 4, False) + int32(-1) + int32(0) + int32(1) + int32(1 << 20) + int8(0) + of_topic(*parts)


def commit(entries: int) -> bytes:
    parts = compact_array(int32(index) + int64(5) + int32(0) + b"\0\0" for index in range(entries))
    return head(8, 9, True) + compact_string("g") + int32(1) + compact_string("m") + b"\0" + compact_array([compact_string("orders") + parts + b"\0"]) + b"\0"


def heartbeat(names: int) -> bytes:
    topics = compact_array(compact_string(f"topic-{number}") for number in range(names))
    return head(68, 0, True) + compact_string("h") + compact_string("m") + int32(1) + b"\0\0" + int32(-1) + topics + b"\0\0" + b"\0"


LONG: Dict[str, bytes] = {
    "Fetch of many records": fetch(400, 1 << 20),
    "Fetch of many partitions": fetch(ENTRIES, 1),
    "ListOffsets": head(2, 1, False) + int32(-1) + of_topic(*(int32(index) + int64(-1) for index in range(ENTRIES))),
    "Metadata": head(3, 9, True) + b"\0" + b"\0\0\0" + b"\0",
    "OffsetCommit": commit(ENTRIES),
    "OffsetFetch": head(9, 9, True) + compact_array([compact_string("g") + b"\0" + int32(-1) + b"\0" + b"\0"]) + b"\0\0",
    "OffsetForLeaderEpoch": head(23, 2, False) + of_topic(*(int32(index) + int32(0) + int32(0) for index in range(ENTRIES))),
    "ConsumerGroupHeartbeat": heartbeat(3 * ENTRIES),
}


def accept_long_commits(number: int, body: bytes) -> bytes:
    if body[:2] == b"\0\x44":
        return accept_all(number, body)
    results = compact_array(int32(index) + int16(0) + b"\0" for index in range(ENTRIES))
    return body[4:8] + b"\0" + int32(0) + compact_array([compact_string("orders") + results + b"\0"]) + b"\0"


async def beats_during(client: Client, long: Awaitable[object]) -> int:
    """How many heartbeats are answered until the other thing is there."""
    task, beats = asyncio.ensure_future(long), 0
    await asyncio.sleep(0)
    while not task.done():
        await client.ask(HEARTBEAT.format(beats))
        beats += 1
    assert task.result()
    return beats


class Long(unittest.IsolatedAsyncioTestCase):
    async def test_others_go_on_during_long_requests(self) -> None:
        beats: Dict[str, int] = {}
        async with front(accept_long_commits, cluster_of_many()) as it:
            long, short = await it.client(), await it.client()
            for name, request in LONG.items():
                long.writer.write(framed(request))
                beats[name] = await beats_during(short, long.body(LONG_SECONDS))
        self.assertEqual([name for name, count in beats.items() if count < BEATS], [], beats)

    async def test_others_go_on_while_the_page_is_made(self) -> None:
        cluster = cluster_of_many()
        async with front(cluster=cluster) as it:
            short = await it.client()
            with listen(HOST, 0) as listener:
                serving = asyncio.ensure_future(Status(cluster, it.watch).run(listener))
                beats = await beats_during(short, get(listener.getsockname()[1], "/groups"))
                serving.cancel()
                await asyncio.gather(serving, return_exceptions=True)
        self.assertGreaterEqual(beats, BEATS)

    async def test_what_waits_for_clients_that_do_not_read_has_a_bound_in_all(self) -> None:
        # Of these replies of 8 MiB eight would fit, but for their few bytes more.
        cluster = small_cluster(partitions=128)
        for index in range(128):
            cluster.offsets.store("g", "orders", index, Committed(index, 0, "m" * (1 << 16)))
        async with front(cluster=cluster) as it:
            good, deaf = await it.client(), [deaf_client(it.port) for _ in range(12)]
            for client in deaf:
                client.sendall(framed(LONG["OffsetFetch"]))
            await it.wait_for(lambda: sum("it was the slowest" in line for line in it.said) == 5)
            waiting = cluster.room.bytes
            self.assertIsNotNone(await good.ask(HEARTBEAT.format(1)))
            for client in deaf:
                client.close()
            await it.wait_for(lambda: cluster.room.bytes == 0)
        self.assertTrue(7 << 23 <= waiting <= 64 << 20, waiting)

    async def test_long_requests_that_do_not_come_whole_have_the_same_bound(self) -> None:
        async with front() as it:
            clients = [await it.client() for _ in range(70)]
            for client in clients:
                client.writer.write(struct.pack(">i", 1 << 20) + b"\0\x44")
            await it.wait_for(lambda: sum("it was the slowest" in line for line in it.said) == 6)
            self.assertIsNotNone(await (await it.client()).ask(HEARTBEAT.format(1)))


def deaf_client(port: int) -> socket.socket:
    made = socket.socket()
    made.setsockopt(socket.SOL_SOCKET, socket.SO_RCVBUF, 4096)
    made.settimeout(SECONDS)
    made.connect((HOST, port))
    return made
