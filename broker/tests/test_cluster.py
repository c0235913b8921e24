"""A broker of a cluster over etcd: when it has clients, and whom it names to them."""

from __future__ import annotations

import asyncio
import contextlib
import json
import socket
import struct
import unittest
from typing import Any, AsyncIterator, List, Optional
from unittest import mock

from broker.__main__ import run
from broker.apis.offset_fetch import all_of
from broker.command_line import parse
from broker.cluster import Node
from broker.etcd_cluster import EtcdCluster
from broker.members import Broker as Known
from broker.offsets import Committed
from broker.output import STANDARD_ERROR
from broker.tests.played_etcd import DONE, LOST, played_etcd, text_of, unpacked
from broker.tests.support import HOST, TOPIC, Client, close_all, until
from broker.tests.test_part import TOPICS, PlayedReplica
from broker.tests.test_status import get
from broker.turns import Pace, Turns

# FindCoordinator for the group `g`, and what another broker has in etcd that leads all.
FIND = "000a 0001 00000001 ffff 0001 'g' 00"
OTHER = {"cluster/brokers/5": '{"address": "10.0.0.5:9092", "stopped": []}', "cluster/leaders/0": "5"}


class Broker:
    """It runs at a port, and has printed these lines."""

    def __init__(self, etcd: str, port: int) -> None:
        self.port = port
        self.lines: List[str] = []
        self.writers: List[asyncio.StreamWriter] = []
        options = parse(["--etcd", etcd, "--advertise", f"{HOST}:{port}", "--parts", "1", "--lease", "12", "--status", "0", TOPIC])
        self.task = asyncio.ensure_future(run(options, self.lines.append))

    async def client(self) -> Client:
        client = Client(*await asyncio.open_connection(HOST, self.port))
        self.writers.append(client.writer)
        return client

    async def named(self, client: Optional[Client] = None) -> Optional[str]:
        """The coordinator that it names, or the code instead; or None if the connection is closed."""
        body = await (client or await self.client()).ask(FIND)
        if body is None:
            return None
        code, size = struct.unpack_from(">hh", body, 8)
        at = 12 + max(0, size)
        host = body[at + 6 :][: struct.unpack_from(">h", body, at + 4)[0]].decode()
        return f"code {code}" if code else host

    async def told(self) -> List[str]:
        """The lines that its page shows."""
        port = next(int(line.rstrip("/").rpartition(":")[2]) for line in self.lines if line.startswith("status "))
        _, _, body = await get(port, "/groups")
        return [each["line"] for each in json.loads(body)["lines"]]

    def listens(self) -> int:
        return sum(line.startswith("listening ") for line in self.lines)


@contextlib.asynccontextmanager
async def broker() -> AsyncIterator[Any]:
    """A played etcd whose logs can't be read, a broker, and what that says on standard error."""
    said: List[str] = []
    with socket.create_server((HOST, 0)) as free:
        port = free.getsockname()[1]
    async with played_etcd() as (played, etcd):
        for key, value in OTHER.items():
            played.put(text_of(f"migwelun/{key}"), text_of(value), "99")
        played.fate = lambda path, request: LOST if path == "kv/range" and "/log/" in unpacked(request["key"]) else DONE
        replica = mock.patch("broker.etcd_cluster.replica_of", lambda *_: PlayedReplica())
        version = mock.patch.multiple("broker.__main__", replica_of=lambda *_: PlayedReplica(), version_of=lambda _: "1")
        with replica, version, mock.patch.object(STANDARD_ERROR, "line", said.append), mock.patch("broker.serving.NO_LEASE_SECONDS", 3):
            it = Broker(str(etcd).removeprefix("etcd "), port)
            try:
                yield played, it, said
            finally:
                it.task.cancel()
                await asyncio.gather(it.task, return_exceptions=True)
                await close_all(it.writers)


class Serving(unittest.IsolatedAsyncioTestCase):
    async def test_a_broker_has_clients_while_it_is_a_member(self) -> None:
        async with broker() as (played, it, said):
            await until(lambda: "migwelun/cluster/numbers/0" in played.pairs)
            found = [await it.named(), it.listens()]
            played.fate = lambda path, request: DONE
            await until(it.listens)
            client = await it.client()
            found.append(await it.named(client))
            # Its lease ends, and it gets no other one for longer than clients stay.
            played.fate = lambda path, request: DONE if path == "lease/keepalive" else LOST
            played.end_lease(str(played.leases))
            await until(lambda: any("leads nothing" in line for line in said))
            found.append(await it.named(client))
            found += [await client.body(), await it.named(), it.listens()]
            played.fate = lambda path, request: DONE
            await until(lambda: it.listens() == 2)
            found.append(await it.named())
        self.assertEqual(found, [None, 0, "10.0.0.5", "10.0.0.5", None, None, 1, "10.0.0.5"])
        closed = "broker: clients' connections are closed, since this broker has had no lease in etcd for 3 s"
        self.assertEqual([line for line in said if "clients' connections" in line], [closed])

    async def test_the_page_tells_who_leads(self) -> None:
        async with broker() as (played, it, said):
            played.fate = lambda path, request: DONE
            await until(lambda: any("is led by" in line for line in it.lines))
            found = await it.told()
        self.assertEqual(found, ["part 0 is led by 10.0.0.5:9092"])

    async def test_clients_stay_where_a_lease_is_missed_for_a_moment(self) -> None:
        async with broker() as (played, it, said):
            played.fate = lambda path, request: DONE
            await until(it.listens)
            client = await it.client()
            first = await it.named(client)
            played.end_lease(str(played.leases))
            await until(lambda: played.leases == 2 and "migwelun/cluster/brokers/0" in played.pairs)
            await asyncio.sleep(3.5)
            found = first, await it.named(client), it.listens()
        self.assertEqual(found, ("10.0.0.5", "10.0.0.5", 1))

    async def test_a_broker_waits_while_another_one_has_its_address(self) -> None:
        async with broker() as (played, it, said):
            twin = text_of("migwelun/cluster/brokers/0")
            played.put(twin, text_of(f'{{"address": "{HOST}:{it.port}", "stopped": []}}'), "98")
            played.fate = lambda path, request: DONE
            await until(lambda: any("this broker waits" in line for line in said))
            found = [await it.named(), it.listens()]
            played.delete(twin)
            await until(it.listens)
            found.append(await it.named())
        self.assertEqual(found, [None, 0, "10.0.0.5"])
        self.assertIn(f"broker: no other broker at {HOST}:{it.port} is in the cluster any more", said)


class Leaders(unittest.TestCase):
    def test_a_partition_whose_leader_changes_has_none_for_some_time(self) -> None:
        """At a moment these brokers are there, and so many partitions have these leaders then; -1 for none."""
        own = Node(1, HOST, 1, mock.Mock())
        cluster = EtcdCluster(own, mock.Mock(), TOPICS, mock.Mock(), mock.Mock())
        cluster.members = mock.Mock(brokers={})
        rows = [
            (10.0, [1, 2], [1, -1, 1, -1]),
            (12.1, [1, 2], [1, 2, 1, 2]),
            (20.0, [0, 1, 2], [-1, -1, -1, -1]),
            (21.0, [1, 2], [1, 2, 1, 2]),
            (22.0, [0, 1, 2], [-1, -1, -1, -1]),
            (24.1, [0, 1, 2], [0, 1, 2, 0]),
            (30.0, [0, 1], [0, 1, -1, -1]),
            (32.1, [0, 1], [0, 1, 0, 1]),
        ]
        found = []
        for moment, there, wanted in rows:
            with mock.patch("broker.etcd_cluster.time.monotonic", lambda: moment):
                cluster.members.brokers = {number: Known(HOST, number, ()) for number in there}
                cluster.have_changed()
                leaders = [cluster.leader_of(index) for index in range(len(wanted))]
            found.append((moment, there, [leader.id if leader else -1 for leader in leaders]))
        cluster.members.is_member = lambda: False
        self.assertEqual((found, cluster.leader_of(0)), (rows, None))


class Fetching(unittest.IsolatedAsyncioTestCase):
    async def test_all_that_a_group_has_committed_is_read_from_the_replica(self) -> None:
        """Of what a snapshot brought nothing else was told."""
        cluster, call = EtcdCluster(mock.Mock(), mock.Mock(), TOPICS, mock.Mock(), mock.Mock()), mock.Mock()
        cluster.parts = [mock.Mock()]
        cluster.parts[0].replica.committed = lambda group, _, index: Committed(7, -1, "") if (group, index) == ("g", 1) else None
        call.cluster, call.request.pace = cluster, Pace(Turns())
        name = next(iter(TOPICS)).name
        self.assertEqual([await all_of(call, group) for group in ("g", "h")], [[(name, [1])], []])
