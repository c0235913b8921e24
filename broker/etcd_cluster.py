"""A cluster of brokers over etcd. Each is a process of its own with a replica of every part, and leads some of them."""

from __future__ import annotations

import asyncio
import contextlib
import functools
import math
import time
from typing import Any, Callable, Dict, Iterable, List, Optional, Set, Tuple

from broker.acceptor import Work
from broker.cluster import Cluster, Node, group_number
from broker.etcd import Etcd, Refused, Unanswered
from broker.feed import Feed
from broker.lease import Lease
from broker.library import module
from broker.link import Coordinator, Link
from broker.log import Log
from broker.measures import Measures
from broker.members import Members
from broker.metrics import gauge
from broker.offsets import Committed, Offsets
from broker.part import Part
from broker.record import Record
from broker.settings import Settings
from broker.topics import Topics
from broker.trouble import Ended
from broker.watch import Watch


# Each part has a salt of its own, so that no two of them name a member alike.
SALTS = 1 << 64
# For how long nobody is said to lead a partition whose leader changes: longer than it takes until all brokers know.
MOVE_SECONDS = 2.0


class EtcdCluster(Cluster):
    """`nodes` are those of the brokers that are there. Only this one has a coordinator."""

    has_log = True

    def __init__(self, own: Node, coordinator: Replicated, topics: Topics, log: Log, record: Record) -> None:
        super().__init__([own], topics, log, Offsets(), record=record)
        self.own, self.coordinator = own, coordinator
        self.parts: List[Part] = []
        self.members: Optional[Members] = None
        # Who was there before brokers came or went last, and when that was.
        self._before, self._moved = [own.id], -math.inf

    def nodes_here(self) -> List[Node]:
        return [self.own]

    def coordinator_of(self, group: str) -> Optional[Node]:
        part = self.part_of(group)
        if part.serves:
            return self.own
        # (While there is no lease this may be old. Whoever doesn't lead it any more says so.)
        leader = part.leader
        return None if leader is None else next((node for node in self.nodes if node.id == leader.broker and node is not self.own), None)

    def leader_of(self, partition: int) -> Optional[Node]:
        """None for some time after that has changed, since brokers learn of it one after the other: librdkafka 2.8.0 that is told of two changes at once,
        there and back, stays with the one in between for ever."""
        leader, before = super().leader_of(partition), self._before[partition % len(self._before)]
        assert leader is not None and self.members is not None
        is_settled = leader.id == before or time.monotonic() > self._moved + MOVE_SECONDS
        return leader if is_settled and self.members.is_member() else None

    def part_of(self, group: str) -> Part:
        return self.parts[group_number(group, len(self.parts))]

    def known(self) -> Dict[str, Any]:
        brokers = [{"node": node.id, "broker": f"{node.host}:{node.port}", "is_here": node is self.own} for node in self.nodes]
        return {"brokers": brokers, "parts": [part.known() for part in self.parts], "troubles": self.coordinator.troubles()}

    def metrics(self) -> Iterable[str]:
        rows = [(part, ("part", str(part.number))) for part in self.parts]
        yield from self.coordinator.measures.lines()
        yield from gauge("broker_part_led_here", "Whether this broker leads a part.", [((label,), int(part.serves)) for part, label in rows])
        yield from gauge("broker_part_entry", "The last entry of a part's log that is applied here.", [((label,), part.follower.place) for part, label in rows])
        behind = [((label,), max(0, part.follower.head - part.follower.place)) for part, label in rows]
        yield from gauge("broker_part_behind", "Entries of a part's log that are known here and aren't applied yet.", behind)
        stopped = [((label,), int(part.fault is not None)) for part, label in rows]
        yield from gauge("broker_part_stopped", "Whether a part's log can't be applied here any further.", stopped)
        entries = [((label,), part.snapshot.place) for part, label in rows]
        yield from gauge("broker_part_snapshot_entry", "The entry up to which a part's last snapshot has the log.", entries)
        yield from gauge("broker_part_snapshot_bytes", "Bytes of a part's last snapshot.", [((label,), part.snapshot.size) for part, label in rows])
        yield from gauge("broker_brokers", "Brokers of the cluster that are there.", [((), len(self.nodes))])

    def committed(self, group: str, topic: str, partition: int) -> Optional[Committed]:
        found = self.part_of(group).replica.committed(group, topic, partition)
        return found and Committed(found.offset, found.leader_epoch, found.metadata or "")

    def may_have_committed(self, group: str) -> Iterable[Tuple[str, Iterable[int]]]:
        # (Of what a snapshot brought nothing was told. Nobody commits for other topics than these.)
        return sorted((topic.name, range(topic.count)) for topic in self.topics)

    def have_changed(self) -> None:
        """Takes over who is there. (If nobody is known to be, clients hear of this one alone.)"""
        assert self.members is not None
        others = {number: each for number, each in self.members.brokers.items() if number != self.own.id}
        nodes = [Node(number, each.host, each.port, self.own.coordinator) for number, each in others.items()]
        is_there = self.own.id in self.members.brokers or not nodes
        before, now = [node.id for node in self.nodes], time.monotonic()
        self.nodes[:] = sorted([*nodes, *[self.own] * is_there], key=lambda node: node.id)
        if before != [node.id for node in self.nodes]:
            self._before, self._moved = (before if now > self._moved + MOVE_SECONDS else self._before), now


class Replicated(Coordinator):
    """The parts of this process, as a coordinator."""

    def __init__(self, etcd: Etcd, lease_seconds: int, snapshot_bytes: int) -> None:
        self._snapshot_bytes = snapshot_bytes
        self.etcd, self.lease, self.measures = etcd, Lease(etcd, lease_seconds), Measures()
        self.parts: List[Part] = []
        self.members: Optional[Members] = None
        self._opened = 0

    def __str__(self) -> str:
        return str(self.etcd)

    def make_parts(self, settings: Settings, library: str, cluster: EtcdCluster, watch: Watch) -> Members:
        """Raises Ended if the library isn't there."""
        tell: Callable[[str], None] = watch.tell
        for number in range(settings.parts):
            replica = replica_of(library, (settings.salt + number) % SALTS)
            feed = Feed(cluster.offsets, watch, cluster.turns, functools.partial(_is_gone, replica, number, settings.parts))
            own, topics, lease, measures = cluster.own.id, cluster.topics, self.lease, self.measures
            self.parts.append(Part(number, own, replica, topics, lease, feed, measures, tell, self._snapshot_bytes))
        cluster.parts = self.parts
        cluster.members = self.members = Members(self.lease, settings, cluster.own, self.parts, self.measures, cluster.have_changed)
        return self.members

    def connect(self, since: float) -> Link:
        self._opened += 1
        return PartsLink(self, self._opened, since)

    @property
    def is_there(self) -> bool:  # type: ignore[override]
        return self.lease.is_held() and self.etcd.unanswered.why is None

    def troubles(self) -> List[str]:
        """What is wrong now, in words."""
        return [str(each) for each in (self.etcd.unanswered, self.etcd.full, self.lease.lost) if each.why is not None]

    def works(self) -> List[Work]:
        """What has to run for ever."""
        assert self.members is not None
        parts = [work for part in self.parts for work in (_for_ever(part.run()), part.feed.run())]
        return [*parts, self.members.stay(), self.members.watch(), self.members.share()]

    async def end(self) -> None:
        """Gives back the lease, so that other brokers lead at once."""
        with contextlib.suppress(Unanswered, Refused):
            await self.lease.revoke()
        self.etcd.close()
        for part in self.parts:
            part.replica.close()


class PartsLink(Link):
    """One client's connection, to whichever parts its groups are of."""

    def __init__(self, coordinator: Replicated, number: int, since: float) -> None:
        super().__init__()
        self._parts, self._number, self._since, self._frames = coordinator.parts, number, since, 0
        self._asked: Set[Part] = set()

    async def ask(self, body: bytes, group: str) -> bytes:
        self._frames += 1
        return await self._part_of(group).ask(body, self._number, self._frames, self._since)

    async def confirm(self, group: str) -> None:
        await self._part_of(group).confirm()

    def _part_of(self, group: str) -> Part:
        part = self._parts[group_number(group, len(self._parts))]
        part.links.add(self)
        self._asked.add(part)
        return part

    def close(self) -> None:
        for part in self._asked:
            part.links.discard(self)
        super().close()


def replica_of(library: str, salt: int) -> Any:
    """A replica at the beginning of a log. Raises Ended if the library isn't there."""
    try:
        return module().Replica(library, salt)
    except OSError as why:
        raise Ended(f"the library can't be loaded: {why}; tools/build-library makes it") from None


async def _for_ever(work: Work) -> None:
    """A part may stop, and the others go on."""
    await work
    await asyncio.Event().wait()


def _is_gone(replica: Any, part: int, parts: int, group: str, member: str) -> bool:
    return group_number(group, parts) == part and replica.epochs(group, member) is None
