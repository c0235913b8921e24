"""What the suite learns of a broker before the first case: its APIs, its topics, and which node coordinates a group."""

from __future__ import annotations

import dataclasses
import time
from typing import Dict, List, Optional, Sequence, Tuple

from conformance.connection import Address, Closed, Connection, Lost
from conformance.messages import (
    API_VERSIONS,
    FIND_COORDINATOR,
    HEARTBEAT,
    METADATA,
    NAMES,
    SPOKEN,
    Topic,
    api_versions_fields,
    find_coordinator_fields,
    metadata_fields,
    read_api_versions_reply,
    read_find_coordinator_reply,
    read_metadata_reply,
)
from conformance.wire import Unreadable

# COORDINATOR_LOAD_IN_PROGRESS, COORDINATOR_NOT_AVAILABLE, NOT_COORDINATOR: a client asks again.
ASK_AGAIN = (14, 15, 16)
ASK_AGAIN_SECONDS = 0.1
# A topic with more partitions than this isn't played with if there is another one.
MANY = 100


class NoBroker(Exception):
    """There is no broker that could be judged, and why."""


@dataclasses.dataclass
class Broker:
    address: Address
    seconds: float
    offered: Dict[int, Tuple[int, int]]
    topics: List[Topic]
    # Where the brokers of its cluster listen.
    nodes: List[Address] = dataclasses.field(default_factory=list)
    # Which version of the heartbeat is asked; None: the highest that both sides speak.
    wanted: Optional[int] = None

    def version(self, key: int) -> Optional[int]:
        """The highest version that both sides speak, or None."""
        versions = self.versions(key)
        if key == HEARTBEAT and self.wanted is not None:
            return self.wanted if self.wanted in versions else None
        return versions[-1] if versions else None

    def versions(self, key: int) -> Sequence[int]:
        lowest, highest = self.offered.get(key, (0, -1))
        return range(max(lowest, SPOKEN[key][0]), min(highest, SPOKEN[key][1]) + 1)

    def connect(self, address: Optional[Address] = None) -> Connection:
        return Connection(address or self.address, self.seconds)

    def coordinator_of(self, group: str) -> Address:
        """Where a group's coordinator listens, as FindCoordinator says."""
        version = self.version(FIND_COORDINATOR)
        assert version is not None
        until = time.monotonic() + self.seconds
        connection = self.connect()
        try:
            while True:
                reply = connection.ask(FIND_COORDINATOR, version, find_coordinator_fields(version, group))
                code, address = read_find_coordinator_reply(reply, version)
                if code == 0:
                    return address
                if code not in ASK_AGAIN or time.monotonic() > until:
                    raise Lost(f"FindCoordinator for group {group} is answered with code {code}")
                time.sleep(ASK_AGAIN_SECONDS)
        finally:
            connection.close()


def look(address: Address, seconds: float, wanted: Optional[int], names: Optional[Sequence[str]]) -> Broker:
    """Asks a broker for its versions and its topics. Raises NoBroker."""
    broker = Broker(address, seconds, {}, [], wanted=wanted)
    try:
        connection = broker.connect()
        try:
            broker.offered = ask_versions(connection)
            want_apis(broker)
            version = broker.version(METADATA)
            assert version is not None
            found = read_metadata_reply(connection.ask(METADATA, version, metadata_fields(version, names)), version)
        finally:
            connection.close()
    except (Lost, Unreadable) as why:
        raise NoBroker(str(why)) from None
    broker.topics, broker.nodes = chosen(found.topics, names), list(found.brokers.values())
    return broker


def want_coordinator(broker: Broker) -> None:
    """Raises NoBroker where a coordinator isn't found, or can't be reached."""
    try:
        address = broker.coordinator_of("conformance")
    except (Lost, Unreadable) as why:
        raise NoBroker(f"it names no coordinator: {why}") from None
    try:
        broker.connect(address).close()
    except Lost as why:
        raise NoBroker(f"it names a coordinator, and {why}; the addresses that brokers advertise have to be reachable from here") from None


def ask_versions(connection: Connection) -> Dict[int, Tuple[int, int]]:
    """Version 0 is asked for, which every broker answers."""
    code, offered = read_api_versions_reply(connection.ask(API_VERSIONS, 0, api_versions_fields(0)), 0)
    if code:
        raise Lost(f"ApiVersions version 0 is answered with code {code}")
    return offered


def want_apis(broker: Broker) -> None:
    for key in (METADATA, FIND_COORDINATOR, HEARTBEAT):
        if broker.version(key) is None:
            has = "version {} to {}".format(*broker.offered[key]) if key in broker.offered else "none"
            wants = broker.wanted if key == HEARTBEAT and broker.wanted is not None else "{} to {}".format(*SPOKEN[key])
            raise NoBroker(f"it offers {has} of {NAMES[key]}, and the suite wants version {wants}")


def chosen(found: List[Topic], names: Optional[Sequence[str]]) -> List[Topic]:
    """The topics to play with: those that are told, or all. The one with the most partitions is the first, of those that haven't very many."""
    missing = sorted({*(names or ())} - {topic.name for topic in found})
    if missing:
        raise NoBroker(f"it has no topic {missing[0]}")
    if not found:
        raise NoBroker("it has no topics; make one with four partitions or more, and another one")
    return sorted(found, key=lambda topic: (topic.count > MANY, -topic.count if topic.count <= MANY else topic.count, topic.name))


def is_there(address: Address, seconds: float) -> bool:
    try:
        Connection(address, seconds).close()
        return True
    except Closed:
        return False
