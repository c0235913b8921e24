"""Requests and replies of the APIs that the suite speaks, field by field in the order of the protocol guide."""

from __future__ import annotations

import dataclasses
from typing import Dict, FrozenSet, List, Mapping, NamedTuple, Optional, Sequence, Tuple

from conformance.wire import NO_TAGS, Reader, array, int8, int16, int32, int64, tags, text

METADATA, OFFSET_COMMIT, OFFSET_FETCH, FIND_COORDINATOR, API_VERSIONS, HEARTBEAT = 3, 8, 9, 10, 18, 68
NAMES = {
    METADATA: "Metadata",
    OFFSET_COMMIT: "OffsetCommit",
    OFFSET_FETCH: "OffsetFetch",
    FIND_COORDINATOR: "FindCoordinator",
    API_VERSIONS: "ApiVersions",
    HEARTBEAT: "ConsumerGroupHeartbeat",
}
# The versions that are spoken here, and from which one on an API is flexible (KIP-482).
SPOKEN = {METADATA: (10, 12), OFFSET_COMMIT: (2, 9), OFFSET_FETCH: (1, 9), FIND_COORDINATOR: (0, 3), API_VERSIONS: (0, 3), HEARTBEAT: (0, 1)}
FLEXIBLE = {METADATA: 9, OFFSET_COMMIT: 8, OFFSET_FETCH: 6, FIND_COORDINATOR: 3, API_VERSIONS: 3, HEARTBEAT: 0}
CLIENT = "conformance"
JOIN, LEAVE, AWAY = 0, -1, -2
# A partition: its topic's id and its index.
Partition = Tuple[bytes, int]
Partitions = FrozenSet[Partition]
NOTHING: Partitions = frozenset()


class Topic(NamedTuple):
    name: str
    id: bytes
    count: int

    def partitions(self) -> Partitions:
        return frozenset((self.id, index) for index in range(self.count))


def is_flexible(key: int, version: int) -> bool:
    return version >= FLEXIBLE[key]


def header(key: int, version: int, correlation: int, client: Optional[str] = CLIENT, extra: Optional[Dict[int, bytes]] = None) -> bytes:
    """A request's header: version 2 where the message is flexible, else 1."""
    return int16(key) + int16(version) + int32(correlation) + text(client, False) + tags(is_flexible(key, version), extra)


def framed(body: bytes) -> bytes:
    return int32(len(body)) + body


def reply_fields(key: int, version: int, body: bytes) -> Tuple[int, Reader]:
    """The correlation id of a reply, and a reader of what stands after its header. (That of ApiVersions never has tagged fields.)"""
    fields = Reader(body)
    correlation = fields.number(4)
    fields.tags(is_flexible(key, version) and key != API_VERSIONS)
    return correlation, fields


# ---- ConsumerGroupHeartbeat


@dataclasses.dataclass(frozen=True)
class Heartbeat:
    """A request. None is null: the field is as it was. The regular expression is of version 1 alone."""

    group: str
    member: str
    epoch: int
    instance: Optional[str] = None
    rack: Optional[str] = None
    timeout: int = -1
    names: Optional[Sequence[str]] = None
    regex: Optional[str] = None
    assignor: Optional[str] = None
    owned: Optional[Partitions] = None

    def fields(self, version: int, extra: Optional[Dict[int, bytes]] = None, entry_tags: bytes = NO_TAGS) -> bytes:
        out = text(self.group) + text(self.member) + int32(self.epoch) + text(self.instance) + text(self.rack) + int32(self.timeout)
        out += array(None if self.names is None else [text(name) for name in self.names])
        out += text(self.regex) if version >= 1 else b""
        return out + text(self.assignor) + owned_field(self.owned, entry_tags) + tags(True, extra)


def by_topic(partitions: Partitions) -> Dict[bytes, List[int]]:
    indexes: Dict[bytes, List[int]] = {}
    for topic, index in sorted(partitions):
        indexes.setdefault(topic, []).append(index)
    return indexes


def owned_field(owned: Optional[Partitions], entry_tags: bytes = NO_TAGS) -> bytes:
    if owned is None:
        return array(None)
    return array(topic + array(map(int32, indexes)) + entry_tags for topic, indexes in by_topic(owned).items())


@dataclasses.dataclass(frozen=True)
class Told:
    """The reply to a heartbeat. The assignment is None where it is null: as it was. The throttle time is in milliseconds."""

    code: int
    message: Optional[str]
    member: Optional[str]
    epoch: int
    interval: int
    assignment: Optional[Partitions]
    is_listed_twice: bool = False
    throttle: int = 0


def read_heartbeat_reply(fields: Reader) -> Told:
    throttle, code, message, member = fields.number(4), fields.number(2), fields.text_or_null(True), fields.text_or_null(True)
    epoch, interval, mark = fields.number(4), fields.number(4), fields.number(1)
    listed: Optional[List[Partition]] = None
    if mark not in (-1, 1):
        raise fields.bad(f"an assignment that begins with {mark}, which is neither -1 (null) nor 1")
    if mark == 1:
        listed = [each for entry in fields.array(True, lambda: read_entry(fields)) for each in entry]
        fields.tags()
    fields.tags()
    fields.end()
    assignment = None if listed is None else frozenset(listed)
    return Told(code, message, member, epoch, interval, assignment, len(listed or ()) > len(assignment or ()), throttle)


def read_entry(fields: Reader) -> List[Partition]:
    topic, indexes = fields.raw(16), fields.int32s()
    fields.tags()
    return [(topic, index) for index in indexes]


# ---- OffsetCommit


class Part(NamedTuple):
    """What is committed of a partition, or fetched of it: then with a code."""

    index: int
    offset: int
    metadata: Optional[str] = None
    leader: int = -1
    code: int = 0


class Commit(NamedTuple):
    """Offsets to be stored, by the topic's name."""

    group: str
    member: str
    epoch: int
    topics: Mapping[str, Sequence[Part]]

    def fields(self, version: int) -> bytes:
        flexible = is_flexible(OFFSET_COMMIT, version)
        out = text(self.group, flexible) + int32(self.epoch) + text(self.member, flexible)
        out += text(None, flexible) if version >= 7 else b""
        out += int64(-1) if version <= 4 else b""
        return out + array((self._topic(name, version, flexible) for name in self.topics), flexible) + tags(flexible)

    def _topic(self, name: str, version: int, flexible: bool) -> bytes:
        parts = (
            int32(it.index) + int64(it.offset) + (int32(it.leader) if version >= 6 else b"") + text(it.metadata, flexible) + tags(flexible)
            for it in self.topics[name]
        )
        return text(name, flexible) + array(parts, flexible) + tags(flexible)


def read_commit_reply(fields: Reader, version: int) -> List[Tuple[str, int, int]]:
    """Topic, index and code of each partition, as they stand."""
    flexible = is_flexible(OFFSET_COMMIT, version)
    if version >= 3:
        fields.number(4)

    def one(name: str) -> Tuple[str, int, int]:
        index, code = fields.number(4), fields.number(2)
        fields.tags(flexible)
        return name, index, code

    def topic() -> List[Tuple[str, int, int]]:
        name = fields.text(flexible)
        parts = fields.array(flexible, lambda: one(name))
        fields.tags(flexible)
        return parts

    results = [each for parts in fields.array(flexible, topic) for each in parts]
    fields.tags(flexible)
    fields.end()
    return results


# ---- OffsetFetch


Places = Optional[Mapping[str, Sequence[int]]]


def offset_fetch_fields(version: int, group: str, places: Places, member: Optional[str] = None, epoch: int = -1) -> bytes:
    """The offsets of some partitions by the topic's name, or, from version 2 on, all that the group has: None."""
    flexible = is_flexible(OFFSET_FETCH, version)
    asked = None if places is None else [text(name, flexible) + array(map(int32, some), flexible) + tags(flexible) for name, some in places.items()]
    topics = array(asked, flexible)
    if version < 8:
        return text(group, flexible) + topics + (int8(0) if version >= 7 else b"") + tags(flexible)
    of_member = text(member) + int32(epoch) if version >= 9 else b""
    return array([text(group) + of_member + topics + NO_TAGS]) + int8(0) + NO_TAGS


class Fetched(NamedTuple):
    """The group's code, and what is stored by the topic's name and the partition's index (offset -1: nothing)."""

    code: int
    parts: Dict[Tuple[str, int], Part]

    def first_code(self) -> int:
        """The group's code, or else the first one of a partition that isn't 0."""
        return self.code or next((part.code for part in self.parts.values() if part.code), 0)


def read_offset_fetch_reply(fields: Reader, version: int) -> Fetched:
    """What is said of the first group."""
    flexible = is_flexible(OFFSET_FETCH, version)
    if version >= 3:
        fields.number(4)

    def partition(name: str) -> Tuple[Tuple[str, int], Part]:
        index, offset = fields.number(4), fields.number(8)
        leader = fields.number(4) if version >= 5 else -1
        metadata, code = fields.text_or_null(flexible), fields.number(2)
        fields.tags(flexible)
        return (name, index), Part(index, offset, metadata, leader, code)

    def topic() -> List[Tuple[Tuple[str, int], Part]]:
        name = fields.text(flexible)
        parts = fields.array(flexible, lambda: partition(name))
        fields.tags(flexible)
        return parts

    def group() -> Fetched:
        if version >= 8:
            fields.text(flexible)
        parts = dict(each for one in fields.array(flexible, topic) for each in one)
        code = fields.number(2) if version >= 2 else 0
        fields.tags(flexible)
        return Fetched(code, parts)

    return (fields.array(True, group) or [Fetched(0, {})])[0] if version >= 8 else group()


# ---- what is asked before the first heartbeat


def api_versions_fields(version: int) -> bytes:
    return text(CLIENT) + text("1") + NO_TAGS if version >= 3 else b""


def read_api_versions_reply(fields: Reader, version: int) -> Tuple[int, Dict[int, Tuple[int, int]]]:
    """The code, and the lowest and highest version of each API."""
    flexible = version >= 3

    def row() -> Tuple[int, Tuple[int, int]]:
        key, lowest, highest = fields.number(2), fields.number(2), fields.number(2)
        fields.tags(flexible)
        return key, (lowest, highest)

    code = fields.number(2)
    return code, dict(fields.array(flexible, row))


def metadata_fields(version: int, names: Optional[Sequence[str]] = None) -> bytes:
    asked = None if names is None else [bytes(16) + text(name) + NO_TAGS for name in names]
    wants_operations = int8(0) * (2 if version <= 10 else 1)
    return array(asked) + int8(0) + wants_operations + NO_TAGS


class Cluster(NamedTuple):
    brokers: Dict[int, Tuple[str, int]]
    topics: List[Topic]


def read_metadata_reply(fields: Reader, version: int) -> Cluster:
    """The brokers' addresses, and the topics that are there and aren't the broker's own."""

    def broker() -> Tuple[int, Tuple[str, int]]:
        node, host, port = fields.number(4), fields.text(True), fields.number(4)
        fields.text_or_null(True)
        fields.tags()
        return node, (host, port)

    def partition() -> int:
        fields.number(2)
        index = fields.number(4)
        fields.raw(8)
        for _ in range(3):
            fields.int32s()
        fields.tags()
        return index

    def topic() -> Tuple[bool, Topic]:
        code, name, topic_id, internal = fields.number(2), fields.text_or_null(True), fields.raw(16), fields.number(1)
        count = len(fields.array(True, partition))
        fields.number(4)
        fields.tags()
        return code == 0 and not internal and count > 0, Topic(name or "", topic_id, count)

    fields.number(4)
    brokers = dict(fields.array(True, broker))
    fields.text_or_null(True)
    fields.number(4)
    return Cluster(brokers, [it for is_there, it in fields.array(True, topic) if is_there])


def find_coordinator_fields(version: int, group: str) -> bytes:
    flexible = is_flexible(FIND_COORDINATOR, version)
    return text(group, flexible) + (int8(0) if version >= 1 else b"") + tags(flexible)


def read_find_coordinator_reply(fields: Reader, version: int) -> Tuple[int, Tuple[str, int]]:
    flexible = is_flexible(FIND_COORDINATOR, version)
    if version >= 1:
        fields.number(4)
    code = fields.number(2)
    if version >= 1:
        fields.text_or_null(flexible)
    fields.number(4)
    return code, (fields.text(flexible), fields.number(4))
