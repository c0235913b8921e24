"""The messages of OffsetCommit version 9, as far as they are read and written here."""

from __future__ import annotations

import dataclasses
from typing import List, NamedTuple

from broker.fields import NO_TAGS, NULL, Reader, compact_array, compact_string, int16, int32, int64, nullable_string
from broker.frames import Request
from broker.offsets import NOTHING, Committed
from broker.turns import Pace
from broker.versions import OFFSET_COMMIT, SPOKEN


class Partition(NamedTuple):
    topic: str
    partition: int
    committed: Committed


class Topic(NamedTuple):
    name: str
    partitions: List[Partition]


@dataclasses.dataclass(frozen=True)
class Asked:
    """A request's fields."""

    group: str
    epoch: int
    member: str
    topics: List[Topic]

    def partitions(self) -> List[Partition]:
        return [partition for topic in self.topics for partition in topic.partitions]


class Result(NamedTuple):
    """What a reply says of a partition. Replies have the request's partitions in its order."""

    topic: str
    partition: int
    code: int


async def read_request(fields: Reader) -> Asked:
    group, epoch, member = fields.compact_string(), fields.int32(), fields.compact_string()
    _instance = fields.compact_nullable_string()
    topics = await fields.nested_compact_array(lambda: _topic(fields))
    fields.tags()
    fields.end()
    return Asked(group, epoch, member, topics)


async def _topic(fields: Reader) -> Topic:
    name = fields.compact_string()
    topic = Topic(name, await fields.compact_array(lambda: _partition(fields, name)))
    fields.tags()
    return topic


def _partition(fields: Reader, topic: str) -> Partition:
    index, offset, leader_epoch = fields.int32(), fields.int64(), fields.int32()
    metadata = fields.compact_nullable_string()
    fields.tags()
    return Partition(topic, index, Committed(offset, leader_epoch, metadata or ""))


def of_nothing(request: Request, group: str, epoch: int, member: str) -> bytes:
    """A commit of a partition that no topic has, for a request: nothing is stored, and the code tells whether this member may commit."""
    header = int16(OFFSET_COMMIT) + int16(SPOKEN[OFFSET_COMMIT].highest) + int32(request.correlation) + nullable_string(request.client) + NO_TAGS
    partition = int32(-1) + int64(NOTHING.offset) + int32(NOTHING.leader_epoch) + NULL + NO_TAGS
    topics = compact_array([compact_string("") + compact_array([partition]) + NO_TAGS])
    no_instance = NULL
    return header + compact_string(group) + int32(epoch) + compact_string(member) + no_instance + topics + NO_TAGS


async def read_reply(body: bytes, pace: Pace) -> List[Result]:
    fields = Reader(body, pace)
    _correlation = fields.int32()
    fields.tags()
    _throttle = fields.int32()
    topics = await fields.nested_compact_array(lambda: _results(fields))
    fields.tags()
    fields.end()
    return [result for topic in topics for result in topic]


async def _results(fields: Reader) -> List[Result]:
    name = fields.compact_string()
    results = await fields.compact_array(lambda: _result(fields, name))
    fields.tags()
    return results


def _result(fields: Reader, topic: str) -> Result:
    result = Result(topic, fields.int32(), fields.int16())
    fields.tags()
    return result
