"""Fetch (key 1, versions 4 to 11): the records from an offset on. It waits for some if there are none yet."""

from __future__ import annotations

import asyncio
from typing import NamedTuple

from broker import codes
from broker.call import Call
from broker.cluster import Cluster
from broker.fields import Reader, array, int16, int32, int64, string
from broker.frames import Reply
from broker.log import FIRST_OFFSET

# Whatever the client allows.
MOST_WAIT_SECONDS = 5.0
MOST_BYTES = 256 << 10
# What a record has about, to tell how many are made.
RECORD_BYTES = 32
# There are no fetch sessions: every request says all that it wants.
NO_SESSION = int32(0)
NO_OFFSET = -1


class Asked(NamedTuple):
    topic: str
    partition: int
    offset: int
    most_bytes: int


async def answer(call: Call) -> Reply:
    fields, version = call.request.fields, call.request.version
    _replica = fields.int32()
    wait_ms, _least_bytes, most_bytes = fields.int32(), fields.int32(), fields.int32()
    _isolation = fields.int8()
    if version >= 7:
        _session, _session_epoch = fields.int32(), fields.int32()
    begin = fields.at
    # (What is asked for is read twice. It would take much more room than the request does while records are waited for.)
    first = min(await fields.nested_array(lambda: _seconds_until_any(call)), default=MOST_WAIT_SECONDS)
    if version >= 7:
        _forgotten = await fields.array(lambda: (fields.string(), fields.int32s()))
    if version >= 11:
        _rack = fields.string()
    await asyncio.sleep(max(0.0, min(first, wait_ms / 1000, MOST_WAIT_SECONDS)))
    fields.at = begin
    room = Room(min(most_bytes, MOST_BYTES))
    answers = array(await fields.nested_array(lambda: _topic_reply(call, room)))
    no_error = int16(codes.NONE) + NO_SESSION if version >= 7 else b""
    return call.request.reply(int32(0) + no_error + answers)


def _partition(fields: Reader, topic: str, version: int) -> Asked:
    index = fields.int32()
    if version >= 9:
        _current_leader_epoch = fields.int32()
    offset = fields.int64()
    if version >= 5:
        _log_start_offset = fields.int64()
    return Asked(topic, index, offset, fields.int32())


def _code(cluster: Cluster, asked: Asked) -> int:
    if not cluster.topics.has(asked.topic, asked.partition):
        return codes.UNKNOWN_TOPIC_OR_PARTITION
    return codes.NONE if FIRST_OFFSET <= asked.offset <= cluster.log.last_offset() else codes.OFFSET_OUT_OF_RANGE


async def _seconds_until_any(call: Call) -> float:
    """In how many seconds there is something to answer of a topic."""
    fields, version = call.request.fields, call.request.version
    name = fields.string()
    entries = await fields.array(lambda: _seconds_until(call.cluster, _partition(fields, name, version)))
    return min(entries, default=MOST_WAIT_SECONDS)


def _seconds_until(cluster: Cluster, asked: Asked) -> float:
    """The same of a partition. An error is answered at once."""
    return cluster.log.seconds_until(asked.offset) if _code(cluster, asked) == codes.NONE else 0.0


class Room:
    """How many bytes of records fit into a reply. Its first batch fits in any case, so that a reader goes on."""

    def __init__(self, most_bytes: int) -> None:
        self.left = max(1, most_bytes)

    def records(self, cluster: Cluster, asked: Asked) -> bytes:
        if self.left <= 0:
            return b""
        batch = cluster.log.batch(asked.topic, asked.partition, asked.offset, min(asked.most_bytes, self.left))
        self.left -= len(batch)
        return batch


async def _topic_reply(call: Call, room: Room) -> bytes:
    fields, version = call.request.fields, call.request.version
    name = fields.string()

    async def reply() -> bytes:
        asked = _partition(fields, name, version)
        fitting = max(0, min(asked.most_bytes, room.left)) // RECORD_BYTES
        await call.request.pace.pause(1 + min(fitting, call.cluster.log.most_records(asked.offset)))
        return _partition_reply(call.cluster, asked, room, version)

    return string(name) + array(await fields.nested_array(reply))


def _partition_reply(cluster: Cluster, asked: Asked, room: Room, version: int) -> bytes:
    code = _code(cluster, asked)
    end, begin = (cluster.log.end_offset(), FIRST_OFFSET) if code == codes.NONE else (NO_OFFSET, NO_OFFSET)
    records = room.records(cluster, asked) if code == codes.NONE else b""
    high_watermark, last_stable, aborted = int64(end), int64(end), int32(0)
    entry = int32(asked.partition) + int16(code) + high_watermark + last_stable
    entry += (int64(begin) if version >= 5 else b"") + aborted
    preferred_replica = int32(-1) if version >= 11 else b""
    return entry + preferred_replica + int32(len(records)) + records
