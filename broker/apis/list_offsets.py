"""ListOffsets (key 2, versions 1 to 5): where a log begins and ends, and which record came at a moment."""

from __future__ import annotations

from typing import Tuple

from broker import codes
from broker.call import Call
from broker.cluster import LEADER_EPOCH
from broker.fields import array, int16, int32, int64, string
from broker.frames import Reply
from broker.log import FIRST_OFFSET, Log

LATEST, EARLIEST = -1, -2
# No timestamp, or no offset.
NONE = -1


async def answer(call: Call) -> Reply:
    fields, version = call.request.fields, call.request.version
    _replica = fields.int32()
    if version >= 2:
        _isolation = fields.int8()
    topics = await fields.nested_array(lambda: _topic(call, version))
    return call.request.reply((int32(0) if version >= 2 else b"") + array(topics))


async def _topic(call: Call, version: int) -> bytes:
    fields = call.request.fields
    name = fields.string()
    return string(name) + array(await fields.array(lambda: _partition(call, name, version)))


def _partition(call: Call, topic: str, version: int) -> bytes:
    fields = call.request.fields
    index = fields.int32()
    if version >= 4:
        _current_leader_epoch = fields.int32()
    asked = fields.int64()
    if call.cluster.topics.has(topic, index):
        code, (timestamp, offset), leader_epoch = codes.NONE, _find(call.cluster.log, asked), LEADER_EPOCH
    else:
        code, (timestamp, offset), leader_epoch = codes.UNKNOWN_TOPIC_OR_PARTITION, (NONE, NONE), NONE
    entry = int32(index) + int16(code) + int64(timestamp) + int64(offset)
    return entry + (int32(leader_epoch) if version >= 4 else b"")


def _find(log: Log, asked: int) -> Tuple[int, int]:
    """The timestamp and the offset for what is asked: an end, or the first record of a moment or later."""
    if asked == LATEST:
        return NONE, log.end_offset()
    if asked == EARLIEST:
        return NONE, FIRST_OFFSET
    offset = log.offset_at(asked)
    return (log.timestamp(offset), offset) if offset < log.end_offset() else (NONE, NONE)
