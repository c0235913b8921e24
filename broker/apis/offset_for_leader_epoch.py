"""OffsetForLeaderEpoch (key 23, versions 2 and 3): where the records of a leader end, so that readers see a log that was cut."""

from __future__ import annotations

from broker import codes
from broker.call import Call
from broker.cluster import LEADER_EPOCH
from broker.fields import array, int16, int32, int64, string
from broker.frames import Reply

UNDEFINED = -1


async def answer(call: Call) -> Reply:
    fields, version = call.request.fields, call.request.version
    if version >= 3:
        _replica = fields.int32()
    topics = await fields.nested_array(lambda: _topic(call))
    return call.request.reply(int32(0) + array(topics))


async def _topic(call: Call) -> bytes:
    fields = call.request.fields
    name = fields.string()
    return string(name) + array(await fields.array(lambda: _partition(call, name)))


def _partition(call: Call, topic: str) -> bytes:
    fields = call.request.fields
    index, _current_leader_epoch, asked = fields.int32(), fields.int32(), fields.int32()
    code, leader_epoch, end = codes.NONE, UNDEFINED, UNDEFINED
    if not call.cluster.topics.has(topic, index):
        code = codes.UNKNOWN_TOPIC_OR_PARTITION
    elif asked == LEADER_EPOCH:
        # There was one leader only, so its records end where the log does.
        leader_epoch, end = LEADER_EPOCH, call.cluster.log.end_offset()
    return int16(code) + int32(index) + int32(leader_epoch) + int64(end)
