"""OffsetCommit (key 8, version 9): a member stores how far it has read.

The coordinator answers these, and judges whether the member may. They go on byte for byte. What is answered with 0 is kept here too, for
OffsetFetch.
"""

from __future__ import annotations

from broker import codes
from broker.call import Call
from broker.commits import Asked, Result, Topic, read_reply, read_request
from broker.fields import NO_TAGS, compact_array, compact_string, int16, int32
from broker.frames import Reply
from broker.link import CoordinatorClosed


async def answer(call: Call) -> Reply:
    offsets = call.cluster.offsets
    asked = await read_request(call.request.fields)
    partitions = asked.partitions()
    if not call.is_coordinator_of(asked.group):
        return refuse(call, asked, codes.NOT_COORDINATOR)
    if not offsets.has_room(asked.group, partitions):
        # What the coordinator takes has to be there at the next OffsetFetch.
        return refuse(call, asked, codes.INVALID_COMMIT_OFFSET_SIZE)
    if call.cluster.newest.is_late(asked.group, asked.member, call.number):
        raise CoordinatorClosed("a commit came late: its member has committed over a later connection since")
    reply = await call.link.ask(call.request.body, asked.group)
    if call.cluster.has_log:
        return [reply]
    pace = call.request.pace
    results = await read_reply(reply, pace)
    for partition, result in zip(partitions, results):
        if result.code == codes.NONE:
            offsets.store(asked.group, *partition)
        await pace.pause()
    call.watch.commit(asked, results)
    return [reply]


def refuse(call: Call, asked: Asked, code: int) -> Reply:
    """A refusal of this broker's own: one code for all partitions."""
    call.watch.commit(asked, [Result(each.topic, each.partition, code) for each in asked.partitions()])
    return call.request.reply(int32(0) + compact_array(_refused(topic, code) for topic in asked.topics) + NO_TAGS)


def _refused(topic: Topic, code: int) -> bytes:
    partitions = compact_array(int32(each.partition) + int16(code) + NO_TAGS for each in topic.partitions)
    return compact_string(topic.name) + partitions + NO_TAGS
