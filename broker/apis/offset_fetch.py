"""OffsetFetch (key 9, version 9): what a group has committed. A member begins to read a partition there.

The coordinator judges a member that is named. It has no such API, so it is asked by a commit that stores nothing.
"""

from __future__ import annotations

from typing import List, NamedTuple, Optional, Sequence

from broker import codes, commits
from broker.call import Call
from broker.fields import NO_TAGS, Reader, Unreadable, compact_array, compact_nullable_string, compact_string, int16, int32, int64, unsigned_varint
from broker.frames import Reply
from broker.link import CoordinatorClosed
from broker.offsets import NOTHING, Committed

# What a code of that commit means here, if it isn't the answer itself.
MEANINGS = {codes.UNKNOWN_TOPIC_OR_PARTITION: codes.NONE, codes.GROUP_ID_NOT_FOUND: codes.UNKNOWN_MEMBER_ID}


class AskedTopic(NamedTuple):
    name: str
    partitions: Sequence[int]


class AskedGroup(NamedTuple):
    """A group, who asks, and of which topics its offsets are asked for: None for all that it has."""

    name: str
    member: Optional[str]
    epoch: int
    topics: Optional[List[AskedTopic]]


async def answer(call: Call) -> Reply:
    fields = call.request.fields
    groups = await fields.nested_compact_array(lambda: _group(fields))
    _want_apart([group.name for group in groups])
    # (Whether offsets of open transactions are to be waited for: there are no transactions.)
    _wants_stable = fields.boolean()
    fields.tags()
    pieces = [piece for group in groups for piece in await _group_reply(call, group)]
    return call.request.reply(int32(0) + unsigned_varint(len(groups) + 1), *pieces, NO_TAGS)


async def _group(fields: Reader) -> AskedGroup:
    name = fields.compact_string()
    member, epoch = fields.compact_nullable_string(), fields.int32()
    topics = await fields.compact_nullable_array(lambda: _topic(fields))
    _want_apart([topic.name for topic in topics or ()])
    fields.tags()
    return AskedGroup(name, member, epoch, topics)


def _topic(fields: Reader) -> AskedTopic:
    topic = AskedTopic(fields.compact_string(), fields.compact_int32s())
    _want_apart(topic.partitions)
    fields.tags()
    return topic


def _want_apart(keys: Sequence[object]) -> None:
    """Refuses a request that asks for something twice, so that no reply is much longer than what is stored."""
    if len({*keys}) < len(keys):
        raise Unreadable("it asks for one offset twice")


async def _group_reply(call: Call, group: AskedGroup) -> List[bytes]:
    await call.request.pace.pause()
    refusal = await _refusal(call, group)
    if refusal != codes.NONE:
        return [compact_string(group.name) + compact_array([]) + int16(refusal) + NO_TAGS]
    topics = await all_of(call, group.name) if group.topics is None else group.topics
    pieces = [await _topic_reply(call, group.name, topic) for topic in topics]
    return [compact_string(group.name) + unsigned_varint(len(topics) + 1), *pieces, int16(codes.NONE) + NO_TAGS]


async def all_of(call: Call, group: str) -> List[AskedTopic]:
    """All that the group has committed."""
    topics = []
    for topic, partitions in call.cluster.may_have_committed(group):
        found = await call.request.pace.all((index, call.cluster.committed(group, topic, index)) for index in partitions)
        indices = [index for index, committed in found if committed]
        topics += [AskedTopic(topic, indices)] * bool(indices)
    return topics


async def _refusal(call: Call, group: AskedGroup) -> int:
    if not call.is_coordinator_of(group.name):
        # (librdkafka asks again if the connection is closed. If it is told 16 it doesn't, and never reads these partitions.)
        raise CoordinatorClosed(f"it asked for the offsets of {group.name}, which isn't coordinated from here")
    # (librdkafka names no member.)
    if not group.member or group.epoch < 0:
        await call.link.confirm(group.name)
        return codes.NONE
    reply = await call.link.ask(commits.of_nothing(call.request, group.name, group.epoch, group.member), group.name)
    results = await commits.read_reply(reply, call.request.pace)
    code = results[0].code if results else codes.COORDINATOR_NOT_AVAILABLE
    return MEANINGS.get(code, code)


async def _topic_reply(call: Call, group: str, topic: AskedTopic) -> bytes:
    await call.request.pace.pause()
    committed = call.cluster.committed
    entries = await call.request.pace.all(_partition(index, committed(group, topic.name, index) or NOTHING) for index in topic.partitions)
    return compact_string(topic.name) + compact_array(entries) + NO_TAGS


def _partition(index: int, committed: Committed) -> bytes:
    entry = int32(index) + int64(committed.offset) + int32(committed.leader_epoch)
    return entry + compact_nullable_string(committed.metadata) + int16(codes.NONE) + NO_TAGS
