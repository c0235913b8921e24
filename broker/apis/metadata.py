"""Metadata (key 3, versions 9 to 12): the brokers, and the topics with their ids, partitions and leaders."""

from __future__ import annotations

import uuid
from typing import NamedTuple, Optional

from broker import codes
from broker.call import Call
from broker.cluster import CLUSTER_ID, LEADER_EPOCH, Node
from broker.fields import NO_TAGS, Reader, boolean, compact_array, compact_nullable_string, compact_string, int16, int32, unsigned_varint
from broker.frames import Reply
from broker.topics import Topic

NO_ID = uuid.UUID(int=0)
# Which operations the client may do isn't told.
NOT_TOLD = int32(-(1 << 31))


class Asked(NamedTuple):
    """A topic that is asked for, by its name, or by its id if the name is null."""

    id: uuid.UUID
    name: Optional[str]


async def answer(call: Call) -> Reply:
    fields, version, cluster = call.request.fields, call.request.version, call.cluster
    asked = await fields.compact_nullable_array(lambda: _asked(fields, version))
    _may_create_topics = fields.boolean()
    if version <= 10:
        _wants_cluster_operations = fields.boolean()
    _wants_topic_operations = fields.boolean()
    fields.tags()
    if asked is None:
        asked = [Asked(topic.id, topic.name) for topic in cluster.topics]
    reply = int32(0) + compact_array(_broker(node) for node in cluster.nodes)
    reply += compact_string(CLUSTER_ID) + int32(cluster.nodes[0].id)
    # (Kafka's broker, too, answers once for a topic that is asked for twice.)
    each_once = {it.id if it.name is None else it.name: it for it in asked}.values()
    topics = [await _topic(call, each) for each in each_once]
    return call.request.reply(reply, unsigned_varint(len(topics) + 1), *topics, (NOT_TOLD if version <= 10 else b"") + NO_TAGS)


def _asked(fields: Reader, version: int) -> Asked:
    topic_id = fields.uuid() if version >= 10 else NO_ID
    name = fields.compact_nullable_string() if version >= 10 else fields.compact_string()
    fields.tags()
    return Asked(topic_id, name)


def _broker(node: Node) -> bytes:
    no_rack = compact_nullable_string(None)
    return int32(node.id) + compact_string(node.host) + int32(node.port) + no_rack + NO_TAGS


async def _topic(call: Call, asked: Asked) -> bytes:
    cluster, version = call.cluster, call.request.version
    await call.request.pace.pause()
    found = cluster.topics.by_id.get(asked.id) if asked.name is None else cluster.topics.by_name.get(asked.name)
    if found is None:
        code = codes.UNKNOWN_TOPIC_ID if asked.name is None else codes.UNKNOWN_TOPIC_OR_PARTITION
        return _entry(code, Topic(asked.name or "", asked.id, 0), b"\1", version)
    entries = await call.request.pace.all(_partition(cluster.leader_of(index), index) for index in range(found.count))
    partitions = compact_array(entries)
    return _entry(codes.NONE, found, partitions, version)


def _entry(code: int, topic: Topic, partitions: bytes, version: int) -> bytes:
    name = compact_nullable_string(topic.name or None) if version >= 12 else compact_string(topic.name)
    topic_id = topic.id.bytes if version >= 10 else b""
    is_internal = boolean(False)
    return int16(code) + name + topic_id + is_internal + partitions + NOT_TOLD + NO_TAGS


def _partition(leader: Optional[Node], index: int) -> bytes:
    number, code = (leader.id, codes.NONE) if leader else (-1, codes.LEADER_NOT_AVAILABLE)
    one, none = compact_array([int32(number)] if leader else []), compact_array([])
    replicas, in_sync, offline = one, one, none
    return int16(code) + int32(index) + int32(number) + int32(LEADER_EPOCH) + replicas + in_sync + offline + NO_TAGS
