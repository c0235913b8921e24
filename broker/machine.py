"""The version of the state machine: what the library makes of a log.

Two brokers whose libraries take one entry differently have different groups from then on, and nobody would see it. So the library is given a short
log, in which members join, are reconciled, commit, go away and are removed; and the version is a checksum of all that it answers, and of the snapshot
of what it has come to. Libraries that differ elsewhere alone have the same version: a release says so of them (docs/OPERATING.md).
"""

from __future__ import annotations

import hashlib
from typing import Any, Iterable, List, Optional

from broker.fields import NO_TAGS, NULL, compact_array, compact_nullable_string, compact_string, int16, int32, int64, nullable_string
from broker.versions import CONSUMER_GROUP_HEARTBEAT, OFFSET_COMMIT

GROUP, TOPIC, TOPIC_ID, COUNT = "g", "t", bytes(range(16)), 4
REBALANCE_MS, LATE_MS, SALT = 60_000, 120_000, 1
DIGITS = 16


def heartbeat(
    member: str,
    epoch: int,
    owned: Optional[Iterable[int]] = None,
    names: Optional[List[str]] = None,
    assignor: Optional[str] = None,
    instance: Optional[str] = None,
) -> bytes:
    topics = NULL if owned is None else compact_array([TOPIC_ID + compact_array(map(int32, owned)) + NO_TAGS])
    subscribed = NULL if names is None else compact_array(map(compact_string, names))
    fields = compact_string(GROUP) + compact_string(member) + int32(epoch) + compact_nullable_string(instance) + NULL
    fields += int32(-1 if names is None else REBALANCE_MS) + subscribed + compact_nullable_string(assignor) + topics
    return _header(CONSUMER_GROUP_HEARTBEAT, 0) + fields + NO_TAGS


def commit(member: str, epoch: int, offset: int) -> bytes:
    partition = int32(0) + int64(offset) + int32(-1) + compact_nullable_string("m") + NO_TAGS
    topics = compact_array([compact_string(TOPIC) + compact_array([partition]) + NO_TAGS])
    return _header(OFFSET_COMMIT, 9) + compact_string(GROUP) + int32(epoch) + compact_string(member) + NULL + topics + NO_TAGS


def _header(key: int, version: int) -> bytes:
    return int16(key) + int16(version) + int32(1) + nullable_string(None) + NO_TAGS


def script() -> List[bytes]:
    """Requests, each a second after the one before."""
    return [
        heartbeat("a", 0, [], [TOPIC]),
        heartbeat("a", 1, [0, 1, 2, 3]),
        heartbeat("b", 0, [], [TOPIC], "range"),
        heartbeat("a", 1),
        commit("a", 1, 5),
        heartbeat("a", 1, [0, 1]),
        heartbeat("b", 2),
        commit("a", 1, 6),
        commit("b", 2, 7),
        heartbeat("c", 0, [], [TOPIC, "u"], None, "i"),
        heartbeat("c", -2, None, None, None, "i"),
        heartbeat("d", 0, [], [TOPIC], "uniform", "i"),
        heartbeat("b", 7),
        heartbeat("e", 3),
        heartbeat("b", -1),
    ]


def version_of(replica: Any) -> str:
    """Of a library, by a replica that has applied nothing."""
    told, place = hashlib.sha256(), 0

    def apply(entry: bytes) -> None:
        nonlocal place
        place += 1
        applied = replica.apply(place, entry)
        told.update(repr((applied.kind, applied.reply, applied.removed)).encode())

    def tell() -> None:
        for part in replica.snapshot():
            told.update(part)

    apply(replica.lead())
    replica.begin(0)
    apply(replica.propose_topics([(TOPIC, TOPIC_ID, COUNT)]))
    for number, body in enumerate(script(), 1):
        apply(replica.propose(body, 1, number, 1_000 * number))
    tell()
    apply(replica.propose_tick(LATE_MS))
    tell()
    return told.hexdigest()[:DIGITS]
