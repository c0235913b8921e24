"""Which APIs are spoken here, in which versions, and from which version on an API's messages are flexible (KIP-482)."""

from __future__ import annotations

from typing import Dict, NamedTuple

PRODUCE, FETCH, LIST_OFFSETS, METADATA, OFFSET_COMMIT, OFFSET_FETCH = 0, 1, 2, 3, 8, 9
FIND_COORDINATOR, API_VERSIONS, OFFSET_FOR_LEADER_EPOCH, CONSUMER_GROUP_HEARTBEAT = 10, 18, 23, 68


class Versions(NamedTuple):
    name: str
    lowest: int
    highest: int
    flexible: int

    def has(self, version: int) -> bool:
        return self.lowest <= version <= self.highest


SPOKEN: Dict[int, Versions] = {
    # Nobody can produce here. librdkafka fetches only from a broker that names Produce, with batches of version 2, as well.
    PRODUCE: Versions("Produce", 3, 8, 9),
    FETCH: Versions("Fetch", 4, 11, 12),
    LIST_OFFSETS: Versions("ListOffsets", 1, 5, 6),
    METADATA: Versions("Metadata", 9, 12, 9),
    OFFSET_COMMIT: Versions("OffsetCommit", 9, 9, 8),
    OFFSET_FETCH: Versions("OffsetFetch", 9, 9, 6),
    FIND_COORDINATOR: Versions("FindCoordinator", 0, 2, 3),
    API_VERSIONS: Versions("ApiVersions", 0, 3, 3),
    OFFSET_FOR_LEADER_EPOCH: Versions("OffsetForLeaderEpoch", 2, 3, 4),
    CONSUMER_GROUP_HEARTBEAT: Versions("ConsumerGroupHeartbeat", 0, 1, 0),
}
