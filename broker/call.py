"""A request, and what its answer may need."""

from __future__ import annotations

import dataclasses

from broker.cluster import Cluster, Node
from broker.frames import Request
from broker.link import Link
from broker.watch import Watch


@dataclasses.dataclass
class Call:
    """A request to a node, over the connection of this number. The link is its connection's own to the node's coordinator, and all that passes is
    told to the watch."""

    request: Request
    cluster: Cluster
    node: Node
    link: Link
    watch: Watch
    number: int = 0

    def is_coordinator_of(self, group: str) -> bool:
        return self.cluster.coordinator_of(group) is self.node
