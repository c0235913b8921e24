"""What is known, as JSON and in Prometheus' text format. Both are made in pieces, and what is long of them of what has changed alone."""

from __future__ import annotations

import itertools
import json
from typing import Any, Dict, List, Optional, Tuple

from broker.cluster import Cluster, Node
from broker.groups import MOST_GROUPS, SESSION_SECONDS, Group, Member
from broker.metrics import Labels, gauge, head, line
from broker.offsets import OfTopic
from broker.partitions import Run
from broker.topics import Topic
from broker.turns import Pace
from broker.watch import Watch
from broker.words import short_id

# What a page shows: so many groups, members of each, and offsets of topics that have no more partitions.
SHOWN_GROUPS, SHOWN_MEMBERS, SHOWN_PARTITIONS = 50, 200, 48
UNKNOWN = [
    "The coordinator isn't asked for its state. All this is read off the heartbeats and commits that passed here since this program began.",
    "A group's epoch is the greatest epoch of its members that was seen; its target assignment isn't known.",
    f"A member that stops without leaving is shown until {SESSION_SECONDS:.0f} s after its last heartbeat, when the coordinator removes it.",
    "What a member was told before this program began, or through another one, isn't known until it is told again.",
    "Offsets that were committed before this program began, or past it, aren't known.",
]
OF_A_LOG = [
    "The coordinator isn't asked for its state. All this is read off the heartbeats and commits of the log, from its beginning on, and what was "
    "read when this program began has its moment.",
    UNKNOWN[1],
]


class Report:
    def __init__(self, cluster: Cluster, watch: Watch) -> None:
        self.cluster, self.watch = cluster, watch
        self._began = watch.clock()
        # The offsets of a group and topic as JSON, and how often something had been committed then.
        self._offsets: Dict[Tuple[str, str], Tuple[int, str]] = {}

    # ---- groups

    async def groups(self, is_for_page: bool = False) -> str:
        """All that is known as JSON, or what a page shows of it."""
        pace, now, end = Pace(self.cluster.turns), self.watch.clock(), self.cluster.log.end_offset()
        names = self._names()
        shown = names[:SHOWN_GROUPS] if is_for_page else names
        groups = [await self._group(self.watch.groups.groups.get(name) or Group(name), now, pace, is_for_page) for name in shown]
        known: Dict[str, Any] = {
            "up_seconds": _seconds(now - self._began),
            "coordinators": [_coordinator(node) for node in self.cluster.nodes_here()],
            "more_groups": len(names) - len(shown),
            "lines": [{"seconds_ago": _seconds(now - moment), "line": text} for moment, text in self.watch.lines],
            "unwatched_heartbeats": self.watch.groups.unwatched,
            "unknown": OF_A_LOG if self.cluster.has_log else UNKNOWN,
            **self.cluster.known(),
        }
        used = self._topics_of(shown) if is_for_page else [*self.cluster.topics]
        topics = await pace.all(json.dumps({"name": it.name, "id": str(it.id), "partitions": it.count, "end_offset": end}) for it in used)
        return _object(known, {"topics": _array(topics), "groups": _array(groups)})

    def _topics_of(self, names: List[str]) -> List[Topic]:
        """The topics that these groups read, or have committed something of."""
        members = [it for name in names if name in self.watch.groups.groups for it in self.watch.groups.groups[name].members.values()]
        used = {topic for it in members for topic in (*(it.names or ()), *it.held.topics)}
        used.update(topic for name in names for topic in self.cluster.offsets.of_group(name))
        return [topic for topic in self.cluster.topics if topic.name in used]

    def _names(self) -> List[str]:
        """Of the groups that have members, and then of others that have committed something."""
        known = self.watch.groups.groups
        others = (name for name in self.cluster.offsets.groups() if name not in known)
        return list(itertools.islice(itertools.chain(known, others), MOST_GROUPS))

    async def _group(self, group: Group, now: float, pace: Pace, is_for_page: bool) -> str:
        offsets = self.cluster.offsets.of_group(group.name)
        end = self.cluster.log.end_offset()
        members = list(group.members.values())[: SHOWN_MEMBERS if is_for_page else None]
        coordinator = self.cluster.coordinator_of(group.name)
        known: Dict[str, Any] = {
            "name": group.name,
            "node": coordinator and coordinator.id,
            "epoch": group.epoch() if group.members else None,
            "is_settled": group.is_settled(self.cluster.topics),
            "rebalancing_seconds": None if group.since is None else _seconds(now - group.since),
            "changed_seconds_ago": _seconds(now - group.changed) if group.members else None,
            "waits_for": group.waits_for.runs() if group.waits_for else None,
            "more_members": len(group.members) - len(members),
            "committed": {topic: len(offsets[topic].entries) for topic in sorted(offsets)},
            "lag": {topic: offsets[topic].lag(end) for topic in sorted(offsets)},
        }
        texts = {"members": _array(await pace.all(json.dumps(_member(member, now)) for member in members))}
        listed = [topic for topic in sorted(offsets) if not is_for_page or self._is_short(topic)]
        by_topic = [f"{json.dumps(topic)}: {await self._offsets_of(group.name, topic, offsets[topic], pace)}" for topic in listed]
        await pace.pause()
        return _object(known, {**texts, "offsets": "{" + ", ".join(by_topic) + "}"})

    def _is_short(self, topic: str) -> bool:
        found = self.cluster.topics.by_name.get(topic)
        return found is not None and found.count <= SHOWN_PARTITIONS

    async def _offsets_of(self, group: str, topic: str, of_topic: OfTopic, pace: Pace) -> str:
        """By partition. What was made before goes on while nothing is committed."""
        revision, text = self._offsets.get((group, topic), (-1, ""))
        if revision != of_topic.revision:
            revision, entries = of_topic.revision, of_topic.entries
            text = "{" + ", ".join(await pace.all(f'"{index}": {entries[index].offset}' for index in sorted(entries))) + "}"
            self._offsets[group, topic] = revision, text
        return text

    # ---- metrics

    def metrics(self) -> str:
        """All counts and times, for /metrics."""
        known, nodes, watch = self.watch.groups.groups.values(), self.cluster.nodes_here(), self.watch
        members: List[Tuple[Labels, float]] = [((("group", group.name),), len(group.members)) for group in known]
        connections: List[Tuple[Labels, float]] = [((("node", str(node.id)),), node.connections) for node in nodes]
        there: List[Tuple[Labels, float]] = [((("coordinator", str(node.coordinator)),), int(node.coordinator.is_there)) for node in nodes]
        lines = [
            *watch.metrics(),
            *self.cluster.metrics(),
            *gauge("broker_group_members", "Members of a group, as far as their heartbeats passed here.", members),
            *_one("broker_groups", "Groups with members.", len(known)),
            *_one("broker_groups_rebalancing", "Groups in which a rebalance is under way.", sum(it.since is not None for it in known)),
            *_one("broker_groups_waiting", "Groups that wait for partitions which nobody is assigned.", sum(bool(it.waits_for) for it in known)),
            *gauge("broker_group_lag", "Records between a group's committed offsets of a topic and the ends.", self._lags()),
            *head("broker_unwatched_heartbeats_total", "counter", "Heartbeats of members that there was no room to know."),
            line("broker_unwatched_heartbeats_total", (), watch.groups.unwatched),
            *_one("broker_committed_offsets", "Offsets that are kept for OffsetFetch.", self.cluster.offsets.count),
            *_one("broker_waiting_bytes", "Bytes that wait for slow clients.", self.cluster.room.bytes),
            *gauge("broker_connections", "Clients' connections of a broker.", connections),
            *gauge("broker_coordinator_up", "Whether a coordinator can be reached.", there),
        ]
        return "\n".join(lines) + "\n"

    def _lags(self) -> List[Tuple[Labels, float]]:
        end = self.cluster.log.end_offset()
        of_groups = ((name, self.cluster.offsets.of_group(name)) for name in self._names())
        return [((("group", name), ("topic", topic)), it.lag(end)) for name, topics in of_groups for topic, it in topics.items()]


def _coordinator(node: Node) -> Dict[str, Any]:
    broker, coordinator = f"{node.host}:{node.port}", node.coordinator
    return {"node": node.id, "broker": broker, "coordinator": str(coordinator), "is_there": coordinator.is_there, "connections": node.connections}


def _member(member: Member, now: float) -> Dict[str, Any]:
    assigned: Optional[Dict[str, List[Run]]] = None if member.assigned is None else member.assigned.runs()
    return {
        "id": member.id,
        "short_id": short_id(member.id),
        "client": member.client,
        "instance": member.instance,
        "is_away": member.is_away,
        "epoch": member.epoch,
        "assignor": member.assignor,
        "topics": None if member.names is None else sorted(member.names),
        "assigned": assigned,
        "held": member.held.runs(),
        "strange": member.strange,
        "known_seconds": _seconds(now - member.since),
        "heard_seconds_ago": _seconds(now - member.heard),
    }


def _seconds(seconds: float) -> float:
    return round(seconds, 1)


def _object(known: Dict[str, Any], texts: Dict[str, str]) -> str:
    """A JSON object of values, and of some that are JSON already."""
    fields = [f"{json.dumps(name)}: {json.dumps(value)}" for name, value in known.items()]
    fields += [f"{json.dumps(name)}: {text}" for name, text in texts.items()]
    return "{\n" + ",\n".join(fields) + "\n}"


def _array(texts: List[str]) -> str:
    return "[\n" + ",\n".join(texts) + "\n]" if texts else "[]"


def _one(name: str, meaning: str, value: float) -> List[str]:
    return gauge(name, meaning, [((), value)])
