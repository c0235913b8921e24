"""What the assignors promise by their names. Their formulas are free."""

from __future__ import annotations

from typing import List, Optional, Sequence

from conformance.member import Member
from conformance.messages import Topic
from conformance.play import Play

UNIFORM, RANGE = "uniform", "range"


def settled(play: Play, count: int, assignor: Optional[str], topics: Sequence[Topic]) -> List[Member]:
    members = [play.member(f"m{number}", assignor=assignor, names=[topic.name for topic in topics]) for number in range(1, count + 1)]
    for member in members:
        member.join()
    play.settle(*members)
    return members


def want_even(play: Play, members: Sequence[Member], topics: Sequence[Topic], what: str) -> None:
    ids = {topic.id for topic in topics}
    counts = [sum(topic in ids for topic, _ in member.owned) for member in members]
    play.want(max(counts) - min(counts) <= 1, f"of {what} the members have {', '.join(map(str, counts))}")


def assign_even(play: Play) -> None:
    topic = play.topic(0, partitions=3)
    want_even(play, settled(play, 3, None, [topic]), [topic], topic.name)


def assign_uniform(play: Play) -> None:
    topics = [play.topic(0, partitions=2), play.topic(1)]
    want_even(play, settled(play, 3, UNIFORM, topics), topics, "both topics")


def assign_range(play: Play) -> None:
    topics = [play.topic(0, partitions=2), play.topic(1)]
    members = settled(play, 3, RANGE, topics)
    for topic in topics:
        want_even(play, members, [topic], topic.name)
        for member in members:
            indexes = sorted(index for each, index in member.owned if each == topic.id)
            play.want(not indexes or indexes[-1] - indexes[0] < len(indexes), f"`range` gives {member.name} {play.story.partitions(member.owned)}")


def assign_range_together(play: Play) -> None:
    first = play.topic(0, partitions=2)
    others = [topic for topic in play.broker.topics if topic.count == first.count and topic != first]
    if not others:
        play.topic(len(play.broker.topics), partitions=first.count)
    members = settled(play, 2, RANGE, [first, others[0]])
    for member in members:
        indexes = [{index for each, index in member.owned if each == topic.id} for topic in (first, others[0])]
        play.want(indexes[0] == indexes[1], f"`range` gives {member.name} {play.story.partitions(member.owned)}")


def assign_more_members(play: Play) -> None:
    topic = min(play.broker.topics, key=lambda each: each.count)
    count = min(topic.count, 12) + 2
    members = settled(play, count, None, [topic])
    if topic.count < count:
        play.want(any(not member.owned for member in members), "each of more members than partitions has one")


def assign_change(play: Play) -> None:
    topic = play.topic(0, partitions=2)
    a, b = settled(play, 2, UNIFORM, [topic])
    epoch = a.epoch
    for member in (a, b):
        member.assignor = RANGE
        reply = member.tries(assignor=RANGE)
        play.want_taken(member, reply)
        play.want_code(f"the heartbeat of {member.name}", reply.code, 0)
        member.release()
    play.until("both get to a higher epoch, since they name another assignor", lambda: min(a.epoch, b.epoch) > epoch, a, b)
    play.settle(a, b)


def assign_mixed(play: Play) -> None:
    topic = play.topic(0, partitions=2)
    a, b = play.member("a", assignor=UNIFORM, names=[topic.name]), play.member("b", assignor=RANGE, names=[topic.name])
    a.join()
    b.join()
    play.settle(a, b)


def assign_sticky(play: Play) -> None:
    topic = play.topic(0, partitions=3)
    members = settled(play, 3, UNIFORM, [topic])
    left, rest = members[0], members[1:]
    had = {member.name: member.owned for member in rest}
    left.leave()
    play.settle(*rest)
    moved = sum(len(had[member.name] - member.owned) for member in rest)
    play.note(f"{moved} of {sum(map(len, had.values()))} partitions move without need when a member of `uniform` leaves")
