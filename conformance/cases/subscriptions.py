"""Changes of what members subscribe."""

from __future__ import annotations

from typing import Tuple

from conformance.cases.heartbeats import NO_SUCH_TOPIC, settled_pair
from conformance.member import Member
from conformance.messages import Topic
from conformance.play import Play
from conformance.verdict import NotRun

INVALID_REQUEST = 42


def alone(play: Play, *topics: Topic) -> Member:
    a = play.member("a", names=[topic.name for topic in topics])
    a.join()
    play.settle(a)
    return a


def subscribes(member: Member, *topics: Topic) -> None:
    member.names = [topic.name for topic in topics]
    reply = member.tries(names=member.names)
    if not topics and reply.code == INVALID_REQUEST:
        raise NotRun("the broker takes no empty list of topics")
    member.play.want_code(f"the heartbeat of {member.name}", reply.code, 0)
    member.release()


def subscribe_more(play: Play) -> None:
    first, second = play.topic(0), play.topic(1)
    a = alone(play, first)
    epoch = a.epoch
    subscribes(a, first, second)
    play.settle(a)
    play.want(a.epoch > epoch, f"it subscribes another topic and stays at epoch {epoch}")


def subscribe_less(play: Play) -> None:
    first, second = play.topic(0), play.topic(1)
    a = alone(play, first, second)
    epoch = a.epoch
    subscribes(a, second)
    play.settle(a)
    play.want(a.epoch > epoch, f"it subscribes less and stays at epoch {epoch}")


def subscribe_other(play: Play) -> None:
    first, second = play.topic(0), play.topic(1)
    a = alone(play, first)
    subscribes(a, second)
    play.settle(a)


def subscribe_nothing(play: Play) -> None:
    a, b = settled_pair(play)
    subscribes(a)
    play.settle(a, b)
    play.want(not a.owned, f"it is left with {play.story.partitions(a.owned)}")


def subscribe_again(play: Play) -> None:
    first = play.topic()
    a = alone(play, first)
    subscribes(a)
    play.until("it has nothing left", lambda: not a.owned, a)
    subscribes(a, first)
    play.settle(a)


def subscribe_reordered(play: Play) -> None:
    first, second = play.topic(0), play.topic(1)
    a = alone(play, first, second)
    epoch = a.epoch
    subscribes(a, second, first)
    a.turn()
    play.want(a.epoch == epoch, f"the same topics in another order take it from epoch {epoch} to {a.epoch}")


def subscribe_unknown_too(play: Play) -> None:
    first = play.topic()
    a = alone(play, first)
    a.names = [first.name, NO_SUCH_TOPIC]
    a.beat(names=a.names)
    a.release()
    play.settle(a)


def apart(play: Play) -> Tuple[Member, Member]:
    first, second = play.topic(0), play.topic(1)
    a, b = play.member("a", names=[first.name]), play.member("b", names=[second.name])
    a.join()
    b.join()
    play.settle(a, b)
    return a, b


def subscribe_apart(play: Play) -> None:
    a, b = apart(play)
    c = play.member("c", names=b.names)
    c.join()
    play.settle(a, b, c)
    play.want(a.owned == play.topic(0).partitions(), f"the first has {play.story.partitions(a.owned)}")
    play.want(b.owned | c.owned == play.topic(1).partitions(), f"the others have {play.story.partitions(b.owned | c.owned)}")


def subscribe_swap(play: Play) -> None:
    a, b = apart(play)
    subscribes(a, play.topic(1))
    subscribes(b, play.topic(0))
    play.settle(a, b)


def subscribe_overlap(play: Play) -> None:
    first, second = play.topic(0), play.topic(1)
    a, b = play.member("a", names=[first.name, second.name]), play.member("b", names=[second.name])
    a.join()
    b.join()
    play.settle(a, b)
    play.want(not b.owned - second.partitions(), f"b has {play.story.partitions(b.owned - second.partitions())}, which it doesn't subscribe")
    play.want(first.partitions() <= a.owned, f"a alone subscribes {first.name}, and has {play.story.partitions(a.owned)}")


def subscribe_last_subscriber_leaves(play: Play) -> None:
    a, b = apart(play)
    b.leave()
    play.settle(a)
    play.want(a.owned == play.topic(0).partitions(), f"it has {play.story.partitions(a.owned)}")
