"""Static members: those with an instance id. They leave for a while with epoch -2, and come back to what they had."""

from __future__ import annotations

from typing import Any, Tuple

from conformance.member import Member, new_id
from conformance.messages import AWAY, Partitions
from conformance.play import Play
from conformance.story import code_text

UNKNOWN_MEMBER_ID, FENCED_INSTANCE_ID, FENCED_MEMBER_EPOCH, UNRELEASED_INSTANCE_ID = 25, 82, 110, 111


def static_pair(play: Play, **settings: Any) -> Tuple[Member, Member]:
    """A static member and a dynamic one that share a topic."""
    play.stands_on("static-join")
    play.topic(0, partitions=2)
    s, d = play.member("s", instance="instance-1", id=new_id(), **settings), play.member("d", **settings)
    s.join()
    play.settle(s)
    d.join()
    play.settle(s, d)
    return s, d


def heir(play: Play, of: Member, name: str = "heir") -> Member:
    """Another member with the same instance, as a consumer that was started again."""
    return play.member(name, instance=of.instance, id=new_id(), group=of.group, names=of.names)


def comes_back(play: Play, back: Member, kept: Partitions, other: Member) -> None:
    """It joins, and gets the partitions that its instance had."""
    back.join()
    play.settle(back, other)
    play.want(back.owned == kept, f"it comes back to {play.story.partitions(back.owned)}, and had {play.story.partitions(kept)}")


def static_join(play: Play) -> None:
    static_pair(play)


def static_away_reply(play: Play) -> None:
    s = play.member("s", instance="instance-1")
    s.join()
    reply = s.leave("away")
    play.want(reply.epoch == AWAY, f"the reply has member epoch {reply.epoch}")


def static_away_keeps(play: Play) -> None:
    s, d = static_pair(play)
    kept, had = s.owned, d.owned
    s.leave("away")
    for _ in range(5):
        d.turn()
    play.want_kept(s, kept, d)
    play.want(d.owned == had, f"the other member is left with {play.story.partitions(d.owned)}, and had {play.story.partitions(had)}")


def static_away_keeps_epoch(play: Play) -> None:
    s, d = static_pair(play)
    epoch = d.epoch
    s.leave("away")
    d.turn()
    heir(play, s).join()
    d.turn()
    play.want(d.epoch == epoch, f"the other member gets from epoch {epoch} to {d.epoch}")


def static_return(play: Play) -> None:
    s, d = static_pair(play)
    kept = s.owned
    s.leave("away")
    comes_back(play, heir(play, s), kept, d)


def static_return_same_id(play: Play) -> None:
    s, d = static_pair(play)
    kept = s.owned
    s.leave("away")
    comes_back(play, s, kept, d)


def static_return_once(play: Play) -> None:
    s, d = static_pair(play)
    s.leave("away")
    back = heir(play, s)
    back.join()
    reply = heir(play, s, "another").tries_to_join()
    play.want_code("the join with an instance that is in use", reply.code, UNRELEASED_INSTANCE_ID)
    play.settle(back, d)


def static_instance_taken(play: Play) -> None:
    s, d = static_pair(play)
    owned = s.owned
    reply = heir(play, s).tries_to_join()
    play.want_code("the join with an instance that is in use", reply.code, UNRELEASED_INSTANCE_ID)
    s.turn()
    play.want(s.owned == owned, f"the member that is there is left with {play.story.partitions(s.owned)}")


def static_old_id(play: Play) -> None:
    s, d = static_pair(play)
    epoch, owned = s.epoch, s.owned
    s.leave("away")
    back = heir(play, s)
    back.join()
    reply = s.ask(s.request("full", epoch=epoch, owned=owned))
    play.want_code("a heartbeat under the old id", reply.code, UNKNOWN_MEMBER_ID, FENCED_MEMBER_EPOCH, FENCED_INSTANCE_ID)
    play.settle(back, d)


def static_away_beat(play: Play) -> None:
    s, _ = static_pair(play)
    epoch, owned = s.epoch, s.owned
    s.leave("away")
    reply = s.ask(s.request("owned", epoch=epoch, owned=owned))
    play.want_code("a heartbeat of a member that is away", reply.code, FENCED_MEMBER_EPOCH, UNKNOWN_MEMBER_ID)


def static_leave_for_good(play: Play) -> None:
    s, d = static_pair(play)
    s.leave()
    play.settle(d)


def static_instance_after_leave(play: Play) -> None:
    s, d = static_pair(play)
    s.leave()
    play.settle(d)
    back = heir(play, s)
    back.join()
    play.settle(back, d)


def static_away_foreign_instance(play: Play) -> None:
    s, _ = static_pair(play)
    reply = s.ask(s.request("away", instance="another-instance"))
    play.want_refused("epoch -2 with an instance that isn't the member's", reply.code)
    s.turn()


def static_away_dynamic(play: Play) -> None:
    s, d = static_pair(play)
    reply = d.ask(d.request("away", instance=s.instance))
    play.want_refused("epoch -2 of a member without an instance", reply.code)
    d.turn()
    s.turn()


def static_away_newcomer(play: Play) -> None:
    s, d = static_pair(play)
    kept = s.owned
    s.leave("away")
    c = play.member("c")
    c.join()
    for _ in range(4):
        c.turn()
        d.turn()
    play.want_kept(s, kept, c, d)
    back = heir(play, s)
    back.join()
    play.settle(back, c, d)


def static_return_other_subscription(play: Play) -> None:
    topics = [play.topic(0), play.topic(1)]
    s, d = static_pair(play, names=[topic.name for topic in topics])
    left_out = next(topic for topic in topics if topic.id == s.any()[0])
    s.leave("away")
    back = heir(play, s)
    back.names = [topic.name for topic in topics if topic != left_out]
    back.join()
    play.settle(back, d)
    play.want(not back.owned & left_out.partitions(), f"it has {play.story.partitions(back.owned)}")


def static_killed(play: Play) -> None:
    s, _ = static_pair(play)
    reply = heir(play, s).tries_to_join()
    play.note(f"the join of a static member that was killed is answered with {code_text(reply.code)}")


def static_two_groups(play: Play) -> None:
    a, b = play.member("a", instance="instance-1"), play.member("b", instance="instance-1", group=play.new_group())
    a.join()
    b.join()
    play.settle(a)
    play.settle(b)


def static_similar_instances(play: Play) -> None:
    instances = ("instance-1", "instance-12", "instance-", "Instance-1")
    members = [play.member(name, instance=instance, id=new_id()) for name, instance in zip("abcd", instances)]
    for member in members:
        member.join()
    play.settle(*members)


def static_away_repeated(play: Play) -> None:
    s, d = static_pair(play)
    kept = s.owned
    s.leave("away")
    s.ask(s.request("away"), lost=True)
    for _ in range(3):
        d.turn()
    play.want_kept(s, kept, d)
    comes_back(play, heir(play, s), kept, d)


def static_away_leaves(play: Play) -> None:
    s, d = static_pair(play)
    s.leave("away")
    s.leave()
    play.settle(d)


def static_join_repeated(play: Play) -> None:
    s = play.member("s", instance="instance-1", id=new_id())
    s.ask(s.request("join"), lost=True)
    play.note(f"the second join is answered with {code_text(s.tries_to_join().code)}")
