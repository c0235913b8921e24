"""How partitions move: who has one gives it up first, and reports that, and only then another member gets it."""

from __future__ import annotations

from typing import Tuple

from conformance.cases.heartbeats import settled_pair, told_to_revoke
from conformance.member import Member, new_id
from conformance.messages import NOTHING
from conformance.play import Play
from conformance.verdict import NotRun


def asked_to_revoke(play: Play) -> Tuple[Member, Member]:
    """The first member has everything and is told to give a part up; the second has joined."""
    play.topic(0, partitions=2)
    a, b = play.member("a"), play.member("b")
    a.join()
    play.settle(a)
    b.join()
    told_to_revoke(play, a)
    return a, b


def revoke_before_assign(play: Play) -> None:
    a, b = asked_to_revoke(play)
    for _ in range(5):
        b.turn()
        play.want(not b.owned & a.owned, f"b is assigned {play.story.partitions(b.owned & a.owned)}, which a hasn't given up")
    a.release()
    play.settle(a, b)


def revoke_shows_intersection(play: Play) -> None:
    play.topic(0, partitions=2)
    a, b = play.member("a"), play.member("b")
    a.join()
    play.settle(a)
    had, epoch = a.owned, a.epoch
    b.join()
    told_to_revoke(play, a)
    play.want(a.assigned < had, f"it has {play.story.partitions(had)} and is shown {play.story.partitions(a.assigned)}")
    play.want(a.epoch == epoch, f"its epoch rises from {epoch} to {a.epoch} with the order to revoke")


def revoke_keeps_epoch(play: Play) -> None:
    a, b = asked_to_revoke(play)
    epoch, other = a.epoch, b.epoch
    for kind in ("short", "owned", "full", "short"):
        a.beat(kind)
        play.want(a.epoch == epoch, f"its epoch rises from {epoch} to {a.epoch} before it has given up what it isn't assigned")
    b.turn()
    play.want(not b.owned & a.owned and b.epoch >= other, "the other member is assigned what wasn't given up")


def reports_nothing(play: Play, a: Member, b: Member) -> None:
    """Told to revoke, it sends short heartbeats."""
    epoch = a.epoch
    for _ in range(3):
        a.beat("short")
        b.turn()
    play.want(a.epoch == epoch, f"null for its partitions takes it from epoch {epoch} to {a.epoch}")
    play.want(not b.owned & a.owned, "null for its partitions counts as having given them up")


def null_is_no_report(play: Play) -> None:
    a, b = asked_to_revoke(play)
    reports_nothing(play, a, b)


def report_in_part(play: Play) -> None:
    play.topic(0, partitions=4)
    a, b = asked_to_revoke(play)
    epoch, revoked = a.epoch, sorted(a.owned - a.assigned)
    if len(revoked) < 2:
        raise NotRun("the assignor takes one partition only, which is given up in whole")
    a.owns(a.owned - {revoked[0]})
    for _ in range(3):
        a.beat("owned")
        b.turn()
        play.want(a.epoch == epoch, f"its epoch rises from {epoch} to {a.epoch} with {play.story.partitions(a.owned - a.assigned)} not given up")
        play.want(not b.owned & a.owned, f"b is assigned {play.story.partitions(b.owned & a.owned)}, which a has")
    a.release()
    play.settle(a, b)


def report_raises_epoch(play: Play) -> None:
    a, _ = asked_to_revoke(play)
    epoch = a.epoch
    a.release()
    play.until("the report takes it to the new epoch", lambda: a.epoch > epoch, a)


def freed_goes_on(play: Play) -> None:
    a, b = asked_to_revoke(play)
    freed = a.owned - a.assigned
    a.release()
    a.beat("owned")
    play.until(f"b is assigned {play.story.partitions(freed)}", lambda: freed <= b.owned, b)


def claim_changes_nothing(play: Play) -> None:
    a, b = settled_pair(play)
    had = b.owned
    reply = a.ask(a.request("owned", owned=play.topic().partitions()))
    play.want(
        not (reply.assignment or NOTHING) & had,
        f"it is assigned {play.story.partitions((reply.assignment or NOTHING) & had)} since it claimed it",
    )
    for kind in ("short", "full"):
        b.beat(kind)
        play.want(had <= b.assigned, f"the other member is told to give up {play.story.partitions(had - b.assigned)}")


def revoke_or_assign(play: Play) -> None:
    first, second = play.topic(0), play.topic(1)
    a = play.member("a", names=[first.name, second.name])
    a.join()
    play.settle(a)
    a.beat(names=[first.name])
    play.until(f"it is told to give up {second.name}", lambda: a.assigned == first.partitions(), a, act=Member.beat)
    a.release()
    a.names = [second.name]
    reply = a.beat("full")
    revoked, given = first.partitions() - a.assigned, a.assigned & second.partitions()
    play.want(
        not (reply.assignment and revoked and given),
        f"one reply takes {play.story.partitions(revoked)} and gives {play.story.partitions(given)}",
    )
    a.release()
    play.settle(a)


def newcomer_leaves(play: Play) -> None:
    a, b = asked_to_revoke(play)
    b.leave()
    a.release()
    play.settle(a)


def newcomer_leaves_unnoticed(play: Play) -> None:
    a, b = play.member("a"), play.member("b")
    a.join()
    play.settle(a)
    b.join()
    b.leave()
    play.settle(a)


def third_joins_meanwhile(play: Play) -> None:
    a, b = asked_to_revoke(play)
    c = play.member("c")
    c.join()
    for _ in range(3):
        b.turn()
        c.turn()
    a.release()
    play.settle(a, b, c)


def three_then_one(play: Play) -> None:
    members = [play.member(name) for name in "abc"]
    for member in members:
        member.join()
        play.settle()
    a, b, c = members
    b.leave()
    play.settle(a, c)
    c.leave()
    play.settle(a)


def slow_member_holds_alone(play: Play) -> None:
    play.topic(0, partitions=3)
    a, b = settled_pair(play)
    held = a.owned
    c = play.member("c")
    c.join()
    for _ in range(6):
        b.turn()
        c.turn()
        play.want_kept(a, held, b, c)
    play.settle(a, b, c)


def epoch_of_all(play: Play) -> None:
    members = [play.member(name) for name in "abcd"]
    for member in members:
        member.join()
    play.settle(*members)
    epoch = members[0].epoch
    for member in members:
        member.turn()
    play.want({member.epoch for member in members} == {epoch}, "settled members get to other epochs, and nothing has changed")


def null_is_no_report_after_rejoin(play: Play) -> None:
    play.topic(0, partitions=2)
    a, b = play.member("a", id=new_id()), play.member("b")
    a.join()
    play.settle(a)
    a.join()
    play.until("it has its partitions again", lambda: a.owned == play.topic().partitions(), a, act=Member.beat)
    b.join()
    told_to_revoke(play, a)
    reports_nothing(play, a, b)
