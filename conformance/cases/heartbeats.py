"""Heartbeats of members: short and full ones, epochs, lost and repeated replies."""

from __future__ import annotations

import uuid
from typing import List, Tuple

from conformance.member import Member, new_id
from conformance.messages import NOTHING, Partitions, Told
from conformance.play import Play

UNKNOWN_MEMBER_ID, GROUP_ID_NOT_FOUND, FENCED_MEMBER_EPOCH = 25, 69, 110
NO_SUCH_TOPIC = "conformance-no-such-topic"
# So many join and leave one after the other: more epochs than a byte has values.
GUESTS = 130


def settled_pair(play: Play) -> Tuple[Member, Member]:
    """Two members that share a topic."""
    play.topic(0, partitions=2)
    a, b = play.member("a"), play.member("b")
    a.join()
    play.settle(a)
    b.join()
    play.settle(a, b)
    return a, b


def stays(play: Play, a: Member, epoch: int, owned: Partitions) -> None:
    play.want((a.epoch, a.assigned) == (epoch, owned), f"it gets from epoch {epoch} to {a.epoch}, with {play.story.partitions(a.assigned)}")


def beat_null_names(play: Play) -> None:
    a, b = settled_pair(play)
    for _ in range(3):
        a.turn()
    c = play.member("c", names=[NO_SUCH_TOPIC])
    c.join()
    play.settle(a, b, c)
    play.want(bool(a.owned), "the member that sent null for its topics has nothing after the next rebalance")


def beat_full(play: Play) -> None:
    a, b = settled_pair(play)
    for member in (a, b):
        reply = member.beat("full")
        play.want(reply.assignment is not None, f"the full heartbeat of {member.name} is answered without an assignment")
    play.want(a.assigned == a.owned and b.assigned == b.owned, "full heartbeats show another assignment than before")


def beat_full_keeps_epoch(play: Play) -> None:
    a, b = settled_pair(play)
    epoch = a.epoch
    for _ in range(3):
        a.beat("full")
        b.beat("full")
    play.want(a.epoch == b.epoch == epoch, f"full heartbeats take the members from epoch {epoch} to {a.epoch} and {b.epoch}")


def beat_owned_keeps_epoch(play: Play) -> None:
    a, b = settled_pair(play)
    epoch = a.epoch
    for _ in range(3):
        a.beat("owned")
        b.beat("owned")
    play.want(a.epoch == b.epoch == epoch, f"reports take the members from epoch {epoch} to {a.epoch} and {b.epoch}")


def beat_unknown_member(play: Play) -> None:
    a, nobody = play.member("a"), play.member("nobody", id=new_id(), epoch=1)
    a.join()
    reply = nobody.ask(nobody.request("short"))
    play.want_code("a heartbeat of nobody", reply.code, UNKNOWN_MEMBER_ID)


def beat_unknown_group(play: Play) -> None:
    nobody = play.member("nobody", id=new_id(), epoch=1)
    reply = nobody.ask(nobody.request("full"))
    play.want_code("a heartbeat to a group that isn't there", reply.code, UNKNOWN_MEMBER_ID, GROUP_ID_NOT_FOUND)


def fence_later_epoch(play: Play) -> None:
    a = play.member("a")
    a.join()
    play.settle(a)
    reply = a.ask(a.request("owned", epoch=a.epoch + 1))
    play.want_code("a heartbeat at a later epoch", reply.code, FENCED_MEMBER_EPOCH)


def fence_old_epoch(play: Play) -> None:
    a, b = settled_pair(play)
    old = a.epoch
    for name in "cd":
        play.member(name).join()
        play.settle()
    play.want(a.epoch > old + 1, f"two joins take the group from epoch {old} to {a.epoch}")
    reply = a.ask(a.request("owned", epoch=old))
    play.want_code(f"a heartbeat at epoch {old} of a member at {a.epoch}", reply.code, FENCED_MEMBER_EPOCH)


def fence_previous_epoch_others_partitions(play: Play) -> None:
    play.topic(0, partitions=2)
    a, b = play.member("a"), play.member("b")
    a.join()
    play.settle(a)
    former, had = a.epoch, a.owned
    b.join()
    play.settle(a, b)
    reply = a.ask(a.request("owned", epoch=former, owned=had))
    play.want_code("a heartbeat of before the rebalance, with all that it had then,", reply.code, FENCED_MEMBER_EPOCH)


def fence_previous_epoch_no_report(play: Play) -> None:
    play.topic(0, partitions=2)
    a, b = play.member("a"), play.member("b")
    a.join()
    play.settle(a)
    former = a.epoch
    b.join()
    play.settle(a, b)
    reply = a.ask(a.request("short", epoch=former))
    play.want_code("a heartbeat at the previous epoch without a report", reply.code, FENCED_MEMBER_EPOCH)


def previous_epoch_accepted(play: Play) -> None:
    a, former = lost_acknowledgement(play)
    reply = a.tries("full", epoch=former)
    play.want_code("the report at the previous epoch", reply.code, 0)
    play.want(reply.epoch > former, f"the report at epoch {former} is answered with epoch {reply.epoch} the second time")
    play.settle()


def previous_epoch_recovers(play: Play) -> None:
    a, former = lost_acknowledgement(play)
    reply = a.tries("full", epoch=former)
    play.want_code("the report at the previous epoch", reply.code, 0, FENCED_MEMBER_EPOCH)
    if reply.code:
        a.join()
    play.settle()


def told_to_revoke(play: Play, a: Member) -> None:
    """The member beats until it is told to give something up, which it hasn't done yet."""
    play.stands_on("revoke-shows-intersection")
    play.until(f"{a.name} is told to give up partitions", lambda: a.owned != a.assigned, a, act=Member.beat)


def lost_acknowledgement(play: Play) -> Tuple[Member, int]:
    """A member that gave up partitions, whose report was answered with a new epoch: it hasn't got the reply."""
    play.stands_on("report-raises-epoch")
    play.topic(0, partitions=2)
    a, b = play.member("a", id=new_id()), play.member("b")
    a.join()
    play.settle(a)
    b.join()
    told_to_revoke(play, a)
    former, told = a.epoch, [a.epoch]
    a.release()

    def report(member: Member) -> None:
        reply = member.ask(member.request("owned"), lost=True)
        play.want_code("the report of a", reply.code, 0)
        told.append(reply.epoch)

    play.until("the report of what it gave up raises the epoch of a", lambda: told[-1] > former, a, act=report)
    return a, former


def lost_assignment(play: Play) -> None:
    play.topic(0, partitions=2)
    a, b = play.member("a"), play.member("b", id=new_id())
    a.join()
    play.settle(a)
    b.join()
    lost: List[Told] = []

    def act(member: Member) -> None:
        if member is a:
            a.turn()
            return
        reply = b.ask(b.request("short" if b.epoch else "join"), lost=True)
        play.want_code("the heartbeat of b", reply.code, 0)
        b.epoch = reply.epoch
        lost.extend([reply] if reply.assignment else [])

    play.until("the second member is assigned something", lambda: bool(lost), a, b, act=act)
    wanted = lost[0].assignment or NOTHING
    play.until(
        f"b is assigned {play.story.partitions(wanted)}, as in the reply that was lost",
        lambda: b.assigned >= wanted,
        b,
        act=lambda _: b.beat("full"),
    )
    play.settle(a, b)


def lost_revocation(play: Play) -> None:
    play.topic(0, partitions=2)
    a, b = play.member("a"), play.member("b")
    a.join()
    play.settle(a)
    b.join()
    reply = a.ask(a.request("short"), lost=True)
    play.want_code("the heartbeat of a", reply.code, 0)
    b.turn()
    play.until("a is told what is left to it", lambda: a.owned != a.assigned, a, act=lambda _: a.beat("full"))
    a.release()
    play.settle(a, b)


def rejoin_after_fence(play: Play) -> None:
    a, b = settled_pair(play)
    reply = a.tries("owned", epoch=a.epoch + 7)
    play.want_code("a heartbeat at a later epoch", reply.code, FENCED_MEMBER_EPOCH)
    a.join()
    play.settle(a, b)


def fence_harms_nobody(play: Play) -> None:
    a, b = settled_pair(play)
    had = b.owned
    reply = a.tries("owned", epoch=a.epoch + 7)
    play.want_code("a heartbeat at a later epoch", reply.code, FENCED_MEMBER_EPOCH)
    b.turn()
    play.want(had <= b.owned, f"after another member was fenced, b lost {play.story.partitions(had - b.owned)}")


def epoch_is_repeated(play: Play) -> None:
    a, b = settled_pair(play)
    for _ in range(4):
        for member in (a, b):
            before = member.epoch
            reply = member.turn()
            play.want(reply.epoch == before, f"a settled member at epoch {before} is answered with epoch {reply.epoch}")


def beat_names_owned(play: Play) -> None:
    a, b = settled_pair(play)
    epoch, owned = a.epoch, a.owned
    for _ in range(2):
        a.beat("owned", names=list(a.names))
        b.turn()
    stays(play, a, epoch, owned)


def beat_interval(play: Play) -> None:
    a = play.member("a")
    told = [a.join()]
    play.settle(a)
    told += [a.beat(kind) for kind in ("short", "owned", "full")]
    play.member("b").join()
    told += [a.turn() for _ in range(4)]
    session = play.settings.session * 1000
    for reply in told:
        play.want(0 < reply.interval < session, f"a reply has heartbeat interval {reply.interval} ms; the session timeout is {session:g} ms")
        play.want(0 <= reply.throttle < session, f"a reply has throttle time {reply.throttle} ms; the session timeout is {session:g} ms")


def fence_previous_epoch_given_up(play: Play) -> None:
    play.topic(0, partitions=2)
    a, b = play.member("a"), play.member("b")
    a.join()
    play.settle(a)
    former, had = a.epoch, a.owned
    b.join()
    told_to_revoke(play, a)
    play.until("its report raises its epoch", lambda: a.epoch > former, a)
    reply = a.ask(a.request("owned", epoch=former, owned=had))
    play.want_code("a report at the former epoch of what was given up", reply.code, FENCED_MEMBER_EPOCH)


def report_unknown_topic(play: Play) -> None:
    a, b = settled_pair(play)
    epoch, owned = a.epoch, a.owned
    for kind in ("owned", "full"):
        a.beat(kind, owned=owned | {(uuid.uuid4().bytes, 0)})
        b.turn()
    stays(play, a, epoch, owned)


def epoch_beyond_255(play: Play) -> None:
    other = play.topic(1)
    a = play.member("a")
    a.join()
    play.settle(a)
    wanted = a.epoch + 2 * GUESTS
    for number in range(GUESTS):
        guest = play.member("guest", names=[other.name], id=new_id())
        guest.join()
        guest.leave()
        play.members.remove(guest)
        guest.reconnect()
        if number % 10 == 0:
            a.turn()
    play.until(f"the one that stays is at epoch {wanted}", lambda: a.epoch >= wanted, a)


def fence_keeps_member(play: Play) -> None:
    a, _ = settled_pair(play)
    epoch, owned = a.epoch, a.owned
    reply = a.ask(a.request("owned", epoch=epoch + 7))
    play.want_code("a heartbeat at a later epoch", reply.code, FENCED_MEMBER_EPOCH)
    a.beat("full")
    stays(play, a, epoch, owned)
