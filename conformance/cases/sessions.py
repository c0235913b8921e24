"""Slow cases: the ends of sessions and of rebalance timeouts."""

from __future__ import annotations

import time
from typing import Callable, Optional, Tuple

from conformance.cases.heartbeats import UNKNOWN_MEMBER_ID, settled_pair, told_to_revoke
from conformance.cases.static_members import heir, static_pair
from conformance.member import REBALANCE_MS, Member, new_id
from conformance.play import Play

PAUSE = 0.25
# A rebalance timeout that is over soon, in milliseconds.
SOON_MS = 2_000


def wait(play: Play, seconds: float, *members: Member, until: Callable[[], bool] = lambda: False) -> bool:
    """The members beat for so long, or until it holds; whether it does."""
    end = time.monotonic() + seconds
    while time.monotonic() < end and not until():
        for member in members:
            member.turn()
        time.sleep(min(PAUSE, play.settings.session / 20))
    return until()


def falls_silent(play: Play, member: Member) -> None:
    """From now on the member sends nothing, and is none any more when its session is over. What it had may go to others then."""
    play.story.say(f"-- {member.name} falls silent")
    member.is_in, member.may_end = False, True


def is_over(play: Play) -> float:
    return play.settings.session + play.settings.late


def session_ends(play: Play) -> None:
    # (This isn't the first group, nor the only one.)
    play.member("other", group=play.new_group()).join()
    a, b = settled_pair(play)
    falls_silent(play, b)
    play.want(
        wait(play, is_over(play), a, until=lambda: play.is_settled([a])),
        f"{is_over(play):g} s after the last heartbeat the other member has {play.story.partitions(a.owned)}",
    )
    reply = b.tries("full")
    play.want_code("a heartbeat of the member that was removed", reply.code, UNKNOWN_MEMBER_ID)


def session_holds(play: Play) -> None:
    a, b = settled_pair(play)
    had, epoch = a.owned, a.epoch
    wait(play, play.settings.session * 0.9, a)
    play.want_in_time(b)
    play.want(
        (a.owned, a.epoch) == (had, epoch),
        f"the other member is at epoch {a.epoch} with {play.story.partitions(a.owned)} before the session is over",
    )
    b.beat("full")


def session_goes_on(play: Play) -> None:
    members = [play.member(name) for name in "abc"]
    for member in members:
        member.join()
    play.settle(*members)
    epoch = members[0].epoch
    for _ in range(3):
        wait(play, play.settings.session * 0.45)
        for member, kind in zip(members, ("short", "owned", "full")):
            member.beat(kind)
    epochs = {member.epoch for member in members}
    play.want(epochs == {epoch}, f"they are at epochs {epochs} and were at {epoch}")


def session_fenced(play: Play) -> None:
    play.stands_on("session-ends")
    a, b = settled_pair(play)
    falls_silent(play, b)
    request, until = b.request("owned", epoch=b.epoch + 7), time.monotonic() + is_over(play)
    while not play.is_settled([a]) and time.monotonic() < until:
        b.ask(request)
        wait(play, play.settings.session / 8, a)
    play.want(play.is_settled([a]), f"{is_over(play):g} s after the last heartbeat at its epoch the other has {play.story.partitions(a.owned)}")


def session_rejoin(play: Play) -> None:
    play.stands_on("session-ends")
    a, b = settled_pair(play)
    epoch = b.epoch
    falls_silent(play, b)
    play.want(wait(play, is_over(play), a, until=lambda: play.is_settled([a])), "the silent member isn't removed")
    b.join()
    play.settle(a, b)
    play.want(b.epoch > epoch, f"it joins again at epoch {b.epoch}, and was at {epoch}")


def session_all_end(play: Play) -> None:
    for member in settled_pair(play):
        falls_silent(play, member)
    wait(play, is_over(play))
    c = play.member("c")
    c.join()
    play.settle(c)


def session_of_commits(play: Play) -> None:
    play.stands_on("session-ends")
    play.wants_commits()
    a, b = settled_pair(play)
    partition = b.any()
    falls_silent(play, b)
    play.want(wait(play, is_over(play), a, until=lambda: play.is_settled([a])), "the silent member isn't removed")
    play.want_code("a commit of the member that was removed", play.commit(b, {partition: 1})[0], UNKNOWN_MEMBER_ID)


def is_removed(play: Play, a: Member, b: Member) -> None:
    """The member was told to revoke. It beats on without a report until it is removed, soon after its rebalance timeout."""
    play.story.say(f"-- {a.name} beats on, and gives nothing up")
    begin, reply, a.may_end = time.monotonic(), a.tries(), True
    while reply.code == 0 and time.monotonic() < begin + SOON_MS / 1000 + play.settings.late:
        time.sleep(PAUSE)
        b.turn()
        reply = a.tries()
    play.want_code(f"{play.settings.late:g} s after its rebalance timeout a heartbeat of the member", reply.code, UNKNOWN_MEMBER_ID)
    play.settle(b)


def told_soon(play: Play, at_first: int = SOON_MS, later: Optional[int] = None) -> Tuple[Member, Member]:
    """A member with a rebalance timeout that is told to revoke. It says another timeout, if one is given, in a later heartbeat."""
    play.topic(0, partitions=2)
    a, b = play.member("a", timeout=at_first, id=new_id()), play.member("b")
    a.join()
    play.settle(a)
    if later is not None:
        a.timeout = later
        a.beat("full")
    b.join()
    told_to_revoke(play, a)
    return a, b


def stays(play: Play, *members: Member) -> None:
    """When a rebalance timeout that began before is over, the first one is a member as it was."""
    play.settle(*members)
    epoch = members[0].epoch
    wait(play, SOON_MS / 1000 * 2, *members)
    play.want(members[0].epoch == epoch, f"it is at epoch {members[0].epoch} and was at {epoch}")


def rebalance_timeout_ends(play: Play) -> None:
    is_removed(play, *told_soon(play))


def rebalance_timeout_lowered(play: Play) -> None:
    is_removed(play, *told_soon(play, REBALANCE_MS, SOON_MS))


def rebalance_timeout_raised(play: Play) -> None:
    a, b = told_soon(play, SOON_MS, REBALANCE_MS)
    until = time.monotonic() + SOON_MS / 1000 * 2
    while time.monotonic() < until:
        a.beat()
        b.turn()
        time.sleep(PAUSE)
    a.release()
    play.settle(a, b)


def rebalance_timeout_rejoin(play: Play) -> None:
    a, b = told_soon(play)
    a.join()
    stays(play, a, b)


def rebalance_timeout_given_back(play: Play) -> None:
    a, b = told_soon(play)
    b.leave()
    stays(play, a)


def rebalance_timeout_met(play: Play) -> None:
    a, b = told_soon(play)
    time.sleep(SOON_MS / 4000)
    a.release()
    stays(play, a, b)


def rebalance_timeout_of_settled(play: Play) -> None:
    a = play.member("a", timeout=SOON_MS)
    a.join()
    stays(play, a)


def static_away_ends(play: Play) -> None:
    s, d = static_pair(play)
    s.leave("away")
    play.want(
        wait(play, is_over(play), d, until=lambda: play.is_settled([d])),
        f"{is_over(play):g} s after it left the other member has {play.story.partitions(d.owned)}",
    )


def static_killed_ends(play: Play) -> None:
    play.stands_on("session-ends")
    s, d = static_pair(play)
    falls_silent(play, s)
    play.want(wait(play, is_over(play), d, until=lambda: play.is_settled([d])), "the silent member isn't removed")
    back = heir(play, s)
    back.join()
    play.settle(back, d)


def static_away_back_late(play: Play) -> None:
    s, d = static_pair(play)
    kept = s.owned
    s.leave("away")
    wait(play, play.settings.session * 0.75, d)
    play.want_kept(s, kept, d)
    back = heir(play, s)
    back.join()
    play.settle(back, d)
    wait(play, play.settings.session * 0.5, back, d)
    play.want(back.owned == kept, f"it has {play.story.partitions(back.owned)}, and had {play.story.partitions(kept)}")


def late_join(play: Play) -> None:
    play.stands_on("session-ends")
    a, b = play.member("a"), play.member("b", id=new_id())
    a.join()
    play.settle(a)
    b.join()
    falls_silent(play, b)
    epoch = a.epoch
    play.want(
        wait(play, is_over(play), a, until=lambda: play.is_settled([a]) and a.epoch > epoch + 1),
        f"after its session the first member has {play.story.partitions(a.owned)} at epoch {a.epoch}",
    )
