"""How a member leaves: for good, or, a static one, for a while; and what it subscribes later."""

from __future__ import annotations

import time

from conformance.members.play import BILLS, ORDERS, Play
from conformance.members.record import COMMIT, HEARTBEAT

LEAVING = 'KIP-848, "ConsumerGroupHeartbeat API", request: MemberEpoch -1 and -2'


def leaves_with(play: Play, epoch: int) -> None:
    """The client is told to end: its last heartbeat is a leave, and nothing follows."""
    assert play.program is not None
    since = time.monotonic()
    play.quit()
    left = play.leaves(since)
    play.want(left, "it ends without a leave: the others wait until its session is over")
    last = left[-1].asked
    play.want(last.epoch == epoch, f"it leaves with epoch {last.epoch}, and should with {epoch}")
    play.want(last.member == play.coordinator.member, f"it leaves under {last.member!r}")
    later = [it.request.api.name for it in play.record.frames if it.at > left[0].at + 0.5 and it.key != HEARTBEAT]
    play.want(not {"Fetch", "OffsetCommit"} & set(later), f"after the leave come {' and '.join(sorted(set(later)))}")
    play.want(len(left) == 1, f"it sends {len(left)} leaves", is_minor=True)


def leave_closes(play: Play) -> None:
    play.settled()
    leaves_with(play, -1)


def leave_static(play: Play) -> None:
    play.settled(is_static=True)
    leaves_with(play, -2)
    last = play.record.beats()[-1].asked
    play.want(last.instance == play.instance, f"the leave has instance {last.instance!r}")


def leave_commits(play: Play) -> None:
    play.settled()
    play.commit(0)
    # (So that something is read that isn't committed.)
    play.rest(0.35)
    since = time.monotonic()
    play.quit()
    left = play.leaves(since)
    play.want(left and play.record.of(COMMIT, since), "no commit comes before the leave")


def leave_while_revoking(play: Play) -> None:
    play.settled()
    since = play.aim(0, 1)
    play.hears(since)
    leaves_with(play, -1)


def leave_unanswered(play: Play) -> None:
    play.settled()
    play.fault("leave lose")
    play.quit(15.0)


def leave_without_coordinator(play: Play) -> None:
    play.settled()
    play.fault("heartbeat all close")
    play.moves(None)
    play.quit(15.0)


def restart(play: Play) -> None:
    play.settled()
    play.commit(0)
    play.quit()
    since = time.monotonic()
    stored = play.coordinator.of_client.offsets.get((ORDERS, 0), (0,))[0]
    play.start()
    play.join(since, 20.0)
    play.settles()
    parts = [part for it in play.record.of(1, since) for topic in it.request.values["topics"] for part in topic["parts"] if part["index"] == 0]
    play.want(parts and parts[0]["offset"] >= stored, f"it reads from offset {parts[0]['offset'] if parts else None}, where {stored} is stored")


def restart_static(play: Play) -> None:
    play.settled(is_static=True)
    had = play.wanted()
    play.quit()
    since = time.monotonic()
    play.start(is_static=True)
    again = play.join(since, 20.0)
    play.want(again.asked.instance == play.instance, f"it joins with instance {again.asked.instance!r}")
    play.settles()
    play.want(play.wanted() == had, f"it gets {play.shown(play.wanted())}, and had {play.shown(had)}")


def subscribe_again(play: Play) -> None:
    play.settled()
    play.coordinator.interval = 4_000
    play.rest(1.0)
    since = play.write(play.settings.subscribe, "--subscribe", BILLS)
    told = play.beat("subscribes it", since, lambda it: it.asked.names is not None)
    play.want(told.asked.names == [BILLS], f"it subscribes {told.asked.names}")
    play.want(told.asked.epoch > 0, f"it subscribes at epoch {told.asked.epoch}: it has left, or joins again", is_minor=True)
    play.coordinator.interval = 400
    play.reads(play.partitions(0, 1, of=BILLS), since)
    play.want(told.at - since < 1.5, f"it says so after {told.at - since:.1f} s, with the interval and not at once", is_minor=True)


def unsubscribe_leaves(play: Play) -> None:
    play.settled()
    since = play.write(play.settings.unsubscribe, "--unsubscribe")
    left = play.until("leaves", lambda: play.leaves(since))
    play.want(left[0].asked.epoch == -1, f"it leaves with epoch {left[0].asked.epoch}")
    play.silent(2.0, left[0].at + 0.5, may_end=False)


def unsubscribe_and_back(play: Play) -> None:
    play.settled()
    since = play.write(play.settings.unsubscribe, "--unsubscribe")
    left = play.until("leaves", lambda: play.leaves(since))
    play.rest(0.5)
    since = play.write(play.settings.subscribe, "--subscribe", ORDERS)
    again = play.join(left[0].at)
    play.want_full(again, "after it had left")
    play.settles()


def one_connection(play: Play) -> None:
    play.settled()
    since = play.record.frames[-1].at
    play.rest(play.intervals(10))
    used = {it.connection for it in play.record.beats(since)}
    play.want(len(used) == 1, f"heartbeats come over {len(used)} connections")
