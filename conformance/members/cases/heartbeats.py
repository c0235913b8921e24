"""When a member sends heartbeats, and what they say: short and full ones, the interval, lost and late replies."""

from __future__ import annotations

import statistics
import time
from typing import List

from conformance.members.play import Play
from conformance.members.record import Frame
from conformance.play import Failed, NotRun

# How long a client may wait for a reply before it gives the request up.
GIVES_UP_SECONDS = 12.0


def gaps(beats: List[Frame]) -> List[float]:
    return [later.at - it.at for it, later in zip(beats, beats[1:])]


def beat_short(play: Play) -> None:
    since = settled_since(play)
    play.rest(play.intervals(5))
    full = [it for it in play.record.beats(since) if (it.asked.timeout != -1 or it.asked.names is not None or it.asked.owned is not None)]
    play.want(not full, f"{len(full)} of {len(play.record.beats(since))} heartbeats say once more what hasn't changed")


def settled_since(play: Play) -> float:
    """The client is settled, and has beaten twice since."""
    play.settled()
    play.rest(play.intervals(2))
    return play.record.frames[-1].at


def beat_interval(play: Play) -> None:
    since = settled_since(play)
    play.rest(play.intervals(10))
    between = gaps(play.record.beats(since))
    play.want(len(between) >= 4, f"{len(between) + 1} heartbeats in ten intervals")
    middle = statistics.median(between)
    play.want(middle > play.intervals(0.5), f"heartbeats come every {middle:.2f} s", is_minor=True)


def beat_interval_changes(play: Play) -> None:
    settled_since(play)
    play.coordinator.interval = 1_500
    since = play.beat("beats", play.record.frames[-1].at).at
    play.rest(5.0)
    slow = statistics.median(gaps(play.record.beats(since)))
    play.coordinator.interval = 400
    since = play.beat("beats", play.record.frames[-1].at).at
    play.rest(3.0)
    fast = statistics.median(gaps(play.record.beats(since)))
    play.want(fast < 1.1, f"with the interval back at 0.4 s a heartbeat comes every {fast:.2f} s")
    play.want(slow > 0.9, f"with an interval of 1.5 s a heartbeat comes every {slow:.2f} s", is_minor=True)


def beat_interval_zero(play: Play) -> None:
    settled_since(play)
    play.coordinator.interval = 0
    since = play.beat("beats", time.monotonic()).at
    play.rest(3.0)
    play.beat("beats on", since + 1.0)


def beat_one(play: Play) -> None:
    settled_since(play)
    first = play.bring(f"heartbeat delay {play.intervals(2.2)}")
    play.rest(play.intervals(5))
    between = [it for it in play.record.beats(first.at) if it.connection == first.connection and it.at < (first.sent or 0)]
    play.want(not between, f"{len(between)} heartbeats follow over the same connection before the reply")
    play.beat("beats on", play.record.frames[-1].at)


def full_after(play: Play, fault: str, when: str) -> None:
    settled_since(play)
    first = play.bring(fault)
    try:
        again = play.beat("sends the heartbeat again", first.at, lambda it: it.connection != first.connection, GIVES_UP_SECONDS)
    except Failed:
        raise NotRun(f"after {GIVES_UP_SECONDS:g} s it still waits for the reply") from None
    play.want(again.asked.epoch in (first.asked.epoch, 0), f"{when} it beats at epoch {again.asked.epoch}")
    play.want_full(again, when)
    play.rest(play.intervals(2))


def beat_full_after_close(play: Play) -> None:
    full_after(play, "beat close", "after its connection was lost")


def beat_full_after_timeout(play: Play) -> None:
    full_after(play, "beat lose", "after a reply that never came")


def beat_late_assignment(play: Play) -> None:
    play.settled()
    since = play.aim(0)
    play.report(play.partitions(0), since)
    play.rest(play.intervals(2))
    play.until("is at the new epoch", play.is_settled)
    # A reply takes the last one away; the reply to the report of that assigns all others, and comes late.
    play.fault("empty delay 7")
    since = play.aim(1, 2, 3)
    play.report(play.partitions(), since)
    play.reads(play.partitions(1, 2, 3), since, 15.0)
    play.report(play.partitions(1, 2, 3), since, 15.0)


def beat_late_reply(play: Play) -> None:
    settled_since(play)
    since = play.aim(0)
    first = play.bring("beat delay 7")
    try:
        play.beat("gives the request up, and beats again", first.at, seconds=6.0)
    except Failed:
        raise NotRun("after 6 s it still waits for the reply") from None
    play.coordinator.tells_again()
    play.report(play.partitions(0), since)
    play.report(play.partitions(0, 1, 2, 3), play.aim(0, 1, 2, 3))
    play.until("is at the new epoch", play.is_settled)
    play.until("is sent the late reply", lambda: first.sent, 10.0)
    since = play.record.frames[-1].at
    play.rest(play.intervals(4))
    less = [it for it in play.record.beats(since) if it.asked.owned not in (None, play.wanted())]
    play.want(not less, "it takes the late reply, and gives up what it doesn't show")
    play.reads(play.wanted(), since)


def beat_repeated_reply(play: Play) -> None:
    settled_since(play)
    first = play.bring("heartbeat repeat")
    play.rest(play.intervals(3))
    play.beat("beats on", first.at + play.intervals(2))
    play.note("it goes on")


def beat_while_busy(play: Play) -> None:
    settled_since(play)
    play.hold()
    since = play.record.frames[-1].at
    play.rest(3.0)
    beats = play.record.beats(since)
    play.go_on()
    play.want(len(beats) >= 3, f"{len(beats)} heartbeats in 3 s, with an interval of {play.intervals(1):g} s")
    play.rest(play.intervals(3))
    play.beat("beats on", play.record.frames[-1].at)


def beat_throttled(play: Play) -> None:
    since = settled_since(play)
    play.fault("heartbeat all throttle 2000")
    play.rest(6.0)
    beats = gaps(play.record.beats(since))
    play.note(f"with a throttle time of 2 s a heartbeat comes every {statistics.median(beats or [6.0]):.1f} s")


def beat_after_poll_interval(play: Play) -> None:
    settled_since(play)
    play.hold()
    comes_back(play)


def revoke_after_poll_interval(play: Play) -> None:
    settled_since(play)
    play.hold_in_callback()
    play.hears(play.aim(0, 1))
    comes_back(play)


def comes_back(play: Play) -> None:
    since = time.monotonic()
    try:
        left = play.until("", lambda: play.leaves(since), 25.0)
    except Failed:
        raise NotRun("25 s aren't longer than its time between two polls") from None
    play.rest(3.0, may_end=True)
    play.go_on()
    assert play.program is not None
    program, joins = play.program, lambda: next((it for it in play.record.beats(left[0].at) if it.asked.epoch == 0), None)
    play.until("joins again, or ends", lambda: joins() or program.status() is not None, 15.0, may_end=True)
    again = joins()
    if again is not None:
        play.want_full(again, "when its application polls again")
        play.settles()
