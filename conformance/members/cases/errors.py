"""What a member does with each code that a heartbeat is answered with."""

from __future__ import annotations

from conformance.members.coordinator import OTHER
from conformance.members.play import ORDERS, Play
from conformance.members.record import LOOKUP
from conformance.members.stage import NOT_COORDINATOR

# How long after such a reply something may still be fetched.
DROPS_SECONDS = 1.0
FENCED_INSTANCE_ID = 82


def drops(play: Play, code: int) -> None:
    play.settled()
    member = play.coordinator.member
    # (So that it gets nothing at once when it joins again.)
    with play.stage.lock:
        play.coordinator.of_client.held[OTHER] = set(play.coordinator.all_partitions())
    refused = play.bring(f"beat refuse {code}")
    again = play.join(refused.at)
    play.want(not again.asked.owned, f"it joins with {play.shown(again.asked.owned or frozenset())} owned")
    play.want(again.asked.member in (member, ""), f"it joins again under {again.asked.member!r}, and was {member!r}", is_minor=True)
    between = [it for it in play.record.beats(refused.at) if it.at < again.at and it.asked.epoch > 0]
    play.want(not between, "it beats on before it joins again")
    play.rest(DROPS_SECONDS + 0.5)
    with play.stage.lock:
        play.coordinator.free()
    play.settles()


def drops_while_revoking(play: Play, code: int) -> None:
    play.settled()
    play.hold()
    play.hears(play.aim(0, 1))
    refused = play.bring(f"heartbeat refuse {code}")
    play.rest(1.0)
    play.go_on()
    again = play.join(refused.at)
    play.want(not again.asked.owned, f"it joins with {play.shown(again.asked.owned or frozenset())} owned")
    play.settles()


def ends(play: Play, code: int) -> None:
    play.settled(is_static=code == FENCED_INSTANCE_ID)
    refused = play.bring(f"beat refuse {code}")
    play.rest(DROPS_SECONDS, may_end=True)
    play.silent(2.0, refused.at + DROPS_SECONDS)


def fatal_is_said(play: Play) -> None:
    play.settled()
    assert play.program is not None
    play.rest(play.intervals(2))
    play.bring("beat refuse 42")
    play.rest(1.0, may_end=True)
    size = play.program.size
    play.rest(2.0, may_end=True)
    text = play.program.text()
    said = play.program.status() is not None or "42" in text or "invalid" in text.lower() or "fatal" in text.lower()
    play.want(said, f"it goes on in silence ({play.program.size - size} bytes printed in 2 s)")


def unreleased_instance(play: Play) -> None:
    since = play.fault("join refuse 111")
    play.start(is_static=True)
    first = play.beat("joins", since, seconds=play.settings.start)
    play.rest(3.0, may_end=True)
    again = [it for it in play.record.beats(first.at) if it.asked.epoch == 0]
    play.note(f"it joins again after {again[0].at - first.at:.1f} s" if again else "it doesn't join again")


def loading_waits(play: Play) -> None:
    keeps(play, 14)


def unavailable_looks_up(play: Play) -> None:
    since = keeps(play, 15)
    play.want(play.record.of(LOOKUP, since), "it doesn't ask for its coordinator", is_minor=True)


def keeps(play: Play, code: int) -> float:
    """Two refusals after which a member is what it was."""
    play.settled()
    epoch = play.coordinator.of_client.records[play.coordinator.member].epoch
    first = play.bring(f"beat refuse {code}")
    second = play.bring(f"heartbeat refuse {code}")
    third = play.beat("beats again", second.at)
    for it in (second, third):
        play.want(it.asked.epoch == epoch, f"it beats at epoch {it.asked.epoch}, and was at {epoch}")
    play.reads(play.wanted(), third.at)
    pause = min(second.at - (first.sent or 0), third.at - (second.sent or 0))
    play.want(pause > 0.02, f"it asks again after {pause * 1000:.0f} ms: that is no pause", is_minor=True)
    return first.at


def moved_looks_up(play: Play) -> None:
    play.settled()
    epoch = play.coordinator.of_client.records[play.coordinator.member].epoch
    for node in (1, 0) * 3:
        since = play.moves(node)
        there = play.beat(f"beats at node {node + 1}", since, lambda it: it.node == play.stage.coordinator_at)
        play.want(there.asked.epoch == epoch, f"it beats at epoch {there.asked.epoch}, and was at {epoch}")
        play.reads(play.wanted(), there.at)
        # (One that hears of it by a commit may not know that its heartbeats go elsewhere: then once more.)
        if any(it.told and it.told.code == NOT_COORDINATOR for it in play.record.beats(since)):
            play.want_full(there, "at another coordinator")
            return


def moved_in_a_revocation(play: Play) -> None:
    play.settled()
    play.hold()
    since = play.aim(0, 1)
    play.hears(since)
    play.moves(1)
    play.rest(1.5)
    play.go_on()
    report = play.report(play.partitions(0, 1), since)
    play.want(report.node == 1, "the report comes at a node that isn't the coordinator any more")


def coordinator_away(play: Play) -> None:
    play.settled()
    away = play.moves(None)
    play.rest(3.0)
    asked = len(play.record.of(LOOKUP, away)) + len(play.record.beats(away))
    since = play.moves(1)
    play.beat("beats at the other node", since, lambda it: it.node == 1)
    play.want(play.record.fetched(away + 1.5) >= {(ORDERS, 0)}, "it has stopped to read", is_minor=True)
    play.want(asked < 100, f"{asked} requests in 3 s while there was no coordinator")


def unknown_code(play: Play) -> None:
    play.settled()
    refused = play.bring("beat refuse 999")
    play.rest(2.0, may_end=True)
    count = len(play.record.beats(refused.at))
    play.want(count < 20, f"{count} heartbeats in 2 s")


def join_refused_once(play: Play) -> None:
    since = play.fault("join refuse 14")
    play.start()
    first = play.beat("joins", since, lambda it: it.sent, play.settings.start)
    second = play.join(first.at)
    play.settles()
    pause = second.at - (first.sent or first.at)
    play.want(pause > 0.02, f"it joins again after {pause * 1000:.0f} ms: that is no pause", is_minor=True)
