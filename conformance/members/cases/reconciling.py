"""What a member does with assignments: it takes, gives up, and reports."""

from __future__ import annotations

import dataclasses

from conformance.members.coordinator import OTHER
from conformance.members.play import ORDERS, Play
from conformance.members.record import COMMIT, asked_of
from conformance.messages import Told


def revoke_reports(play: Play) -> None:
    play.settled()
    epoch = play.coordinator.of_client.records[play.coordinator.member].epoch
    play.coordinator.interval = 2_000
    play.rest(play.intervals(0.5))
    since = play.aim(0, 1)
    told = play.hears(since)
    report = play.report(play.partitions(0, 1), since)
    play.want(report.asked.epoch == epoch, f"it reports at epoch {report.asked.epoch}, and was at {epoch}")
    play.want(report.at - told.sent < 1.8, f"it reports after {report.at - told.sent:.1f} s, with the interval and not at once", is_minor=True)


def revoke_stops_reading(play: Play) -> None:
    play.settled()
    report = play.report(play.partitions(0, 1), play.aim(0, 1))
    play.rest(1.5)
    fetched = play.record.fetched(report.at + 0.4)
    play.want(not fetched & {(ORDERS, 2), (ORDERS, 3)}, "it fetches what it has reported as given up")
    play.want({(ORDERS, 0), (ORDERS, 1)} <= fetched, "it doesn't fetch what it keeps")


def revoke_commits(play: Play) -> None:
    play.settled()
    play.commit(0)
    play.rest(0.3)
    since = play.aim(0, 1)
    told = play.hears(since)
    report = play.report(play.partitions(0, 1), since)
    before = {each for it in play.record.of(COMMIT, told.at) if it.at <= report.at for each in asked_of(it)}
    play.want({(ORDERS, 2), (ORDERS, 3)} & before, "no offset of what it gives up is committed between the reply and the report")


def revoke_takes_time(play: Play) -> None:
    play.settled()
    play.hold()
    since = play.aim(0, 1)
    told = play.hears(since)
    play.rest(2.5)
    beats = play.record.beats(told.at)
    early = [it for it in beats if it.asked.owned is not None and not it.asked.owned >= play.partitions(2, 3)]
    play.go_on()
    play.want(not early, "it reports partitions as given up while its application waits, and may still work on their records")
    play.want(len(beats) >= 2, f"{len(beats)} heartbeats in 2.5 s, while the application waits")
    play.report(play.partitions(0, 1), since)


def revoke_all(play: Play) -> None:
    play.settled()
    report = play.report(frozenset(), play.aim())
    play.rest(1.0)
    play.want(not play.record.fetched(report.at + 0.4), "it fetches, and is assigned nothing")
    play.beat("beats on", report.at + 0.4)


def null_keeps(play: Play) -> None:
    play.settled()
    play.rest(play.intervals(2))
    since = play.record.frames[-1].at
    play.rest(play.intervals(4))
    lost = [it for it in play.record.beats(since) if it.asked.owned not in (None, play.wanted())]
    play.want(not lost, "it reports that it has less")
    play.reads(play.wanted(), since)


def assignment_repeated(play: Play) -> None:
    play.settled()
    whole = play.wanted()
    play.stage.edit = lambda told: dataclasses.replace(told, assignment=whole)
    since = play.record.frames[-1].at
    play.rest(play.intervals(6))
    beats = play.record.beats(since)
    play.want(all(it.asked.owned in (None, whole) for it in beats), "it reports that it has less")
    play.want(all(it.asked.epoch > 0 for it in beats), "it leaves or joins again")
    play.reads(whole, since + play.intervals(3))
    play.want(len(beats) <= 16, f"{len(beats)} heartbeats in six intervals", is_minor=True)


def take_and_give(play: Play) -> None:
    play.settled()
    play.report(play.partitions(0, 1), play.aim(0, 1))
    play.rest(play.intervals(2))
    with play.stage.lock:
        play.coordinator.of_client.held[play.coordinator.member] |= play.partitions(2)
    since = play.aim(1, 2)
    report = play.report(play.partitions(1, 2), since)
    play.reads(play.partitions(1, 2), report.at)
    play.rest(1.0)
    play.want((ORDERS, 0) not in play.record.fetched(report.at + 0.4), "it fetches what was taken away")


def given_back(play: Play) -> None:
    play.settled()
    play.hold_in_callback()
    since = play.aim(0, 1)
    play.hears(since)
    play.rest(0.7)
    since = play.aim(0, 1, 2, 3)
    play.hears(since)
    play.rest(0.3)
    play.go_on()
    play.rest(1.0)
    since = play.record.frames[-1].at
    play.reads(play.partitions(0, 1, 2, 3), since)
    play.until("reports all that it has", play.is_settled)


def revoke_again(play: Play) -> None:
    play.settled()
    play.hold()
    for indexes in ((0, 1, 2), (0,)):
        since = play.aim(*indexes)
        play.hears(since)
    play.go_on()
    report = play.report(play.partitions(0), since)
    play.rest(1.0)
    play.want(play.record.fetched(report.at + 0.4) == {(ORDERS, 0)}, "it doesn't fetch what it has, and nothing else")


def take_in_turns(play: Play) -> None:
    play.settled()
    for indexes in ((0,), (0, 1, 3), (2, 3)):
        since = play.aim(*indexes)
        report = play.report(play.partitions(*indexes), since)
        play.reads(play.partitions(*indexes), report.at)
    play.until("reports at the last epoch", play.is_settled)


def grant_later(play: Play) -> None:
    play.settled()
    play.report(play.partitions(0), play.aim(0))
    with play.stage.lock:
        play.coordinator.of_client.held[OTHER] = set(play.partitions(1, 2, 3))
    since = play.aim(0, 1, 2)
    play.rest(play.intervals(3))
    play.want(play.record.fetched(since + 0.4) <= {(ORDERS, 0)}, "it fetches what another member has")
    with play.stage.lock:
        play.coordinator.free()
    report = play.report(play.partitions(0, 1, 2), since)
    play.reads(play.partitions(0, 1, 2), report.at)


def epoch_falls(play: Play) -> None:
    play.settled()
    play.report(play.partitions(0, 1), play.aim(0, 1))
    play.rest(play.intervals(2))
    since = play.record.frames[-1].at
    epoch = play.coordinator.of_client.records[play.coordinator.member].epoch
    fallen = play.bring("beat epoch 1")
    later = play.beat("beats on", max(since, fallen.at)).asked
    play.note(f"after epoch 1, where it was at {epoch}, it beats at epoch {later.epoch}")


def foreign_member_id(play: Play) -> None:
    play.settled()
    play.rest(play.intervals(2))
    fault = play.bring("beat member somebody-else")
    later = play.beat("beats on", fault.at).asked
    play.note(f"it beats on under {'that id' if later.member == 'somebody-else' else 'its own id'}")


def assignment_unknown(play: Play) -> None:
    play.settled()
    strange = frozenset({(b"\x77" * 16, 0)})

    def edit(told: Told) -> Told:
        return told if told.assignment is None else dataclasses.replace(told, assignment=told.assignment | strange)

    play.stage.edit = edit
    since = play.aim(0, 1)
    play.hears(since)
    play.rest(play.intervals(4))
    play.reads(play.partitions(0, 1), since + 1.0)
    play.beat("beats on", since + 1.0)
