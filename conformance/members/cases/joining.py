"""How a client joins, and what it does with its first assignment."""

from __future__ import annotations

import re
import time

from conformance.members.play import BILLS, INTERVAL_MS, ORDERS, Play
from conformance.members.record import FETCH, LOOKUP, OFFSETS

FIRST = "sends a join"
ERROR = re.compile("(?i)(?<!no_)error|fatal|unsupport|heartbeat")


def join_fields(play: Play) -> None:
    play.start()
    it = play.beat(FIRST, 0, seconds=play.settings.start).asked
    play.want(it.epoch == 0, f"its first heartbeat is at epoch {it.epoch}")
    play.want(it.timeout > 0, f"the join has rebalance timeout {it.timeout}")
    play.want(it.names == [ORDERS], f"it subscribes {it.names}, where it was told {ORDERS}")
    play.want(not it.owned, f"the join reports {play.shown(it.owned or frozenset())}")
    play.want(it.instance is None, f"the join has the instance {it.instance!r}, and it wasn't given one")
    play.want(it.owned is not None, "the join has null for what it owns, where KIP-848 asks for an empty list", is_minor=True)


def join_static(play: Play) -> None:
    play.start(is_static=True)
    it = play.beat(FIRST, 0, seconds=play.settings.start).asked
    play.want(it.instance == play.instance, f"the join has instance {it.instance!r}, where it was given {play.instance!r}")


def join_id(play: Play) -> None:
    play.settled()
    play.rest(play.intervals(2))
    first, *others = play.record.beats()
    is_own = first.request.version == 0 or first.asked.member
    play.want(is_own, "it joins without a member id in version 1, where members make their own")
    wrong = {it.asked.member for it in others} - {first.told.member}
    play.want(not wrong, f"it beats under {' and '.join(map(repr, wrong))}, and joined under {first.told.member!r}")


def join_repeated(play: Play) -> None:
    since = play.fault("join close")
    play.start()
    first = play.beat(FIRST, since, seconds=play.settings.start)
    second = play.join(first.at)
    is_minor = first.request.version == 0
    is_same = first.asked.member == second.asked.member != ""
    play.want(is_same, "it joins again without the id of its first join: the group has two members of one client", is_minor)
    play.settles()


def join_reports(play: Play) -> None:
    play.coordinator.interval = 5 * INTERVAL_MS
    play.start()
    joined = play.beat("joins", 0, lambda it: it.sent is not None, play.settings.start)
    report = play.beat("reports what it is assigned", joined.at, lambda it: it.asked.owned)
    play.want(report.asked.epoch == joined.told.epoch, f"it reports at epoch {report.asked.epoch}, and was told {joined.told.epoch}")
    play.want(report.asked.owned == joined.told.assignment, f"it reports {play.shown(report.asked.owned or frozenset())}")
    late = report.at - joined.sent
    play.want(late < play.intervals(0.9), f"it reports after {late:.1f} s, with the interval and not at once", is_minor=True)
    play.reads(play.wanted(), joined.at)


def join_waits(play: Play) -> None:
    play.coordinator.withhold(play.group)
    play.start()
    play.beat("beats as a member", 0, lambda it: it.asked.epoch > 0, play.settings.start)
    play.rest(play.intervals(3))
    play.want(not play.record.fetched(), "it fetches what it isn't assigned")
    with play.stage.lock:
        play.coordinator.free()
    play.settles()


def join_expression(play: Play) -> None:
    play.start(f"^{ORDERS}.*")
    it = play.beat(FIRST, 0, seconds=play.settings.start).asked
    play.want(not any("^" in name for name in it.names or ()), f"the expression is in the names, as if it were a topic's: {it.names}")
    play.settles()
    play.want(play.wanted() == play.partitions(0, 1, 2, 3), f"it is assigned {play.shown(play.wanted())}")


def join_unknown_topic(play: Play) -> None:
    topics, play.coordinator.topics = play.coordinator.topics, []
    play.start()
    play.beat("beats as a member", 0, lambda it: it.asked.epoch > 0, play.settings.start)
    play.rest(play.intervals(3))
    play.coordinator.topics = topics
    play.settles()


def join_late_topic(play: Play) -> None:
    play.stage.hidden = {ORDERS}
    play.start()
    play.beat("beats as a member", 0, lambda it: it.asked.epoch > 0, play.settings.start)
    play.rest(play.intervals(3))
    play.stage.hidden = set()
    play.settles()


def join_coordinator_away(play: Play) -> None:
    play.fault(*["lookup refuse 15"] * 3)
    play.settled()
    asked = [it.at for it in play.record.of(LOOKUP)][:4]
    shortest = min((later - at for at, later in zip(asked, asked[1:])), default=1.0)
    play.want(shortest > 0.02, f"it asks again after {shortest * 1000:.0f} ms: that is no pause", is_minor=True)


def join_subscribes_two(play: Play) -> None:
    play.settled()
    since = play.write(play.settings.subscribe, "--subscribe", f"{ORDERS},{BILLS}")
    it = play.beat("subscribes both", since, lambda it: it.asked.names is not None).asked
    play.want(sorted(it.names or ()) == sorted({ORDERS, BILLS}), f"it subscribes {it.names}")
    play.settles()


def join_late_reply(play: Play) -> None:
    play.fault("join delay 6.5", "report delay 2")
    play.start()
    play.until("joins, and reports what it is assigned", play.is_settled, play.settings.start)
    play.rest(play.intervals(2))
    assigned = [it.sent for it in play.record.beats() if it.sent and it.told and it.told.assignment]
    for frame in play.record.beats():
        if frame.asked.epoch > 0 and frame.asked.owned == frozenset():
            until = min((at for at in assigned if at > frame.at), default=time.monotonic())
            after = [it for it in play.record.frames[:] if frame.at < it.at < until]
            used = [it for it in after if it.key in (FETCH, OFFSETS) or it.beat is not None and it.beat.owned]
            play.want(not used, "it reports that it owns nothing, and goes on with what it was assigned before: others may get it meanwhile")


def offers_alone(play: Play, version: int) -> None:
    play.stage.versions = version, version
    play.start()
    play.rest(6.0, may_end=True)
    assert play.program is not None
    said = play.program.status() is not None or ERROR.search(play.program.text())
    play.want(play.record.beats() or said, f"it sends no heartbeat for 6 s, and says nothing of it: the broker offers version {version} alone")
