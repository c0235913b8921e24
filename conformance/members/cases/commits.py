"""What a member commits, and under which epoch; and what it asks for its offsets with."""

from __future__ import annotations

from conformance.members.play import Play
from conformance.members.record import COMMIT, FETCH, OFFSETS
from conformance.play import Failed


def commit_epoch(play: Play) -> None:
    play.settled()
    for indexes in ((0, 1), (0, 1, 2)):
        play.report(play.partitions(*indexes), play.aim(*indexes))
        play.until("is at the new epoch", play.is_settled)
        play.rest(1.0)
        values = play.commit(play.record.frames[-1].at).request.values
        epoch = play.coordinator.of_client.records[play.coordinator.member].epoch
        play.want(values["epoch"] == epoch, f"it commits at epoch {values['epoch']}, and is at {epoch}")
        play.want(values["member"] == play.coordinator.member, f"it commits under {values['member']!r}")


def commit_stale(play: Play) -> None:
    play.settled()
    play.commit(0)
    refused = play.bring("commit refuse 113")
    play.commit(refused.at)
    play.rest(play.intervals(3))
    beats = [it.asked for it in play.record.beats(refused.at)]
    play.want(all(it.epoch > 0 for it in beats), "it leaves or joins again after a commit that was refused for its epoch")


def commit_unknown_member(play: Play) -> None:
    play.settled()
    play.commit(0)
    play.fault("commit all refuse 25", *["join refuse 14"] * 4)
    refused = play.bring("beat refuse 25")
    again = play.beat("joins again", refused.at, lambda it: it.told and it.told.code == 0)
    blind = [it for it in play.record.of(COMMIT, refused.at) if it.at < again.at and it.request.values["topics"]]
    play.faults.clear()
    play.want(len(blind) <= 1, f"{len(blind)} commits come after it was told that it is no member")
    play.settles()


def commit_moved(play: Play) -> None:
    play.settled()
    play.commit(0)
    since = play.moves(1)
    play.until("commits at the other node", lambda: any(it.node == 1 and it.request.values["topics"] for it in play.record.of(COMMIT, since)))


def commit_instance(play: Play) -> None:
    play.settled(is_static=True)
    it = play.commit(0).request.values
    play.want(it["instance"] == play.instance, f"the commit has instance {it['instance']!r}")


def offsets_of_member(play: Play) -> None:
    play.settled()
    asked = play.until("asks for offsets", lambda: play.record.of(OFFSETS))
    groups = [it for frame in asked for it in frame.request.values["groups"]]
    named = [it for it in groups if it["member"] and it["epoch"] >= 0]
    play.want(len(named) == len(groups), f"{len(groups) - len(named)} of {len(groups)} requests name no member and no epoch")


def offsets_continued(play: Play) -> None:
    group = play.coordinator.groups.setdefault(play.group, type(play.coordinator).new_group())
    for index in range(4):
        group.offsets["orders", index] = 500, -1, ""
    play.settled()
    topics = [topic for it in play.record.of(FETCH) for topic in it.request.values["topics"]]
    parts = [part for topic in topics for part in topic["parts"]]
    low = [part["offset"] for part in parts if part["offset"] < 500]
    play.want(not low, f"it reads from offset {min(low, default=0)}, where 500 is stored")


def commits_and_beats(play: Play) -> None:
    play.settled()
    play.commit(0)
    play.fault("heartbeat all refuse 15")
    play.rest(9.0)
    play.faults.clear()
    since = play.record.frames[-1].at
    commits = len(play.record.of(COMMIT))
    try:
        play.beat("", since, seconds=8.0)
    except Failed:
        play.fail(f"no heartbeat for 8 s after the coordinator is back, and {len(play.record.of(COMMIT)) - commits} commits")
    play.settles()
