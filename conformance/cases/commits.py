"""Commits: accepted of members at their epoch, refused of everybody else, so that no member that was removed sets an offset back."""

from __future__ import annotations

from typing import Dict, List, Tuple

from conformance.cases.heartbeats import NO_SUCH_TOPIC, settled_pair, told_to_revoke
from conformance.cases.static_members import heir, static_pair
from conformance.member import Member, new_id
from conformance.messages import OFFSET_COMMIT, OFFSET_FETCH, Commit, Part, Partition, Places
from conformance.play import Play
from conformance.story import code_text
from conformance.verdict import NotRun

UNKNOWN_TOPIC_OR_PARTITION, UNKNOWN_MEMBER_ID, GROUP_ID_NOT_FOUND, STALE_MEMBER_EPOCH = 3, 25, 69, 113
LATEST = 9
MOST_COMMITTED = 100


def committer(play: Play) -> Tuple[Member, Partition]:
    """A settled member, and a partition that it has."""
    play.wants_commits()
    play.stands_on("commit")
    a = play.member("a")
    a.join()
    play.settle(a)
    return a, a.any()


def wants_stored(play: Play, member: Member, wanted: Dict[str, List[Part]], places: Places) -> None:
    """OffsetFetch gives what was committed. (A partition that is named, and has nothing, may be listed with offset -1.)"""
    version = play.broker.version(OFFSET_FETCH)
    if version is None or version < 5:
        raise NotRun("the broker offers no OffsetFetch of version 5 or later")
    found = play.fetch(member, places)
    play.want_code("OffsetFetch", found.first_code(), 0)
    for name, parts in wanted.items():
        for part in parts:
            stored = found.parts.get((name, part.index), Part(part.index, -1))
            # (What a broker keeps if there is no leader epoch is its own matter.)
            stored = stored._replace(leader=stored.leader if part.leader != -1 else -1, metadata=stored.metadata or "")
            play.want(stored == part, f"of {name} {shown(part)} was committed, and OffsetFetch gives {shown(stored)}")
    known = {(name, part.index) for name, parts in wanted.items() for part in parts}
    more = [f"{name} {shown(part)}" for (name, _), part in found.parts.items() if part.offset != -1 and (name, part.index) not in known]
    play.want(not more, f"OffsetFetch gives what wasn't committed: {', '.join(more)}")


def shown(part: Part) -> str:
    return f"[{part.index}] offset {part.offset}, metadata {part.metadata!r}, leader epoch {part.leader}"


def moved(play: Play) -> Tuple[Member, Member, Partition, int]:
    """Two settled members, a partition that the first had and the second has, and the epoch at which the first had it."""
    play.wants_commits()
    play.stands_on("commit")
    play.topic(0, partitions=2)
    a, b = play.member("a"), play.member("b")
    a.join()
    play.settle(a)
    former = a.epoch
    b.join()
    play.settle(a, b)
    return a, b, b.any(), former


def refused(play: Play, what: str, who: Member, partition: Partition, epoch: int, *codes: int, member_id: str = "") -> None:
    """The commit is refused with one of the codes (any, where none is given), and stores nothing."""
    topic = next(topic for topic in play.broker.topics if topic.id == partition[0])
    before = play.stored(who, topic, partition[1])
    found = play.commit(who, {partition: 4711}, epoch, member_id or None)
    play.want(len(found) == 1, f"{what}: one partition is committed, and {len(found)} are answered")
    play.want_refused(what, found[0])
    if codes:
        play.want_code(what, found[0], *codes)
    after = play.stored(who, topic, partition[1])
    play.want(before == after, f"{what} is refused, and OffsetFetch gives {after} after it and {before} before")


def commit(play: Play) -> None:
    a, partition = committer(play)
    play.want_code("the commit", play.commit(a, {partition: 17})[0], 0)
    found = play.stored(a, play.topic(), partition[1])
    play.want(found in (None, 17), f"17 was committed, and OffsetFetch gives {found}")


def commit_again(play: Play) -> None:
    a, partition = committer(play)
    for offset in (17, 5):
        play.want_code("the commit", play.commit(a, {partition: offset})[0], 0)
    found = play.stored(a, play.topic(), partition[1])
    play.want(found in (None, 5), f"5 was committed last, and OffsetFetch gives {found}")


def commit_keeps_epoch(play: Play) -> None:
    play.wants_commits()
    play.stands_on("commit")
    a, b = settled_pair(play)
    epoch = a.epoch
    for offset in range(3):
        play.want_code("the commit", play.commit(a, {a.any(): offset})[0], 0)
        for member in (a, b):
            member.beat("full")
    play.want(a.epoch == b.epoch == epoch, f"commits take the members from epoch {epoch} to {a.epoch} and {b.epoch}")


def commit_all(play: Play) -> None:
    play.wants_commits()
    topics = play.broker.topics[:2]
    a = play.member("a", names=[topic.name for topic in topics])
    a.join()
    play.settle(a)
    wanted = {topic.name: [Part(index, 3) for index in range(min(topic.count, MOST_COMMITTED))] for topic in topics}
    results = play.send_commit(a, Commit(a.group, a.id, a.epoch, wanted))
    asked = sorted((name, part.index) for name, parts in wanted.items() for part in parts)
    play.want(
        sorted((name, index) for name, index, _ in results) == asked,
        f"{len(asked)} partitions are committed, and {len(results)} are answered, or others",
    )
    for name, index, code in results:
        play.want_code(f"the commit of {name}[{index}]", code, 0)


def commit_moved_on(play: Play) -> None:
    a, b, partition, _ = moved(play)
    play.want_code("the commit of b", play.commit(b, {partition: 9})[0], 0)
    found = play.stored(b, play.topic(), partition[1])
    play.want(found in (None, 9), f"9 was committed, and OffsetFetch gives {found}")


def commit_before_report(play: Play) -> None:
    play.wants_commits()
    play.topic(0, partitions=2)
    a, b = play.member("a"), play.member("b")
    a.join()
    play.settle(a)
    b.join()
    told_to_revoke(play, a)
    partition = min(a.owned - a.assigned)
    play.want_code("the commit before the report", play.commit(a, {partition: 23})[0], 0)
    a.release()
    play.settle(a, b)


def commit_unknown_member(play: Play) -> None:
    a, partition = committer(play)
    refused(play, "a commit of nobody", a, partition, a.epoch, UNKNOWN_MEMBER_ID, member_id=new_id())


def commit_unknown_group(play: Play) -> None:
    play.wants_commits()
    nobody = play.member("nobody", id=new_id(), epoch=1)
    found = play.commit(nobody, {min(play.topic().partitions()): 1})
    play.want_code("the commit to a group that isn't there", found[0], GROUP_ID_NOT_FOUND)


def commit_later_epoch(play: Play) -> None:
    a, partition = committer(play)
    refused(play, "a commit at a later epoch", a, partition, a.epoch + 1, STALE_MEMBER_EPOCH)


def commit_stale_moved(play: Play) -> None:
    a, b, partition, former = moved(play)
    play.want_code("the commit of b", play.commit(b, {partition: 100})[0], 0)
    refused(play, "a commit from before the rebalance", a, partition, former, STALE_MEMBER_EPOCH)


def commit_stale_held(play: Play) -> None:
    a, _, _, former = moved(play)
    found = play.commit(a, {a.any(): 3}, former)
    play.note(f"a commit at the previous epoch of a partition that is still held is answered with {code_text(found[0])}")


def commit_without_epoch(play: Play) -> None:
    a, partition = committer(play)
    play.want_code("the commit", play.commit(a, {partition: 17})[0], 0)
    refused(play, "a commit of no member to a group that has members", play.member("admin"), partition, -1)


def commit_member_without_epoch(play: Play) -> None:
    a, partition = committer(play)
    refused(play, "a commit at epoch -1", a, partition, -1)


def commit_empty_group(play: Play) -> None:
    a, partition = committer(play)
    a.leave()
    found = play.commit(a, {partition: 31}, -1, "")
    play.want_code("a commit of no member to a group without members", found[0], 0)
    stored = play.stored(a, play.topic(), partition[1])
    play.want(stored in (None, 31), f"31 was committed, and OffsetFetch gives {stored}")


def commit_after_leave(play: Play) -> None:
    a, b, partition, _ = moved(play)
    epoch, member = b.epoch, b.id
    b.leave()
    play.settle(a)
    play.want_code("the commit of a", play.commit(a, {partition: 50})[0], 0)
    refused(play, "a commit after the leave", b, partition, epoch, UNKNOWN_MEMBER_ID, member_id=member)


def commit_after_rejoin(play: Play) -> None:
    play.wants_commits()
    play.topic(0, partitions=2)
    a, b = play.member("a", id=new_id()), play.member("b")
    a.join()
    b.join()
    play.settle(a, b)
    epoch, partition = a.epoch, a.any()
    a.leave()
    play.settle(b)
    a.join()
    play.want(a.epoch == 0 or a.epoch > epoch, f"it joins again at epoch {a.epoch}, and was at {epoch} before")
    refused(play, "a commit from before the leave", a, partition, epoch, STALE_MEMBER_EPOCH)
    play.settle(a, b)


def commit_while_away(play: Play) -> None:
    play.wants_commits()
    s, _ = static_pair(play)
    epoch, partition, member = s.epoch, s.any(), s.id
    s.leave("away")
    refused(play, "a commit of a member that is away", s, partition, epoch, STALE_MEMBER_EPOCH, UNKNOWN_MEMBER_ID, member_id=member)


def commit_old_static_id(play: Play) -> None:
    play.wants_commits()
    s, _ = static_pair(play)
    epoch, partition, member = s.epoch, s.any(), s.id
    s.leave("away")
    heir(play, s).join()
    refused(play, "a commit under the old id", s, partition, epoch, UNKNOWN_MEMBER_ID, member_id=member)


def commit_unknown_topic(play: Play) -> None:
    a, partition = committer(play)
    topic = play.topic()
    results = play.send_commit(a, Commit(a.group, a.id, a.epoch, {NO_SUCH_TOPIC: [Part(0, 1)], topic.name: [Part(partition[1], 1)]}))
    codes = {name: code for name, _, code in results}
    play.want_code("the commit of a topic that isn't there", codes.get(NO_SUCH_TOPIC, 0), UNKNOWN_TOPIC_OR_PARTITION)
    play.want_code("the commit with it", codes.get(topic.name, -1), 0)


def commit_unknown_index(play: Play) -> None:
    a, _ = committer(play)
    topic = play.topic()
    play.want_code("the commit of an index that isn't there", play.commit(a, {(topic.id, topic.count + 7): 1})[0], UNKNOWN_TOPIC_OR_PARTITION)


def commit_metadata(play: Play) -> None:
    a, partition = committer(play)
    for size in (4_096, 20_000):
        results = play.send_commit(a, Commit(a.group, a.id, a.epoch, {play.topic().name: [Part(partition[1], 1, "m" * size)]}))
        play.note(f"a commit with {size} bytes of metadata is answered with {code_text(results[0][2])}")


# Values that are committed of the first partitions, of two topics if there are two, and have to be fetched again.
KEPT = {
    "commit-large-offset": [Part(0, 5_000_000_000_000, "")],
    "commit-offset-0": [Part(0, 0, "")],
    "commit-with-metadata": [Part(0, 7, "by conformance \u00e9")],
    "commit-leader-epoch": [Part(0, 7, "", 0)],
    "commit-several": [Part(0, 7, "first", 0), Part(1, 8, "second")],
    "fetch-offsets-all": [Part(0, 7, ""), Part(1, 8, "")],
}


def kept(play: Play) -> None:
    play.wants_commits()
    play.stands_on("commit")
    parts = KEPT[play.case.name]
    topics = [play.topic(number, partitions=len(parts)) for number in range(min(2, len(play.broker.topics)))]
    a = play.member("a", names=[topic.name for topic in topics])
    a.join()
    play.settle(a)
    wanted = {topic.name: [part._replace(offset=part.offset + at) for part in parts] for at, topic in enumerate(topics)}
    for _, _, code in play.send_commit(a, Commit(a.group, a.id, a.epoch, wanted)):
        play.want_code("the commit", code, 0)
    is_all = play.case.name == "fetch-offsets-all"
    wants_stored(play, a, wanted, None if is_all else {name: [part.index for part in some] for name, some in wanted.items()})


BODIES = dict.fromkeys(KEPT, kept)


def commit_stale_revoking(play: Play) -> None:
    _, b, _, former = moved(play)
    for name in "cd":
        play.member(name).join()
    told_to_revoke(play, b)
    for partition in sorted(b.owned - b.assigned)[:1]:
        refused(play, "a commit at an epoch before it had the partition", b, partition, former, STALE_MEMBER_EPOCH)


def commit_other_groups_member(play: Play) -> None:
    a, partition = committer(play)
    # (A coordinator may give members of different groups the same id.)
    b = play.member("b", group=play.new_group(), id=new_id())
    b.join()
    play.settle(b)
    refused(play, "a commit of another group's member", a, partition, b.epoch, UNKNOWN_MEMBER_ID, member_id=b.id)


def leave_keeps_offsets(play: Play) -> None:
    a, b, _, _ = moved(play)
    topic, partition = play.topic(), a.any()
    play.want_code("the commit", play.commit(a, {partition: 23})[0], 0)
    for member in (a, b):
        member.leave()
        found = play.stored(b, topic, partition[1])
        play.want(found in (None, 23), f"23 was committed, and after the leave of {member.name} OffsetFetch gives {found}")


def commit_keeps_membership(play: Play) -> None:
    play.wants_commits()
    a, b = settled_pair(play)
    epoch, owned = a.epoch, a.owned
    play.want_refused("a commit at a later epoch", play.commit(a, {min(owned): 1}, epoch + 5)[0])
    a.beat("full")
    play.want((a.epoch, a.owned) == (epoch, owned), f"after a refused commit it is at epoch {a.epoch} with {play.story.partitions(a.owned)}")


def commit_other_groups(play: Play) -> None:
    a, partition = committer(play)
    b = play.member("b", group=play.new_group())
    b.join()
    play.settle(b)
    for member, offset in ((a, 11), (b, 12)):
        play.want_code("the commit", play.commit(member, {partition: offset})[0], 0)
    found = play.stored(a, play.topic(), partition[1])
    play.want(found in (None, 11), f"11 was committed in one group and 12 in the other, and OffsetFetch gives {found} for the first")


def commit_older_versions(play: Play) -> None:
    versions = [version for version in play.broker.versions(OFFSET_COMMIT) if version < LATEST]
    if not versions:
        raise NotRun("the broker offers no OffsetCommit before version 9")
    a, _, partition, former = moved(play)
    for version in versions:
        play.want_refused(f"a commit of version {version} at a stale epoch", play.commit(a, {partition: 1}, former, version=version)[0])
        play.want_refused(f"a commit of version {version} of nobody", play.commit(a, {partition: 1}, member_id=new_id(), version=version)[0])


def commit_older_version_current(play: Play) -> None:
    versions = [version for version in play.broker.versions(OFFSET_COMMIT) if version < LATEST]
    if not versions:
        raise NotRun("the broker offers no OffsetCommit before version 9")
    a, partition = committer(play)
    found = play.commit(a, {partition: 1}, version=versions[-1])
    play.note(f"a commit of version {versions[-1]} at the member's epoch is answered with {code_text(found[0])}")


def wants_fetches(play: Play) -> None:
    if play.broker.version(OFFSET_FETCH) != LATEST:
        raise NotRun("the broker offers no OffsetFetch of version 9, the first one with member epochs")


def fetches(play: Play) -> Tuple[Member, Partition]:
    wants_fetches(play)
    return committer(play)


def fetch_offsets_member(play: Play) -> None:
    a, partition = fetches(play)
    play.want_code("the commit", play.commit(a, {partition: 77})[0], 0)
    found = play.fetch(a, {play.topic().name: [partition[1]]}, a.id, a.epoch)
    play.want_code("OffsetFetch at the member's epoch", found.first_code(), 0)
    offsets = [part.offset for part in found.parts.values()]
    play.want(offsets == [77], f"77 was committed, and OffsetFetch gives {offsets}")


def fetch_offsets_stale(play: Play) -> None:
    wants_fetches(play)
    a, _, _, _ = moved(play)
    partition = a.any()
    for epoch in (a.epoch + 1, a.epoch - 1):
        found = play.fetch(a, {play.topic().name: [partition[1]]}, a.id, epoch)
        play.want_code(f"OffsetFetch at epoch {epoch} of a member at {a.epoch}", found.first_code(), STALE_MEMBER_EPOCH)


def fetch_offsets_unknown(play: Play) -> None:
    a, partition = fetches(play)
    found = play.fetch(a, {play.topic().name: [partition[1]]}, new_id(), a.epoch)
    play.want_code("OffsetFetch of nobody", found.first_code(), UNKNOWN_MEMBER_ID)
