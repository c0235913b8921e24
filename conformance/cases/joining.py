"""How members join."""

from __future__ import annotations

from typing import Any

from conformance.broker import ASK_AGAIN
from conformance.cases.heartbeats import NO_SUCH_TOPIC
from conformance.member import Member, new_id
from conformance.messages import NOTHING, OFFSET_COMMIT, Topic
from conformance.play import Play
from conformance.story import code_text
from conformance.verdict import NotRun

NOT_COORDINATOR = 16
MOST_TOPICS = 20


def join_interval(play: Play) -> None:
    reply = play.member("a").join()
    play.want(reply.interval > 0, f"the heartbeat interval is {reply.interval} ms")


def join_first_epoch(play: Play) -> None:
    reply = play.member("a").join()
    play.want(reply.epoch > 0, f"the reply to the join has member epoch {reply.epoch}")


def join_second_epoch(play: Play) -> None:
    a, b = play.member("a"), play.member("b")
    a.join()
    play.settle(a)
    reply = b.join()
    play.want(reply.epoch > 0, f"the reply to the second join has member epoch {reply.epoch}")


def join_own_id(play: Play) -> None:
    own = new_id()
    a = play.member("a", id=own)
    reply = a.join()
    play.want(reply.member in (None, own), f"the join under {own} is answered with member id {reply.member}")
    play.settle(a)
    play.want(a.id == own, f"a heartbeat under {own} is answered with member id {a.id}")


def join_without_id(play: Play) -> None:
    if play.version != 0:
        raise NotRun("version 1 leaves ids to the members (KIP-1082)")
    a, b = play.member("a"), play.member("b")
    a.join()
    b.join()
    play.want(a.id != b.id, f"two members are given the id {a.id}")
    play.settle(a, b)


def join_without_id_version_1(play: Play) -> None:
    if play.version != 1:
        raise NotRun("it is about version 1")
    a = play.member("a")
    a.id = ""
    reply = a.tries_to_join()
    play.note(f"a join without a member id is answered with {code_text(reply.code)}")


def join_repeated(play: Play) -> None:
    a = play.member("a", id=new_id())
    a.ask(a.request("join"), lost=True)
    a.join()
    play.settle(a)


def rejoin(play: Play) -> None:
    a = play.member("a", id=new_id())
    a.join()
    play.settle(a)
    a.join()
    play.settle(a)


def rejoin_shows_assignment(play: Play) -> None:
    a, b = play.member("a", id=new_id()), play.member("b")
    a.join()
    b.join()
    play.settle(a, b)
    had = a.owned
    a.join()
    play.settle(a, b)
    play.want(bool(a.owned) or not had, "the member that joined again is left without partitions")


def rejoin_other_subscription(play: Play) -> None:
    first, second = play.topic(0), play.topic(1)
    a = play.member("a", names=[first.name], id=new_id())
    a.join()
    play.settle(a)
    a.names = [second.name]
    a.join()
    play.settle(a)


def join_shows_nothing_held(play: Play) -> None:
    a, b = play.member("a"), play.member("b")
    a.join()
    play.settle(a)
    reply = b.join()
    both = a.owned & (reply.assignment or NOTHING)
    play.want(not both, f"the join of b shows {play.story.partitions(both)}, which a has")


def join_unknown_topic(play: Play) -> None:
    a = play.member("a", names=[NO_SUCH_TOPIC])
    a.join()
    a.turn()
    play.want(not a.owned, f"it is assigned {play.story.partitions(a.owned)}")


def join_empty_subscription(play: Play) -> None:
    a = play.member("a", names=[])
    reply = a.tries_to_join()
    play.note(f"a join that subscribes an empty list is answered with {code_text(reply.code)}, and {play.story.partitions(a.owned)} is assigned")


def join_elsewhere(play: Play) -> None:
    others = [address for address in play.broker.nodes if address != play.broker.coordinator_of(play.group)]
    if not others:
        raise NotRun("it needs a cluster of two brokers or more")
    a, lost = play.member("a"), play.member("lost", id=new_id())
    a.join()
    play.settle(a)
    lost.connects(others[0])
    lost.asks_again = [code for code in ASK_AGAIN if code != NOT_COORDINATOR]
    play.want_code("a join at another broker", lost.tries_to_join().code, NOT_COORDINATOR)
    if play.broker.version(OFFSET_COMMIT) is not None:
        found = play.commit(lost, {a.any(): 1}, a.epoch, a.id)
        play.want_code("a commit at another broker", found[0], NOT_COORDINATOR)
    a.turn()


def join_null_owned(play: Play) -> None:
    reply = play.member("a").tries_to_join(owned=None)
    play.note(f"a join with null in TopicPartitions is answered with {code_text(reply.code)}")


def join_null_expression(play: Play) -> None:
    if play.version != 1:
        raise NotRun("version 0 has no regular expressions")
    a = play.member("a")
    a.join(regex=None)
    play.settle(a)


def expression(play: Play, a: Member, kind: str, *wanted: Topic, **changes: Any) -> bool:
    """Whether a request with a regular expression that fits the last of the topics is taken: then all of them are assigned."""
    if play.version != 1:
        raise NotRun("version 0 has no regular expressions")
    reply = a.tries(kind, regex=wanted[-1].name[:-1] + ".", **changes)
    if reply.code:
        play.note(f"it is answered with {code_text(reply.code)}")
        return False
    partitions = frozenset(each for topic in wanted for each in topic.partitions())
    play.until(f"{' and '.join(topic.name for topic in wanted)} are assigned", lambda: partitions <= a.owned, a)
    return True


def join_expression(play: Play) -> None:
    if expression(play, play.member("a"), "join", play.topic(), names=None):
        play.note("a regular expression is followed")


def join_many_topics(play: Play) -> None:
    play.topic(2)
    a = play.member("a", names=[topic.name for topic in play.broker.topics[:MOST_TOPICS]])
    a.join()
    play.settle(a)


def join_many(play: Play) -> None:
    members = [play.member(name) for name in "abcdef"]
    for member in members:
        member.join()
    play.settle(*members)


def join_thirty(play: Play) -> None:
    members = [play.member(f"m{number}") for number in range(1, 31)]
    for member in members:
        member.join()
    play.settle(*members)


def join_two_groups(play: Play) -> None:
    a, b = play.member("a"), play.member("b", group=play.new_group())
    a.join()
    b.join()
    play.settle(a)
    play.settle(b)


def join_same_id_two_groups(play: Play) -> None:
    own = new_id()
    a, b = play.member("a", id=own), play.member("b", id=own, group=play.new_group())
    a.join()
    b.join()
    play.settle(a)
    play.settle(b)
    b.leave()
    before = a.epoch
    a.beat("full")
    play.want(a.epoch == before, f"the leave in another group takes the member from epoch {before} to {a.epoch}")


def join_id_again(play: Play) -> None:
    ids = []
    for _ in range(4):
        a = play.member("a")
        a.id = ""
        reply = a.tries_to_join()
        if reply.code and play.version == 1:
            raise NotRun("the broker gives no ids in version 1")
        play.want_code("a join without an id", reply.code, 0)
        ids.append(a.id)
        a.leave()
    play.want(len({*ids}) == len(ids), f"four members are given the ids {', '.join(ids)}")


def join_groups_by_case(play: Play) -> None:
    group = play.new_group()
    a, b = play.member("a", group=group), play.member("b", group=group.upper())
    a.join()
    b.join()
    play.settle(a)
    play.settle(b)


def join_ids_by_case(play: Play) -> None:
    play.topic(0, partitions=2)
    own = new_id()
    a, b = play.member("a", id=own), play.member("b", id=own.upper())
    a.join()
    b.join()
    play.settle(a, b)
    b.leave()
    play.settle(a)


def join_topic_twice(play: Play) -> None:
    topic = play.topic()
    a = play.member("a", names=[topic.name, topic.name])
    a.join()
    play.settle(a)
    epoch = a.epoch
    a.beat(names=[topic.name])
    a.turn()
    play.want(a.epoch == epoch, f"that it names the topic once takes it from epoch {epoch} to {a.epoch}")


def join_names_and_expression(play: Play) -> None:
    first, second = play.topic(0), play.topic(1)
    a = play.member("a", names=[first.name])
    expression(play, a, "join", first, second)


def beat_expression(play: Play) -> None:
    first, second = play.topic(0), play.topic(1)
    a = play.member("a", names=[first.name])
    a.join()
    play.settle(a)
    owned = a.owned
    if not expression(play, a, "full", second, names=[]):
        a.beat("full")
        play.want(a.assigned == owned, f"after the refusal the member is assigned {play.story.partitions(a.assigned)}")
