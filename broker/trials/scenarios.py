"""The scenarios: what consumers go through, and what must hold then. verdict.py has what must hold at the end of each."""

import collections
import random
import re
import signal
import subprocess
import time
from typing import Any, Callable, Dict, Iterable, NamedTuple, Sequence, Set, Tuple

from broker.trials.consumers import Consumers
from broker.trials.log import Exchange
from broker.trials.roots import CLIENTS
from broker.trials.trial import BOTH, MATCHED, Trial
from clients.stand import HOST
from rules.messages import read_commit_reply

SESSION, TICK, INTERVAL = 45.0, 0.5, 5.0
# How late a late request is, and how long many consumers may take.
LATE, LIMIT = 12, 200
BROKEN = ("TRANSPORT", "ALL_BROKERS_DOWN", "TIMED_OUT", "WAIT_COORD", "Disconnected")
# How a refusal of an instance id reaches the application.
IN_USE = ("UNRELEASED_INSTANCE_ID", "still used by another member")


def settled(t: Trial, names: Sequence[str], *options: object, what: str = "", **settings: Any) -> Dict[str, Consumers]:
    """Consumers that have come one after the other, and have settled."""
    group = {name: t.start(name, *options, **{key: of(name) if callable(of) else of for key, of in settings.items()}) for name in names}
    t.quiet(BOTH, what or f"{len(names)} consumers", group[names[-1]].started)
    return group


def instance(name: str) -> str:
    """The instance id of a static member."""
    return f"i-{name}"


def one_alone(t: Trial) -> None:
    """One consumer gets all, and leaves."""
    c = t.come("c1", "one consumer", group="größe Ω", client_rack="eu-1")
    join = t.heartbeats("c1")[0]
    told = join.told.code, join.told.epoch, len(join.told.assignment or ())
    t.check(told == (0, 1, 19), "its join is answered with code 0, epoch 1 and 19 partitions")
    t.note(f"assigned {t.of('ASSIGN')[0].moment - c.started:.2f} s after the start of its process")
    c.quit()
    leave = t.heartbeats("c1")[-1]
    t.check((leave.asked.epoch, leave.told.code) == (-1, 0), "it leaves with epoch -1, which is answered with 0")


def joins_and_leaves(t: Trial) -> None:
    """Ten consumers come, and nine of them go one by one."""
    consumers = [t.come(f"c{count}", f"{count} consumers") for count in (1, 2, 3)]
    for count in range(4, 11):
        time.sleep(1)
        consumers.append(t.start(f"c{count}"))
    t.took.append(t.quiet(BOTH, "10 consumers", consumers[-1].started))
    leaves = [t.quiet(BOTH, f"{left} left", consumers[left].quit()) for left in range(9, 0, -1)]
    t.note(f"seconds after the last join of 1, 2, 3 and 10: {seconds(t.took)}; after each leave: {seconds(leaves)}")


def seconds(values: Iterable[float]) -> str:
    return ", ".join(f"{it:.1f}" for it in values)


def static_restarts(t: Trial) -> None:
    """A static member comes back after 1, 12 and 30 s to what it had. One that was killed is refused until its session ends."""
    static = {name: t.start(name, group_instance_id=f"i-{name}") for name in ("s1", "s2", "s3")}
    t.come("d1", "3 static members and 1 dynamic")
    for pause in (1, 12, 30):
        come_back(t, static, pause)
    t.expect(*IN_USE)
    moment = t.kill(static["s3"])
    again = t.start("s3", group_instance_id="i-s3")
    t.wait_for(lambda: t.of("FATAL", "s3", moment), 20, "the second s3 is refused")
    codes = [it.told.code for it in t.heartbeats("s3", moment)]
    t.check(codes[:1] == [111], f"killed and started again at once: codes {codes}")
    again.quit()
    t.wait_for(lambda: not t.problem(BOTH, ("s1", "s2", "d1")), 70, "the others get its partitions")
    t.note(f"the others had them {time.time() - moment:.1f} s after the kill")
    t.come("s3", "s3 is back after its session ended", group_instance_id="i-s3")


def come_back(t: Trial, static: Dict[str, Consumers], pause: float) -> None:
    before = {name: {*parts} for name, parts in t.owned.items()}
    moment = static["s2"].quit()
    away = t.heartbeats("s2")[-1]
    t.check((away.asked.epoch, away.told.code, away.told.epoch) == (-2, 0, -2), "s2 goes away with -2, which is answered with 0 and -2")
    time.sleep(pause)
    static["s2"] = t.start("s2", group_instance_id="i-s2")
    t.wait_for(lambda: t.owned["s2"] == before["s2"], 20, "s2 gets its partitions back")
    t.note(f"away for {pause} s, and back {t.last_change - static['s2'].started:.2f} s after its start")
    time.sleep(2 * INTERVAL + 1)
    t.check(dict(t.owned) == before and not t.changes(moment, ("s2",)), "everybody has what they had, and nothing of the others has moved")


def static_away_too_long(t: Trial) -> None:
    """A static member that doesn't come back loses its partitions after 45 s; an instance id that is in use is refused."""
    static = settled(t, ("s1", "s2", "s3"), what="3 static members", group_instance_id=instance)
    moment = static["s3"].quit()
    t.wait_for(lambda: not t.problem(BOTH), 70, "the others get its partitions")
    gains = [it.moment - moment for it in t.of("ASSIGN", since=moment)]
    t.check(bool(gains) and min(gains) >= 44.9, f"they moved {seconds(gains)} s after the -2")
    t.quiet(BOTH, "2 are left", moment)
    t.expect(*IN_USE)
    t.start("thief", group_instance_id="i-s1")
    t.wait_for(lambda: t.of("FATAL", "thief"), 15, "the second i-s1 is refused")
    time.sleep(INTERVAL + 1)
    t.check(not t.problem(BOTH), "nothing has moved")


def rolling_restart(t: Trial) -> None:
    """Five static members are restarted one after the other, and no partition moves."""
    names = [f"s{number}" for number in range(1, 6)]
    static = settled(t, names, what="5 static members", group_instance_id=instance)
    before = {name: {*parts} for name, parts in t.owned.items()}
    epoch, start = max(it.told.epoch for it in t.heartbeats()), time.time()
    for name in names:
        static[name].quit()
        time.sleep(2)
        static[name] = t.start(name, group_instance_id=f"i-{name}")
        t.wait_for(lambda: t.owned[name] == before[name], 20, f"{name} gets its partitions back")
    t.note(f"five restarts in {time.time() - start:.1f} s")
    time.sleep(2 * INTERVAL + 1)
    t.check(dict(t.owned) == before, "everybody has what they had")
    kinds = {name: [it.kind for it in t.changes(start) if it.name == name] for name in names}
    t.check(all(it == ["REVOKE", "ASSIGN"] for it in kinds.values()), f"each gave up and got its own alone ({kinds['s1']})")
    t.check(max(it.told.epoch for it in t.heartbeats()) == epoch, f"the group epoch is still {epoch}")


def assignors(t: Trial) -> None:
    """Range, uniform, the client's own choice, a vote between two, and an assignor that isn't there."""
    for assignor in ("range", "uniform", "own"):
        names = [f"{assignor}{number}" for number in (1, 2, 3)]
        asked = None if assignor == "own" else assignor
        group = [t.start(name, group=f"g-{assignor}", group_remote_assignor=asked) for name in names]
        t.quiet(BOTH, f"assignor {assignor}", group[-1].started, even=assignor != "range", names=names)
        if assignor == "range":
            sizes = {topic: sorted(sum(p.startswith(topic) for p in t.owned[name]) for name in names) for topic in BOTH}
            t.check(sizes == {"orders": [4, 4, 4], "bills": [2, 2, 3]}, f"range gives each topic in runs: {sizes}")
        named = {str(it.asked.assignor) for it in t.heartbeats() if it.asked.group == f"g-{assignor}"}
        t.note(f"assignor {assignor}: the clients name {sorted(named)}")
        for it in group:
            it.quit()
    votes = {"m1": "range", "m2": "uniform", "m3": "range"}
    voters = {name: t.start(name, group="g-vote", group_remote_assignor=of) for name, of in votes.items()}
    t.quiet(BOTH, "two name range and one uniform", voters["m3"].started, even=False, names=[*voters])
    t.expect("UNSUPPORTED_ASSIGNOR", "assignor")
    t.start("odd", group="g-odd", group_remote_assignor="sticky")
    t.wait_for(lambda: t.of("FATAL", "odd"), 15, "assignor sticky is refused")


def subscriptions(t: Trial) -> None:
    """Topics that aren't there; subscriptions that change, end and come again."""
    t.expect("UNKNOWN_TOPIC_OR_PART", "Unknown topic")
    c1, c2 = t.start("c1", topics="nothing"), t.start("c2", topics="orders,nothing")
    t.quiet(("orders",), "one of a topic that isn't there, one of two topics", c2.started, even=False)
    steps = [
        (c1, "bills", "c1 changes to bills"),
        (c1, "orders,bills", "c1 adds orders"),
        (c2, "bills", "c2 changes to bills"),
        (c2, "-", "c2 subscribes nothing"),
        (c2, "orders", "c2 subscribes orders again"),
        (c1, "bills", "c1 drops orders"),
    ]
    for who, topics, what in steps:
        moment = time.time()
        who.say(f"subscribe {who.name} {topics}")
        t.quiet(BOTH, what, moment, even=False)
    t.check((len(t.owned["c1"]), len(t.owned["c2"])) == (7, 12), "at the end c1 has bills and c2 orders")


def regular_expression(t: Trial) -> None:
    """2.8.0 sends an expression as a name, of which there is no topic. Later versions send it as one, and are assigned what it names."""
    t.expect("UNKNOWN_TOPIC_OR_PART", "Unknown topic")
    names = [topic.name for topic in MATCHED]
    c1 = t.start("c1", topics="^orders-.*")
    time.sleep(2 * INTERVAL)
    if t.is_old():
        found = {name for it in t.heartbeats("c1") for name in it.asked.names or ()}
        t.check(found == {"^orders-.*"} and not t.owned["c1"], f"the expression comes as a name, and it is assigned nothing: {found}")
        return
    t.quiet(names, "one with the expression", c1.started)
    c2 = t.start("c2", topics="^orders-.*")
    t.quiet(names, "two with it", c2.started)
    c3 = t.start("c3", topics="orders-us")
    t.quiet(names, "one of a topic among those that it names", c3.started, even=False)
    found = {str(it.expression) for name in ("c1", "c2") for it in t.heartbeats(name) if it.expression}
    # (librdkafka puts it into brackets.)
    t.check(found == {"(^orders-.*)"}, f"heartbeats have the expression: {found}")


def killed(t: Trial) -> None:
    """A consumer is killed: its partitions move once its session is over."""
    group = settled(t, ("c1", "c2", "c3"))
    moment = t.kill(group["c2"])
    last = max(it.sent for it in t.heartbeats("c2"))
    time.sleep(38)
    t.check(not t.of("ASSIGN", since=moment), "38 s after the kill nothing has moved")
    t.quiet(BOTH, "after the kill", moment)
    gains = [it.moment - last for it in t.of("ASSIGN", since=moment)]
    times = f"{min(gains, default=0):.2f} to {max(gains, default=0):.2f} s after its last heartbeat"
    t.check(min(gains, default=0) >= SESSION, f"its partitions were given {times}, not before 45 s")
    t.check(max(gains, default=0) <= SESSION + TICK + 2 * INTERVAL + 0.5, "and within two intervals more")


def stopped(t: Trial) -> None:
    """A consumer is stopped for 60 s: it is fenced, and so are its late commits."""
    t.expect("UNKNOWN_MEMBER_ID", "STALE_MEMBER_EPOCH", "SESSTMOUT", *BROKEN)
    group = settled(t, ("c1", "c2", "c3"), *(["-l"] if t.client != "confluent" else []))
    late = t.commits("c2")[-1].frame
    stop = t.stop(group["c2"])
    group["c2"].say("commit c2")
    time.sleep(60)
    t.check(not t.problem(BOTH, ("c1", "c3")), "60 s later the others have all")
    t.note(f"they had it {max(it.moment for it in t.of('ASSIGN', since=stop)) - stop:.2f} s after the stop")
    told = read_commit_reply(t.stand.send(late)[4:])
    t.check(0 not in told, f"a commit of its comes once more, over another connection: {sorted({*told})}")
    back = group["c2"].signal(signal.SIGCONT)
    t.wait_for(lambda: t.of("ASSIGN", "c2", back), 30, "c2 is assigned partitions again")
    t.quiet(BOTH, "after c2's return", back)
    losses = [round(it.moment - back, 2) for it in t.of("LOST", "c2", back)]
    t.check(len(losses) == 1, f"c2 lost its partitions once, {losses} s after it went on")
    codes = [it.told.code for it in t.heartbeats("c2", back)]
    t.check(25 in codes, f"c2's heartbeats are answered with {codes[:4]}")
    joined = min(it.answered for it in t.heartbeats("c2", back) if it.told.code == 0)
    told = [code for it in t.commits("c2", back) if it.answered < joined for code in it.codes]
    t.check(0 not in told, f"its commits before it joined again are answered with {sorted({*told})}")
    told = read_commit_reply(t.stand.send(late)[4:])
    t.check(0 not in told, f"the old commit once more, after it joined again: {sorted({*told})}")


def cuts(t: Trial) -> None:
    """Connections end in the middle, and replies are lost."""
    t.expect("UNKNOWN_MEMBER_ID", "FENCED", *BROKEN)
    settled(t, ("c1", "c2"))
    for kind in ("now", "before", "after", "after-commit"):
        cut_in_steady_state(t, kind)
    t.stand.tell_relay("cut c1 after")
    moment = t.come("c3", "the reply that takes partitions is lost").quit()
    t.stand.tell_relay("cut c2 after")
    t.quiet(BOTH, "the reply that gives partitions is lost", moment)
    lose_a_joins_reply(t)
    moment = time.time()
    wait_for_other_connections(t, "cut-all", ("c1", "c2", "c4"))
    t.check(not t.problem(BOTH) and not t.of("LOST", since=moment), "all connections are cut at once: nothing is lost")


def cut_in_steady_state(t: Trial, kind: str) -> None:
    moment = time.time()
    wait_for_other_connections(t, f"cut c1 {kind}", ("c1",))
    codes = {it.told.code for it in t.heartbeats(since=moment)}
    t.check(not t.changes(moment) and codes == {0}, f"cut {kind}: c1 goes on over another connection, nothing moves, heartbeat codes {codes}")


def wait_for_other_connections(t: Trial, line: str, names: Sequence[str]) -> None:
    """Cuts, and waits until each of these clients was answered twice over connections that it didn't have. (What moves does so by then.)"""
    before = {it.connection for it in t.exchanges()}
    t.stand.tell_relay(line)
    t.wait_for(lambda: all(sum(it.connection not in before for it in t.heartbeats(name)) > 1 for name in names), 90, f"{line}: all go on")


def lose_a_joins_reply(t: Trial) -> None:
    t.stand.tell_relay("cut c4 after")
    fourth = t.start("c4")
    t.wait_for(lambda: t.of("ASSIGN", "c4"), 70, "c4 is assigned partitions after its join's reply was lost")
    t.quiet(BOTH, "a join's reply is lost", fourth.started, limit=150)
    members = {it.told.member for it in t.heartbeats("c4") if it.told.code == 0}
    took = t.last_change - fourth.started
    t.note(f"c4 was answered as {len(members)} member(s), and each partition was owned {took:.1f} s after its start")


def slow_revocation(t: Trial) -> None:
    """A consumer that takes longer to give up than its rebalance timeout is removed."""
    t.expect("UNKNOWN_MEMBER_ID", "STALE_MEMBER_EPOCH", "MAX_POLL", "FENCED")
    # (2.14.2 has no such setting with this protocol.)
    session: Dict[str, Any] = {"session_timeout_ms": 10_000} if t.client == "trixie" else {}
    t.come("slow", "slow alone", "-b", 16_000, max_poll_interval_ms=10_000, **session)
    t.start("fast")
    t.wait_for(lambda: t.of("BLOCK", "slow"), 20, "slow begins to give up")
    start = t.of("BLOCK", "slow")[0].moment
    # From then on it knows by its own clock that it is out.
    t.ends["slow"].append(start + 10)
    t.wait_for(lambda: t.owned["fast"], 60, "fast is assigned something")
    gain = min(it.moment for it in t.of("ASSIGN", "fast") if it.text != "-") - start
    t.check(gain >= 10, f"fast is assigned what slow has {gain:.2f} s after it began to give up, not before its 10 s are over")
    time.sleep(4 * INTERVAL)
    refused = [it for it in t.heartbeats("slow") if it.told.code == 42]
    if t.is_old():
        t.expect("INVALID_REQUEST", "nvalid request")
        is_bare = bool(refused) and refused[0].asked.timeout == -1 and refused[0].asked.names is None
        t.check(is_bare, "2.8.0 joins again without timeout and names: 42, fatal to it")
        t.check(not t.problem(BOTH, ("fast",)), "fast has all")
    else:
        t.quiet(BOTH, "slow is back", time.time() - 20)


def late(t: Trial) -> None:
    """A request comes 12 s late, over its client's former connection; the client has gone on over another one."""
    t.expect(*BROKEN)
    t.may_close = True
    settled(t, ("c1", "c2"), socket_timeout_ms=4_000)
    told = late_request(t, "heartbeat")
    t.check(told == "closes", f"a heartbeat 12 s late, overtaken by others of its member: {told}")
    told = late_request(t, "commit")
    t.check(told == "codes [0]", f"a commit 12 s late, at its member's present epoch: {told}")
    t.stand.tell_relay("hold c3 heartbeat 12")
    third = t.start("c3", socket_timeout_ms=4_000)
    # Of 2.8.0 the late one makes a second member, whose partitions nobody reads until its session is over.
    t.wait_for(lambda: len({it.connection for it in t.exchanges("c3")}) > 1, 120, "the late join has come, and another one before it")
    time.sleep(2 * INTERVAL)
    t.quiet(BOTH, "a join is late", third.started, limit=150)
    first = min(t.exchanges("c3"), key=lambda it: it.connection)
    wanted = "code 0" if t.is_old() else "closes"
    t.check(outcome(first) == wanted, f"a join 12 s late, overtaken by another one: {outcome(first)}")


def late_join(t: Trial) -> None:
    """The reply to a join comes later than its client waits for it: the client reads what it shows, and reports that it has nothing."""
    t.stand.tell_relay(f"hold-reply c1 heartbeat {INTERVAL + 1}")
    t.start("c1")
    time.sleep(3)
    c2 = t.start("c2")
    t.wait_for(lambda: t.of("ASSIGN", "c1"), 2 * INTERVAL, "c1 is assigned what the late reply shows")
    t.quiet(BOTH, "a join's reply is late", c2.started)
    join, next_one = t.heartbeats("c1")[:2]
    shown, reported = len(join.told.assignment or ()), next_one.asked.owned
    count = "null" if reported is None else len(reported)
    told = f"c1 is shown {shown} partitions, and its next heartbeat, {next_one.sent - join.sent:.1f} s after its join, reports {count}"
    t.check((shown, count) == (19, 0), told)
    epochs = f"epoch {next_one.told.epoch}, and {len(next_one.told.assignment or ())} partitions"
    given_up = [it.moment - next_one.answered for it in t.changes(0) if it.name == "c1" and it.kind == "REVOKE"]
    then = f"gives the others up {given_up[0]:.2f} s later" if given_up else "has read none of the others"
    t.note(f"it is answered with {epochs}; c1 {then}")


def late_acknowledgement(t: Trial) -> None:
    """The reply to an acknowledgement, which assigns more, comes later than its client waits for it: it is never told again."""
    t.expect("UNKNOWN_MEMBER_ID", *BROKEN)
    c1 = settled(t, ("c1",))["c1"]
    # It has nothing to give up before c3 comes.
    t.come("c2", "2 consumers", "-b", 4_000)
    heard = len(t.heartbeats("c2"))
    t.wait_for(lambda: len(t.heartbeats("c2")) > heard, 2 * INTERVAL, "c2 sends a heartbeat")
    time.sleep(1)
    # Both are told to give up at most 4 s after c3's join, and c2 takes 4 s for it. c3 is assigned what c1 has given up after 5 s,
    # takes 4.5 s for it, and then reports it.
    t.start("c3", "-w", 4_500)
    t.wait_for(lambda: t.of("ASSIGN", "c3") and t.owned["c3"], 3 * INTERVAL, "c3 is assigned what c1 has given up")
    t.stand.tell_relay(f"hold-reply c3 heartbeat {INTERVAL + 2}")
    time.sleep(4 * INTERVAL)
    told = [len(it.told.assignment) for it in t.heartbeats("c3") if it.told.assignment]
    t.check(len(told) == 2 and told[0] < told[1], f"c3 was told of partitions twice, of more the second time: {told}")
    t.note(f"c3 reads {len(t.owned['c3'])} partitions of {told[-1:]} that it was told of {3 * INTERVAL:g} s before")
    moment = time.time()
    c1.quit()
    t.quiet(BOTH, "c1 leaves", moment)


def late_request(t: Trial, kind: str) -> str:
    """What becomes of c1's next request of a kind, which is late. Nothing moves meanwhile."""
    moment, former = time.time(), t.exchanges("c1")[-1].connection
    t.stand.tell_relay(f"hold c1 {kind} {LATE}")
    time.sleep(LATE + 2 * INTERVAL)
    t.check(not t.changes(moment), f"nothing moves while a {kind} is late")
    return outcome([it for it in t.exchanges("c1") if it.connection == former and it.sent >= moment + LATE - 1][0])


def outcome(it: Exchange) -> str:
    if not it.is_answered():
        return "closes" if it.closes else "no reply"
    return f"code {it.told.code}" if not it.is_commit else f"codes {sorted({*it.codes})}"


def broker_restarts(t: Trial) -> None:
    """The broker loses its groups and records, at once and after 8 s. The clients come back by themselves."""
    # (Records begin at offset 0 again, which consumers see and tell.)
    t.expect("UNKNOWN_MEMBER_ID", "GROUP_ID_NOT_FOUND", "OFFSET_OUT_OF_RANGE", "out of range", "offset 0 of", "Connect to", *BROKEN)
    t.may_close = True
    group = settled(t, ("c1", "c2", "c3"))
    for away in (0, 8):
        moment = time.time()
        t.stand.send_signal("broker", signal.SIGKILL)
        time.sleep(away)
        t.stand.serve()
        back = time.time()
        t.restarts.append(back)
        for name in group:
            t.ends[name].append(moment)
        t.wait_for(lambda: len({it.name for it in t.of("LOST", since=moment)}) == 3, 40, "all three find that they are unknown")
        t.quiet(BOTH, f"the broker was away for {away} s", back)
        first, last = min(it.moment for it in t.of("ASSIGN", since=back)), max(it.moment for it in t.of("LOST", since=moment))
        t.note(f"from {first - back:.2f} s on, until {last - back:.2f} s, the first ones back were assigned what others still read")


def broker_stalls(t: Trial) -> None:
    """The broker is stopped for 4, 14 and 30 s: requests time out, and are answered late."""
    t.expect("UNKNOWN_MEMBER_ID", "STALE", "FENCED", *BROKEN)
    t.may_close = True
    group = settled(t, ("c1", "c2", "c3"))
    for seconds in (4, 14, 30):
        moment = time.time()
        t.stand.send_signal("broker", signal.SIGSTOP)
        time.sleep(seconds)
        t.stand.send_signal("broker", signal.SIGCONT)
        time.sleep(1)
        t.quiet(BOTH, f"stopped for {seconds} s", moment)
        codes = {it.told.code for it in t.heartbeats(since=moment)}
        losses, revokes = len(t.of("LOST", since=moment)), len(t.of("REVOKE", since=moment))
        t.note(f"stopped for {seconds} s: heartbeat codes {sorted(codes)}, {losses} losses, {revokes} revokes")


def long_run(t: Trial) -> None:
    """Consumers come and go for four minutes, and connections are cut."""
    t.expect("UNKNOWN_MEMBER_ID", *BROKEN)
    dice, made = random.Random(848), 0
    group: Dict[str, Consumers] = {}
    until = time.time() + 240
    while time.time() < until:
        if len(group) < 3 or len(group) < 9 and dice.random() < 0.55:
            made += 1
            group[f"r{made}"] = t.start(f"r{made}", *(["-a"] if dice.random() < 0.5 and t.client != "confluent" else []))
        else:
            group.pop(dice.choice(sorted(group))).say("quit all")
        if dice.random() < 0.3:
            t.stand.tell_relay(f"cut {dice.choice(sorted(group) or ['r1'])} {dice.choice(['now', 'before', 'after', 'after-commit'])}")
        time.sleep(dice.choice([1, 3, 7, 11]))
    t.quiet(BOTH, f"{made} consumers came, and {len(group)} are left", time.time())


# What consumers are started with that print no records, commit seldom, and don't fetch all the time.
QUIETLY = ("-q", "-c", 2000)


def hundred(t: Trial) -> None:
    """A hundred consumers of a topic of 200 partitions, fifty at a time."""
    # (2.8.0 may ask twice where a partition begins, and goes back there.)
    t.expect("TRANSPORT", "offset 0 of")
    wide: Dict[str, Any] = {"topics": "wide", "fetch_wait_max_ms": 5_000, "limit": LIMIT}
    t.come("h", "50 consumers at once", *QUIETLY, count=50, **wide)
    second = t.come("k", "100 consumers, the second 50 at once", *QUIETLY, count=50, **wide)
    one = t.come("z", "one more", *QUIETLY, **wide)
    t.took.append(t.quiet(("wide",), "and it is gone", one.quit(), limit=LIMIT))
    moment = time.time()
    second.say("quit all")
    second.wait(40)
    t.took.append(t.quiet(("wide",), "50 leave at once", moment, limit=LIMIT))
    t.note(f"seconds to converge: {seconds(t.took)}")


def twenty_groups(t: Trial) -> None:
    """Twenty groups of three consumers."""
    t.expect("TRANSPORT")
    groups = [t.start(f"g{it}x", *QUIETLY, group=f"group{it}", count=3, fetch_wait_max_ms=5_000) for it in range(20)]
    took = [t.quiet(BOTH, f"group{number}", it.started, names=it.names) for number, it in enumerate(groups)]
    t.note(f"the slowest group was quiet after {max(took):.1f} s")


def mixed(t: Trial) -> None:
    """Clients of both releases in one group; a static member of the one is followed by one of the other."""
    uniform: Dict[str, Any] = {"group_remote_assignor": "uniform"}
    names = {"old1": "trixie", "new1": "sid", "py1": "confluent", "old2": "trixie", "new2": "sid"}
    group = []
    for name, client in names.items():
        group.append(t.come(name, f"{len(group) + 1} consumers, the last of {client}", client=client, **uniform))
    first = t.come("sa", "a static member of trixie joins", client="trixie", group_instance_id="i", **uniform)
    before = {*t.owned["sa"]}
    moment = first.quit()
    time.sleep(3)
    t.start("sb", client="sid", group_instance_id="i", **uniform)
    t.wait_for(lambda: t.owned["sb"] == before, 15, "one of sid takes its place and its partitions")
    time.sleep(11)
    t.check(not t.changes(moment, ("sa", "sb")), "and nothing of the others has moved")
    for it in group[:3]:
        t.quiet(BOTH, f"{it.name} left", it.quit())


def metadata(t: Trial) -> None:
    """Metadata of a commit may have 4,096 bytes."""
    t.expect("METADATA", "metadata")
    codes = {}
    for name, size in (("c1", 10), ("c2", 4096), ("c3", 4097)):
        t.come(name, f"one with {size} bytes of metadata", "-m", size).quit()
        codes[size] = sorted({code for its in t.commits(name) for code in its.codes})
    t.check(codes == {10: [0], 4096: [0], 4097: [12]}, f"commit codes by size: {codes}")


def automatic_commits(t: Trial) -> None:
    """The commits of the library itself."""
    settings: Dict[str, Any] = {"enable_auto_commit": "true", "auto_commit_interval_ms": 300}
    group = [t.come("c1", "one", "-c", 0, **settings)]
    for number in range(2, 8):
        group.append(t.start(f"c{number}", "-c", 0, **settings))
        time.sleep(1.7)
    t.quiet(BOTH, "seven", group[-1].started)
    for it in group[:5]:
        it.say("quit all")
        time.sleep(2.3)
    t.quiet(BOTH, "two are left", time.time())
    codes = collections.Counter(code for its in t.commits() for code in its.codes)
    t.note(f"commit codes {dict(codes)}; {len(t.of('REFUSED'))} commits failed in the application's sight")


def kcat(t: Trial) -> None:
    """kcat of both releases in one group, as a user starts it."""
    running = []
    for number, client in enumerate(("trixie", "sid")):
        settings = ["group.protocol=consumer", "auto.offset.reset=earliest", f"client.id=kcat{number}", *CLIENTS[client].settings]
        words = ["timeout", "-s", "INT", str(32 - 12 * number), "chroot", str(t.roots / client), "kcat", "-b", f"{HOST}:{t.stand.port}"]
        words += [word for setting in settings for word in ("-X", setting)] + ["-G", "g", *BOTH, "-f", "%t/%p/%o=%s\\n"]
        with open(t.folder / f"kcat{number}.out", "wb") as printed, open(t.folder / f"kcat{number}.err", "wb") as errors:
            running.append(subprocess.Popen(words, stdin=subprocess.DEVNULL, stdout=printed, stderr=errors))
        time.sleep(12)
    for it in running:
        it.wait(60)
    read = [(t.folder / f"kcat{number}.out").read_text().split() for number in (0, 1)]
    told = [(t.folder / f"kcat{number}.err").read_text() for number in (0, 1)]
    shares = [re.findall(r"assignment of ([1-9]\d*) partition", text) for text in told]
    t.check(all(shares) and all(read), f"both were assigned partitions ({shares}) and read {len(read[0])} and {len(read[1])} records")
    t.check(all(row.split("=")[0] == row.split("=")[1] for rows in read for row in rows), "each record was the right one")
    offsets: Dict[str, Set[int]] = collections.defaultdict(set)
    for row in read[0] + read[1]:
        partition, _, offset = row.split("=")[0].rpartition("/")
        offsets[partition].add(int(offset))
    t.check(all(it == {*range(max(it) + 1)} for it in offsets.values()), f"together they read every record of {len(offsets)} partitions")


def produced(t: Trial) -> None:
    """kcat of both releases produces with each compression, and idempotently; kcat of both reads it all as members of a group."""
    sent: Dict[str, str] = {}
    for client in ("trixie", "sid"):
        for number, codec in enumerate(("none", "gzip", "snappy", "lz4", "zstd", "none")):
            key = f"{client}-{number}"
            sent.update({f"{key}-{line}": f"{codec} {line} {'x' * 200}" for line in range(100)})
            rows = "".join(f"{name}={value}\n" for name, value in sent.items() if name.startswith(f"{key}-"))
            options = [f"compression.codec={codec}", f"enable.idempotence={'true' if number == 5 else 'false'}"]
            ran = run_kcat(t, client, [*options, "linger.ms=20"], "-P", "-K", "=", "-t", "orders", given=rows)
            t.check(ran.returncode == 0 and not ran.stderr, f"{client} produces, {options[0]}, {options[1]}: {ran.stderr.strip()[:200]}")
    for client in ("trixie", "sid"):
        settings = ["group.protocol=consumer", "auto.offset.reset=earliest", *CLIENTS[client].settings]
        ran = run_kcat(t, client, settings, "-q", "-c", str(len(sent)), "-K", "=", "-G", f"g-{client}", "orders")
        found = dict(row.split("=", 1) for row in ran.stdout.splitlines())
        t.check(found == sent, f"{client} reads the {len(sent)} records that were produced: {len(found)}")


def run_kcat(t: Trial, client: str, settings: Sequence[str], *words: str, given: str = "") -> "subprocess.CompletedProcess[str]":
    begin = ["timeout", "100", "chroot", str(t.roots / client), "kcat", "-b", f"{HOST}:{t.stand.port}"]
    options = [word for setting in settings for word in ("-X", setting)]
    return subprocess.run([*begin, *options, *words], input=given, capture_output=True, text=True, check=False)


# Prints the id of each member of the group g, and what it is assigned.
DESCRIBE = """
import sys
from confluent_kafka.admin import AdminClient
admin = AdminClient({"bootstrap.servers": sys.argv[1]})
for it in admin.describe_consumer_groups(["g"])["g"].result(100).members:
    print(it.member_id, ",".join(sorted(f"{part.topic}:{part.partition}" for part in it.assignment.topic_partitions)))
"""


def described(t: Trial) -> None:
    """An admin client is told of the members that the group has, and of what they are assigned."""
    for number, name in enumerate(("c1", "c2")):
        t.come(name, f"{number + 1} consumers")
    words = ["chroot", str(t.roots / "sid"), "python3", "-c", DESCRIBE, t.bootstrap]
    ran = subprocess.run(words, capture_output=True, text=True, timeout=150, check=False)
    lines = dict(line.split(" ", 1) for line in ran.stdout.splitlines())
    owned = {t.heartbeats(name)[-1].member(): ",".join(sorted(parts)) for name, parts in t.owned.items()}
    t.check(lines == owned, f"it is told {lines} of members that own {owned} {ran.stderr.strip()[-300:]}")


class Scenario(NamedTuple):
    """What is played, and with which clients. With many consumers it is played alone."""

    play: Callable[[Trial], None]
    clients: Tuple[str, ...] = ("trixie", "sid", "confluent")
    alone: bool = False
    # How many records a second each partition gets by itself.
    rate: int = 2


LIBRARY, BOTH_RELEASES = ("trixie", "sid"), ("both",)
OF_EVERY_CLIENT = (
    *(one_alone, joins_and_leaves, static_restarts, static_away_too_long, rolling_restart, assignors, subscriptions, regular_expression),
    *(killed, stopped, cuts, late, late_join, broker_restarts, broker_stalls, long_run),
)
OTHERS = (
    *(Scenario(it, LIBRARY) for it in (slow_revocation, metadata, automatic_commits)),
    Scenario(late_acknowledgement, ("sid",)),
    *(Scenario(it, BOTH_RELEASES) for it in (mixed, kcat)),
    Scenario(produced, BOTH_RELEASES, rate=0),
    Scenario(described, ("confluent",)),
    Scenario(hundred, LIBRARY, True, 1),
    Scenario(twenty_groups, LIBRARY, True, 1),
)
SCENARIOS: Dict[str, Scenario] = {it.play.__name__.replace("_", "-"): it for it in (*map(Scenario, OF_EVERY_CLIENT), *OTHERS)}
