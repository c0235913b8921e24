"""What consumers go through while a conversation of theirs is recorded."""

import time
from typing import Any, Callable, Dict, List, NamedTuple, Tuple

from broker.trials.consumers import Consumers
from broker.trials.trial import Trial
from clients.stand import Topic

INTERVAL = 5.0
ORDERS = Topic("orders", "aaaaaaaa-0000-4000-8000-000000000001", 4)
NAMES = ("orders",)


def come(t: Trial, name: str, what: str, **settings: Any) -> Consumers:
    """A consumer that commits only if it is asked to."""
    return t.come(name, what, "-c", 0, topics="orders", **settings)


def commit(t: Trial, it: Consumers) -> None:
    moment = time.time()
    it.say(f"commit {it.name}")
    t.wait_for(lambda: t.of("COMMIT", it.name, moment) or t.of("REFUSED", it.name, moment), 20, f"{it.name} commits")


def two(t: Trial) -> Tuple[Consumers, Consumers]:
    return come(t, "c1", "one consumer"), come(t, "c2", "two consumers")


def join(t: Trial) -> None:
    """A consumer joins, is assigned four partitions, reads five records of each, and commits."""
    c1 = come(t, "c1", "one consumer")
    commit(t, c1)
    t.kill(c1)


def rebalance(t: Trial) -> None:
    """A second consumer joins: the first is told to give up two partitions, reports that it has, and the second is assigned them."""
    c1, c2 = two(t)
    commit(t, c1)
    for it in (c1, c2):
        t.kill(it)


def leave(t: Trial) -> None:
    """Of two consumers one leaves, and the other is assigned its partitions. Then it leaves, too."""
    c1, c2 = two(t)
    t.quiet(NAMES, "c2 leaves", c2.quit())
    commit(t, c1)
    c1.quit()


def static_restart(t: Trial) -> None:
    """Of two static members one goes away with epoch -2, and comes back under another id to what it had."""
    c1, c2 = (t.start(name, "-c", 0, topics="orders", group_instance_id=f"i-{name}") for name in ("c1", "c2"))
    t.quiet(NAMES, "two static members", c2.started)
    c1.quit()
    time.sleep(INTERVAL)
    c1 = come(t, "c1", "c1 is back", group_instance_id="i-c1")
    for it in (c1, c2):
        t.kill(it)


def late_heartbeat(t: Trial) -> None:
    """A heartbeat comes late, over a connection that its member has left for another one. The coordinator closes it."""
    c1 = come(t, "c1", "one consumer", socket_timeout_ms=2_000)
    t.stand.tell_relay("hold c1 heartbeat 9")
    time.sleep(9 + 2 * INTERVAL)
    commit(t, c1)
    t.check(any(it.closes for it in t.exchanges()), "the coordinator closes the late heartbeat's connection")
    t.kill(c1)


def stale_commit(t: Trial) -> None:
    """A commit crosses the reply that raises its member's epoch: 113. The member commits again at the new epoch."""
    c1, c2 = two(t)
    c2.quit()
    t.stand.tell_relay("hold-reply c1 heartbeat 2")
    wait_for_heartbeat(t)
    commit(t, c1)
    t.check(codes_of(t)[-1:] == [113], f"the commit crosses the reply that raises its epoch: codes {codes_of(t)}")
    t.quiet(NAMES, "c1 has all", time.time())
    commit(t, c1)
    c1.quit()


def fenced_commit(t: Trial) -> None:
    """A member doesn't hear that it is to give up, and is removed when its 2 s for this are over. Its commit is answered with 25."""
    c1 = come(t, "c1", "one consumer", max_poll_interval_ms=2_000)
    wait_for_heartbeat(t)
    # So no heartbeat of c2 comes while c1's time to give up runs out.
    time.sleep(INTERVAL - 1)
    c2 = t.start("c2", "-c", 0, topics="orders")
    t.wait_for(lambda: t.heartbeats("c2"), INTERVAL, "c2 joins")
    t.stand.tell_relay("hold-reply c1 heartbeat 4.5")
    wait_for_heartbeat(t)
    time.sleep(3.5)
    c1.say("commit c1")
    time.sleep(INTERVAL)
    t.check(25 in codes_of(t), f"a commit of a member that was removed: codes {codes_of(t)}")
    for it in (c1, c2):
        t.kill(it)


def wait_for_heartbeat(t: Trial) -> None:
    count = len(t.heartbeats("c1"))
    t.wait_for(lambda: len(t.heartbeats("c1")) > count, 2 * INTERVAL, "c1 sends a heartbeat")


def codes_of(t: Trial) -> List[int]:
    """The codes of c1's commits, each once if its partitions have one."""
    return [code for it in t.commits("c1") for code in sorted({*it.codes})]


class Recording(NamedTuple):
    """A client, what it goes through, and whether the time between the events matters."""

    client: str
    play: Callable[[Trial], None]
    paced: bool = False


RECORDINGS: Dict[str, Recording] = {
    "join-2.8.0": Recording("trixie", join),
    "join-2.14.2": Recording("sid", join),
    "rebalance-2.8.0": Recording("trixie", rebalance),
    "rebalance-2.14.2": Recording("sid", rebalance),
    "leave-2.8.0": Recording("trixie", leave),
    "leave-2.14.2": Recording("sid", leave),
    "static-restart-2.14.2": Recording("sid", static_restart),
    "late-heartbeat-2.14.2": Recording("sid", late_heartbeat),
    "stale-commit-2.14.2": Recording("sid", stale_commit),
    "fenced-commit-2.14.2": Recording("sid", fenced_commit, paced=True),
}
