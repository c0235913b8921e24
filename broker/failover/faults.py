"""The faults: what is done, and how long a group may go unanswered by it. What must hold always is in run."""

import asyncio
import contextlib
import itertools
import signal
import time
import uuid
from typing import Awaitable, Callable, Dict, List, NamedTuple, Sequence

from broker.snapshots import PIECES, Snapshot, folder
from clients.stand import HOST, Failed, Programs
from broker.failover.brokers import Brokers, Channel, Gone
from broker.failover.latecomers import DROPPED, OPENING, answers, dropped_requests, late_report, late_requests, requests_twice
from rules.messages import Heartbeat

# A time longer than a session; how long all is down; and within how long a new broker leads, a snapshot is due, and its pieces are deleted.
LONG_SECONDS, DOWN_SECONDS, SPREAD_SECONDS, DUE_SECONDS, TIDY_SECONDS = 60, 120, 30, 180, 30
# The requests that a leader makes for a snapshot. Each in turn is the one that doesn't come to etcd any more.
STEPS = itertools.cycle(("name", "tidy", "piece"))
# Members whose heartbeats are long, and how many topics each subscribes to: 900 kB.
LONG_GROUP, LONG_MEMBERS, LONG_NAMES, LONG_ANSWER_SECONDS = "long", 10, 19_000, 30


async def at_once(_: Brokers, __: int) -> None:
    """The moment of most faults."""


class Fault(NamedTuple):
    """`act` brings it to the broker in a slot, once `comes` has returned, and takes it away again. Then a group may have had no answer for the
    lease and `most` seconds; and if it has `least`, for that long none may have had one."""

    does: str
    act: Callable[[Brokers, int], Awaitable[None]]
    most: float = 2.0
    least: float = 0.0
    times: int = 1
    comes: Callable[[Brokers, int], Awaitable[None]] = at_once


async def kill(it: Brokers, slot: int) -> None:
    it.send_signal(str(slot), signal.SIGKILL)
    await asyncio.sleep(it.lease + 2)
    await it.start_one(slot)


async def writes_snapshot(it: Brokers, slot: int) -> None:
    await it.refuse(slot, next(STEPS), DUE_SECONDS)


async def kill_writer(it: Brokers, slot: int) -> None:
    """Whoever leads then deletes what it has left of a snapshot that nothing names."""
    it.send_signal(str(slot), signal.SIGKILL)
    it.let_pass()
    await asyncio.sleep(it.lease + 2)
    await it.start_one(slot)
    until = time.monotonic() + TIDY_SECONDS
    while left := await asyncio.to_thread(unnamed, it):
        if time.monotonic() > until:
            raise Failed(f"{left[0]} is left of a snapshot after {TIDY_SECONDS} s")
        await asyncio.sleep(0.5)


def unnamed(it: Brokers) -> List[str]:
    """The pieces of snapshots but the last of each part and the one before."""
    pieces = it.etcds.pairs(PIECES)
    folders = tuple(f"{folder(part, place)}/" for part, last in it.snapshots().items() for place in (last.place, last.before))
    return [key for key in pieces if not key.startswith(folders)]


async def pause(programs: Programs, names: Sequence[str], seconds: float) -> None:
    for name in names:
        programs.send_signal(name, signal.SIGSTOP)
    await asyncio.sleep(seconds)
    for name in names:
        programs.send_signal(name, signal.SIGCONT)


async def cut(it: Brokers, slot: int, seconds: float = 0.0) -> None:
    it.cut(slot)
    await asyncio.sleep(seconds or 2 * it.lease)
    it.heal()


async def cut_brokers(it: Brokers, slot: int) -> None:
    others = {port for at in {*it.slots()} - {slot} for port in (it.fronts[at], it.doors[at][1], it.pages[at])}
    if others & it.connected(slot):
        raise Failed(f"a broker is connected to port {min(others & it.connected(slot))} of another one")


async def kill_etcd(it: Brokers, _: int) -> None:
    leader = await asyncio.to_thread(it.etcds.leader)
    it.etcds.send_signal(leader, signal.SIGKILL)
    await asyncio.sleep(2 * it.lease)
    await asyncio.to_thread(it.etcds.start_one, leader)


async def stop_etcd(it: Brokers, _: int) -> None:
    """(The system still accepts its connections, and nobody answers on them.)"""
    await pause(it.etcds, [await asyncio.to_thread(it.etcds.leader)], 2 * it.lease)


async def compact(it: Brokers, slot: int) -> None:
    it.cut(slot)
    await asyncio.sleep(2 * it.lease)
    await asyncio.to_thread(it.etcds.compact)
    new = await it.add_one()
    it.heal()
    await asyncio.to_thread(it.send_signal, str(new), signal.SIGTERM)


async def restart_all(it: Brokers, _: int) -> None:
    slots, etcds = it.slots(), [*it.etcds.running]
    for program, name in [*((it, str(slot)) for slot in slots), *((it.etcds, name) for name in etcds)]:
        program.send_signal(name, signal.SIGKILL)
    await asyncio.sleep(DOWN_SECONDS)
    for name in etcds:
        await asyncio.to_thread(it.etcds.start_one, name)
    await asyncio.gather(*map(it.start_one, slots))


def begun_without(it: Brokers, slot: int, snapshots: Dict[int, Snapshot]) -> List[int]:
    """The parts of which a broker hasn't met these snapshots, nor later ones."""
    restored = it.restored(slot)
    return [part for part, last in snapshots.items() if restored.get(part, 0) < last.place]


async def replace(it: Brokers, slot: int) -> None:
    before = await asyncio.to_thread(it.snapshots)
    new, until = await it.add_one(), time.monotonic() + SPREAD_SECONDS
    while not await it.leads(new):
        if time.monotonic() > until:
            raise Failed(f"no leadership comes to a new broker within {SPREAD_SECONDS} s")
        await asyncio.sleep(0.5)
    while late := await asyncio.to_thread(begun_without, it, new, before):
        if time.monotonic() > until:
            raise Failed(f"a new broker doesn't begin part {late[0]} with its snapshot of entry {before[late[0]].place}")
        await asyncio.sleep(0.5)
    await asyncio.to_thread(it.send_signal, str(slot), signal.SIGTERM)


async def fill_etcd(it: Brokers, slot: int) -> None:
    await asyncio.to_thread(it.etcds.fill)
    await asyncio.sleep(2 * it.lease)
    said = it.page(slot), (it.folder / f"{slot}.txt").read_text(encoding="utf-8")
    await asyncio.to_thread(it.etcds.empty)
    if not all("no room" in text for text in said):
        raise Failed("no line and no page says that etcd has no room")


async def long_heartbeats(it: Brokers, _: int) -> None:
    """Members send one after the other, side by side. (They do so past the relay, which would be held up by its record.)"""
    until = time.monotonic() + 2 * it.lease
    await asyncio.gather(*(long_member(it, str(uuid.UUID(int=number)), until) for number in range(1, LONG_MEMBERS + 1)))


async def long_member(it: Brokers, member: str, until: float) -> None:
    join = Heartbeat(LONG_GROUP, member, timeout=60_000, names=[f"topic-{at:040d}" for at in range(LONG_NAMES)], owned=set()).frame()
    leave = Heartbeat(LONG_GROUP, member, -1).frame()
    with contextlib.suppress(Gone):
        channel = await Channel.open((HOST, it.fronts[await answers(it, LONG_GROUP)]), LONG_ANSWER_SECONDS)
        while time.monotonic() < until:
            await channel.ask(join, LONG_ANSWER_SECONDS)
        await channel.ask(leave, LONG_ANSWER_SECONDS)
        channel.writer.close()


FAULTS: Dict[str, Fault] = {
    "late": Fault("the next request of each kind to etcd is 0.5 to 60 s late, or done after a later one; brokers come and go", late_requests, 10),
    "late-tcp": Fault("the same, since packets are dropped and sent again", dropped_requests, 12),
    "twice": Fault("all requests to etcd are done twice, the second time 0.5 to 60 s later, while brokers come and go", requests_twice, 6),
    "late-client": Fault("a report and a commit come late over old connections; another broker led meanwhile, or the same again", late_report, 10),
    "late-client-tcp": Fault("the same, since packets are dropped", lambda it, slot: late_report(it, slot, DROPPED), 10),
    "late-opening": Fault("the same, and packets of the connections' opening are dropped too", lambda it, slot: late_report(it, slot, OPENING), 10),
    "kill": Fault("kill -9 of a broker, which starts again after the lease and 2 s", kill, times=20),
    "kill-writer": Fault("kill -9 of a broker while it writes a snapshot", kill_writer, times=3, comes=writes_snapshot),
    "stop": Fault("SIGSTOP of a broker for twice the lease, then SIGCONT", lambda it, slot: pause(it, [str(slot)], 2 * it.lease)),
    "cut": Fault("a broker and etcd are cut off from each other for twice the lease", cut),
    "cut-long": Fault(f"the same for {LONG_SECONDS} s", lambda it, slot: cut(it, slot, LONG_SECONDS)),
    "cut-brokers": Fault("a broker is cut off from the other brokers: it has no connection to them that could be cut", cut_brokers),
    "kill-etcd": Fault("kill -9 of etcd's leader, which starts again after twice the lease", kill_etcd),
    "stop-etcd": Fault("SIGSTOP of etcd's leader for twice the lease: it accepts connections, and doesn't answer", stop_etcd),
    "stop-etcds": Fault(
        f"SIGSTOP of two of three etcd for {LONG_SECONDS} s, then SIGCONT",
        lambda it, _: pause(it.etcds, [*it.etcds.running][:2], LONG_SECONDS),
        *(LONG_SECONDS + 2, LONG_SECONDS - 2),
    ),
    "restart-all": Fault(f"kill -9 of all, which start again after {DOWN_SECONDS} s", restart_all, DOWN_SECONDS + 15, DOWN_SECONDS - 2),
    "long": Fault(f"{LONG_MEMBERS} members of a group send heartbeats of 900 kB for twice the lease, without a pause", long_heartbeats),
    "replace": Fault("a broker is added, and another one ended for good", replace),
    "compact": Fault("etcd's history is compacted while a broker is cut off, and another one starts after that", compact, 4),
    "fill-etcd": Fault("etcd's room is used up for twice the lease, then given back", fill_etcd, 60),
}
SHORT = ("stop", "cut", "kill", "late", "late-client", "late-client-tcp", "late-opening")
# What is brought in a short soak.
SHORT_SOAK = ("replace", "kill")
