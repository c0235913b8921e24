"""Recorded traffic as a story, and as lines for `coord reply`.

Who holds what follows from what members report and are told, whatever coordinator has answered. The rules answer the same requests beside
that: they say when members are removed, of which nobody is told.
"""

from __future__ import annotations

import dataclasses
import uuid
from typing import Optional

from conformance.rules.client import GONE, INSIDE, Client
from conformance.rules.messages import Commit, Heartbeat, read_heartbeat_reply
from conformance.rules.node import Node
from stories import events
from stories.names import Topics
from stories.notation import heads
from stories.reading import NoScript, Reported
from stories.recording import Exchange, Recording
from stories.story import MEMBER, OUT, UNKNOWN, Standing, Step, Story, person_of, place_of, standing_of

# How often a coordinator looks for members to remove, and how much time makes a row of its own, in milliseconds.
TICK, PAUSE = 500, 1_000
KINDS = {0: "join", -1: "leave", -2: "away"}


def kind_of(asked: Heartbeat) -> str:
    is_full = asked.timeout != -1 and asked.names is not None and asked.owned is not None
    return KINDS.get(asked.epoch) or ("full" if is_full else "short" if asked.owned is None else "owned")


class Replay:
    """The rules, over the requests of a recording. Ids that a coordinator has made are replaced by those that the rules make."""

    def __init__(self, topics: dict[str, tuple[bytes, int]], start: float):
        self.node, self.start, self.ticked = Node(), start, 0
        self.node.image = topics
        self.ids: dict[str, str] = {}
        self.known: set[tuple[str, str]] = set()
        self.frames: dict[int, int] = {}
        words = [f"{name} {uuid.UUID(bytes=topic)} {count}" for name, (topic, count) in topics.items()]
        self.lines = [" ".join(["image", *words])]

    def moment(self, seconds: float) -> int:
        return int((seconds - self.start) * 1_000 + 0.5)

    def tick(self, moment: int) -> None:
        if moment - self.ticked >= TICK:
            self.ticked = moment - moment % TICK
            self.node.tick(self.ticked)
            self.lines += [f"now {self.ticked}", "tick"]

    def ask(self, it: Exchange) -> None:
        moment, asked, frame = self.moment(it.came), it.asked, it.frame
        self.tick(moment)
        member = self.ids.get(asked.member, asked.member)
        if member != asked.member:
            copy = type(asked).__new__(type(asked))
            copy.__dict__.update(asked.__dict__, member=member)
            frame = copy.frame()
        stamp = it.connection, self.frames.get(it.connection, 0) + 1
        self.frames[it.connection] = stamp[1]
        self.lines += [f"now {moment}", f"stamp {stamp[0]} {stamp[1]}", f"req {frame.hex()}"]
        answer = self.node.answer(frame, stamp, moment)
        if isinstance(asked, Heartbeat) and answer is not None:
            given = read_heartbeat_reply(answer[4:])
            if given[1] == 0:
                self.known.add((asked.group, given[2]))
            if it.told[1] and given[2] and not asked.member:
                self.ids[it.told[1]] = given[2]

    def is_removed(self, client: Client) -> bool:
        group, member = self.node.groups.get(client.group), self.ids.get(client.id or "", client.id or "")
        return client.place == INSIDE and (client.group, member) in self.known and group is not None and member not in group.records


class Captured:
    """Follows what members do through the exchanges of a recording."""

    def __init__(self, recording: Recording, group: Optional[str], is_whole: bool):
        groups = {it.asked.group for it, _ in recording.exchanges if isinstance(it.asked, Heartbeat) and group in (None, it.asked.group)}
        self.exchanges = [(it, is_end) for it, is_end in recording.exchanges if it.asked.group in groups]
        if not self.exchanges:
            raise NoScript(f"{recording.path}: there is no heartbeat in it" + ("" if group is None else f" of the group {group}"))
        self.recording, self.is_whole = recording, is_whole
        self.replay = Replay(recording.topics, self.exchanges[0][0].came)
        self.topics = Topics()
        for name, (topic, _) in recording.topics.items():
            self.topics.add(name, topic)
        self.members: dict[object, int] = {}
        self.clients: list[Client] = []
        self.people = [self.person(it) for it, _ in self.exchanges]
        self.standings: tuple[Standing, ...] = tuple(OUT for _ in self.clients)
        self.steps: list[Step] = []
        self.number = self.commits = self.left_out = self.shown = 0
        # Members that have joined before the recording, and haven't said since then what they own.
        self.unknown: set[int] = set()

    # -- who it is

    def person(self, it: Exchange) -> int:
        """Who asks: by its member id, or by the one that it is given, or by its connection."""
        asked = it.asked
        key = asked.group, asked.member or it.told[1] or it.connection
        if key not in self.members:
            self.members[key] = len(self.clients)
            self.clients.append(Client(self.new_name(it), asked.group))
        client = self.clients[self.members[key]]
        if kind_of(asked) in ("join", "full") if isinstance(asked, Heartbeat) else False:
            client.instance, client.assignor, client.rebalance, client.names = asked.instance, asked.assignor, asked.timeout, asked.names or []
        return self.members[key]

    def new_name(self, it: Exchange) -> str:
        """The client id, and a number where another member has it."""
        name, taken = it.client.replace(" ", "_") or "client", {client.name for client in self.clients}
        return next(text for text in (name, *(f"{name}-{at}" for at in range(2, len(taken) + 3))) if text not in taken)

    # -- what happens

    def story(self) -> Story:
        for (it, is_end), person in zip(self.exchanges, self.people):
            if isinstance(it.asked, Commit):
                (self.committed if is_end else self.commit)(it, person)
            elif is_end:
                self.told(it, person)
            else:
                self.ask(it, person)
        report = [Reported(it.state(), it.id or "-", it.epoch, "-") for it in self.clients]
        people = [person_of(client) for client in self.clients]
        return Story(people, self.topics, self.steps, report, [*heads(self.clients)], [], "second")

    def step(self, seconds: float, event: events.Event) -> None:
        """A row, and before it one for the time that has passed, or in which members were removed."""
        removed = [self.replay.is_removed(client) for client in self.clients]
        moment = self.replay.moment(seconds)
        now = tuple(standing_of(*it) for it in zip(self.clients, self.standings, removed))
        now = tuple(dataclasses.replace(it, state=UNKNOWN) if at in self.unknown and it.state in MEMBER else it for at, it in enumerate(now))
        new = [at for at, it in enumerate(now) if it.is_removed and not self.standings[at].is_removed]
        if new:
            self.standings = tuple(dataclasses.replace(it, is_removed=it.is_removed or at in new) for at, it in enumerate(self.standings))
            self.steps.append(self.row(self.replay.ticked, events.Ticked(self.replay.ticked, len(new), 0)))
        elif moment - self.shown >= PAUSE:
            self.steps.append(self.row(moment, events.ClockSet((moment + 50) // 100 * 100)))
        self.standings = now
        self.steps.append(self.row(moment, event))
        self.shown = moment

    def row(self, moment: int, event: events.Event) -> Step:
        return Step(f"{moment / 1_000:.3f}", f"{moment / 1_000:.3f} s", event, self.standings)

    def ask(self, it: Exchange, person: int) -> None:
        """A heartbeat, and what is answered."""
        asked, client, kind = it.asked, self.clients[person], kind_of(it.asked)
        self.number += 1
        it.number, held = self.number, frozenset(client.own)
        self.replay.ask(it)
        self.is_there(asked, person)
        if kind == "join" or asked.owned is not None:
            client.own = set(asked.owned or ())
            client.shown = set(client.own) if person in self.unknown else client.shown
            self.unknown.discard(person)
        client.number = it.number - 1
        client.has_asked(kind)
        it.is_news = self.is_whole or kind in ("join", "leave", "away") or held != client.own or self.brings_news(it, client)
        if not it.is_news:
            self.left_out += 1
            return
        self.step(it.came, events.Sent(person, it.number, kind, None if asked.owned is None else frozenset(asked.owned)))
        if it.reply is not None:
            code, _, epoch, assignment = it.told
            reply = events.Reply(it.number, code, epoch, None if assignment is None else frozenset(assignment))
            self.step(it.came, events.Delivered(person, it.number, reply, events.AT_ONCE))

    def is_there(self, asked: Heartbeat | Commit, person: int) -> None:
        """A member of which no join is recorded is one from its first heartbeat on, or from its first commit, where that is accepted."""
        client = self.clients[person]
        client.id = asked.member or client.id
        if asked.epoch > 0 and client.place != INSIDE:
            client.place, client.epoch = INSIDE, asked.epoch
            self.unknown.add(person)

    @staticmethod
    def brings_news(it: Exchange, client: Client) -> bool:
        if it.reply is None:
            return it.ended is not None
        code, _, epoch, assignment = it.told
        return bool(code) or epoch != client.epoch or assignment is not None and assignment != client.own

    def told(self, it: Exchange, person: int) -> None:
        """The reply comes to its client, or the connection ends before."""
        client = self.clients[person]
        if it.reply is None:
            return self.step(it.ended, events.Delivered(person, it.number, None, events.AT_ONCE)) if it.is_news else None
        is_gone = client.place == GONE
        code, member, epoch, assignment = it.told
        taken = client.take(it.number, code, member or client.id, epoch, assignment)
        if it.is_news and not is_gone:
            self.step(it.ended, events.Taken(person, it.number, not taken, events.AT_ONCE))

    def commit(self, it: Exchange, person: int) -> None:
        self.replay.ask(it)
        if self.clients[person].id is None and 0 in it.codes:
            self.is_there(it.asked, person)
        self.commits += 1
        parts = [(name, part) for name, topic in it.asked.topics for part in topic]
        it.number = self.commits
        it.places = [place_of(self.recording.topics, name, part[0], part[1], self.clients[person]) for name, part in parts]
        it.places = [it._replace(is_held=True) for it in it.places] if person in self.unknown else it.places
        self.step(it.came, events.Committed(person, it.number, it.places))

    def committed(self, it: Exchange, person: int) -> None:
        if it.reply is not None:
            self.step(it.ended, events.Brought(person, it.number, it.places, it.codes, events.AT_ONCE))
