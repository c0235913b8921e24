"""What happens in each line of a script, and who holds what after it."""

from __future__ import annotations

import dataclasses
import re
import uuid
from typing import Optional

from conformance.rules.client import GONE, INSIDE, Client
from conformance.rules.lines import BadLine, Lines, image_of, shown, topic_of, words_of
from conformance.rules.messages import read_heartbeat_reply
from conformance.rules.world import World
from stories import events, names
from stories.events import AGAIN, AT_ONCE, LATE, Event, Partitions
from stories.notation import Telling, Writer, heads
from stories.reading import PRINTED, REFUSED, REPORT, NoScript, Output, Reported

# A member's id, where its client has one, isn't in what lines print.
SOME_ID = "id"
# The states of a member, and what is said in place of one where nobody knows what it holds.
MEMBER, UNKNOWN = ("steady", "releasing"), "unknown"
CR = b"\r"
SAID_ID = re.compile(", id [0-9a-f-]{36}")


@dataclasses.dataclass(frozen=True)
class Person:
    """What a script says of a client at its head."""

    name: str
    group: str
    instance: Optional[str]
    assignor: Optional[str]


@dataclasses.dataclass(frozen=True)
class Standing:
    """Where a client stands: what it holds, and what of it the latest assignment still has. It may be removed from its group
    without having heard of it."""

    state: str
    epoch: int
    holds: Partitions
    shown: Partitions
    is_removed: bool = False


@dataclasses.dataclass(frozen=True)
class Step:
    """A line of the script by its number, or a moment; what happens, where each client stands after it, and what the coordinator has granted to
    each, where the rules know that."""

    at: str
    text: str
    event: Event
    standings: tuple[Standing, ...]
    granted: tuple[Partitions, ...] = ()


@dataclasses.dataclass(frozen=True)
class Story:
    people: list[Person]
    topics: names.Topics
    steps: list[Step]
    report: list[Reported]
    # The lines of the story as it is written: those of its clients, and the acts.
    heads: list[str]
    acts: list[str]
    where: str = "line"

    @property
    def last(self) -> tuple[Standing, ...]:
        return self.steps[-1].standings if self.steps else tuple(OUT for _ in self.people)


@dataclasses.dataclass
class Message:
    """A message on its way: who sent it or is to take it, under which correlation id, when, and how often it came."""

    client: int
    correlation: int
    time: int
    reply: Optional[events.Reply] = None
    came: int = 0
    places: list[events.Place] = dataclasses.field(default_factory=list)


OUT = Standing("outside", 0, frozenset(), frozenset())


def parsed_set(text: str) -> Optional[Partitions]:
    if text == "null":
        return None
    ids: dict[str, bytes] = {}
    entries = [] if text == "-" else [entry.split("/") for entry in text.split(",")]
    for topic, _ in entries:
        if topic not in ids:
            ids[topic] = uuid.UUID(topic).bytes
    return frozenset((ids[topic], int(index)) for topic, index in entries)


class Teller:
    """Follows a script through what it prints."""

    def __init__(self, path: str, output: Output, writer: Optional[Writer]) -> None:
        self.path, self.output, self.rules = path, output, Lines()
        self.telling = Telling(self.rules, writer.messages if writer else {})
        self.clients: list[Client] = []
        self.standings: tuple[Standing, ...] = ()
        self.requests: dict[int, Message] = {}
        self.replies: dict[int, Message] = {}
        self.commits: dict[int, Message] = {}
        # How often time has passed, the topics by their names, and whether the output has agreed with the rules so far.
        self.time, self.agrees = 0, True
        # How many of the members that a tick has removed are no client's.
        self.strangers = 0
        self.topics: names.Image = {}

    # -- lines

    def play(self, number: int, line: bytes) -> Optional[tuple[Event, tuple[Standing, ...], tuple[Partitions, ...]]]:
        """What happens in a line, where the clients stand after it and what is granted to each; None for the line of a client."""
        try:
            text = " ".join(words_of(line))
            if not text.startswith("client "):
                self.telling.say(text)
            before = self.members() if text.startswith("tick ") else set()
            ruled = self.rules.line(line)
        except BadLine as bad:
            raise NoScript(f"{self.path}, line {number}: {'it ends in a carriage return' if line.endswith(CR) else bad}") from None
        if ruled is None:
            it = self.rules.clients[-1]
            self.clients.append(Client(it.name, it.group, it.instance, it.assignor, it.rebalance, it.names))
            self.standings += (OUT,)
            return None
        self.telling.played(text, ruled)
        word, *words = text.split(" ")
        found, agrees = self.output.next(f"{REFUSED}|{PRINTED[word]}", f"line {number}", ruled)
        self.agrees = self.agrees and agrees
        strangers = before and before - self.members() - {(it.group, it.id) for it in self.rules.clients}
        self.strangers = len(strangers) if self.agrees else 0
        try:
            event = events.Refused(int(found[1])) if found[1] else self.event(word, words, [it or "" for it in found.groups()[1:]])
        except (KeyError, StopIteration):
            raise NoScript(f"line {number}: this output isn't the script's: it has no such client or message") from None
        removed = [self.agrees and is_removed(self.rules.world, client) for client in self.rules.clients]
        self.standings = tuple(map(standing_of, self.clients, self.standings, removed))
        return event, self.standings, tuple(granted_to(self.rules.world, client) for client in self.rules.clients if self.agrees)

    def members(self) -> set[tuple[str, str]]:
        """All members by their groups and ids."""
        groups = self.rules.world.node.groups if self.rules.world else {}
        return {(name, it) for name, group in groups.items() for it in group.records}

    def event(self, word: str, words: list[str], found: list[str]) -> Event:
        if word in ("deliver", "take", "bring"):
            return self.message(word, int(words[0]), found)
        if word == "settle":
            return self.settle()
        if word == "image":
            self.topics = image_of(words)
            return events.ImageSet([*self.topics.values()])
        if word in ("clock", "tick"):
            self.time += 1
            return events.Ticked(int(words[0]), int(found[0]), self.strangers) if word == "tick" else events.ClockSet(int(words[0]))
        at = next(at for at, client in enumerate(self.clients) if client.name == words[0])
        return self.client_acts(at, word, words[1:], found)

    def client_acts(self, at: int, word: str, words: list[str], found: list[str]) -> Event:
        client = self.clients[at]
        if word == "lose":
            client.give_up()
            return events.GaveUp(at)
        if word == "release":
            client.release((topic_of(words[0]), int(words[1])))
            return events.Released(at, (topic_of(words[0]), int(words[1])))
        if word == "commit":
            places = [place_of(self.topics, words[0], int(words[1]), int(words[2]), client)]
            self.commits[int(found[0])] = Message(at, 0, self.time, places=places)
            return events.Committed(at, int(found[0]), places)
        kind = "full" if words and words[0] in ("short", "owned") and client.says_all else words[0] if words else word
        owned = frozenset(client.own) if kind in ("owned", "full") else None
        client.has_asked(kind)
        self.requests[int(found[0])] = Message(at, client.number, self.time)
        return events.Sent(at, int(found[0]), kind, owned)

    def message(self, word: str, number: int, found: list[str]) -> Event:
        """A message arrives."""
        if word == "bring":
            commit = self.commits[number]
            mark = AGAIN if commit.came else LATE if commit.time < self.time else AT_ONCE
            commit.came += 1
            return events.Brought(commit.client, number, commit.places, [int(found[0])], mark)
        if word == "take":
            message = self.replies[number]
            mark, reply = self.mark(message), message.reply
            if reply is not None and found[0] != "ignored":
                self.clients[message.client].take(message.correlation, reply.code, SOME_ID, reply.epoch, reply.shows)
            return events.Taken(message.client, number, found[0] == "ignored", mark)
        request, reply = self.requests[number], None
        mark = self.mark(request)
        if found[0]:
            reply = events.Reply(int(found[0]), int(found[1]), int(found[2]), parsed_set(found[3]))
            self.replies[reply.number] = Message(request.client, request.correlation, self.time, reply)
        return events.Delivered(request.client, number, reply, mark)

    def settle(self) -> Event:
        """What the clients and the messages are afterwards is known from the rules alone."""
        world = self.rules.world
        for client, ruled in zip(self.clients, world.clients):
            client.__dict__.update(ruled.__dict__, own=set(ruled.own), shown=set(ruled.shown))
        for number in range(len(self.requests) + 1, len(world.requests) + 1):
            sender, heartbeat, _ = world.requests[number - 1]
            self.requests[number] = Message(sender - 1, heartbeat.correlation, self.time, came=1)
        for number in range(len(self.replies) + 1, len(world.replies) + 1):
            taker, body = world.replies[number - 1]
            correlation, code, _, epoch, shows = read_heartbeat_reply(body)
            reply = events.Reply(number, code, epoch, None if shows is None else frozenset(shows))
            self.replies[number] = Message(taker - 1, correlation, self.time, reply, came=1)
        return events.Settled()

    def mark(self, message: Message) -> str:
        """How a request or a reply comes. A client that has quit waits for nothing."""
        client = self.clients[message.client]
        waits = client.waits or client.place == GONE
        overtaken = message.correlation != client.number or not waits
        message.came += 1
        return AGAIN if message.came > 1 else LATE if message.time < self.time or overtaken else AT_ONCE

    def report(self) -> list[Reported]:
        """The last lines of the output, one for each client."""
        reports = []
        for client, ruled in zip(self.rules.clients, self.rules.report()):
            found, _ = self.output.next(f"{re.escape(client.name)} {REPORT}", f"the client {shown(client.name)}", ruled)
            reports.append(Reported(found[1], found[2], int(found[3]), found[4]))
        self.output.end()
        return reports


def place_of(topics: names.Image, topic: str, index: int, offset: int, client: Client) -> events.Place:
    """A partition of a commit, and whether its sender holds it."""
    partition = (topics[topic][0], index) if topic in topics else None
    return events.Place(names.printable(topic), index, offset, partition, partition in client.own)


def is_removed(world: World, client: Client) -> bool:
    """The client takes itself for a member, and its coordinator has no record of it."""
    group = world.node.groups.get(client.group)
    return client.place == INSIDE and group is not None and client.id not in group.records


def granted_to(world: World, client: Client) -> Partitions:
    group = world.node.groups.get(client.group)
    return frozenset(group.held.get(client.id, ())) if group is not None and client.id else frozenset()


def standing_of(client: Client, before: Standing, removed: bool) -> Standing:
    """Where a client stands. Sets that are as before aren't copied."""
    holds = before.holds if client.own == before.holds else frozenset(client.own)
    shown = before.shown if client.shown == before.shown else frozenset(client.shown)
    now = Standing(client.state(), client.epoch, holds, shown, removed)
    return before if now == before else now


def person_of(client: Client) -> Person:
    printable = names.printable
    instance = None if client.instance is None else printable(client.instance)
    assignor = None if client.assignor is None else printable(client.assignor)
    return Person(printable(client.name), printable(client.group), instance, assignor)


def tell(path: str, lines: list[bytes], output: Output, writer: Optional[Writer] = None) -> Story:
    """The story of a script, with the numbers of lines and the names of messages of the one that it is made of. NoScript says why there is none."""
    teller = Teller(path, output, writer)
    numbers = writer.lines if writer else range(1, len(lines) + 1)
    played = [(number, it) for number, line in zip(numbers, lines) for it in [teller.play(number, line)] if it]
    report = teller.report()
    texts = [names.printable(SAID_ID.sub("", text)) for text in teller.telling.texts]
    steps = [Step(str(number), text, *it) for (number, it), text in zip(played, texts)]
    clients = teller.rules.clients
    return Story([*map(person_of, clients)], teller.telling.topics, steps, report, [*heads(clients)], [*teller.telling.acts()])
