"""The words for what happens, at the arrows and lanes of a picture and in a table. A part of them has the kind in which it is written."""

from __future__ import annotations

from typing import List, NamedTuple, Tuple

from stories import events
from stories.names import CODES, FAULTS, KINDS, Topics, counted
from stories.story import OUT, Person, Standing, Step, Story

Part = Tuple[str, str]
Label = List[Part]
WORD, ERROR, MARK, GOOD, QUIET, TOLD = "word", "error", "mark", "good", "quiet", "told"
# The most characters of a list of partitions, and the most places of a commit or topics that are named.
MOST_OWN, MOST_PLACES = 30, 3


class Row(NamedTuple):
    """The words of a step: at a client's message, at the client's lane, at the coordinator, and on the lane of each client."""

    client: int
    message: Label
    own: Label
    told: Label
    pills: List[str]

    def text(self, people: list[Person]) -> str:
        """All of them, for a table."""
        if self.client < 0:
            return self.told[0][0]
        said = [text for text, _ in self.message] or [self.pills[self.client]]
        return f"{people[self.client].name}: {', '.join(filter(None, [*said, *(text for text, _ in self.own)])) or 'nothing new'}"


def rows_of(story: Story) -> list[Row]:
    befores = [tuple(OUT for _ in story.people), *(step.standings for step in story.steps)]
    return [Phrases(story.topics, step, before).row() for step, before in zip(story.steps, befores)]


class Phrases:
    """The words for a step, which begins where each client stood before."""

    def __init__(self, topics: Topics, step: Step, before: tuple[Standing, ...]):
        self.topics, self.step, self.event, self.before = topics, step, step.event, before
        self.client = getattr(self.event, "client", -1)
        self.now, self.then = (step.standings[self.client], before[self.client]) if self.client >= 0 else (OUT, OUT)

    def row(self) -> Row:
        name, event = type(self.event).__name__.lower(), self.event
        mark = [(it, MARK) for it in [getattr(event, "mark", "")] if it]
        message, own, told = ([*getattr(self, f"{kind}_{name}", list)()] for kind in ("message", "own", "told"))
        pills = [pill_of(now, then, event) for now, then in zip(self.step.standings, self.before)]
        return Row(self.client, mark + message if message else [], mark + own if own and not message else own, told, pills)

    def listed(self, word: str, partitions: events.Partitions, kind: str) -> Part:
        return f"{word} {self.topics.text(partitions, MOST_OWN)}", kind

    # -- at a client's message

    def message_sent(self) -> Label:
        owned = "" if self.event.owned is None else f", owns {self.topics.text(self.event.owned, MOST_OWN) if self.event.owned else 'nothing'}"
        return [(f"request {self.event.request}", QUIET), (KINDS[self.event.kind] + owned, WORD)]

    def message_delivered(self) -> Label:
        reply = self.event.reply
        if reply is None:
            return [(f"request {self.event.request}", QUIET), ("connection closed", ERROR)]
        shows = "unchanged" if reply.shows is None else self.topics.text(reply.shows, MOST_OWN) if reply.shows else "nothing"
        said = (code_name(reply.code), ERROR) if reply.code else (f"epoch {reply.epoch}" + f", {shows}" * (reply.epoch >= 0), WORD)
        return [(f"reply {reply.number}", QUIET), said]

    def message_committed(self) -> Label:
        texts = [f"{it.topic}/{it.index} at {it.offset}" for it in self.event.places]
        said = ", ".join(texts[:MOST_PLACES]) + (f" and {len(texts) - MOST_PLACES} more" if texts[MOST_PLACES:] else "")
        unheld = any(not it.is_held for it in self.event.places)
        return [(f"commit {self.event.commit}", QUIET), (said, WORD), *[("not held", MARK)] * unheld]

    def message_brought(self) -> Label:
        head = [(f"commit {self.event.commit}", QUIET)] * bool(self.event.mark)
        codes = [("accepted", GOOD) if code == 0 else (code_name(code), ERROR) for code in dict.fromkeys(self.event.codes)]
        unheld = ", ".join(f"{it.topic}/{it.index}" for it in self.event.unheld()[:MOST_PLACES])
        return head + codes + [(f"but it doesn't hold {unheld}", ERROR)] * bool(unheld)

    # -- at a client's lane

    def own_sent(self) -> Label:
        lost = self.then.holds - self.now.holds
        return [self.listed("revokes", lost, WORD)] if lost and self.now.state != "gone" else []

    def own_taken(self) -> Label:
        lost, gained = self.then.holds - self.now.holds, self.now.holds - self.then.holds
        if self.event.ignored:
            return [(f"ignores reply {self.event.reply}", QUIET)]
        if self.now.state == "releasing":
            return [self.listed("must revoke", self.now.holds - self.now.shown, ERROR)]
        if lost or gained:
            return [self.listed("drops", lost, ERROR) if lost else self.listed("gets", gained, GOOD)]
        return [(f"takes reply {self.event.reply}", QUIET)] * bool(self.event.mark)

    def own_gaveup(self) -> Label:
        return [("times out", QUIET)]

    def own_released(self) -> Label:
        is_kept, partition = self.event.partition in self.now.holds, frozenset([self.event.partition])
        return [self.listed("keeps", partition, QUIET) if is_kept else self.listed("revokes", partition, WORD)]

    # -- at the coordinator, without a message

    def told_imageset(self) -> Label:
        topics = [f"{self.topics.label(topic)} has {counted(count, 'partition')}" for topic, count in self.event.topics]
        more = f" and {len(topics) - MOST_PLACES} more" * bool(topics[MOST_PLACES:])
        return [(", ".join(topics[:MOST_PLACES]) + more or "no topics", TOLD)]

    def told_clockset(self) -> Label:
        return [(f"it is {self.event.moment / 1_000:.12g} s", TOLD)]

    def told_ticked(self) -> Label:
        all_removed, strangers = self.event.removed, self.event.strangers
        of_them = f", {strangers} of them no client's" if strangers < all_removed else ", no client's"
        return [(f"it is {self.event.moment / 1_000:.12g} s, {counted(all_removed, 'member')} removed" + of_them * bool(strangers), TOLD)]

    def told_settled(self) -> Label:
        return [("three rounds of full heartbeats, none of them lost", TOLD)]

    def told_refused(self) -> Label:
        return [(f"refused: {FAULTS.get(self.event.fault, f'fault {self.event.fault}')}", QUIET)]


def code_name(code: int) -> str:
    return CODES.get(code, f"error {code}")


def pill_of(now: Standing, before: Standing, event: events.Event) -> str:
    """What is written on a lane where its client's epoch changes, or its place in the group."""
    if now.state == "gone" and before.state != "gone":
        return {"leave": "left", "away": "away"}.get(event.kind, "gone") if isinstance(event, events.Sent) else "gone"
    if now.is_removed and not before.is_removed:
        return "removed"
    if now.state == "outside":
        return "outside" if before.state != "outside" else ""
    return f"epoch {now.epoch}" if now.epoch != before.epoch else ""
