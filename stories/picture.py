"""A story as a picture: time goes down, each client and the coordinator has a lane, messages are arrows, and partitions are bars."""

from __future__ import annotations

import dataclasses
import pathlib
from typing import Iterator, Sequence
from html import escape

from stories import events
from stories.names import Partition, printable, shortened
from stories.story import MEMBER, UNKNOWN, Person, Standing, Story
from stories.svg import GROUND, MONO, MONO_WIDTH, SANS, SLATE, Canvas, Point, number, text_width
from stories.words import QUIET as QUIET_WORD
from stories.words import TOLD, WORD, Label, rows_of

REQUEST, REPLY, COMMIT = "request", "reply", "commit"
# How a partition is held. A client that is to revoke it holds it, and so does one that doesn't know that it was removed.
SURELY, REVOKES, REMOVED = "surely", "revokes", "removed"
# Sizes: of a row, at the edges, of a client's head and what is below it, of what is written and drawn on a lane, and of letters.
ROW, MARGIN, GAP, HEAD, HEAD_END, UNDER = 28.0, 20.0, 16.0, 22.0, 52.0, 13.0
LANE, ON_LANE, BESIDE, PILL, ARROW = 4.0, 24.0, 10.0, 16.0, 1.6
SCRIPT_SIZE, LABEL_SIZE, TITLE_SIZE, NAME_SIZE, PILL_SIZE = 10.5, 11.0, 12.0, 13.0, 10.0
# The room between two lanes at the least; how wide bars are at the least, and how many there are at the most; the most characters of a name.
LEAST_ROOM, BAR, BAR_GAP, MOST_BARS, LONGEST_NAME = 120.0, 30.0, 6.0, 24, 60
EDGE, BAND, GUIDE, QUIET, RED = "#d0d7de", "#eff2f6", "#eef1f4", "#6b7480", "#c3212f"
COLORS = ("#2463c4", "#c2620a", "#1f7f46", "#7a3fc0", "#b8316f", "#0b7d84", "#85571f", "#5b6b16")
STYLE = f"""
text {{ font-family: {SANS}; font-size: {LABEL_SIZE}px; fill: #24292f }}
.word, .quiet, .error, .mark, .good {{ paint-order: stroke; stroke: {GROUND}; stroke-width: 3px; stroke-linejoin: round }}
.quiet {{ fill: {QUIET} }}
.error {{ fill: {RED}; font-weight: bold }}
.mark {{ fill: #96600a; font-weight: bold; font-style: italic }}
.good {{ fill: #1a7f37; font-weight: bold }}
.line {{ font-family: {MONO}; font-size: {SCRIPT_SIZE}px; fill: {SLATE} }}
.title {{ font-size: {TITLE_SIZE}px; fill: {SLATE} }}
.name {{ font-size: {NAME_SIZE}px; font-weight: bold; fill: #ffffff }}
.pill {{ font-size: {PILL_SIZE}px; font-weight: bold; fill: #ffffff }}
.told {{ fill: {SLATE} }}
.bar {{ font-weight: bold; fill: #ffffff }}
"""
# How pale a bar is while its holder is to revoke it, and where it was removed; dashes of messages that come late, and not for the first time.
PALE = {SURELY: 1.0, REVOKES: 0.5, REMOVED: 0.25}
DASHES = {events.AT_ONCE: "", events.LATE: "7 4", events.AGAIN: "2 3"}


@dataclasses.dataclass
class Flight:
    """A message on its way between a client and the coordinator, from a row to the rows in which it arrives, if any."""

    client: int
    kind: str
    start: int
    arrivals: list[tuple[int, str]] = dataclasses.field(default_factory=list)


def flights_of(story: Story) -> list[Flight]:
    """The messages of a story, but for replies to a client that has quit and takes none."""
    pools: dict[tuple[str, int], Flight] = {}
    idle: list[Flight] = []
    settled = 0

    def arrives(kind: str, client: int, message: int, row: int, mark: str) -> None:
        """(A message that was made while the world settled comes from there.)"""
        pools.setdefault((kind, message), Flight(client, kind, settled)).arrivals.append((row, mark))

    for row, step in enumerate(story.steps):
        it = step.event
        if isinstance(it, events.Sent):
            pools[REQUEST, it.request] = Flight(it.client, REQUEST, row)
        elif isinstance(it, events.Committed):
            pools[COMMIT, it.commit] = Flight(it.client, COMMIT, row)
        elif isinstance(it, events.Delivered):
            arrives(REQUEST, it.client, it.request, row, it.mark)
            if it.reply is not None:
                flight = pools[REPLY, it.reply.number] = Flight(it.client, REPLY, row)
                idle += [flight] * (step.standings[it.client].state == "gone")
        elif isinstance(it, events.Taken):
            arrives(REPLY, it.client, it.reply, row, it.mark)
        elif isinstance(it, events.Brought):
            arrives(COMMIT, it.client, it.commit, row, it.mark)
        elif isinstance(it, events.Settled):
            settled = row
    shown = [it for it in pools.values() if it.arrivals or not any(it is other for other in idle)]
    return sorted(shown, key=lambda it: (it.start, it.kind))


@dataclasses.dataclass
class Bar:
    """Who holds a partition, and how, from a row up to another one. The last row is that of the end."""

    group: str
    partition: Partition
    parts: list[tuple[int, int, tuple[tuple[int, str], ...]]]
    x: float = 0.0
    width: float = BAR


def how_held(standing: Standing, partition: Partition) -> str:
    return REMOVED if standing.is_removed else SURELY if partition in standing.shown else REVOKES


def is_double(holders: Sequence[tuple[int, str]]) -> bool:
    """Two members hold a partition, neither of them removed. By the rules that is never so."""
    return sum(how != REMOVED for _, how in holders) > 1


def bars_of(story: Story) -> tuple[list[Bar], int]:
    """The bars of the first partitions that somebody holds at some time, and how many there are beyond those."""
    sets = {(story.people[at].group, standing.holds) for step in story.steps for at, standing in enumerate(step.standings)}
    held = sorted({(group, partition) for group, holds in sets for partition in holds})
    bars = [Bar(group, partition, []) for group, partition in held[:MOST_BARS]]
    for bar in bars:
        for row, step in enumerate(story.steps):
            there = [(at, it) for at, it in enumerate(step.standings) if story.people[at].group == bar.group and bar.partition in it.holds]
            holders = tuple((at, how_held(it, bar.partition)) for at, it in there)
            if bar.parts and bar.parts[-1][2] == holders:
                bar.parts[-1] = bar.parts[-1][0], row + 1, holders
            else:
                bar.parts.append((row, row + 1, holders))
    return bars, len(held[MOST_BARS:])


def color(client: int) -> str:
    return COLORS[client % len(COLORS)]


def label_width(label: Label) -> float:
    return sum(text_width(text, LABEL_SIZE, kind not in (WORD, QUIET_WORD, TOLD)) + 4 for text, kind in label)


def pill_width(words: str) -> float:
    return text_width(words, PILL_SIZE, True) + 12


def head_width(name: str) -> float:
    return max(34.0, text_width(name, NAME_SIZE, True) + 20)


def under_name(person: Person, groups: int) -> list[str]:
    """What stands below a client's name."""
    static = [f"static, {shortened(person.instance, LONGEST_NAME)}"] if person.instance is not None else []
    return static + [f"group {shortened(person.group, LONGEST_NAME)}"] * (groups > 1)


class Picture:
    """The lines of an SVG document. From left to right: the script, the clients' lanes with the coordinator's in the middle, the bars."""

    def __init__(self, title: str, story: Story):
        self.title, self.story, self.canvas, self.rows = title, story, Canvas(), rows_of(story)
        self.scripts = [shortened(step.text, LONGEST_NAME) for step in story.steps]
        self.names = [shortened(person.name, LONGEST_NAME) for person in story.people]
        self.groups = sorted({person.group for person in story.people})
        self.under = [under_name(person, len(self.groups)) for person in story.people]
        self.flights = flights_of(story)
        # The rows before which time passes.
        self.breaks = [at for at, step in enumerate(story.steps) if at and isinstance(step.event, (events.ClockSet, events.Ticked))]
        self.top = HEAD_END + UNDER * max([1, *map(len, self.under)])
        self.end = self.row(len(story.steps)) - ROW / 2 + 12
        self.place_lanes()
        self.place_bars()

    # -- places

    def row(self, at: int) -> float:
        return self.top + ROW * (at + 0.5)

    def place_lanes(self) -> None:
        """All lanes are as far from each other as the widest label and head need."""
        count = len(self.story.people)
        self.half = count // 2
        own = max([BESIDE, *(label_width(row.own) for row in self.rows)]) + ON_LANE
        under = [text_width(text, LABEL_SIZE) for texts in self.under for text in texts]
        heads = max([head_width("coordinator"), *map(head_width, self.names), *under]) + GAP
        room = max([LEAST_ROOM, heads, own + ON_LANE, *(label_width(row.message) + 2 * ON_LANE for row in self.rows)])
        self.script_end = MARGIN + max([0.0, *(len(it) * SCRIPT_SIZE * MONO_WIDTH for it in self.scripts)])
        title = MARGIN + text_width(self.shared(), TITLE_SIZE)
        first = max(self.script_end + GAP + max(own * bool(self.half), heads / 2), title + heads / 2)
        self.lanes = [first + room * (at + (at >= self.half)) for at in range(count)]
        self.coordinator = first + room * self.half
        told = self.script_end + max([0.0, *(label_width(row.told) for row in self.rows)]) + 2 * BESIDE + 2 * GAP
        self.lanes_end = max([self.coordinator, *self.lanes]) + max(own, heads / 2) + GAP
        self.lanes_end = max(self.lanes_end, told)

    def shared(self) -> str:
        """The group and the assignor, where all clients have the same."""
        said = {"group": {it.group for it in self.story.people}, "assignor": {it.assignor for it in self.story.people} - {None}}
        return shortened(", ".join(f"{name} {min(them)}" for name, them in said.items() if len(them) == 1), 2 * LONGEST_NAME)

    def place_bars(self) -> None:
        """A bar is as wide as what it is called, or as the name of who holds it."""
        self.bars, self.more = bars_of(self.story)
        x = self.lanes_end + GAP
        for at, bar in enumerate(self.bars):
            x += GAP * (at > 0 and bar.group != self.bars[at - 1].group)
            names = [self.name_width(client) for *_, holders in bar.parts for client, _ in holders]
            called = text_width(self.story.topics.partition(bar.partition), LABEL_SIZE) + 4
            bar.x, bar.width = x, max([BAR, called, *(it for it in names if it <= 2 * BAR)])
            x += bar.width + BAR_GAP
        self.width = x + MARGIN - BAR_GAP if self.bars else self.lanes_end + MARGIN

    def name_width(self, client: int) -> float:
        return text_width(self.names[client], LABEL_SIZE, True) + 6

    # -- the document

    def document(self) -> Iterator[str]:
        for draw in (self.draw_rows, self.draw_lanes, self.draw_bars, self.draw_breaks, self.draw_messages, self.draw_marks, self.draw_words, self.draw_heads):
            draw()
        bottom = self.draw_legend(self.end + 58)
        width, height = number(self.width), number(bottom)
        yield f'<svg xmlns="http://www.w3.org/2000/svg" width="{width}" height="{height}" viewBox="0 0 {width} {height}" role="img">'
        yield f"<title>{escape(printable(self.title), quote=False)}</title>"
        yield f"<style>{STYLE}</style>"
        box = f'width="{number(self.width - 1)}" height="{number(bottom - 1)}"'
        yield f'<rect x="0.5" y="0.5" {box} rx="8" fill="{GROUND}" stroke="{EDGE}"/>'
        yield from self.canvas.elements
        yield "</svg>"

    def draw_rows(self) -> None:
        """A thin line for each row, and a band for each in which something happens at the coordinator alone."""
        for at, row in enumerate(self.rows):
            y = self.row(at)
            if row.told and row.told[0][1] == TOLD:
                self.canvas.rect(MARGIN / 2, y - 10, self.lanes_end - MARGIN / 2, 20, BAND, 'rx="4"')
            else:
                self.canvas.line([(self.script_end + 6, y), (self.lanes_end, y)], GUIDE, 1)
            self.canvas.text(MARGIN, y + 3.5, self.scripts[at], "line")

    def draw_lanes(self) -> None:
        self.canvas.line([(self.coordinator, 40), (self.coordinator, self.end)], SLATE, LANE)
        for client in range(len(self.lanes)):
            looks = [REMOVED if it.is_removed else it.state for it in (step.standings[client] for step in self.story.steps)]
            look, since = "outside", self.top - 9 if self.under[client] else 40.0
            for at, now in enumerate([*looks, None]):
                if now != look:
                    until = self.end if now is None else self.row(at)
                    self.draw_lane(client, look, [(self.lanes[client], since), (self.lanes[client], until)])
                    look, since = now, until

    def draw_lane(self, client: int, look: str, ends: list[Point]) -> None:
        if look in (*MEMBER, UNKNOWN, REMOVED):
            self.canvas.line(ends, color(client), LANE, "4 3" if look == "releasing" else "")
        if look == REMOVED:
            self.canvas.line(ends, GROUND, LANE - 2)
        elif look == "outside":
            self.canvas.line(ends, "#aab2bd", 1.5, "2 4")

    def draw_heads(self) -> None:
        """What the lanes are called above them, and where each client stands at the end."""
        self.canvas.text(MARGIN, 33, self.shared(), "title")
        heads = [(self.coordinator, "coordinator", SLATE, [])]
        heads += [(x, self.names[at], color(at), self.under[at]) for at, x in enumerate(self.lanes)]
        for x, name, fill, under in heads:
            self.canvas.rect(x - head_width(name) / 2, 18, head_width(name), HEAD, fill, 'rx="5"')
            self.canvas.text(x, 33.5, name, "name", "middle")
            for at, line in enumerate(under):
                self.canvas.text(x, 55 + UNDER * at, line, "quiet", "middle")
        for x, standing in zip(self.lanes, self.story.last):
            self.canvas.text(x, self.end + 16, standing.state, "word", "middle")
            if standing.epoch and standing.state != "gone":
                self.canvas.text(x, self.end + 30, f"epoch {standing.epoch}", "quiet", "middle")

    # -- bars

    def draw_bars(self) -> None:
        if self.bars:
            self.canvas.text(self.bars[0].x, 33, "held by" + f" ({self.more} more)" * bool(self.more), "title")
        for bar in self.bars:
            middle = bar.x + bar.width / 2
            self.canvas.text(middle, 55, self.story.topics.partition(bar.partition), "word", "middle")
            if len(self.groups) > 1:
                self.canvas.text(middle, 68, shortened(bar.group, LONGEST_NAME), "quiet", "middle")
            self.canvas.rect(bar.x, self.top, bar.width, self.end - self.top, BAND, 'rx="3"')
            for start, end, holders in bar.parts:
                top, bottom = self.row(start), min(self.row(end), self.end)
                for place, (client, how) in enumerate(holders):
                    share = bar.width / len(holders)
                    self.canvas.rect(bar.x + place * share, top, share, bottom - top, color(client), f'rx="3" fill-opacity="{PALE[how]}"')
                    self.draw_name(client, how, bar.x + (place + 0.5) * share, top, share, bottom - top)
                if is_double(holders):
                    self.canvas.rect(bar.x - 1.5, top, bar.width + 3, bottom - top, "none", f'rx="3" stroke="{RED}" stroke-width="1.5"')

    def draw_name(self, client: int, how: str, x: float, top: float, width: float, height: float) -> None:
        """A holder's name, across its part of a bar or along it, where there is room for it."""
        name, kind = self.names[client], "bar" if how == SURELY else "pale"
        length = self.name_width(client) + 6
        if length - 6 <= width and height > 16:
            self.canvas.text(x, self.uncut(top, height, 16) + 15, name, kind, "middle")
        elif length <= height and width > 10:
            self.canvas.along(x - 4, self.uncut(top, height, length) + 6, name, kind)

    def uncut(self, top: float, height: float, length: float) -> float:
        """Where a name of a bar begins: as high as it isn't broken, or at the top where it is everywhere."""
        cuts = [self.row(at) - ROW / 2 for at in self.breaks]
        below = [top, *(cut + 6 for cut in cuts if top < cut)]
        return next((y for y in below if y + length <= top + height and not any(y - 6 < cut < y + length + 6 for cut in cuts)), top)

    def unheld(self) -> Iterator[tuple[int, events.Brought]]:
        """The rows in which a commit is accepted of a member that doesn't hold what it commits."""
        brought = ((at, step.event) for at, step in enumerate(self.story.steps) if isinstance(step.event, events.Brought))
        return ((at, event) for at, event in brought if event.unheld())

    def draw_breaks(self) -> None:
        """Where time passes that the rows don't show, and commits that are accepted of who doesn't hold the partition."""
        for at in self.breaks:
            there = [x for x, it in zip(self.lanes, self.story.steps[at - 1].standings) if it.state != "gone"]
            places = [(x, LANE) for x in (*there, self.coordinator)] + [(bar.x + bar.width / 2, bar.width) for bar in self.bars]
            for x, width in places:
                self.canvas.broken(x, self.row(at) - ROW / 2, width)
        for at, event in self.unheld():
            for bar in self.bars:
                if bar.group == self.story.people[event.client].group and bar.partition in {place.partition for place in event.unheld()}:
                    place = bar.x + bar.width / 2, self.row(at)
                    self.canvas.circle(place, 8, GROUND)
                    self.canvas.circle(place, 5, color(event.client), f'stroke="{RED}" stroke-width="2.5"')

    # -- messages

    def edge(self, client: int, row: int) -> float:
        """Where messages of a client begin and end: next to its lane, and next to what is written on it."""
        pill = self.rows[row].pills[client]
        away = pill_width(pill) / 2 + 1 if pill else LANE
        return self.lanes[client] + (away if client < self.half else -away)

    def draw_messages(self) -> None:
        """A message is an arrow for each time that it arrives, or a beginning of one where it never does."""
        for it in self.flights:
            home = self.coordinator + (-LANE if it.client < self.half else LANE)
            is_reply, y = it.kind == REPLY, self.row(it.start)
            source = (home if is_reply else self.edge(it.client, it.start), y)
            if it.kind == COMMIT:
                self.canvas.circle(source, 3.2, color(it.client))
            for row, mark in it.arrivals:
                target = (self.edge(it.client, row) if is_reply else home, self.row(row))
                self.canvas.arrow(source, target, color(it.client), ARROW, DASHES[mark])
            if not it.arrivals:
                toward = self.edge(it.client, it.start) if is_reply else home
                lost = (source[0] + 0.3 * (toward - source[0]), y + ROW * 0.4)
                self.canvas.line([source, lost], color(it.client), ARROW)
                self.canvas.cross(lost, RED)

    def draw_marks(self) -> None:
        """What is written on lanes, and where the coordinator answers, or closes a connection."""
        for at, step in enumerate(self.story.steps):
            y = self.row(at)
            if isinstance(step.event, events.Delivered) and step.event.reply is None:
                self.canvas.cross((self.coordinator, y), RED, 5.5)
            elif isinstance(step.event, (events.Delivered, events.Brought)):
                self.canvas.circle((self.coordinator, y), 3.6, GROUND, f'stroke="{SLATE}" stroke-width="2"')
            for client, pill in enumerate(self.rows[at].pills):
                if pill:
                    x, width = self.lanes[client], pill_width(pill)
                    fill = color(client) if pill.startswith("epoch") else QUIET
                    self.canvas.rect(x - width / 2, y - PILL / 2, width, PILL, fill, 'rx="8"')
                    self.canvas.text(x, y + 3.5, pill, "pill", "middle")

    def draw_words(self) -> None:
        for at, (row, step) in enumerate(zip(self.rows, self.story.steps)):
            y = self.row(at)
            above = isinstance(step.event, (events.Sent, events.Committed))
            for label, foot, inward in ((row.message, y - 4 if above else y + 4, True), (row.own, y + 4, False)):
                if label:
                    pill, to_right = row.pills[row.client], (row.client < self.half) == inward
                    away = max(BESIDE, pill_width(pill) / 2 + 5 if pill else 0.0)
                    x = self.lanes[row.client] + (away if to_right else -away)
                    self.canvas.spans(x, foot, label, "start" if to_right else "end")
            if row.told:
                words, kind = row.told[0]
                width = text_width(words, LABEL_SIZE) + 2 * BESIDE
                left = min(max(self.coordinator - width / 2, self.script_end + GAP), self.lanes_end - GAP - width)
                self.canvas.rect(left, y - 9, width, 18, GROUND, f'rx="9" stroke="{SLATE}"' if kind == TOLD else 'rx="9"')
                self.canvas.text(left + width / 2, y + 4, words, kind, "middle")

    # -- what the marks mean

    def draw_legend(self, y: float) -> float:
        """The legend of those marks that the picture has. Gives its end."""
        canvas, x = self.canvas, MARGIN
        marks = {mark for it in self.flights for _, mark in it.arrivals}
        parts = [holders for bar in self.bars for *_, holders in bar.parts]
        hows = {how for holders in parts for _, how in holders}

        def box(x: float, y: float, fill: str, extra: str) -> None:
            canvas.rect(x, y - 6, 16, 12, fill, f'rx="3" {extra}')

        frame = f'stroke="{RED}" stroke-width="1.5"'
        for is_there, room, words, draw in (
            (events.LATE in marks, 40, "late", lambda: canvas.arrow((x, y), (x + 34, y), SLATE, ARROW, DASHES[events.LATE])),
            (events.AGAIN in marks, 40, "delivered again", lambda: canvas.arrow((x, y), (x + 34, y), SLATE, ARROW, DASHES[events.AGAIN])),
            (not all(it.arrivals for it in self.flights), 36, "never arrives", lambda: (canvas.line([(x, y), (x + 20, y)], SLATE, ARROW), canvas.cross((x + 24, y), RED))),
            (any(it.kind == COMMIT for it in self.flights), 40, "offset commit", lambda: (canvas.circle((x + 4, y), 3.2, SLATE), canvas.arrow((x + 4, y), (x + 34, y), SLATE, ARROW))),
            (REVOKES in hows, 22, "to be revoked", lambda: box(x, y, SLATE, f'fill-opacity="{PALE[REVOKES]}"')),
            (REMOVED in hows, 22, "removed, and doesn't know yet", lambda: box(x, y, SLATE, f'fill-opacity="{PALE[REMOVED]}"')),
            (any(map(is_double, parts)), 22, "two members at once", lambda: box(x, y, "none", frame)),
            (any(self.unheld()), 18, "a commit is accepted of a member that doesn't hold it", lambda: canvas.circle((x + 6, y), 4, SLATE, f'stroke="{RED}" stroke-width="2"')),
            (self.breaks, 16, "time passes: the rows aren't in scale", lambda: (canvas.line([(x + 5, y - 9), (x + 5, y + 9)], SLATE, 4), canvas.broken(x + 5, y, 4))),
        ):
            width = room + text_width(words, LABEL_SIZE)
            if is_there and x > MARGIN and x + width > self.width - MARGIN:
                x, y = MARGIN, y + 20
            if is_there:
                draw()
                canvas.text(x + room, y + 4, words, "quiet")
                x += width + 24
        return y + 18 if x > MARGIN else y - 14


def picture(script: str, story: Story) -> Iterator[str]:
    """The lines of the picture of a story, which has the title of its script's file."""
    return Picture(pathlib.PurePath(script).stem.replace("-", " "), story).document()
