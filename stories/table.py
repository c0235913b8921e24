"""A story as a table of text."""

from __future__ import annotations

import itertools
from typing import Container, Iterator

from stories import events
from stories.names import printable, shortened
from stories.story import MEMBER, UNKNOWN, Step, Story
from stories.words import rows_of

# The longest text of a cell, and of a list of partitions, in characters.
LONGEST, LONGEST_HOLDING = 100, 30


def table(story: Story, with_granted: bool = False) -> Iterator[str]:
    """The clients, each step, what stands out, and where the clients are at the end."""
    yield from map(printable, story.heads if story.people else ['no clients: a line as "a: group g" of a story says that there is one'])
    yield ""
    yield from part(story, (), with_granted)
    yield ""
    yield from unusual(story)
    for at, standing in enumerate(story.last):
        epoch = f" at epoch {standing.epoch}" if standing.epoch else ""
        holds = f", holds {story.topics.text(standing.holds)}" if standing.holds else ""
        yield f"{story.people[at].name} is {standing.state}{epoch}, id {story.report[at].member}{holds}"


def unusual(story: Story) -> Iterator[str]:
    """Where two members hold a partition, or a commit is accepted of a member that doesn't hold it."""
    yield from doubles(story)
    for step in story.steps:
        for place in step.event.unheld() if isinstance(step.event, events.Brought) else ():
            name = story.people[step.event.client].name
            yield f"{story.where} {step.at}: a commit of {place.topic}/{place.index} by {name}, who doesn't hold it, is accepted"


def doubles(story: Story) -> Iterator[str]:
    """Where two members of a group, neither of them removed, come to hold a partition. By the rules there is none."""
    pairs = [it for it in itertools.combinations(range(len(story.people)), 2) if len({story.people[at].group for at in it}) == 1]
    before: dict[tuple[int, ...], events.Partitions] = {}
    for step in story.steps:
        for pair in pairs:
            one, other = (step.standings[at] for at in pair)
            both = one.holds & other.holds if not (one.is_removed or other.is_removed) else frozenset()
            if both - before.get(pair, frozenset()):
                names = " and ".join(story.people[at].name for at in pair)
                yield f"{story.where} {step.at}: {names} both hold {story.topics.text(both)}"
            before[pair] = both


def is_wrong(story: Story) -> bool:
    """An act was refused, or two members hold a partition."""
    return any(isinstance(step.event, events.Refused) for step in story.steps) or any(doubles(story))


def part(story: Story, lines: Container[str] = (), with_granted: bool = False) -> Iterator[str]:
    """The steps, or those of some lines, each with what happens and which partitions each client holds after it; also with what
    the coordinator has granted."""
    first = slice(None if story.acts else 1)
    rows = [[*[story.where, "act"][first], "what happens", *(f"{it.name} holds" for it in story.people), *["granted"] * with_granted]]
    for step, row in zip(story.steps, rows_of(story)):
        if not lines or step.at in lines:
            held = [*(holding(story, step, at) for at in range(len(story.people))), *[granted(story, step)] * with_granted]
            rows.append([*[step.at, shortened(step.text, LONGEST)][first], shortened(row.text(story.people), LONGEST), *held])
    widths = [max(map(len, cells)) for cells in zip(*rows)]
    for first, *rest in rows:
        cells = [first.rjust(widths[0]), *(cell.ljust(width) for cell, width in zip(rest, widths[1:]))]
        yield "  ".join(cells).rstrip()


def granted(story: Story, step: Step) -> str:
    """What the coordinator has granted, to the clients that have something of it."""
    if not step.granted:
        return UNKNOWN
    each = [f"{person.name} {story.topics.text(it, LONGEST_HOLDING)}" for person, it in zip(story.people, step.granted) if it]
    return "; ".join(each) or "-"


def holding(story: Story, step: Step, client: int) -> str:
    standing = step.standings[client]
    if standing.state not in MEMBER:
        return standing.state
    holds = story.topics.text(standing.holds, LONGEST_HOLDING)
    return f"{holds} (removed)" if standing.is_removed else holds
