"""Random walks: members that join, beat, leave, come back and lose messages, and the checker that looks at each message.

Each walk ends with members that all beat: then everybody has its part at one epoch. The seed (`--seed`) makes a walk again. A walk that fails
is cut down: steps are left out while it still fails.
"""

from __future__ import annotations

import dataclasses
import random
import time
from typing import Callable, Dict, List, Mapping, NamedTuple, Optional, Sequence

from conformance.cases.sessions import is_over, wait
from conformance.connection import Lost
from conformance.member import Member, new_id
from conformance.messages import NOTHING, Told
from conformance.play import GROUP_MAX_SIZE_REACHED, Play
from conformance.story import code_text
from conformance.verdict import Failed, NotRun
from conformance.wire import Unreadable

STEPS = 60
FENCED_MEMBER_EPOCH, UNRELEASED_INSTANCE_ID = 110, 111
# How long a walk is cut down at most, and how long its members beat at its end meanwhile, in seconds.
CUT_SECONDS, CUT_PATIENCE = 10.0, 1.0
MOST_LINES = 30


class Step(NamedTuple):
    """Who does what, and the seed of what the dice have to say of it."""

    who: int
    act: str
    seed: int


@dataclasses.dataclass(frozen=True)
class Kind:
    """The acts of a kind of walks, with how often each comes, and who takes part."""

    acts: Mapping[str, float]
    loss: float = 0.0
    is_static: bool = False
    topics: int = 1
    members: int = 4
    steps: int = STEPS

    def script(self, dice: random.Random) -> List[Step]:
        acts = dice.choices([*self.acts], [*self.acts.values()], k=self.steps)
        return [Step(dice.randrange(self.members), act, dice.randrange(1 << 32)) for act in acts]


class Walk:
    """Some members of one group, and what they do."""

    def __init__(self, play: Play, kind: Kind) -> None:
        self.play, self.dice, self.loss = play, random.Random(0), kind.loss
        self.names = [topic.name for topic in play.broker.topics[: kind.topics]]
        group = play.new_group()
        self.members = [
            play.member(name, id=new_id(), group=group, names=self.names, instance=f"instance-{name}" if kind.is_static else None)
            for name in "abcdefghijkl"[: kind.members]
        ]
        # Members that didn't get a reply: they send a full heartbeat next, and may know less than the coordinator.
        self.behind: List[Member] = []

    def go(self, steps: Sequence[Step]) -> None:
        for step in steps:
            member, self.dice = self.members[step.who], random.Random(step.seed)
            (ACTS[step.act] if member.is_in else Walk.joins)(self, member)
            self.look()
        self.end()

    def end(self) -> None:
        """Nothing is lost any more, and all are members."""
        self.loss = 0.0
        for _ in range(2):
            for member in self.members:
                if not member.is_in:
                    self.joins(member)
                elif member in self.behind:
                    self.hears(member, "full")
                self.look()
                member.release()
        self.play.settle(*self.members)
        self.play.judge()
        for member in self.members:
            member.leave()

    def look(self) -> None:
        """By what the members know, no partition is two members'."""
        self.play.judge()
        for at, member in enumerate(self.members):
            for other in self.members[:at]:
                both = member.owned & other.owned
                if both:
                    self.play.want_in_time(member, other)
                    self.play.fail(f"{member.name} and {other.name} both have {self.play.story.partitions(both)}")

    def hears(self, member: Member, kind: str) -> None:
        """Sends a request. The reply is taken, or lost."""
        # (The join of a static member may be refused the second time.)
        lost = self.dice.random() < self.loss and not (kind == "join" and member.instance)
        reply = member.ask(member.request(kind), lost)
        self.allow(member, kind, reply)
        if lost:
            self.behind += [member] if member not in self.behind else []
            return
        member.take(reply)
        if member in self.behind:
            self.behind.remove(member)
        if not member.is_in and member.instance:
            # (Its instance is in use until then.)
            member.ask(member.request("leave"))

    def allow(self, member: Member, kind: str, reply: Told) -> None:
        if reply.code == 0 or member in self.behind and reply.code == FENCED_MEMBER_EPOCH:
            return
        if reply.code == GROUP_MAX_SIZE_REACHED:
            raise NotRun("the broker takes no more members into the group")
        if reply.code == FENCED_MEMBER_EPOCH and kind == "join":
            raise NotRun("who is a member may not join again")
        self.play.fail(f"the {kind} heartbeat of {member.name} is answered with {code_text(reply.code)}")

    # -- what they do

    def joins(self, member: Member) -> None:
        member.owned = member.assigned = NOTHING
        self.hears(member, "join")

    def rejoins(self, member: Member) -> None:
        """A join of somebody who is a member. Of a static one it may be refused; then nothing has changed."""
        if member.instance is None:
            self.joins(member)
            return
        reply = member.ask(member.request("join"))
        if reply.code == UNRELEASED_INSTANCE_ID:
            return
        member.owned = member.assigned = NOTHING
        self.allow(member, "join", reply)
        member.take(reply)

    def beats(self, member: Member) -> None:
        if self.dice.random() < 0.7:
            member.release()
        kind = "full" if member in self.behind else self.dice.choice(["short", "owned", "owned", "full"])
        kind = "owned" if kind == "short" and member.has_news and self.dice.random() < 0.7 else kind
        self.hears(member, "join" if member.epoch == 0 else kind)

    def leaves(self, member: Member) -> None:
        """Sometimes the reply is lost, and the leave comes again."""
        if member in self.behind:
            self.behind.remove(member)
        if self.dice.random() < self.loss:
            self.play.want_code(f"the leave of {member.name}", member.ask(member.request("leave"), lost=True).code, 0)
            member.ask(member.request("leave"))
            member.is_in, member.owned, member.assigned, member.has_news = False, NOTHING, NOTHING, False
        else:
            member.leave()

    def repeats(self, member: Member) -> None:
        """The reply is lost, and the same request goes out once more."""
        if member.epoch == 0:
            return self.beats(member)
        member.release()
        self.allow(member, "full", member.ask(member.request("full"), lost=True))
        self.behind += [member] if member not in self.behind else []
        return self.hears(member, "full")

    def changes(self, member: Member) -> None:
        """Some of the topics, one at least."""
        if member in self.behind or member.epoch == 0:
            return self.beats(member)
        member.release()
        member.names = self.dice.sample(self.names, self.dice.randint(1, len(self.names)))
        return self.hears(member, "full")

    def stays_away(self, member: Member) -> None:
        if member in self.behind or member.epoch == 0:
            return self.beats(member)
        kept = member.owned & member.assigned
        member.leave("away")
        if self.dice.random() < 0.3:
            member.ask(member.request("away"), lost=True)
        for other in self.members:
            if other is not member and other.is_in and other not in self.behind and self.dice.random() < 0.5:
                self.beats(other)
                self.play.want_kept(member, kept, other)
        member.id = new_id() if self.dice.random() < 0.7 else member.id
        return None

    def commits(self, member: Member) -> None:
        """What it has, at its epoch; and late what others have."""
        if member in self.behind or member.epoch == 0:
            return self.beats(member)
        if member.owned:
            some = self.dice.sample(sorted(member.owned), self.dice.randint(1, min(3, len(member.owned))))
            for code in self.play.commit(member, {each: self.dice.randrange(100) for each in some}):
                self.play.want_code(f"the commit of {member.name} at its epoch", code, 0)
        others = sorted(each for other in self.members if other is not member for each in other.owned)
        if others and member.epoch > 1:
            found = self.play.commit(member, {self.dice.choice(others): 0}, self.dice.randrange(1, member.epoch))
            self.play.want_refused(f"a late commit of {member.name}, of what another member has,", found[0])
        return None


ACTS: Dict[str, Callable[[Walk, Member], None]] = {
    **{"joins": Walk.joins, "rejoins": Walk.rejoins, "beats": Walk.beats, "leaves": Walk.leaves, "repeats": Walk.repeats},
    **{"changes": Walk.changes, "stays away": Walk.stays_away, "commits": Walk.commits},
}


def walks(play: Play, kind: Kind) -> None:
    """Walk after walk. If one fails, as few of its steps as are enough are told."""
    began, number = time.monotonic(), 0
    while number < play.settings.rounds or time.monotonic() < began + play.settings.walks:
        script = kind.script(random.Random(play.settings.seed * 1_000 + number))
        number += 1
        play.story.lines.clear()
        play.story.say(f"-- walk {number} of seed {play.settings.seed}")
        try:
            Walk(play, kind).go(script)
        except (Failed, Unreadable) as why:
            play.story.most = MOST_LINES
            cut_down(play, kind, script, f"walk {number} of seed {play.settings.seed}", why)


class Fall(NamedTuple):
    """A walk that failed, and why."""

    play: Play
    steps: Sequence[Step]
    why: Exception


def cut_down(play: Play, kind: Kind, script: Sequence[Step], which: str, why: Exception) -> None:
    """Raises why the shortest walk failed that was found. Its story is the case's."""
    until = time.monotonic() + CUT_SECONDS
    least, size = Fall(play, script, why), max(1, len(script) // 2)
    while time.monotonic() < until:
        shorter = next(filter(None, (again(play, kind, some) for some in without(least.steps, size) if time.monotonic() < until)), None)
        if shorter is None and size == 1:
            break
        least, size = shorter or least, size if shorter else size // 2
    play.tell_of(least.play)
    play.story.say(f"-- these are {len(least.steps)} of the {len(script)} steps of {which}")
    raise least.why


def without(steps: Sequence[Step], size: int) -> List[Sequence[Step]]:
    """The steps without some that follow each other, of each such run from the last one on."""
    return [[*steps[:at], *steps[at + size :]] for at in range((len(steps) - 1) // size * size, -1, -size)] if steps else []


def again(play: Play, kind: Kind, steps: Sequence[Step]) -> Optional[Fall]:
    """The fall of a walk by these steps, if it fails."""
    quick = dataclasses.replace(play.settings, patience=min(CUT_PATIENCE, play.settings.patience))
    other = Play(play.case, play.broker, quick, play.so_far)
    try:
        Walk(other, kind).go(steps)
        return None
    except (Failed, Lost, Unreadable) as why:
        return Fall(other, steps, why)
    except NotRun:
        return None
    finally:
        other.close(leaves=True)


BEATS = {"beats": 0.8, "leaves": 0.08}
WALKS = {
    "walk": Kind(BEATS),
    "walk-rejoins": Kind({**BEATS, "rejoins": 0.12}),
    "walk-repeats": Kind({**BEATS, "repeats": 0.12}),
    "walk-lost-replies": Kind(BEATS, loss=0.2),
    "walk-topics": Kind({**BEATS, "changes": 0.15}, topics=4),
    "walk-static": Kind({**BEATS, "stays away": 0.15, "rejoins": 0.04}, is_static=True),
    "walk-commits": Kind({**BEATS, "commits": 0.3}, topics=2),
    "walk-mixed": Kind({**BEATS, "changes": 0.1, "stays away": 0.1, "repeats": 0.1, "rejoins": 0.02}, 0.1, True, 4, 6, 90),
    "walk-many": Kind(BEATS, members=12, steps=120),
}


def one_kind(play: Play) -> None:
    kind = WALKS[play.case.name]
    play.stands_on("walk", "revoke-before-assign", "report-in-part")
    if kind.loss or not kind.acts.keys() <= {*BEATS, "changes", "commits"}:
        play.stands_on("rejoin-shows-assignment")
    if "commits" in kind.acts:
        play.wants_commits()
    if kind.is_static:
        play.stands_on("static-return", "static-away-keeps")
    walks(play, kind)


BODIES = dict.fromkeys(WALKS, one_kind)


def goes_on(play: Play) -> None:
    ended = ", ".join(play.so_far.ended)
    play.want(not ended, f"the broker ended after {ended}")


def walk_time(play: Play) -> None:
    play.stands_on("walk", "session-ends")
    dice = random.Random(play.settings.seed)
    it = Walk(play, Kind(BEATS, members=6))
    for member in it.members:
        it.joins(member)
    silent: List[Member] = []
    for number in range(24):
        members = [member for member in it.members if member not in silent]
        if number in (8, 14, 20):
            silent.append(dice.choice(members))
            play.story.say(f"-- {silent[-1].name} falls silent")
            silent[-1].is_in, silent[-1].may_end, silent[-1].owned = False, True, NOTHING
        for member in dice.sample(members, 2):
            if member.is_in and member not in silent:
                it.beats(member)
            elif member not in silent:
                it.joins(member)
        it.look()
        wait(play, play.settings.session / 60)
    rest = [member for member in it.members if member not in silent]
    for member in rest:
        if not member.is_in:
            it.joins(member)
    ends = wait(play, is_over(play), *rest, until=lambda: play.is_settled(rest))
    play.want(ends, f"{is_over(play):g} s after the last one fell silent, {play.lacks(rest)}")
