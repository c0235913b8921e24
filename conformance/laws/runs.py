"""Random runs of a coordinator of the rules in Python, and which laws are false of them."""

from __future__ import annotations

import copy
import random
import types
from typing import Any, Callable, Dict, Iterator, Optional, Set, Tuple

from . import of_coord_node, of_group_core, of_group_types, of_machine_laws, of_node_laws, of_runs
from .steps import AWAY, COMMIT, GREATEST_EPOCH, HEARTBEAT, IMAGE, TICK, Limits, Reply, State, Step, state_of

MODULES = (of_group_types, of_group_core, of_coord_node, of_machine_laws, of_node_laws, of_runs)
EVENTS = 50
T, U, V = (bytes([it]) * 16 for it in (0x11, 0x22, 0x33))
Law = Callable[[Any], bool]


class Ends(Exception):
    """A rule has raised an error: the run goes no further."""


def laws_of(module: types.ModuleType, speaks_of: str) -> Dict[str, Law]:
    """The laws of a module by their names, in their order."""
    return {name: it for name, it in vars(module).items() if getattr(it, "speaks_of", "") == speaks_of and it.__module__ == module.__name__}


def false_laws(rules: Any, seed: int, least: int, most: int, wanted: str = "") -> Set[str]:
    """The laws that are false of the rules, or of a run: of `least` runs, and of further ones up to `most` until one is false, or the wanted one."""
    laws = {name: it for module in MODULES for name, it in laws_of(module, "steps").items()}
    found = {name for module in MODULES for name, it in laws_of(module, "rules").items() if is_false(it, rules)}

    # Those that can be told where a rule has raised an error.
    answered = {name: it for name, it in laws.items() if name.endswith(("_have_an_answer", "events_are_answered", "_sound"))}

    def look(step: Step) -> None:
        looked = answered if isinstance(step.answer, Exception) else laws
        found.update(name for name, it in looked.items() if name not in found and is_false(it, step))

    for number in range(most):
        if number >= least and (wanted in found if wanted else found):
            break
        try:
            Run(rules, seed + number, look).play()
        except Ends:
            pass
    return found


def is_false(law: Law, it: Any) -> bool:
    """A law that can't be told of what a wrong rule has left is false too."""
    try:
        return not law(it)
    except Exception:  # pylint: disable=broad-except (whatever a wrong rule raises)
        return True


class Run:
    """Members that beat as they please, often as they should and often not."""

    def __init__(self, rules: Any, seed: int, look: Callable[[Step], None]) -> None:
        self.rules, self.dice, self.look = rules, random.Random(seed), look
        self.limits = Limits(self.dice.choice([2, 3, 4, 9]), self.dice.choice([1, 2, 4, 9]), self.dice.choice([1, 2, 9]))
        rules.group.MOST_MEMBERS, rules.group.MOST_PAST, rules.node.MOST_GROUPS = self.limits
        self.node, self.names = rules.reply_lines.Lines(), self.dice.choice(["g", "g", "gh", "ghj"])
        self.moment, self.stamp = self.dice.choice([0, 0, 0, 0, (1 << 63) - 60_000, (1 << 64) - 90_000]), (1, 0)
        # Of each group: its state, the stamp under which each id that it knows was accepted last, and what its commits have stored by their codes.
        self.states: Dict[str, State] = {}
        self.accepted: Dict[str, Dict[str, Tuple[int, int]]] = {name: {} for name in [*self.names, ""]}
        self.stored: Dict[str, Dict[Tuple[str, int], Any]] = {name: {} for name in [*self.names, ""]}
        if self.chance(0.2):
            self.begin(self.names[0])

    def play(self) -> None:
        self.image()
        for _ in range(EVENTS):
            if self.chance(0.6):
                self.moment += self.dice.choice([0, 1, 500, 5_000, 20_000, 46_000])
            self.dice.choices([self.image, self.tick, self.commit, self.heartbeat], [4, 9, 8, 79])[0]()

    def chance(self, part: float) -> bool:
        return self.dice.random() < part

    def begin(self, name: str) -> None:
        """A group that is near its last epoch, or its last serial."""
        self.node.groups[name] = it = self.rules.group.Group()
        if self.chance(0.7):
            it.epoch = it.target_epoch = GREATEST_EPOCH - self.dice.randrange(5)
        else:
            it.serial = (1 << 64) - self.dice.randrange(3)
        self.states[name] = state_of(it)

    def happens(self, kind: str, name: Optional[str], does: Callable[[], Any], again: bool = False, **words: Any) -> Any:
        """Has an event happen, and looks at what came of it: at a step of the group that it names, or of each group. Gives the answer."""
        before, image = self.states, {**self.node.image}
        group, frame, answer = copy.deepcopy(self.node.groups.get(name)) if again else None, b"", None
        try:
            answer = does()
            if kind in (HEARTBEAT, COMMIT):
                frame, answer = answer or b"", self.read(kind, answer)
        except Exception as fault:  # pylint: disable=broad-except (whatever a wrong rule raises)
            answer = fault
        if kind == COMMIT and not isinstance(answer, Exception):
            pairs = [(topic, part, code) for (topic, parts), (_, codes) in zip(words["q"].topics, answer) for part, (_, code) in zip(parts, codes)]
            self.stored[name].update({(topic, part[0]): part[1:] for topic, part, code in pairs if code == 0})
        self.states = {it: state_of(g) for it, g in self.node.groups.items()}
        for it, g in self.states.items():
            self.accepted[it] = {m: stamp for m, stamp in self.accepted[it].items() if g.knows(m)}
        both = {"before": before, "after": self.states, "image": image, "new_image": {**self.node.image}}
        both.update(limits=self.limits, group=group, moment=self.moment)
        for it in [name] if name is not None else [""] if kind == IMAGE else [*before]:
            ends = {"g": before.get(it, State()), "new": self.states.get(it, State()), "stored": self.stored[it]}
            self.look(Step(kind, answer=answer, frame=frame, **{**both, **ends, **words}))
        if isinstance(answer, Exception):
            raise Ends
        return answer

    def read(self, kind: str, frame: Optional[bytes]) -> Any:
        if frame is None:
            return None
        messages = self.rules.messages
        it = messages.read_reply(frame[4:], messages.COMMIT_REPLY if kind == COMMIT else messages.HEARTBEAT_REPLY)[1]
        if kind == COMMIT:
            return [(name, [(*part,) for part in parts]) for name, parts in it["topics"]]
        shown = None if it["assignment"] is None else frozenset(messages.partitions(it["assignment"][0]))
        return Reply(it["code"], it["message"], it["member"], it["epoch"], it["interval"], shown)

    # -- what happens

    def image(self) -> None:
        topics = {"t": (T, self.dice.randrange(1, 6)), "u": (U, self.dice.randrange(1, 4)), "v": (V, 1)}
        image = {name: topic for name, topic in topics.items() if self.chance(0.85)}
        self.happens(IMAGE, None, lambda: self.node.set_image(image))

    def tick(self) -> None:
        moment = self.moment if self.chance(0.8) else max(0, self.moment - 3_000)
        self.happens(TICK, None, lambda: self.node.tick(moment), moment=moment)

    def commit(self) -> None:
        name = self.dice.choice(self.names)
        records = self.states.get(name, State()).records
        member = self.dice.choice([*records, *records, "z"])
        epochs = [records[member].last_epoch] * 2 + [records[member].previous_epoch, -1, -2, 0] if member in records else [1, -1]
        topics = [(self.dice.choice("ttuw"), [*self.parts()]) for _ in range(self.dice.choice([1, 1, 2]))]
        q = self.rules.messages.Commit(name, member, self.dice.choice(epochs), topics)
        self.happens(COMMIT, name, lambda: self.node.answer(q.frame(), (0, 0), self.moment), True, q=q)

    def parts(self) -> Iterator[Tuple[int, int, int, Optional[str]]]:
        for _ in range(self.dice.choice([1, 1, 2])):
            metadata = self.dice.choice([None, "", "m", "m" * 4_096, "m" * 4_097, "\u00e4" * 2_049])
            yield self.dice.randrange(-1, 5), self.dice.randrange(-9, 99), self.dice.choice([-1, -1, 3]), metadata

    def heartbeat(self) -> None:
        name = self.dice.choice(self.names) if self.chance(0.98) else ""
        q, stamp = self.request(name, self.states.get(name, State())), self.next_stamp()
        frame, moment = q.frame(), self.moment if self.chance(0.9) else max(0, self.moment - 30_000)
        words = {"q": q, "stamp": stamp, "moment": moment, "accepted_before": self.accepted[name].get(q.member)}
        answer = self.happens(HEARTBEAT, name, lambda: self.node.answer(frame, stamp, moment), bool(q.instance), **words)
        if answer is not None and answer.code == 0 and answer.member is not None:
            self.accepted[name][answer.member] = stamp

    def next_stamp(self) -> Tuple[int, int]:
        """Mostly above all earlier ones: by the frame's number, or by the connection's with any number."""
        connection, number = self.stamp
        self.stamp = (connection, number + 2) if self.chance(0.93) else (connection + 1, self.dice.randrange(3))
        if self.chance(0.85):
            return self.stamp
        return max(1, self.stamp[0] - self.dice.randrange(2)), max(0, self.dice.choice([self.stamp[1] - self.dice.randrange(9), number + 9]))

    # -- heartbeats

    def request(self, name: str, g: State) -> Any:
        it = self.rules.messages.Heartbeat(name)
        former = [m for m, _ in g.past]
        made = [f"00000000-0000-0000-0000-{g.serial + more:012x}" for more in (0, 1) if g.serial < 1 << 40]
        it.member = self.dice.choice([*g.records, *g.records, *former, *made, "a", "b", "", "", ""])
        it.instance, it.rack = self.dice.choice([None, None, "i", "j"]), self.dice.choice([None, None, "r", "s"])
        r = g.records.get(it.member)
        kind = self.dice.random()
        if r is None or kind < 0.2:
            self.join(it, r)
        elif kind < 0.28:
            it.epoch = -1
        elif kind < 0.42:
            it.epoch, it.instance = -2, r.instance if self.chance(0.8) else it.instance
        else:
            self.beat(it, g, r)
        return it

    def join(self, it: Any, r: Any) -> None:
        it.epoch = 0 if self.chance(0.93) else self.dice.choice([-3, -2, -1, 1])
        it.timeout = self.dice.choice([0, 1_000, 60_000]) if self.chance(0.94) else self.dice.choice([-1, -2])
        it.names = self.dice.choice([["t"], ["t"], ["t", "u"], ["u"], ["v"], []]) if self.chance(0.96) else None
        if r is not None and self.chance(0.5):
            it.names, it.assignor = sorted(r.names), r.assignor
        else:
            it.assignor = self.dice.choice([None, None, "range", "uniform"] * 5 + ["x"])
        it.owned = self.dice.choice([None, set(), set()]) if self.chance(0.95) else {(T, 0)}
        if self.chance(0.04):
            it.instance = ""

    def beat(self, it: Any, g: State, r: Any) -> None:
        held, wanted = set(g.held(it.member)), set(g.wanted(it.member))
        epochs = [r.last_epoch] * 6 + [r.previous_epoch] * 3 + [g.epoch, 1]
        it.epoch = max(1, self.dice.choice([epoch for epoch in epochs if epoch != AWAY]))
        it.owned = self.dice.choice([None, None, held, held & wanted, held & wanted, set(), held | {(T, 0)}, {*sorted(held)[:1]}])
        others = [(60_000, sorted(r.names)), (2_000, None), (0, None), (-2, None), (-1, ["t"]), (-1, [])]
        it.timeout, it.names = self.dice.choice([(-1, None)] * 4 + others)
        it.assignor = self.dice.choice([None] * 8 + ["range", "uniform", "x"])
