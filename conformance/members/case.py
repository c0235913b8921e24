"""The cases, as cases.txt has them: what a client meets in each, what must hold, where the standard says so, and how sure it is."""

from __future__ import annotations

import dataclasses
import functools
import importlib
import pathlib
from typing import Callable, List

from conformance import case as sections
from conformance.case import Case

FILE = pathlib.Path(__file__).with_name("cases.txt")
ALWAYS = "always"
TAKING = 'KIP-848, "ConsumerGroupHeartbeat API", response handling'
RECONCILING = 'KIP-848, "Member Epoch - Reconciliation of the group"'
MEMBER_IDS = 'KIP-848, "Member ID"; KIP-1082'
LEAVING = 'KIP-848, "ConsumerGroupHeartbeat API", request: MemberEpoch -1 and -2'


@dataclasses.dataclass(frozen=True)
class MemberCase(Case):
    """A case of the suite for members: `sends` is what the client meets. A rule of the checker, which is looked at in all cases, does nothing."""

    act = "what it meets:"

    @property
    def is_rule(self) -> bool:
        return self.name.startswith(ALWAYS)


def load() -> List[MemberCase]:
    """All cases, in the order of the file, and the rules at the end."""
    cases, topic = [], ""
    lines = [line for line in FILE.read_text(encoding="utf-8").splitlines() if line and not line.startswith("#")]
    while lines:
        line = lines.pop(0)
        if line.startswith("["):
            topic = line.strip("[]")
            continue
        name, level, section, *plays = line.split(": ")
        words, meets, holds = level.split(), lines.pop(0).strip(), lines.pop(0).strip()
        where = globals().get(section) or getattr(sections, section)
        body = played(topic, *(plays[0].split() if plays else ["body" if topic == ALWAYS else name.replace("-", "_")]))
        cases.append(MemberCase(name, where, words[0], meets, holds, body, "slow" in words))
    return cases


def played(topic: str, function: str, *numbers: str) -> Callable[..., None]:
    """A function of a topic's module, with what it gets besides the play."""
    body: Callable[..., None] = getattr(importlib.import_module(f"conformance.members.cases.{topic}"), function)
    return functools.update_wrapper(lambda play: body(play, *map(int, numbers)), body)
