"""The laws of crates/group_core/src/laws.rt, by their names there."""

from __future__ import annotations

import dataclasses
from typing import Any

from .of_group_types import targets_follow_by_lawful_assignors
from .steps import HEARTBEAT, State, Step, is_invalid, is_unsupported, law, partitions, state_of

# What no run shows, and why.
NOT_SHOWN = {
    "heartbeats_have_one_answer": "a rule in Python is a function, which has one answer",
    "targets_exist": "where there is none the rules end with an error, by which heartbeats_have_an_answer is false",
}


@law
def first_joins_are_answered(s: Step) -> bool:
    q = s.q
    if s.kind != HEARTBEAT or s.g != State(epoch=s.g.epoch, target_epoch=s.g.epoch) or (q.epoch, q.member, q.instance) != (0, "", None):
        return True
    if is_invalid(q) or is_unsupported(q) or s.g.epoch == 2_147_483_647:
        return s.code == (42 if is_invalid(q) else 112 if is_unsupported(q) else 15) and s.new == s.g
    if s.code == 15:
        return s.q.group not in s.before and len(s.before) >= s.limits.groups
    own = {p for p, name in partitions(s.image).items() if name in q.names}
    first = s.answer[2:4] == ("00000000-0000-0000-0000-000000000001", s.g.epoch + 1) and s.answer.assignment == own
    return first and s.accepted and s.new.epoch == s.g.epoch + 1


@law
def renaming_may_come_last(s: Step) -> bool:
    """A take-over comes to the same where the old id joins again, and is renamed last."""
    if s.old is None or s.group is None:
        return True
    old, heir, it = s.old, s.answer.member, s.group
    it.records[old].stamp = (-1, -1)
    again = with_member(s.q, old)
    told = it.heartbeat(again, s.stamp, s.moment, s.image, False)
    last = state_of(it)
    named = lambda m: heir if m == old else m
    records = {named(m): r for m, r in last.records.items()}
    target = {p: named(m) for p, m in last.target.items()}
    grants = frozenset((named(m), p) for m, p in last.grants)
    renamed = dataclasses.replace(last, records=records, target=target, grants=grants, past=s.new.past, serial=s.new.serial)
    return renamed == s.new and (told[2], told[3], told[4]) == (s.answer.epoch, s.answer.interval, s.answer.assignment)


def with_member(q: Any, member: str) -> Any:
    it = type(q).__new__(type(q))
    it.__dict__.update(q.__dict__, member=member)
    return it


@law
def heartbeats_have_an_answer(s: Step) -> bool:
    return not isinstance(s.answer, Exception)


@law
def targets_follow_members(s: Step) -> bool:
    return targets_follow_by_lawful_assignors(s)


@law
def assignors_are_lawful(s: Step) -> bool:
    """Where a target was renewed, each subscribed partition has one owner, who subscribes it."""
    return not s.takes_in or s.new.target_epoch == s.g.target_epoch or targets_follow_by_lawful_assignors(s)
