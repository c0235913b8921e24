"""The laws of crates/coord_node/src/laws.rt, by their names there."""

from __future__ import annotations

from .steps import HEARTBEAT, TICK, Reply, Step, is_image, is_sound, law

# What no run shows, and why.
NOT_SHOWN = {
    "one_answer": "a rule in Python is a function, which has one answer",
    "runs_are_answered": "where an event has no answer the rules end with an error, by which events_are_answered is false",
}
FIXED_ROOM, PARTITION_ROOM = 100, 30


@law
def path_is_answered(s: Step) -> bool:
    return s.kind != HEARTBEAT or (s.q.epoch, s.q.member, s.q.instance) != (0, "", None) or s.answer is not None


@law
def replies_fit(s: Step) -> bool:
    if not isinstance(s.answer, Reply):
        return True
    return len(s.frame) <= FIXED_ROOM + len((s.answer.member or "").encode()) + PARTITION_ROOM * len(s.answer.assignment or ())


@law
def steps_are_sound(s: Step) -> bool:
    return groups_are_sound(s) and is_image(s.new_image)


@law
def groups_are_sound(s: Step) -> bool:
    return s.is_sound and all(g == s.before.get(name) or is_sound(g, s.limits) for name, g in s.after.items() if g is not s.new)


@law
def coordinators_serve(s: Step) -> bool:
    return steps_are_sound(s)


@law
def events_are_answered(s: Step) -> bool:
    return not isinstance(s.answer, Exception)


@law
def ticks_are_of_all_groups(s: Step) -> bool:
    if s.kind != TICK:
        return True
    lost = sum(len(g.records) - len(s.after[name].records) for name, g in s.before.items() if name in s.after)
    return {*s.after} == {*s.before} and s.answer == lost and s.new_image == s.image and all(
        g.clock == max(s.before[name].clock, s.moment) for name, g in s.after.items()
    )


@law
def groups_are_made_by_success(s: Step) -> bool:
    if s.kind != HEARTBEAT or s.q.group in s.before:
        return True
    return s.q.group in s.after if s.accepted else s.after == s.before
