"""The laws of crates/node_laws/src/laws.rt, by their names there."""

from __future__ import annotations

from .of_group_types import codes_of
from .steps import COMMIT, HEARTBEAT, IMAGE, Step, law

# What no run shows, and why.
NOT_SHOWN = {"groups_have_the_nodes_salt": "the rules in Python have no salt: their ids are those of the salt 0"}


@law
def other_groups_stay(s: Step) -> bool:
    """A heartbeat and a commit change their own group alone, and no group goes."""
    if s.kind not in (HEARTBEAT, COMMIT):
        return True
    others = {name: g for name, g in s.before.items() if name != s.q.group}
    return {name: g for name, g in s.after.items() if name != s.q.group} == others and s.new_image == s.image and {*s.before} <= {*s.after}


@law
def images_change_the_image_alone(s: Step) -> bool:
    return s.kind != IMAGE or s.after == s.before


@law
def commits_of_no_group_are_told(s: Step) -> bool:
    """69 for each partition, where the group isn't there."""
    return s.kind != COMMIT or s.q.group in s.before or {*codes_of(s)} <= {69} and s.after == s.before


@law
def groups_are_made_while_there_is_room(s: Step) -> bool:
    """A node with as many groups as it may have makes no other one, and answers none with success."""
    if s.kind != HEARTBEAT or s.q.group in s.before or len(s.before) < s.limits.groups:
        return True
    return s.after == s.before and not s.accepted
