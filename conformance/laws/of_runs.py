"""Laws that are looked at over runs alone: nothing proves them of the definitions."""

from __future__ import annotations

from .of_machine_laws import asks_for_uniform
from .steps import Step, is_even, law


# -- who leaves, and who is remembered


@law
def targets_wait(s: Step) -> bool:
    """A leave, a tick and a commit renew no target: it keeps its epoch, and loses the part of those alone who left."""
    if s.takes_in:
        return True
    left = {p: m for p, m in s.g.target.items() if m in s.new.records}
    return (s.new.target, s.new.target_epoch, s.new.view) == (left, s.g.target_epoch, s.g.view)


# -- take-overs and renewals


@law
def newcomers_are_blank(s: Step) -> bool:
    """A new member raises the epoch, and has what it gives alone."""
    if not s.takes_in or s.old is not None or s.answer.member in s.g.records:
        return True
    r, q = s.after_record, s.q
    given = (q.instance, q.rack, frozenset(q.names), q.assignor, q.timeout, s.new.target_epoch, 0)
    return s.new.epoch == s.g.epoch + 1 and r[:7] == given


@law
def uniform_is_even(s: Step) -> bool:
    return not s.takes_in or s.new.target_epoch == s.g.target_epoch or not asks_for_uniform(s) or is_even(s.new, s.new.target)
