"""The laws of crates/machine_laws/src/laws.rt, by their names there."""

from __future__ import annotations

import uuid
from typing import Any, Optional

from .of_group_types import asks_for_the_same, codes_of, constants_are_the_limits, owners_by_hand, stores_given
from .steps import (
    AWAY,
    COMMIT,
    GREATEST_EPOCH,
    HEARTBEAT,
    HEARTBEAT_INTERVAL,
    SERIALS,
    TICK,
    Reply,
    Step,
    by_hand,
    is_even,
    is_invalid,
    is_lawful,
    is_overtaken,
    is_unsupported,
    law,
    reported,
    view_for,
)

# What no run shows, and why.
NOT_SHOWN = {"the_machines_laws_are_met": "it says that there are groups of which the laws speak, and the runs are made of such"}


@law
def requests_by_reason(s: Step) -> bool:
    """42 and 112 have these reasons and no others."""
    if s.kind != HEARTBEAT:
        return True
    return (s.code == 42) == is_invalid(s.q) and (s.code == 112) == (is_unsupported(s.q) and not is_invalid(s.q))


@law
def replies_are_these(s: Step) -> bool:
    """All fields of a refusal, a farewell and an acceptance."""
    if not isinstance(s.answer, Reply):
        return True
    if not s.accepted:
        return s.answer == Reply(s.code, s.answer.message, None, 0, 0, None)
    if s.q.epoch < 0:
        return s.answer == Reply(0, None, s.q.member, s.q.epoch, 0, None)
    return s.answer[:5] == (0, None, s.answer.member, s.after_record.epoch, HEARTBEAT_INTERVAL)


@law
def leaves_and_ticks_raise(s: Step) -> bool:
    """A leave raises the group epoch by one, a tick by one where somebody left, both below the greatest; else it stays."""
    leaves = s.kind == HEARTBEAT and s.q.epoch == -1 and s.accepted
    if not leaves and s.kind != TICK:
        return True
    lost = leaves or len(s.new.records) < len(s.g.records)
    return s.new.epoch == (min(s.g.epoch + 1, GREATEST_EPOCH) if lost else s.g.epoch)


@law
def former_members_stay(s: Step) -> bool:
    """Former members stay remembered, with their stamps and in their order, but one that joins and the oldest beyond the limit; who left is last."""
    joined = s.answer.member if s.takes_in else None
    kept = [it for it in s.g.past if it[0] != joined]
    left = sorted((m for m in s.g.records if m not in s.new.records), key=str.encode)
    last = {m: s.stamp if s.kind == HEARTBEAT and s.q.epoch == -1 else s.g.records[m].stamp for m in left}
    return s.new.past == (*[*kept, *last.items()][-s.limits.past :],)


@law
def heirs_ask_as_before(s: Step) -> bool:
    """A take-over raises the epoch exactly where it asks for something else, or the view is another one; its record is the old one, but for what
    it gives."""
    if s.old is None:
        return True
    before = s.g.records[s.old]
    return s.new.epoch == s.g.epoch + (not asks_for_the_same(s, before)) and stores_given(s, before)


@by_hand
def texts_by_hand(rules: Any) -> bool:
    texts = "coordinator not available|unknown member|invalid request|group is full|fenced member epoch|instance id in use|unknown assignor"
    return rules.codes.TEXTS == dict(zip((15, 25, 42, 81, 110, 111, 112), texts.split("|")))


@by_hand
def deadlines_saturate(rules: Any) -> bool:
    later, last = rules.group.later, (1 << 64) - 1
    return [later(0, 5), later(last - 5, 5), later(last - 5, 6), later(last, 1)] == [5, last, last, last]


def is_heard(s: Step) -> bool:
    """A heartbeat of a group that is there, with nothing wrong in itself."""
    return s.kind == HEARTBEAT and not is_invalid(s.q) and not is_unsupported(s.q)


@law
def unknown_members_are_told(s: Step) -> bool:
    """25: whoever beats, leaves or goes away has no record, or goes away under an instance that isn't its own."""
    is_unknown = s.q is not None and s.q.epoch != 0 and (s.own is None or s.q.epoch == -2 and s.own.instance != s.q.instance)
    return s.kind != HEARTBEAT or (s.code == 25) == (is_heard(s) and is_unknown)


@law
def joins_are_refused_exactly(s: Step) -> bool:
    """Of a join that nothing earlier stands against. 111: another member has its instance, and it isn't away or the joining one has a record. 81: it
    neither joins again nor takes over, and there are as many members as there may be."""
    if s.kind != HEARTBEAT or not is_heard(s) or s.q.epoch != 0 or is_overtaken(s):
        return s.code not in (81, 111)
    others = s.g.with_instance(s.q.instance, s.q.member)
    in_use = any(s.own is not None or s.g.records[m].epoch != AWAY for m in others)
    too_many = s.own is None and not others and len(s.g.records) >= s.limits.members
    return (s.code == 111) == in_use and (s.code == 81) == too_many


def asks_for_uniform(s: Step) -> bool:
    votes = [r.assignor for r in s.new.records.values()]
    return votes.count("range") <= votes.count("uniform")


@law
def renewals_keep_owners(s: Step) -> bool:
    """Uniform: a target that is lawful and even for the members of now stays."""
    if not s.takes_in or s.new.target_epoch == s.g.target_epoch or not asks_for_uniform(s):
        return True
    former = {p: s.answer.member if m == s.old else m for p, m in s.g.target.items()}
    stays = is_lawful(s.new, former) and is_even(s.new, former)
    return not stays or s.new.target == former


@law
def heartbeats_keep_owners(s: Step) -> bool:
    """Uniform: an accepted join or beat leaves a target that is lawful and even for the members of now, but for a take-over."""
    if not s.takes_in or s.old is not None or not asks_for_uniform(s):
        return True
    return not (is_lawful(s.new, s.g.target) and is_even(s.new, s.g.target)) or s.new.target == s.g.target


@law
def members_hold_what_is_free(s: Step) -> bool:
    """A member that holds nothing beyond its target, or reports none of that, holds all of its target that nobody else holds; any other one
    holds what it held."""
    if not s.takes_in:
        return True
    m, owned = s.answer.member, reported(s.q)
    held = s.g.held(m) | (s.g.held(s.old) if s.old is not None else frozenset())
    rest = held - s.new.wanted(m)
    if rest and (owned is None or owned & rest):
        return s.new.held(m) == held and s.after_record.epoch == s.record_before.last_epoch
    others = {p for n, p in s.g.grants if n not in (m, s.old)}
    return s.new.held(m) == s.new.wanted(m) - others and s.after_record.epoch == s.new.target_epoch


@law
def others_keep_their_grants(s: Step) -> bool:
    """A heartbeat changes the grants of its member alone, and of the id whose place it takes over."""
    if s.kind != HEARTBEAT:
        return True
    own = {s.q.member, s.old, s.answer.member if isinstance(s.answer, Reply) else None}
    return {it for it in s.new.grants if it[0] not in own} == {it for it in s.g.grants if it[0] not in own}


# -- what was worked out by hand


@by_hand
def limits_by_hand(rules: Any) -> bool:
    return constants_are_the_limits(rules)


@by_hand
def ids_by_hand(rules: Any) -> bool:
    def made(serial: int) -> str:
        it = rules.group.Group()
        it.serial = serial
        return str(it.made_id()[0])

    ids = {1: "0000-000000000001", 0xFEDC_BA98_7654_3210: "fedc-ba9876543210", (1 << 64) - 1: "ffff-ffffffffffff"}
    return all(made(serial) == f"00000000-0000-0000-{ends}" for serial, ends in ids.items())


@by_hand
def stamps_are_ordered(rules: Any) -> bool:
    """By the connection's number, and on one connection by the frame's."""

    def comes_after(stamp: Any, last: Any) -> bool:
        own = rules.group.Record()
        own.stamp = last
        try:
            rules.group.Group().check_stamp(rules.messages.Heartbeat("g", "m", 1), own, stamp)
        except rules.group.Closes:
            return False
        return True

    pairs = [((1, 6), (1, 5)), ((2, 0), (1, 9)), ((1, 5), (1, 5)), ((1, 5), (1, 6)), ((1, 9), (2, 0))]
    return [comes_after(stamp, last) for stamp, last in pairs] == [True, True, False, False, False]


@by_hand
def uniform_by_hand(rules: Any) -> bool:
    two, three = dict.fromkeys("ab", (None, None)), dict.fromkeys("abc", (None, None))
    return (
        # Fill: the one with the fewest, and of several the first.
        owners_by_hand(rules, two, parts=3) == "aba"
        and owners_by_hand(rules, two, "a..", parts=3) == "aba"
        and owners_by_hand(rules, two, "aa..", parts=4) == "aabb"
        and owners_by_hand(rules, three, "a.....", parts=6) == "abcabc"
        # Level: from the one with the most, and of several the first; its first partition; to the one with the fewest, and of several the first.
        and owners_by_hand(rules, three, "aabb", parts=4) == "cabb"
        and owners_by_hand(rules, three, "bbaa", parts=4) == "bbca"
        and owners_by_hand(rules, three, "aaaa", parts=4) == "bcaa"
        and owners_by_hand(rules, three, "abbb", parts=4) == "acbb"
        # By instances first.
        and owners_by_hand(rules, {"a": (None, None), "z": ("i", None)}, parts=3) == "zaz"
        and owners_by_hand(rules, {"a": (None, None), "b": (None, None), "z": ("i", None)}, "zzaa", parts=4) == "bzaa"
    )


# -- requests and views


@law
def assignors_are_named(s: Step) -> bool:
    """The assignor of a member is the one whose name its request has."""
    return not s.takes_in or s.q.assignor is None or s.q.assignor in ("range", "uniform") and s.after_record.assignor == s.q.assignor


@law
def views_are_of_the_subscribed(s: Step) -> bool:
    """Once a join or a beat was accepted, a topic of the image is in the view where some member subscribes it."""
    if not s.takes_in:
        return True
    names = {name for r in s.new.records.values() for name in r.names}
    return s.new.view == {name: topic for name, topic in s.image.items() if name in names}


@law
def codes_are_of_their_requests(s: Step) -> bool:
    """No heartbeat is answered with a code of commits, and no commit to a group that is there with another code than these."""
    if s.kind == COMMIT and s.q.group in s.before:
        return {*codes_of(s)} <= {0, 3, 12, 25, 113}
    return s.kind != HEARTBEAT or s.code in (None, 0, 15, 25, 42, 81, 110, 111, 112)


# -- answers leave nothing out


@law
def ticks_count_who_goes(s: Step) -> bool:
    members = [sum(len(g.records) for g in them.values()) for them in (s.before, s.after)]
    return s.kind != TICK or s.answer == members[0] - members[1]


@law
def commits_are_answered_whole(s: Step) -> bool:
    asked = [(name, [part[0] for part in parts]) for name, parts in s.q.topics] if s.kind == COMMIT else []
    return s.kind != COMMIT or [(name, [part[0] for part in parts]) for name, parts in s.answer] == asked


# -- ids, and COORDINATOR_NOT_AVAILABLE


def next_serial(s: Step) -> Optional[int]:
    """The first serial from the group's on whose id it doesn't know."""
    serials = range(s.g.serial, min(s.g.serial + len(s.g.records) + len(s.g.past) + 1, SERIALS))
    return next((n for n in serials if not s.g.knows(str(uuid.UUID(int=n)))), None)


@law
def ids_are_made_in_order(s: Step) -> bool:
    """A join without an id gets that of the first serial that the group doesn't know, and the next serial is the one after it; else it stays."""
    if s.kind != HEARTBEAT or not s.accepted or s.q.epoch != 0 or s.q.member:
        return s.new.serial == s.g.serial
    made = next_serial(s)
    return made is not None and s.answer.member == str(uuid.UUID(int=made)) and s.new.serial == made + 1


@law
def groups_end(s: Step) -> bool:
    """15, where the node has room for the group: the epoch would have to rise above the greatest one, or no serial is left."""
    if s.kind != HEARTBEAT or s.q.group not in s.before and len(s.before) >= s.limits.groups:
        return True
    if s.code not in (0, 15) or s.q.epoch < 0:
        return s.code != 15
    others = s.g.with_instance(s.q.instance, s.q.member) if s.q.epoch == 0 else []
    before = s.own if s.own is not None else s.g.records[others[0]] if others else None
    member = s.q.member or "\0"
    changes = before is None
    if before is not None:
        given = {"names": None if s.q.names is None else frozenset(s.q.names), "assignor": s.q.assignor}
        after = before._replace(**{field: value for field, value in given.items() if value is not None})
        records = {**{m: r for m, r in s.g.records.items() if m not in others}, member: after}
        changes = (after.names, after.assignor) != (before.names, before.assignor) or view_for(s.image, records) != s.g.view
    has_no_id = s.q.epoch == 0 and not s.q.member and next_serial(s) is None
    return (s.code == 15) == (changes and s.g.epoch == GREATEST_EPOCH or has_no_id)
