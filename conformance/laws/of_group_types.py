"""The laws of crates/group_types/src/laws.rt, by their names there."""

from __future__ import annotations

import dataclasses
from typing import Any, Dict, List

from .steps import (
    AWAY,
    BLANK,
    COMMIT,
    GREATEST_EPOCH,
    HEARTBEAT,
    LONGEST_METADATA,
    SESSION_TIMEOUT,
    TICK,
    Record,
    Step,
    by_hand,
    is_above,
    is_full,
    is_in_order,
    is_invalid,
    is_lawful,
    is_overtaken,
    is_unsupported,
    later,
    law,
    reported,
    view_for,
)


@law
def refusals_change_nothing(s: Step) -> bool:
    return s.kind != HEARTBEAT or s.code in (None, 0) or s.new == s.g


@law
def closes_on_the_overtaken(s: Step) -> bool:
    closes = s.answer is None
    return s.kind != HEARTBEAT or closes == (is_in_order(s) and is_overtaken(s)) and (not closes or s.new == s.g)


@law
def accepts_once(s: Step) -> bool:
    is_its = s.kind == HEARTBEAT and s.accepted and s.answer.member == s.q.member
    return not is_its or s.accepted_before is None or is_above(s.stamp, s.accepted_before)


@law
def heartbeats_are_sound(s: Step) -> bool:
    return s.kind != HEARTBEAT or s.is_sound


@law
def leaves_are_sound(s: Step) -> bool:
    return s.kind != HEARTBEAT or s.q.epoch not in (-1, -2) or s.is_sound


@law
def ticks_are_sound(s: Step) -> bool:
    return s.kind != TICK or s.is_sound


@law
def commits_are_sound(s: Step) -> bool:
    return s.kind != COMMIT or s.is_sound and dataclasses.replace(s.new, offsets=s.g.offsets) == s.g


@law
def every_group_is_sound(s: Step) -> bool:
    return s.is_sound


@law
def commits_are_at_epoch(s: Step) -> bool:
    if s.kind != COMMIT or s.q.epoch < 0 or 0 not in codes_of(s):
        return True
    return s.q.member in s.g.records and s.g.records[s.q.member].epoch == s.q.epoch


def codes_of(s: Step) -> List[int]:
    return [code for _, parts in s.answer for _, code in parts]


@law
def commits_are_answered_in_order(s: Step) -> bool:
    if s.kind != COMMIT or s.q.group not in s.before:
        return True
    r = s.g.records.get(s.q.member)
    is_nobodys, is_members = s.q.epoch < 0 and not s.g.records, r is not None and s.q.epoch >= 0 and r.epoch == s.q.epoch

    def code(name: str, part: Any) -> int:
        index, _, _, metadata = part
        if not is_nobodys and not is_members:
            return 25 if r is None else 113
        if name not in s.image or not 0 <= index < s.image[name][1]:
            return 3
        return 12 if metadata is not None and len(metadata.encode()) > LONGEST_METADATA else 0

    return s.answer == [(name, [(part[0], code(name, part)) for part in parts]) for name, parts in s.q.topics]


@law
def commits_look_at_the_image(s: Step) -> bool:
    if s.kind != COMMIT or s.group is None:
        return True
    s.group.view = {}
    return s.group.commit(s.q, s.image) == s.answer and s.group.offsets == s.new.offsets


@law
def offsets_are_the_last(s: Step) -> bool:
    return s.new.offsets == s.stored


@law
def going_away_keeps_place(s: Step) -> bool:
    if s.kind != HEARTBEAT or s.q.epoch != -2:
        return True
    rest = dataclasses.replace(s.new, records=s.g.records, clock=s.g.clock) == s.g
    others = {m: r for m, r in s.new.records.items() if m != s.q.member} == {m: r for m, r in s.g.records.items() if m != s.q.member}
    if not s.accepted:
        return rest and others
    r = s.new.records.get(s.q.member)
    return rest and others and r is not None and (r.epoch, r.last_epoch, r.release_deadline) == (AWAY, s.own.last_epoch, None)


@law
def heirs_have_all(s: Step) -> bool:
    if s.kind != HEARTBEAT or s.old is None:
        return True
    heir, r, nobody_else = s.answer.member, s.g.records[s.old], {s.old}
    holds = {p for p, m in s.new.target.items() if m == heir and {n for n, other in s.g.grants if other == p} <= nobody_else}
    return (
        r.epoch == AWAY
        and s.new.former(s.old) == r.stamp
        and s.after_record.instance == r.instance
        and (s.new.target_epoch != s.g.target_epoch or s.new.wanted(heir) == s.g.wanted(s.old))
        and s.new.held(heir) == holds
        and not s.new.held(s.old)
        and not s.new.wanted(s.old)
    )


@law
def leavers_are_remembered(s: Step) -> bool:
    if s.kind != HEARTBEAT or s.q.epoch != -1 or not s.accepted:
        return True
    return s.q.member not in s.new.records and s.new.former(s.q.member) == s.stamp and len(s.new.past) <= s.limits.past


def is_due(now: int, r: Record) -> bool:
    return r.session_deadline <= now or r.release_deadline is not None and r.release_deadline <= now


@law
def the_due_are_remembered(s: Step) -> bool:
    gone = [m for m in s.g.records if m not in s.new.records]
    if s.kind != TICK or sum(is_due(s.now, r) for r in s.g.records.values()) > s.limits.past:
        return True
    return all(s.new.former(m) == s.g.records[m].stamp for m in gone) and (not gone or len(s.new.past) <= s.limits.past)


@law
def ticks_take_the_due(s: Step) -> bool:
    return s.kind != TICK or s.new.records == {m: r for m, r in s.g.records.items() if not is_due(s.now, r)}


@law
def sessions_last(s: Step) -> bool:
    r = s.new.records.get(s.answer.member) if s.kind == HEARTBEAT and s.accepted else None
    return r is None or r.session_deadline == later(s.now, SESSION_TIMEOUT)


@law
def releases_are_timed(s: Step) -> bool:
    if not s.takes_in:
        return True
    m, after, before = s.answer.member, s.after_record, s.g.records.get(s.answer.member)
    if s.new.held(m) <= s.new.wanted(m):
        return after.release_deadline is None
    if before is None:
        return False
    end = later(s.now, after.rebalance_timeout) if before.release_deadline is None else before.release_deadline
    return after.release_deadline == end


@law
def epochs_rise_within_targets(s: Step) -> bool:
    def goes_on(m: str) -> bool:
        held, wanted, owned = s.g.held(m), s.new.wanted(m), reported(s.q)
        gave_up = held <= wanted or owned is not None and held & owned <= wanted
        return s.q.member == m and s.new.records[m].last_epoch == s.new.target_epoch and gave_up and s.new.held(m) <= wanted

    both = [m for m in s.g.records if m in s.new.records]
    return s.kind != HEARTBEAT or all(goes_on(m) for m in both if s.g.records[m].last_epoch < s.new.records[m].last_epoch)


@law
def assignments_are_news(s: Step) -> bool:
    if not s.takes_in:
        return True
    m, told, before = s.answer.member, s.answer.assignment, s.g.records.get(s.answer.member)
    shown = s.new.held(m) & s.new.wanted(m)
    no_news = not is_full(s.q) and before is not None and before.sent == shown
    if told is None:
        return no_news and s.after_record.sent == before.sent
    return told == shown and not no_news and s.after_record.sent == told


@law
def previous_epochs_are_former(s: Step) -> bool:
    def is_former(r: Record, after: Record) -> bool:
        changes = r.epoch != AWAY and after.epoch != r.epoch
        return after.previous_epoch == (r.epoch if changes else r.previous_epoch)

    return s.kind != HEARTBEAT or all(is_former(r, s.new.records[m]) for m, r in s.g.records.items() if m in s.new.records)


def stores_given(s: Step, before: Record) -> bool:
    q, after = s.q, s.after_record
    return after[:5] == (
        q.instance if q.epoch == 0 else before.instance,
        before.rack if q.rack is None else q.rack,
        before.names if q.names is None else frozenset(q.names),
        before.assignor if q.assignor is None else q.assignor,
        before.rebalance_timeout if q.timeout < 0 else q.timeout,
    )


@law
def requests_are_stored(s: Step) -> bool:
    if not s.takes_in:
        return True
    own = s.g.records.get(s.answer.member)
    others = [BLANK, *(s.g.records[m] for m in s.g.with_instance(s.q.instance, s.q.member))]
    return any(stores_given(s, before) for before in ([own] if own is not None else others))


@law
def fences_the_late(s: Step) -> bool:
    speaks = s.kind == HEARTBEAT and s.q.epoch >= 1 and not is_invalid(s.q) and not is_unsupported(s.q)
    if not speaks or s.own is None or not is_above(s.stamp, s.own.stamp):
        return True
    reports = s.q.owned is not None and s.q.owned <= s.g.held(s.q.member)
    is_at = s.own.epoch == s.q.epoch or s.own.epoch != AWAY and s.own.previous_epoch == s.q.epoch and reports
    return (s.code == 110) == (not is_at)


@law
def clocks_go_on(s: Step) -> bool:
    return not (s.kind == TICK or s.kind == HEARTBEAT and s.accepted) or s.new.clock == s.now


@law
def targets_follow_by_lawful_assignors(s: Step) -> bool:
    if not s.takes_in or s.new.epoch == GREATEST_EPOCH:
        return True
    return s.new.view == view_for(s.image, s.new.records) and is_lawful(s.new, s.new.target)


def asks_for_the_same(s: Step, before: Record) -> bool:
    after = s.after_record
    return (after.names, after.assignor) == (before.names, before.assignor) and view_for(s.image, s.new.records) == s.g.view


@law
def epochs_rise_on_changes(s: Step) -> bool:
    if not s.takes_in:
        return True

    def rises(before: Record) -> bool:
        return s.new.epoch == s.g.epoch + (not asks_for_the_same(s, before))

    own = s.g.records.get(s.answer.member)
    if own is not None:
        return rises(own)
    return s.new.epoch == s.g.epoch + 1 or any(rises(s.g.records[m]) for m in s.g.with_instance(s.q.instance, s.q.member))


@law
def heartbeats_are_checked_in_order(s: Step) -> bool:
    if s.kind != HEARTBEAT:
        return True
    if is_invalid(s.q):
        return s.code == 42
    if is_unsupported(s.q):
        return s.code == 112
    return s.q.epoch < 1 or s.q.member in s.g.records or s.code == 25


# -- what was worked out by hand: of the rules alone


@by_hand
def constants_are_the_limits(rules: Any) -> bool:
    it = rules.limits
    return (
        (it.LONGEST_STRING, it.LARGEST_BODY, it.LONGEST_METADATA) == (32_767, 8_388_608, 4_096)
        and (it.MOST_TOPICS, it.MOST_TOPIC_PARTITIONS, it.MOST_PARTITIONS) == (10_000, 100_000, 1_000_000)
        and (it.MOST_MEMBERS, it.MOST_GROUPS, it.MOST_PAST_MEMBERS) == (10_000, 100_000, 4_096)
        and (it.GREATEST_EPOCH, it.SESSION_TIMEOUT, it.HEARTBEAT_INTERVAL) == (2_147_483_647, 45_000, 5_000)
    )


@by_hand
def codes_are_the_guides(rules: Any) -> bool:
    names = "NO_ERROR UNKNOWN_TOPIC_OR_PARTITION OFFSET_METADATA_TOO_LARGE COORDINATOR_NOT_AVAILABLE UNKNOWN_MEMBER_ID INVALID_REQUEST"
    names += " GROUP_ID_NOT_FOUND GROUP_MAX_SIZE_REACHED FENCED_MEMBER_EPOCH UNRELEASED_INSTANCE_ID UNSUPPORTED_ASSIGNOR STALE_MEMBER_EPOCH"
    return rules.codes.NAMES == dict(zip((0, 3, 12, 15, 25, 42, 69, 81, 110, 111, 112, 113), names.split()))


def owners_by_hand(rules: Any, members: Dict[str, Any], former: str = "", parts: int = 7) -> str:
    """Who owns which partition of a topic, as text: of members by their ids, each with an instance and an assignor."""
    records = {m: rules.group.Record() for m in members}
    for m, (instance, assignor) in members.items():
        records[m].instance, records[m].assignor, records[m].names = instance, assignor, frozenset({"t"})
    topic = b"\x11" * 16
    before = {(topic, index): m for index, m in enumerate(former) if m != "."}
    owner = rules.assignors.owners(records, {"t": (topic, parts)}, before)
    return "".join(owner[topic, index] for index in range(parts))


@by_hand
def assignors_by_hand(rules: Any) -> bool:
    ranged, uniform = (None, "range"), (None, "uniform")
    return (
        owners_by_hand(rules, {"a": ranged, "b": ranged, "c": ranged}) == "aaabbcc"
        and owners_by_hand(rules, dict.fromkeys("abcdefghij", ranged)) == "abcdefg"
        and owners_by_hand(rules, {"a": ranged, "b": ranged}, parts=4) == "aabb"
        # Member order: by instances, and those without one last, by their ids.
        and owners_by_hand(rules, {"z": ("i1", "range"), "a": ("i2", "range")}, parts=2) == "za"
        and owners_by_hand(rules, {"z": ("i9", "range"), "a": ranged}, parts=2) == "za"
        and owners_by_hand(rules, {"b": ranged, "a": ranged}, parts=2) == "ab"
        # The majority's assignor; uniform where there is none. (Of four partitions range gives aabb, and uniform abab.)
        and owners_by_hand(rules, {"a": ranged, "b": (None, None)}, parts=4) == "aabb"
        and owners_by_hand(rules, {"a": uniform, "b": (None, None)}, parts=4) == "abab"
        and owners_by_hand(rules, {"a": ranged, "b": uniform}, parts=4) == "abab"
        and owners_by_hand(rules, {"a": ranged, "b": uniform, "c": ranged}, parts=6) == "aabbcc"
        and owners_by_hand(rules, {"a": ranged, "b": uniform, "c": uniform}, parts=6) == "abcabc"
        and owners_by_hand(rules, {"a": (None, None)}, "b" * 3, parts=3) == "aaa"
    )
