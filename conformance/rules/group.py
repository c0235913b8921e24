"""One group of a coordinator: what a heartbeat, a tick and a commit make of it."""

import uuid

from .assignors import owners
from .limits import GREATEST_EPOCH, LONGEST_METADATA, MOST_MEMBERS
from .limits import HEARTBEAT_INTERVAL as INTERVAL, MOST_PAST_MEMBERS as MOST_PAST, SESSION_TIMEOUT as SESSION

LAST_MOMENT = (1 << 64) - 1
AWAY = "away"


class Refusal(Exception):
    def __init__(self, code):
        self.code = code


class Closes(Exception):
    pass


def later(moment, millis):
    return min(moment + millis, LAST_MOMENT)


class Record:
    def __init__(self):
        self.instance = self.rack = self.assignor = self.sent = self.release = None
        self.names, self.timeout, self.epoch, self.previous = frozenset(), 0, 0, 0
        self.stamp, self.session = (0, 0), 0

    def copy(self):
        it = Record()
        it.__dict__.update(self.__dict__)
        return it


class Group:
    def __init__(self):
        self.epoch = self.target_epoch = self.clock = 0
        self.records, self.target, self.held = {}, {}, {}
        self.view, self.serial, self.past, self.offsets = {}, 1, [], {}

    # -- one heartbeat

    def heartbeat(self, q, stamp, moment, image, full):
        """The reply's fields after the correlation id. A refusal changes nothing."""
        self.check_request(q)
        own = self.records.get(q.member) if q.member else None
        if q.epoch != 0 and (own is None or q.epoch == -2 and own.instance != q.instance):
            raise Refusal(25)
        self.check_stamp(q, own, stamp)
        if q.epoch < 0:
            return self.part(q, own, stamp, max(self.clock, moment))
        if q.epoch > 0 and not self.is_current(q, own):
            raise Refusal(110)
        other = self.other(q) if q.epoch == 0 else None
        if other is not None and (own is not None or self.records[other].epoch != AWAY):
            raise Refusal(111)
        if q.epoch == 0 and own is None and other is None and len(self.records) >= MOST_MEMBERS:
            raise Refusal(81)
        member, serial = (q.member, self.serial) if q.member else self.made_id()
        return self.take_in(q, member, serial, other, stamp, max(self.clock, moment), image, full)

    def other(self, q):
        """Another member that has the instance of a join."""
        return next((m for m, r in self.records.items() if q.instance is not None and m != q.member and r.instance == q.instance), None)

    def check_request(self, q):
        owns = bool(q.owned)
        wrong = not q.group or q.epoch < -2 or not q.member and q.epoch != 0 or q.epoch == -2 and q.instance is None
        wrong = wrong or q.epoch >= 0 and q.timeout < -1
        if wrong or q.epoch == 0 and (q.timeout == -1 or q.names is None or q.instance == "" or owns):
            raise Refusal(42)
        if q.epoch >= 0 and q.assignor not in (None, "range", "uniform"):
            raise Refusal(112)

    def check_stamp(self, q, own, stamp):
        if own is not None and stamp <= own.stamp:
            raise Closes
        if q.epoch == 0 and any(m == q.member and stamp <= last for m, last in self.past):
            raise Closes

    def is_current(self, q, own):
        if own.epoch == q.epoch:
            return True
        granted = q.owned is not None and q.owned <= self.held.get(q.member, set())
        return own.epoch != AWAY and own.previous == q.epoch and granted

    def made_id(self):
        serial = self.serial
        while serial < 1 << 64:
            member = str(uuid.UUID(int=serial))
            if member not in self.records and all(m != member for m, _ in self.past):
                return member, serial + 1
            serial += 1
        raise Refusal(15)

    def take_in(self, q, member, serial, other, stamp, now, image, full):
        """A join or a beat. Where the instance of a join is another member's, who is away, the join takes its place."""
        before = self.records.get(member if other is None else other)
        record = self.updated(q, before, stamp, now)
        records = {m: r for m, r in self.records.items() if m != other}
        records[member] = record
        subscribed = {name for r in records.values() for name in r.names}
        view = {name: topic for name, topic in image.items() if name in subscribed}
        change = before is None or before.names != record.names or before.assignor != record.assignor or view != self.view
        if change and self.epoch == GREATEST_EPOCH or before is None and full:
            raise Refusal(15)
        self.records, self.serial, self.clock, self.view = records, serial, now, view
        self.past = [e for e in self.past if e[0] != member]
        if other is not None:
            self.hand_over(other, member, before.stamp)
        self.epoch += change
        if self.epoch != self.target_epoch:
            self.target, self.target_epoch = owners(records, view, self.target), self.epoch
        self.settle(member, record, set() if q.epoch == 0 else q.owned, now)
        return self.acceptance(q, member, record)

    def updated(self, q, before, stamp, now):
        record = before.copy() if before else Record()
        if q.epoch == 0:
            record.instance, record.sent = q.instance, None
            record.epoch = record.previous if record.epoch == AWAY else record.epoch
        record.rack = record.rack if q.rack is None else q.rack
        record.names = record.names if q.names is None else frozenset(q.names)
        record.assignor = record.assignor if q.assignor is None else q.assignor
        record.timeout = record.timeout if q.timeout == -1 else q.timeout
        record.stamp, record.session = stamp, later(now, SESSION)
        return record

    def hand_over(self, old, new, last):
        """Target and grants of the old id are the new one's, and the old one is remembered."""
        self.target = {p: new if owner == old else owner for p, owner in self.target.items()}
        self.held[new] = self.held.pop(old, set())
        self.remember(old, last)

    def wanted(self, member):
        return {p for p, owner in self.target.items() if owner == member}

    def settle(self, member, record, owned, now):
        held, wanted = self.held.get(member, set()), self.wanted(member)
        rest = held - wanted
        if rest and (owned is None or owned & rest):
            record.release = later(now, record.timeout) if record.release is None else record.release
            return
        taken = {p for m, parts in self.held.items() if m != member for p in parts}
        self.held[member] = wanted - taken
        if record.epoch != self.target_epoch:
            record.previous, record.epoch = record.epoch, self.target_epoch
        record.release = None

    def acceptance(self, q, member, record):
        shown = self.held.get(member, set()) & self.wanted(member)
        full = q.epoch == 0 or q.timeout != -1 and q.names is not None and q.owned is not None
        present = full or shown != record.sent
        record.sent = shown if present else record.sent
        return 0, member, record.epoch, INTERVAL, shown if present else None

    def part(self, q, own, stamp, now):
        """A member leaves for good, or a static one for a while."""
        self.clock = now
        if q.epoch == -1:
            self.drop(q.member, stamp)
            self.epoch += self.epoch < GREATEST_EPOCH
        else:
            own.previous = own.previous if own.epoch == AWAY else own.epoch
            own.epoch, own.stamp, own.session, own.release = AWAY, stamp, later(now, SESSION), None
        return 0, q.member, q.epoch, 0, None

    def drop(self, member, stamp):
        del self.records[member]
        self.held.pop(member, None)
        self.target = {p: owner for p, owner in self.target.items() if owner != member}
        self.remember(member, stamp)

    def remember(self, member, stamp):
        self.past = (self.past + [(member, stamp)])[-MOST_PAST:]

    # -- ticks and commits

    def tick(self, moment):
        """How many members leave, since their deadline has come."""
        self.clock = max(self.clock, moment)
        due = [m for m, r in self.records.items() if r.session <= self.clock or r.release is not None and r.release <= self.clock]
        for member in sorted(due, key=str.encode):
            self.drop(member, self.records[member].stamp)
        self.epoch += bool(due) and self.epoch < GREATEST_EPOCH
        return len(due)

    def commit(self, q, image):
        """The code of each partition, topic by topic."""
        refusal = self.refusal(q)
        return [(name, [(part[0], refusal or self.store(name, part, image)) for part in parts]) for name, parts in q.topics]

    def refusal(self, q):
        if q.epoch < 0 and not self.records:
            return None
        record = self.records.get(q.member)
        if record is None:
            return 25
        return None if q.epoch == record.epoch and q.epoch >= 0 else 113

    def store(self, name, part, image):
        index, offset, leader, metadata = part
        if name not in image or not 0 <= index < image[name][1]:
            return 3
        if metadata is not None and len(metadata.encode()) > LONGEST_METADATA:
            return 12
        self.offsets[name, index] = offset, leader, metadata
        return 0
