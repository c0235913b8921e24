"""The lines of `coord reply`: what each prints, and random scripts of them."""

import random
import uuid

from .compare import SEED
from .group import AWAY
from .lines import BadLine, counted, frame_of, image_of, number_of, shown, words_of
from .messages import Commit, Heartbeat
from .node import Node

T = bytes([0x11]) * 16
# One in so many scripts is of a large group.
LARGE = 20


class Lines(Node):
    """A coordinator that reads lines."""

    def __init__(self):
        super().__init__()
        self.moment, self.requests, self.stamp = 0, 0, None

    def line(self, line):
        """What is printed for a line, or None."""
        kind, *words = words_of(line if isinstance(line, bytes) else line.encode())
        if kind not in self.LINES:
            raise BadLine(f"unknown word {shown(kind)}")
        act, *readers = self.LINES[kind]
        words = [words] if kind == "image" else counted(kind, words, len(readers))
        return act(self, *(read(word) for read, word in zip(readers, words)))

    def set_image(self, image):
        self.image = image

    def set_clock(self, moment):
        self.moment = moment

    def set_stamp(self, *stamp):
        self.stamp = stamp

    def request(self, frame):
        self.requests += 1
        stamp, self.stamp = self.stamp or (1, self.requests), None
        reply = self.answer(frame, stamp, self.moment)
        return "close" if reply is None else reply.hex()

    def report(self):
        return []

    # What is done in a line of each kind, and how its words are read.
    LINES = {
        "image": (set_image, image_of),
        "now": (set_clock, number_of),
        "stamp": (set_stamp, number_of, number_of),
        "req": (request, frame_of),
        "tick": (lambda self: f"removed {self.tick(self.moment)}",),
    }


def req(message):
    return "req " + message.frame().hex()


def join(group="g", member="", **said):
    """The line of a join, which says what has to be said where it isn't given."""
    return req(Heartbeat(group, member, **{"timeout": 60_000, "names": [], "owned": set(), **said}))


def image_line(topics):
    return "image" + "".join(f" {name} {uuid.UUID(bytes=topic)} {count}" for name, topic, count in topics)


# Random scripts.


class Script:
    """Members that beat as they please: often as they should, and often not."""

    def __init__(self, dice, lines):
        self.dice, self.node, self.lines, self.clock = dice, Lines(), [], 0
        self.image()
        while len(self.lines) < lines:
            self.act()

    def put(self, line):
        self.lines.append(line)
        self.node.line(line)

    def chance(self, part):
        return self.dice.random() < part

    def image(self):
        topics = [(name, bytes([self.dice.randint(1, 3) * 16 + at]) * 16, self.dice.randint(1, 6)) for at, name in enumerate("tuv")]
        self.put(image_line(it for it in topics if self.chance(0.8)))

    def act(self):
        kind = self.dice.random()
        if kind < 0.04:
            return self.image()
        if kind < 0.08:
            self.clock += self.dice.randint(-500, 3000) + (30_000 if self.chance(0.1) else 0)
            return self.put(f"now {max(0, self.clock)}")
        if kind < 0.1:
            return self.put("tick")
        if self.chance(0.1):
            last = self.node.requests
            self.put(f"stamp {0 if self.chance(0.1) else 1} {self.dice.randint(max(1, last - 9), last + 2)}")
        name = self.dice.choice("gh")
        return self.put(req(self.request(name, self.node.groups.get(name))))

    def request(self, name, group):
        members = sorted(group.records) if group else []
        if self.chance(0.06):
            return self.commit(name, group, members)
        if not members or self.chance(0.2):
            return self.join(name, group)
        if self.chance(0.04):
            former = [m for m, _ in group.past] + ["x"]
            return Heartbeat(name, self.dice.choice(former), self.dice.randint(-1, 3))
        member = self.dice.choice(members)
        record = group.records[member]
        if self.chance(0.08):
            return Heartbeat(name, member, -1)
        if self.chance(0.2 if record.instance else 0.02):
            return Heartbeat(name, member, -2, record.instance if self.chance(0.9) else "i")
        return self.beat(name, group, member, record)

    def names(self):
        return self.dice.sample(["t", "u", "v", "w"], self.dice.randint(0, 3))

    def join(self, name, group):
        known = (sorted(group.records) + [m for m, _ in group.past] if group else []) + ["x", "y", ""]
        it = Heartbeat(name, self.dice.choice(known + [""] * 3), 0, self.dice.choice([None, None, "i", "j", "k"]), self.maybe("r"))
        it.timeout, it.names = self.dice.choice([0, 60_000, 60_000, -1]), self.maybe(self.names())
        it.assignor, it.owned = self.assignor(), self.maybe(set())
        return it

    def commit(self, name, group, members):
        member = self.dice.choice(members + ["x"])
        record = group.records.get(member) if group else None
        epoch = record.epoch if record and record.epoch != AWAY and self.chance(0.7) else self.dice.randint(-1, 4)
        return Commit(name, member, epoch, [(self.dice.choice("tuw"), [*self.parts()]) for _ in range(self.dice.randint(0, 2))])

    def parts(self):
        for _ in range(self.dice.randint(0, 3)):
            yield self.dice.randint(-1, 6), self.dice.randint(-9, 9), -1, self.dice.choice([None, "", "m"])

    def beat(self, name, group, member, record):
        held, wanted = group.held.get(member, set()), group.wanted(member)
        epoch = record.epoch if record.epoch != AWAY and self.chance(0.75) else self.dice.choice([record.previous, record.previous + 1, 1])
        it = Heartbeat(name, member, max(epoch, 1), self.maybe("i"))
        it.owned = self.dice.choice([None, held, held & wanted, held & wanted, set(), set(sorted(held)[1:]), held | {(T, 0)}])
        if self.chance(0.2):
            it.timeout, it.names = 60_000, sorted(record.names)
        elif self.chance(0.1):
            it.names = self.names()
        it.assignor = self.assignor() if self.chance(0.1) else None
        return it

    def maybe(self, value):
        return value if self.chance(0.9) else None

    def assignor(self):
        return self.dice.choice([None, None, "range", "uniform", "x"] if self.chance(0.3) else [None, "range", "uniform"])


class Large:
    """A group of up to 40 members over up to 300 topics, under uniform: they join, then some leave, join or subscribe anew while topics grow.

    Now and then, and at the end, all catch up: each joins again under its own id, and once all have done so, each does it once more and is
    shown all that it is to own.
    """

    MEMBERS, TOPICS, PARTITIONS = 40, 300, 1_200

    def __init__(self, dice):
        self.dice, self.lines, self.members = dice, [], {}
        self.serials = iter(dice.sample(range(1_000_000), 4 * self.MEMBERS))
        names = [f"t{number}" for number in dice.sample(range(1_000), dice.randint(1, dice.choice([2, 10, 60, self.TOPICS])))]
        self.most = dice.choice([1, 3, self.PARTITIONS // len(names)])
        # A topic that isn't there yet has no partitions.
        self.topics = {name: [dice.randbytes(16), dice.randint(dice.choice([0, 1]), self.most)] for name in names}
        self.wish, self.size = dice.choice([self.all, self.nested, self.block, self.some]), dice.randint(1, len(names))
        self.image()
        for _ in range(dice.randint(2, dice.choice([4, 12, self.MEMBERS]))):
            self.join()
        for _ in range(dice.randint(0, 12)):
            dice.choice([self.join, self.leave, self.subscribe, self.grow])()
            if dice.random() < 0.2:
                self.catch_up()
        self.catch_up()

    # Which topics a member subscribes.

    def all(self, names):
        return names

    def nested(self, names):
        return names[: self.dice.randint(1, len(names))]

    def block(self, names):
        """One block of topics, and now and then the one after it."""
        first = self.dice.randrange(0, len(names), self.size)
        return names[first : first + self.size * self.dice.choice([1, 1, 2])]

    def some(self, names):
        return self.dice.sample(names, self.dice.randint(0, self.size))

    # What happens.

    def image(self):
        self.lines.append(image_line((name, *it) for name, it in self.topics.items() if it[1]))

    def grow(self):
        for name in self.dice.sample([*self.topics], self.dice.randint(1, min(3, len(self.topics)))):
            self.topics[name][1] += self.dice.randint(1, self.most)
        self.image()

    def join(self):
        if len(self.members) < self.MEMBERS:
            said = {"instance": self.dice.choice([None, None, f"i{next(self.serials)}"]), "assignor": self.dice.choice([None, "uniform"])}
            self.subscribe(f"m{next(self.serials)}", said)

    def subscribe(self, member=None, said=None):
        member = member or self.dice.choice([*self.members])
        self.members[member] = {**(said or self.members[member]), "names": self.wish([*self.topics])}
        self.lines.append(join("g", member, **self.members[member]))

    def leave(self):
        if len(self.members) > 2:
            member = self.dice.choice([*self.members])
            del self.members[member]
            self.lines.append(req(Heartbeat("g", member, -1)))

    def catch_up(self):
        for _ in range(2):
            for member in self.dice.sample([*self.members], len(self.members)):
                self.lines.append(join("g", member, **self.members[member]))


def script(dice, lines):
    return Large(dice).lines if dice.randrange(LARGE) == 0 else Script(dice, lines).lines


def steady(groups, members, beats):
    """Groups over two partitions, each member at its target, and then heartbeats that say nothing and are told nothing."""
    yield image_line([("t", T, 2)])
    ids = [str(uuid.UUID(int=serial)) for serial in range(1, members + 1)]
    names = [f"g{number}" for number in range(groups)]
    for name in names:
        yield from [join(name, names=["t"])] * members
        yield from (req(Heartbeat(name, member, at + 1, owned=set())) for at, member in enumerate(ids))
        yield from (req(Heartbeat(name, member, members)) for member in ids)
    dice = random.Random(SEED)
    for _ in range(beats):
        yield req(Heartbeat(dice.choice(names), dice.choice(ids), members))
