"""The client side: what a member of a group asks, and what it makes of the replies."""

from .messages import Commit, Heartbeat

GREATEST_NUMBER = 2_147_483_647
OUTSIDE, INSIDE, GONE = "outside", "inside", "gone"
# Codes after which a member is out of its group, and those after which it may ask again. After any other it is gone.
FENCED, KEPT = (25, 110), (14, 15, 16, 111)


class Client:
    def __init__(self, name, group, instance=None, assignor=None, rebalance=60_000, names=()):
        self.name, self.group, self.instance, self.assignor, self.rebalance, self.names = name, group, instance, assignor, rebalance, names
        self.place, self.id, self.epoch, self.own, self.shown = OUTSIDE, None, 0, set(), set()
        # The number of its latest request, whether it waits for the reply, and whether it says everything at its next beat.
        self.number, self.waits, self.says_all = 0, False, False

    def state(self):
        if self.place == INSIDE:
            return "steady" if self.own <= self.shown else "releasing"
        return self.place

    # -- asking

    def may_ask(self, kind):
        """A join, a beat, a leave, or going away."""
        there = OUTSIDE if kind == "join" else INSIDE
        fits = kind != "away" or self.instance is not None
        return not self.waits and self.number < GREATEST_NUMBER and self.place == there and fits

    def heartbeat(self, kind):
        """The next request of a kind: join, short, owned, full, leave or away."""
        it = Heartbeat(self.group, self.id or "", correlation=self.number + 1)
        it.epoch = {"join": 0, "leave": -1, "away": -2}.get(kind, self.epoch)
        if kind == "away":
            it.instance = self.instance
        if kind in ("short", "owned", "full") and self.says_all:
            kind = "full"
        if kind in ("owned", "full"):
            it.owned = set(self.own)
        if kind in ("join", "full"):
            it.instance, it.timeout, it.names, it.assignor = self.instance, self.rebalance, self.names, self.assignor
        if kind == "join":
            it.owned = set()
        return it

    def has_asked(self, kind):
        self.number += 1
        if kind in ("leave", "away"):
            self.place, self.own = GONE, set()
        else:
            self.waits, self.says_all = True, False

    def give_up(self):
        self.waits, self.says_all = False, True

    # -- replies

    def take(self, correlation, code, member, epoch, assignment):
        """Whether the reply was one to the request for which it waits."""
        if not self.waits or correlation != self.number or code == 0 and (member is None or epoch < 1):
            return False
        self.waits = False
        if code == 0:
            self.place, self.id, self.epoch = INSIDE, member, epoch
            if assignment is not None:
                self.shown, self.own = assignment, self.own | assignment
        elif code in FENCED:
            self.place, self.epoch, self.own, self.shown = OUTSIDE, 0, set(), set()
        elif code in KEPT:
            self.says_all = True
        else:
            self.place, self.own = GONE, set()
        return True

    # -- between requests

    def may_release(self):
        return not self.waits and self.state() == "releasing"

    def release(self, partition):
        """Gives a partition up, unless it is shown it."""
        if partition not in self.shown:
            self.own.discard(partition)

    def commit(self, number, name, index, offset):
        """The request that stores an offset, under a number."""
        return Commit(self.group, self.id, self.epoch, [(name, [(index, offset, -1, None)])], correlation=number)
