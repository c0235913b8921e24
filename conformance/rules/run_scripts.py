"""Random scripts of `coord run`."""

import random
import uuid

from .client import INSIDE, OUTSIDE
from .compare import SEED
from .limits import SESSION_TIMEOUT
from .lines import Lines


class Play:
    """Clients that do mostly what they should, and a world that loses, repeats and reorders."""

    def __init__(self, dice, lines):
        self.dice, self.script, self.lines, self.moment = dice, Lines(), [], 0
        self.quits = dice.random() < 0.6
        for number in range(dice.randint(1, 5)):
            self.put(f"client c{number} {self.client()}")
        self.image()
        while len(self.lines) < lines:
            self.act()

    def put(self, line):
        self.lines.append(line)
        return self.script.line(line)

    @property
    def world(self):
        return self.script.world

    def client(self):
        group, instance = self.dice.choice("ggggh"), self.dice.choice(["-", "-", "i", "j"])
        assignor = self.dice.choice(["-", "-", "range", "uniform"]) if self.dice.random() < 0.97 else "sticky"
        topics = [self.dice.choice("tuvw") for _ in range(self.dice.randint(0, 3))]
        return f"{group} {instance} {assignor} {self.dice.choice([0, 1_000, 60_000])} {','.join(topics) or '-'}"

    def image(self):
        topics = [f" {name} {self.topic(at)} {self.dice.randint(1, 6)}" for at, name in enumerate("tuv") if self.dice.random() < 0.85]
        self.put("image" + "".join(topics))

    def topic(self, at):
        return uuid.UUID(bytes=bytes([self.dice.choice((1, 1, 1, 2)) * 16 + at]) * 16)

    def act(self):
        kind = self.dice.random()
        if kind < 0.03:
            return self.image()
        if kind < 0.08:
            return self.pass_time()
        if kind < 0.1:
            return self.settle()
        if kind < 0.16:
            return self.bring()
        if kind < 0.5:
            return self.message()
        return self.client_acts(self.dice.randrange(len(self.script.clients)))

    def pass_time(self):
        self.moment = max(0, self.moment + self.dice.choice([-500, 900, 900, 5_000, 5_000, 20_000, SESSION_TIMEOUT]))
        self.put(f"{self.dice.choice(['clock', 'tick', 'tick'])} {self.moment}")

    def message(self):
        """A request is delivered, or a reply taken: often the latest one."""
        requests, replies = len(self.world.requests), len(self.world.replies)
        kind, pool = ("deliver", requests) if self.dice.random() < 0.5 else ("take", replies)
        number = pool if self.dice.random() < 0.6 else self.dice.randint(max(0, pool - 12), pool + 1)
        self.put(f"{kind} {number}")

    def bring(self):
        self.put(f"bring {self.dice.randint(0 if self.dice.random() < 0.1 else 1, len(self.world.commits) + 1)}")

    def client_acts(self, at):
        client = self.script.clients[at]
        name = client.name if self.dice.random() < 0.99 else "nobody"
        kind = self.dice.random()
        if kind < 0.12:
            return self.put(f"commit {name} {self.dice.choice('ttuvw')} {self.dice.randint(0, 4)} {self.dice.randint(-5, 99)}")
        if kind < 0.18:
            return self.put(f"lose {name}")
        if client.state() == "releasing" and kind < 0.6 or kind < 0.2:
            return self.release(name, client)
        if client.place == OUTSIDE or kind < 0.24:
            sent = self.put(f"join {name}")
        elif self.quits and kind < 0.3:
            sent = self.put(f"quit {name} {self.dice.choice(['leave', 'away'])}")
        else:
            sent = self.put(f"beat {name} {self.dice.choice(['short', 'owned', 'owned', 'full'])}")
        if self.dice.random() < 0.7:
            self.bring_home(sent)

    def release(self, name, client):
        may = sorted(client.own - client.shown) * 3 + sorted(client.own) + [(uuid.UUID(int=7).bytes, 1)]
        topic, index = self.dice.choice(may)
        self.put(f"release {name} {uuid.UUID(bytes=topic)} {index}")

    def bring_home(self, sent):
        """Delivers what was sent, and gives the reply to its client, if it isn't lost."""
        reply = self.put(f"deliver {sent.split(' ')[1]}") if sent.startswith("sent") else ""
        if reply.startswith("reply") and self.dice.random() < 0.85:
            self.put(f"take {reply.split(' ')[1]}")

    def settle(self):
        """Sometimes everybody joins again before."""
        if self.dice.random() < 0.5:
            self.moment += SESSION_TIMEOUT
            self.put(f"tick {self.moment}")
            for client in self.script.clients:
                self.join_anew(client)
        self.put("settle")

    def join_anew(self, client):
        if client.waits:
            self.put(f"lose {client.name}")
        if client.place == INSIDE:
            self.bring_home(self.put(f"beat {client.name} short"))
        if client.place == OUTSIDE:
            self.bring_home(self.put(f"join {client.name}"))


def play(dice, lines):
    return Play(dice, lines).lines


def kept(lines, places):
    """Some lines of a script, by their places. Messages have the numbers that they have without the others; lines about those that aren't made go
    too."""
    whole, some, made, out = Lines(), Lines(), {}, []
    for place, line in enumerate(lines):
        kind, *words = line.split(" ")
        pool = {"deliver": "sent", "take": "reply", "bring": "commit"}.get(kind)
        number = made.get((pool, words[0])) if pool else None
        new = line if number is None else f"{kind} {number}"
        old = whole.line(line)
        if place not in places or pool and number is None:
            continue
        out.append(new)
        printed = some.line(new)
        for word in ("sent", "reply", "commit"):
            if old and printed and old.startswith(word) and printed.startswith(word):
                made[word, old.split(" ")[1]] = printed.split(" ")[1]
    return out


def one(seed=SEED, count=150):
    """The lines of one script."""
    return play(random.Random(seed), count)
