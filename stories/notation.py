"""Stories as people write them, and the lines of `coord run` that they stand for: docs/COMMANDS.md has both."""

from __future__ import annotations

import difflib
import re
import uuid
from typing import Iterable, Iterator, Optional

from conformance.rules.client import INSIDE, Client
from conformance.rules.limits import HEARTBEAT_INTERVAL, SESSION_TIMEOUT
from conformance.rules.lines import BadLine, Lines, image_of, shown, topic_of
from conformance.rules.world import ROUNDS, WRONG_STATE
from stories.names import Topics, counted, fault_name, moment_text
from stories.reading import NoScript

WORD, TIME = "([^ ,:]+)", "([0-9]+) (ms|s|min)"
MILLIS = {"ms": 1, "s": 1_000, "min": 60_000}
# Acts by their first word, each with what it looks like.
FORMS = {
    "join": (f"join {WORD}", "join a"),
    "beat": (f"beat {WORD}(?: (short|owned|full))?", "beat a owned"),
    "quit": (f"quit {WORD}(?: (leave|away))?", "quit a leave"),
    "lose": (f"lose {WORD}", "lose a"),
    **{word: (f"{word} {WORD}", f"{word} a") for word in ("deliver", "take", "bring")},
    "release": (f"release {WORD} {WORD}/([0-9]+)", "release a orders/0"),
    "commit": (f"commit {WORD} {WORD}/([0-9]+) at (-?[0-9]+)", "commit a orders/0 at 100"),
    "wait": (f"wait {TIME}", "wait 45 s"),
    "clock": (f"clock {TIME}", "clock 30 s"),
    "tick": (f"tick {TIME}", "tick 45 s"),
    "settle": ("settle", "settle"),
    "no": ("no topics", "no topics"),
    "run": ("run (.+)", "run deliver 5"),
}
# What others call an act.
OTHERS = {
    **{"leave": "quit a leave", "heartbeat": "beat a", "send": "beat a", "revoke": "release a", "receive": "take a"},
    **{"timeout": "lose a", "drop": "lose a", "expire": "wait 45 s", "sleep": "wait 45 s"},
}
# What goes on about the message of the act before it needs no client's name.
GOES_ON = ("deliver", "take", "bring", "lose")
# The pools of messages, by the word that brings one, with what is in them and what makes one.
POOLS = {"deliver": "request", "take": "reply", "bring": "commit"}
MAKERS = {"join": "deliver", "beat": "deliver", "quit": "deliver", "deliver": "take", "commit": "bring"}
# Who can do an act.
ONLY = {
    "join": "a client that is outside and waits for no reply",
    "beat": "a member that waits for no reply",
    "quit": "a member that waits for no reply (away: a static one)",
    "lose": "a client that waits for a reply",
    "release": "a member that has to revoke something and waits for no reply",
    "commit": "a member",
}
REBALANCE = 60_000
# What is said of clients, and where it isn't said.
SAID = {"group": "g", "static as": "-", "assignor": "-", "rebalance timeout": f"{REBALANCE} ms", "subscribes": "-"}
# While a client is silent the others send a heartbeat at least so often.
KEPT_ALIVE = SESSION_TIMEOUT - HEARTBEAT_INTERVAL
CLIENT = '"group g", "static as i1", "assignor range", "rebalance timeout 60 s" or "subscribes orders"'
TOPIC = re.compile(f"{WORD}: (?:([0-9]+) partitions?|deleted)")


class Unclear(Exception):
    """Why a line of a story stands for no line of a script."""


def meant(word: str, known: Iterable[str]) -> str:
    known = [*known]
    close = difflib.get_close_matches(word, known, 1)
    return f'; did you mean "{close[0]}"?' if close else f"; there are {', '.join(known[:12])}" if known else ""


def made_id(label: str) -> uuid.UUID:
    """The id of a topic for which a story gives none."""
    return uuid.uuid5(uuid.UUID(int=0), label)


class Notation:
    """What a story calls the clients, topics and messages of a script, as far as the rules have played it."""

    def __init__(self, rules: Lines) -> None:
        self.rules, self.topics = rules, Topics()
        self.commits: list[tuple[int]] = []
        # The names of messages, each with its pool and its number.
        self.messages: dict[str, tuple[str, int]] = {}

    # -- names

    def client(self, name: str) -> int:
        """A client's number, 0 where nobody is called that."""
        return next((at for at, it in enumerate(self.rules.clients, 1) if it.name == name), 0)

    def pool(self, word: str) -> list:
        world = self.rules.world
        return self.commits if word == "bring" else [] if world is None else world.requests if word == "deliver" else world.replies

    def latest(self, word: str, client: int) -> int:
        pool = self.pool(word)
        return next((number for number in range(len(pool), 0, -1) if pool[number - 1][0] == client), 0)

    def message(self, word: str, name: str) -> int:
        """The number of a message: a client's latest one, or one that was given a name."""
        client, what = self.client(name), POOLS[word]
        if client:
            number = self.latest(word, client)
            if not number:
                raise Unclear(f"there is no {what} {'to' if word == 'take' else 'of'} {shown(name)} yet")
            return number
        if name not in self.messages:
            raise Unclear(f"{shown(name)} is neither a client nor a {what}{meant(name, [*self.names(), *self.messages])}")
        made, number = self.messages[name]
        if made != word:
            raise Unclear(f'{shown(name)} is a {POOLS[made]}; did you mean "{made} {name}"?')
        return number

    def names(self) -> list[str]:
        return [it.name for it in self.rules.clients]

    def topic(self, name: str) -> str:
        """The id of a topic, by what it is called here or by itself."""
        topic = next((it for it, label in self.topics.labels.items() if label == name), None)
        try:
            return str(uuid.UUID(bytes=topic or topic_of(name)))
        except BadLine:
            raise Unclear(f"no topic is called {shown(name)}{meant(name, self.topics.labels.values())}") from None

    def image(self) -> dict[str, tuple[bytes, int]]:
        return {} if self.rules.world is None else self.rules.world.node.image

    def now(self) -> int:
        return 0 if self.rules.world is None else self.rules.world.clock

    # -- lines

    def line(self, act: str) -> str:
        """The script's line for an act."""
        if ":" in act and not act.startswith("run "):
            return self.image_line(act)
        word = act.split(" ")[0]
        if word not in FORMS:
            other = f'; did you mean "{OTHERS[word]}"?' if word in OTHERS else '; the act comes first, as in "join a"' if self.client(word) else ""
            raise Unclear(f"nothing begins with {shown(word)}{other or meant(word, FORMS)}")
        pattern, like = FORMS[word]
        found = re.fullmatch(pattern, act)
        if found is None:
            raise Unclear(f'{shown(act)} isn\'t like "{like}"')
        if word in ONLY:
            self.known(found[1])
        if word == "commit" and found[2] not in self.topics.ids:
            raise Unclear(f"no topic is called {shown(found[2])}{meant(found[2], self.topics.ids)}")
        return self.made_line(word, *found.groups())

    def known(self, name: str) -> Client:
        number = self.client(name)
        if not number:
            none = f'; this story has no clients: a line as "{name}: group g" says that there is one'
            raise Unclear(f"no client is called {shown(name)}{meant(name, self.names()) or none}")
        return self.rules.clients[number - 1]

    def made_line(self, word: str, *parts: str) -> str:
        if word in POOLS:
            return f"{word} {self.message(word, parts[0])}"
        if word == "beat":
            return f"beat {parts[0]} {parts[1] or 'short'}"
        if word == "quit":
            return f"quit {parts[0]} {parts[1] or ('leave' if self.known(parts[0]).instance is None else 'away')}"
        if word == "release":
            return f"release {parts[0]} {self.topic(parts[1])} {parts[2]}"
        if word in ("wait", "clock", "tick"):
            moment = int(parts[0]) * MILLIS[parts[1]]
            return f"tick {self.now() + moment}" if word == "wait" else f"{word} {moment}"
        return {"no": "image", "run": "".join(parts)}.get(word) or " ".join([word, *parts])

    def image_line(self, act: str) -> str:
        """A line of topics changes those that it names. One that is new, or created again, gets an id of its own."""
        image, name = {it: (uuid.UUID(bytes=topic), count) for it, (topic, count) in self.image().items()}, ""
        for part in re.split(" *, *", act):
            found = TOPIC.fullmatch(part)
            if name and part.startswith("id "):
                image[name] = uuid.UUID(bytes=topic_of(part[3:])), image[name][1]
            elif found is None or not found[2] and found[1] not in image:
                raise Unclear(f'{shown(part)} isn\'t like "orders: 4 partitions"{", or there is no such topic" if found else ""}')
            elif found[2]:
                name = found[1]
                image[name] = image[name][0] if name in image else made_id(self.topics.next(name)), int(found[2])
            else:
                del image[found[1]]
                name = ""
        return " ".join(["image", *(f"{it} {topic} {count}" for it, (topic, count) in image.items())])

    def played(self, line: str, printed: str) -> Optional[tuple[str, int]]:
        """What is remembered of a line that was played, and the message that was made in it."""
        word, *words = line.split(" ")
        if word == "image":
            for name, (topic, _) in image_of(words).items():
                self.topics.add(name, topic)
        if printed.startswith("commit "):
            self.commits.append((self.client(words[0]),))
        found = re.match("(?:sent|reply|commit) ([0-9]+)", printed)
        return (MAKERS[word], int(found[1])) if found else None


class Writer(Notation):
    """Writes the script of a story, act by act, as far as it can be played."""

    def __init__(self, story: str) -> None:
        super().__init__(Lines())
        # The script, and the line of the story for each of its lines.
        self.story, self.number, self.script, self.lines = story, 0, [], []

    def write(self, lines: list[bytes]) -> list[str]:
        heads: list[tuple[int, str]] = []
        acts: list[tuple[int, str]] = []
        for number, line in enumerate(lines, 1):
            text = " ".join(re.sub(r"(^|\s)#.*", "", self.decoded(number, line)).split())
            if text:
                said = text.partition(":")[2].strip()
                is_topic = said and not said.startswith(tuple(SAID)) and re.search("partition|deleted", said)
                (heads if ":" in text and not is_topic and not text.startswith("run ") else acts).append((number, text))
        known = [found[1] for _, text in acts for found in TOPIC.finditer(text)]
        self.each(heads, lambda text: self.add_clients(text, [*dict.fromkeys(known)]))
        self.each(acts, self.act)
        return self.script

    def decoded(self, number: int, line: bytes) -> str:
        try:
            return line.decode()
        except UnicodeDecodeError:
            raise NoScript(f"{self.story}, line {number}: it isn't UTF-8") from None

    def each(self, lines: list[tuple[int, str]], add) -> None:
        for self.number, text in lines:
            try:
                add(text)
            except (Unclear, BadLine) as wrong:
                fault = NoScript(f"{self.story}, line {self.number}: {wrong}")
                fault.writer = self
                raise fault from None

    def add_clients(self, text: str, known: list[str]) -> None:
        """Clients whose names are before the colon, with what is said after it."""
        names, parts = text.split(":", 1)
        said = {**SAID, "subscribes": " ".join(known) or "-"}
        for part in filter(None, map(str.strip, parts.split(","))):
            word = next((it for it in said if part.startswith(f"{it} ")), None)
            if word is None:
                like = '"orders: 4 partitions"' if part.isdecimal() else CLIENT
                raise Unclear(f"{shown(part)} isn't like {like}")
            said[word] = part[len(word) + 1 :]
        time = re.fullmatch(TIME, said["rebalance timeout"])
        if time is None:
            raise Unclear(f'{shown(said["rebalance timeout"])} isn\'t like "60 s"')
        said["rebalance timeout"] = str(int(time[1]) * MILLIS[time[2]])
        said["subscribes"] = said["subscribes"].replace(" ", ",")
        for name in map(str.strip, names.split(",")):
            if not re.fullmatch(WORD, name):
                raise Unclear(f'{shown(name)} isn\'t a name; several are like "a, b: group g"')
            self.play(" ".join(["client", name, *said.values()]))

    def act(self, text: str) -> None:
        """A line of acts. Behind the first one, what goes on about a message needs no client's name."""
        silent = re.fullmatch(f"wait {TIME} *, *(.+) silent", text)
        if silent:
            self.wait(int(silent[1]) * MILLIS[silent[2]], [self.known(name) for name in re.split("[ ,]+", silent[3])])
            return
        of = ""
        for part in [text] if ":" in text or text.startswith("run ") else re.split(" *, *", text):
            words = part.split(" ")
            name = words.pop() if len(words) > 2 and words[-2] == "as" and words[0] in MAKERS else ""
            words = words[:-1] if name else words
            if words[0] in GOES_ON and len(words) == 1 and of:
                words.append(of)
            elif words[0] in MAKERS and words[1:]:
                of = words[1] if self.client(words[1]) else ""
            if words[0] == "settle" and (words[1:] or not (self.rules.world and self.rules.world.can_settle())):
                self.settle(words[1:])
            elif words[0] == "release" and len(words) == 2:
                self.release(self.known(words[1]))
            else:
                made = self.play(self.line(" ".join(words)), words[0] == "run")
                if name:
                    self.name(name, made)

    def name(self, name: str, made: Optional[tuple[str, int]]) -> None:
        if self.client(name) or name in self.messages:
            raise Unclear(f"{shown(name)} is a client, or a message already")
        if made is None:
            raise Unclear(f"no message is made here that could be called {shown(name)}")
        self.messages[name] = made

    def play(self, line: str, may_fail: bool = False) -> Optional[tuple[str, int]]:
        printed = self.rules.line(line)
        if printed is not None and printed.startswith("refused ") and not may_fail:
            raise Unclear(self.why(line.split(" "), int(printed[8:])))
        self.script.append(line)
        self.lines.append(self.number)
        return None if printed is None else self.played(line, printed)

    def why(self, words: list[str], fault: int) -> str:
        if words[0] not in ONLY or fault != WRONG_STATE:
            return f"{' '.join(words)}: {fault_name(fault)}"
        client = self.known(words[1])
        waits = f" and waits for a reply (take {client.name}, or lose {client.name}, ends that)" if client.waits else ""
        return f"{client.name} is {client.state()}{waits}: only {ONLY[words[0]]} can {words[0]}"

    def release(self, client: Client, may_be_nothing: bool = False) -> None:
        """A client stops reading all that it has to revoke."""
        revoked = sorted(client.own - client.shown)
        if not (revoked or may_be_nothing):
            raise Unclear(self.why(["release", client.name], WRONG_STATE))
        for topic, index in revoked:
            self.play(f"release {client.name} {uuid.UUID(bytes=topic)} {index}")

    def wait(self, time: int, silent: list[Client]) -> None:
        """Time passes in which all members but these send heartbeats, report what they own, and stop reading what they have to revoke."""
        end = self.now() + time
        while self.now() < end:
            for it in (it for it in self.rules.clients if it not in silent and it.place == INSIDE and not it.waits):
                for act in ("beat {} owned", "deliver {}", "take {}"):
                    self.play(self.line(act.format(it.name)))
                self.release(it, may_be_nothing=True)
            self.play(f"tick {min(end, self.now() + KEPT_ALIVE)}")

    def settle(self, names: list[str]) -> None:
        """Rounds in which no message is lost, act by act, as long as something changes: of some clients, or of all that are members."""
        world = self.rules.world
        clients = [*map(self.known, names)] or [it for it in self.rules.clients if world and world.is_ready(it)]
        if not clients:
            raise Unclear("nobody is there who could settle")
        for _ in range(ROUNDS):
            before = [(it.epoch, {*it.own}) for it in clients]
            for it in clients:
                for act in ("beat {} full", "deliver {}", "take {}"):
                    self.play(self.line(act.format(it.name)))
                self.release(it, may_be_nothing=True)
            if before == [(it.epoch, it.own) for it in clients]:
                return


class Telling(Notation):
    """Says a script's lines as a story does. What a story can't say is said as the script does, after `run`."""

    def __init__(self, rules: Lines, given: dict[str, tuple[str, int]]) -> None:
        super().__init__(rules)
        self.given = {made: name for name, made in given.items()}
        self.texts: list[str] = []
        # Where each message was made.
        self.makers: dict[tuple[str, int], int] = {}

    def say(self, line: str) -> None:
        """Says a line before it is played."""
        try:
            text = self.text(*line.split(" "))
            same = normal(self.line(text)) == normal(line)
        except (Unclear, BadLine, ValueError, IndexError, TypeError):
            same = False
        self.texts.append(text if same else f"run {line}")

    def played(self, line: str, printed: str) -> Optional[tuple[str, int]]:
        made = super().played(line, printed)
        if printed.startswith("refused ") and not self.texts[-1].startswith("run "):
            self.texts[-1] = f"run {line}"
        if made and not self.texts[-1].startswith("run "):
            self.makers[made] = len(self.texts) - 1
        return made

    def text(self, word: str, *words: str) -> str:
        if word in POOLS:
            return f"{word} {self.called(word, int(words[0]))}"
        if word == "beat" and words[1] == "short":
            return f"beat {words[0]}"
        if word == "release":
            topic = topic_of(words[1])
            return f"release {words[0]} {self.topics.labels.get(topic) or uuid.UUID(bytes=topic)}/{words[2]}"
        if word == "commit":
            return f"commit {words[0]} {words[1]}/{words[2]} at {words[3]}"
        if word in ("clock", "tick"):
            later = int(words[0]) - self.now()
            return f"wait {moment_text(later)}" if word == "tick" and later > 0 else f"{word} {moment_text(int(words[0]))}"
        return self.image_text(image_of(list(words))) if word == "image" else " ".join([word, *words])

    def image_text(self, after: dict[str, tuple[bytes, int]]) -> str:
        before, parts = self.image(), []
        for name, (topic, count) in after.items():
            if before.get(name) != (topic, count) or before == after:
                same = before[name][0] if name in before else made_id(self.topics.next(name)).bytes
                parts.append(f"{name}: {counted(count, 'partition')}" + (f", id {uuid.UUID(bytes=topic)}" if topic != same else ""))
        parts += [f"{name}: deleted" for name in before if name not in after]
        return ", ".join(parts) if after else "no topics"

    def called(self, word: str, number: int) -> str:
        """What a message is called: as its client, or where it isn't that one's latest, by a name that it has from a story, or
        gets where it is made."""
        pool = self.pool(word)
        sender = pool[number - 1][0] if 0 < number <= len(pool) else 0
        if sender and number == self.latest(word, sender):
            return self.rules.clients[sender - 1].name
        name = self.given.get((word, number), f"{POOLS[word]}{number}")
        if (word, number) in self.makers and name not in self.messages and not self.client(name):
            self.texts[self.makers[word, number]] += f" as {name}"
            self.messages[name] = word, number
        return name

    def acts(self) -> Iterator[str]:
        """The lines of the story's acts. What goes on about a message is in the line of the act before it."""
        acts: list[str] = []
        of, goes_on = "", ()
        for text in self.texts:
            word, *words = text.split(" ")
            if acts and word in goes_on and words[0] == of:
                acts.append(" ".join([word, *words[1:]]))
                continue
            yield from [", ".join(acts)] * bool(acts)
            acts, of = [text], "".join(words[:1])
            goes_on = ("bring",) if word == "commit" else ("deliver", "take", "lose") if word in ("join", "beat", "quit") else ()
        yield from [", ".join(acts)] * bool(acts)


def heads(clients: list[Client]) -> Iterator[str]:
    """The clients, those in one line of which the same is said."""
    said: dict[str, list[str]] = {}
    before = None
    for it in clients:
        parts = [f"group {it.group}"] + [f"static as {it.instance}"] * (it.instance is not None)
        parts += [f"assignor {it.assignor}"] * (it.assignor is not None)
        parts += [f"rebalance timeout {moment_text(it.rebalance)}"] * (it.rebalance != REBALANCE) + [f"subscribes {' '.join(it.names) or '-'}"]
        if before is not None and before != ", ".join(parts):
            yield f"{', '.join(said.pop(before))}: {before}"
        before = ", ".join(parts)
        said.setdefault(before, []).append(it.name)
    for text, names in said.items():
        yield f"{', '.join(names)}: {text}"


def normal(line: str) -> list:
    """The words of a line, where ids of topics have one form, and topics one order."""
    word, *words = line.split(" ")
    if word == "image":
        return sorted(image_of(words).items())
    return [word, *(topic_of(it) if word == "release" and at == 1 else it for at, it in enumerate(words))]
