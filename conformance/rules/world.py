"""One coordinator, its clients, and every message that was ever sent between them.

A message never leaves its pool, so it may be delivered never, once or many times, in any order.
"""

from .client import GREATEST_NUMBER, INSIDE
from .group import AWAY
from .limits import GREATEST_EPOCH, LARGEST_BODY
from .messages import read_commit_reply, read_heartbeat_reply
from .node import Node

NO_SUCH_CLIENT, NO_SUCH_MESSAGE, WRONG_STATE, TOO_LARGE, FORGOTTEN = 1, 2, 3, 5, 6
ROUNDS = 3


class Refused(Exception):
    """An act that can't be. It changes nothing, but for a settling that is broken off."""

    def __init__(self, fault):
        self.fault = fault


class World:
    """Clients and messages are numbered from 1."""

    def __init__(self, clients):
        self.node, self.clock, self.clients = Node(), 0, clients
        # Requests as (client's number, heartbeat, frame), replies as (client's number, body), commits as frames.
        self.requests, self.replies, self.commits = [], [], []

    def client(self, number):
        return numbered(self.clients, number, NO_SUCH_CLIENT)

    # -- clients

    def ask(self, number, kind):
        """A client sends a heartbeat: join, short, owned, full, leave or away. Gives the request's number."""
        client = self.client(number)
        if not client.may_ask(kind):
            raise Refused(WRONG_STATE)
        request = client.heartbeat(kind)
        frame = sendable(request)
        client.has_asked(kind)
        self.requests.append((number, request, frame))
        return len(self.requests)

    def give_up(self, number):
        client = self.client(number)
        if not client.waits:
            raise Refused(WRONG_STATE)
        client.give_up()
        return client.state()

    def release(self, number, partition):
        client = self.client(number)
        if not client.may_release():
            raise Refused(WRONG_STATE)
        client.release(partition)
        return client.state()

    def commit(self, number, name, index, offset):
        """A client makes a commit, under its member epoch. Gives the commit's number."""
        client, made = self.client(number), len(self.commits) + 1
        if client.place != INSIDE or made > GREATEST_NUMBER:
            raise Refused(WRONG_STATE)
        self.commits.append(sendable(client.commit(made, name, index, offset)))
        return made

    # -- messages

    def deliver(self, number):
        """The coordinator is given a request: the reply's number, code, epoch and assignment, or None where it closes."""
        sender, request, frame = numbered(self.requests, number, NO_SUCH_MESSAGE)
        if request.epoch == 0 and request.member and not self.node.remembers(request.group, request.member):
            raise Refused(FORGOTTEN)
        answer = self.node.answer(frame, (sender, request.correlation), self.clock)
        if answer is None:
            return None
        self.replies.append((sender, answer[4:]))
        _, code, _, epoch, assignment = read_heartbeat_reply(answer[4:])
        return len(self.replies), code, epoch, assignment

    def take(self, number):
        """The client whose request a reply answers is given it: the client's state, or None where it ignores it."""
        taker, body = numbered(self.replies, number, NO_SUCH_MESSAGE)
        client = self.clients[taker - 1]
        return client.state() if client.take(*read_heartbeat_reply(body)) else None

    def bring(self, number):
        """The coordinator is given a commit: the code of its partition."""
        frame = numbered(self.commits, number, NO_SUCH_MESSAGE)
        answer = self.node.answer(frame, (0, 0), self.clock)
        return read_commit_reply(answer[4:])[0]

    # -- time

    def tick(self, moment):
        self.clock = moment
        return self.node.tick(moment)

    # -- rounds in which no message is lost

    def settle(self):
        if not self.can_settle():
            raise Refused(WRONG_STATE)
        for _ in range(ROUNDS):
            for number in range(1, len(self.clients) + 1):
                self.turn(number)

    def turn(self, number):
        """A client's full heartbeat, its reply, and the release of all that isn't shown."""
        reply = self.deliver(self.ask(number, "full"))
        self.take(reply[0])
        client = self.clients[number - 1]
        for partition in client.own - client.shown:
            client.release(partition)

    def can_settle(self):
        groups = self.node.groups
        ids = {(client.group, client.id) for client in self.clients}
        records = [(name, member, record) for name, group in groups.items() for member, record in group.records.items()]
        return (
            all(self.is_ready(client) for client in self.clients)
            and all((name, member) in ids and record.epoch != AWAY for name, member, record in records)
            and all(group.epoch < GREATEST_EPOCH for group in groups.values())
        )

    def is_ready(self, client):
        """It is a member that doesn't wait, and its epoch is its record's, or the one before."""
        group = self.node.groups.get(client.group)
        record = group.records.get(client.id) if group else None
        if client.place != INSIDE or client.waits or record is None:
            return False
        return client.epoch in (record.epoch, record.previous) and client.number + ROUNDS <= GREATEST_NUMBER


def numbered(items, number, fault):
    """What has a number, from 1."""
    if not 1 <= number <= len(items):
        raise Refused(fault)
    return items[number - 1]


def sendable(request):
    """The frame of a request, where it isn't too large."""
    frame = request.frame()
    if len(frame) - 4 > LARGEST_BODY:
        raise Refused(TOO_LARGE)
    return frame
