"""Requests and replies of the two APIs, as values and as frames."""

from .codes import TEXTS
from .fields import INT16, INT32, INT64, NULLABLE, TEXT, UUID, Reader, Unreadable, array, by_topic, optional, put_int, put_text, struct

# The fields after the header, in their order. An entry has a topic's id and indexes.
ENTRY = struct(UUID, array(INT32))
HEARTBEAT = {
    **{"group": TEXT, "member": TEXT, "epoch": INT32, "instance": NULLABLE, "rack": NULLABLE, "timeout": INT32},
    **{"names": array(TEXT, True), "assignor": NULLABLE, "owned": array(ENTRY, True)},
}
PARTS = array(struct(INT32, INT64, INT32, NULLABLE))
COMMIT = {"group": TEXT, "epoch": INT32, "member": TEXT, "instance": NULLABLE, "topics": array(struct(TEXT, PARTS))}
HEARTBEAT_REPLY = {
    **{"throttle": INT32, "code": INT16, "message": NULLABLE, "member": NULLABLE, "epoch": INT32, "interval": INT32},
    "assignment": optional(struct(array(ENTRY))),
}
COMMIT_REPLY = {"throttle": INT32, "topics": array(struct(TEXT, array(struct(INT32, INT16))))}


class Request:
    """A request, whose fields are attributes."""

    def frame(self):
        body = put_int(self.key, 2) + put_int(self.version, 2) + put_int(self.correlation, 4) + put_int(-1, 2) + b"\0"
        return framed(body + b"".join([kind.put(self.written(name)) for name, kind in self.fields.items()]) + b"\0")

    def written(self, name):
        return getattr(self, name)


class Heartbeat(Request):
    """What is owned is None, a set of partitions (topic id, index), or a list of the entries (topic id, indexes) that are written."""

    key, version, fields = 68, 0, HEARTBEAT

    def __init__(self, group, member="", epoch=0, instance=None, rack=None, timeout=-1, names=None, assignor=None, owned=None, correlation=7):
        self.group, self.member, self.epoch, self.instance, self.rack = group, member, epoch, instance, rack
        self.timeout, self.names, self.assignor, self.owned, self.correlation = timeout, names, assignor, owned, correlation

    def written(self, name):
        value = getattr(self, name)
        return by_topic(value) if isinstance(value, (set, frozenset)) else value


class Commit(Request):
    """Offsets to be stored: for each topic's name a list of (index, offset, leader epoch, metadata)."""

    key, version, fields = 8, 9, COMMIT

    def __init__(self, group, member="", epoch=0, topics=(), instance=None, correlation=8):
        self.group, self.member, self.epoch, self.topics = group, member, epoch, topics
        self.instance, self.correlation = instance, correlation


REQUESTS = {it.key: it for it in (Heartbeat, Commit)}


def framed(body):
    return put_int(len(body), 4) + body


def partitions(entries):
    return None if entries is None else {(topic, index) for topic, indexes in entries for index in indexes}


def read_fields(reader, fields):
    """The values of fields by their names, with which the message ends."""
    values = {name: kind.read(reader) for name, kind in fields.items()}
    reader.tags()
    if reader.at != len(reader.data):
        raise Unreadable
    return values


def read_request(body):
    """The heartbeat or the commit that a body is."""
    reader = Reader(body)
    key, version, correlation = reader.int(2), reader.int(2), reader.int(4)
    if key not in REQUESTS or version != REQUESTS[key].version:
        raise Unreadable
    reader.old_text()
    reader.tags()
    values = read_fields(reader, REQUESTS[key].fields)
    if key == Heartbeat.key:
        values["owned"] = partitions(values["owned"])
    return REQUESTS[key](**values, correlation=correlation)


def reply_frame(correlation, code, member=None, epoch=0, interval=0, assignment=None):
    body = put_int(correlation, 4) + b"\0" + put_int(0, 4) + put_int(code, 2) + put_text(TEXTS.get(code))
    body += put_text(member) + put_int(epoch, 4) + put_int(interval, 4)
    return framed(body + HEARTBEAT_REPLY["assignment"].put(None if assignment is None else [by_topic(assignment)]) + b"\0")


def commit_frame(correlation, topics):
    """The reply to a commit: for each topic's name a list of (index, code)."""
    return framed(put_int(correlation, 4) + b"\0" + put_int(0, 4) + COMMIT_REPLY["topics"].put(topics) + b"\0")


def read_reply(body, fields):
    """The correlation id of a reply, and the values of its fields."""
    reader = Reader(body)
    correlation = reader.int(4)
    reader.tags()
    return correlation, read_fields(reader, fields)


def read_heartbeat_reply(body):
    """Correlation id, code, member id, member epoch, and the assignment as a set or None."""
    correlation, it = read_reply(body, HEARTBEAT_REPLY)
    return correlation, it["code"], it["member"], it["epoch"], partitions(it["assignment"] and it["assignment"][0])


def read_commit_reply(body):
    """The codes of a commit's partitions, in order."""
    return [code for _, parts in read_reply(body, COMMIT_REPLY)[1]["topics"] for _, code in parts]
