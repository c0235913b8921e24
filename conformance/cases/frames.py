"""Frames: their order, their headers, tagged fields, and bytes that are no request."""

from __future__ import annotations

import dataclasses
import time
from typing import Callable, Dict, Optional

from conformance.broker import ASK_AGAIN
from conformance.case import FREE
from conformance.cases.heartbeats import NO_SUCH_TOPIC
from conformance.connection import Closed, Connection, Lost
from conformance.member import ALONE, Member, new_id
from conformance.messages import (
    API_VERSIONS,
    CLIENT,
    HEARTBEAT,
    METADATA,
    NOTHING,
    Told,
    api_versions_fields,
    framed,
    header,
    metadata_fields,
    read_api_versions_reply,
    read_heartbeat_reply,
    read_metadata_reply,
    reply_fields,
)
from conformance.play import Play
from conformance.story import code_text
from conformance.verdict import NotRun
from conformance.wire import NO_TAGS, Unreadable, array, int8, int16, int32, tags, text, varint

UNSUPPORTED_VERSION = 35
NO_SUCH_TAG, NO_SUCH_KEY = 4_711, 9_999
CORRELATION = 77


# ---- frames that are right


def head(play: Play, correlation: int = CORRELATION, **changes: object) -> bytes:
    return header(HEARTBEAT, play.version, correlation, **changes)  # type: ignore[arg-type]


def receive(play: Play, connection: Connection, correlation: int = CORRELATION) -> Told:
    """The next reply, which has to be to that request."""
    found, fields = reply_fields(HEARTBEAT, play.version, connection.receive())
    play.want(found == correlation, f"the reply has correlation id {found}, and the request had {correlation}")
    return read_heartbeat_reply(fields)


def sends(play: Play, member: Member, frame: bytes, what: str) -> Told:
    """The member sends a frame of its own making, which is accepted."""
    play.stands_on(ALONE)
    play.story.say(f"{member.name} -> {what}: {frame[:80].hex()}{'..' if len(frame) > 80 else ''}")
    member.may_be_in = True

    def ask() -> Told:
        member.connection.send(frame)
        return receive(play, member.connection)

    reply: Told = member.asks(ask, lambda told: told.code)
    play.story.told(member.name, reply, False)
    play.want_code(what, reply.code, 0)
    member.ids.add(reply.member or member.id)
    return reply


def joiner(play: Play) -> Member:
    return play.member("a", id=new_id())


def frame_correlation(play: Play) -> None:
    a = joiner(play)
    a.join()
    for correlation in (0, -1, -(1 << 31), (1 << 31) - 1):
        request = a.request("short")
        a.connection.send(framed(head(play, correlation) + request.fields(play.version)))
        a.take(receive(play, a.connection, correlation))


def frame_order(play: Play) -> None:
    a = joiner(play)
    a.join()
    a.turn()
    frames = [framed(head(play, number) + a.request("short").fields(play.version)) for number in range(10)]
    a.connection.send(b"".join(frames))
    for number in range(10):
        play.want_code("a heartbeat of ten", receive(play, a.connection, number).code, 0, *ASK_AGAIN)


def frame_order_apis(play: Play) -> None:
    a = joiner(play)
    a.join()
    metadata = play.broker.version(METADATA)
    assert metadata is not None
    beat = framed(head(play, 1) + a.request("short").fields(play.version))
    asked = framed(header(METADATA, metadata, 2) + metadata_fields(metadata))
    versions = framed(header(API_VERSIONS, 0, 3) + api_versions_fields(0))
    a.connection.send(beat + asked + versions + beat)
    found = [int.from_bytes(a.connection.receive()[:4], "big", signed=True) for _ in range(4)]
    play.want(found == [1, 2, 3, 1], f"requests 1, 2, 3 and 1 are answered in the order {found}")


def frame_in_pieces(play: Play) -> None:
    play.stands_on(ALONE)
    a = joiner(play)
    frame = framed(head(play) + a.request("join").fields(play.version))
    for at in range(len(frame) - 1):
        a.connection.send(frame[at : at + 1])
        time.sleep(0.0005)
    a.connection.send(frame[-1:])
    a.may_be_in = True
    play.want_code("a join that is sent byte by byte", receive(play, a.connection).code, 0, *ASK_AGAIN)


def frame_client_id(play: Play) -> None:
    a = joiner(play)
    for client in (None, "", "c" * 300, CLIENT):
        frame = framed(head(play, client=client) + a.request("join").fields(play.version))
        sends(play, a, frame, f"a join with client id {client and client[:8]!r}")


def frame_group_characters(play: Play) -> None:
    a = play.member("a", group=play.new_group() + " \u00e9\u65e5\u672c \U0001f600")
    a.join()
    play.settle(a)


def tags_in_header(play: Play) -> None:
    a = joiner(play)
    sends(
        play,
        a,
        framed(head(play, extra={NO_SUCH_TAG: b"value"}) + a.request("join").fields(play.version)),
        "a join with a tagged field in the header",
    )


def tags_in_body(play: Play) -> None:
    a = joiner(play)
    extra = {NO_SUCH_TAG: b"", NO_SUCH_TAG + 1: b"v" * 200}
    sends(play, a, framed(head(play) + a.request("join").fields(play.version, extra)), "a join with tagged fields")


def tags_in_partitions(play: Play) -> None:
    a = joiner(play)
    a.join()
    play.settle(a)
    frame = framed(head(play) + a.request("full").fields(play.version, None, tags(True, {NO_SUCH_TAG: b"value"})))
    reply = sends(play, a, frame, "a full heartbeat with a tagged field in TopicPartitions")
    play.want(
        reply.epoch == a.epoch and reply.assignment in (None, a.owned),
        f"it is answered with epoch {reply.epoch} and assignment {play.story.partitions(reply.assignment or NOTHING)}",
    )


def partitions_in_any_order(play: Play) -> None:
    a = joiner(play)
    a.join()
    play.settle(a)
    plain = a.request("full").fields(play.version)
    entries = array(topic + array([int32(index)]) + NO_TAGS for topic, index in sorted(a.owned, reverse=True))
    whole = dataclasses.replace(a.request("full"), owned=NOTHING).fields(play.version)
    # The field stands before the tagged fields, which are one byte here; an empty list is one byte too.
    play.want(len(whole) < len(plain), "the member owns nothing")
    epoch = a.epoch
    reply = sends(play, a, framed(head(play) + whole[:-2] + entries + NO_TAGS), "a report with an entry for each partition")
    play.want(reply.epoch == epoch and reply.assignment in (None, a.owned), f"it is answered with epoch {reply.epoch}")


def api_versions_later(play: Play) -> None:
    connection = play.connect()
    connection.send(framed(int16(API_VERSIONS) + int16(32_000) + int32(CORRELATION) + text(CLIENT, False) + NO_TAGS + api_versions_fields(3)))
    correlation, fields = reply_fields(API_VERSIONS, 0, connection.receive())
    code, offered = read_api_versions_reply(fields, 0)
    play.want(correlation == CORRELATION, f"the reply has correlation id {correlation}")
    play.want_code("ApiVersions in version 32,000", code, UNSUPPORTED_VERSION)
    play.want(not offered or API_VERSIONS in offered, "the reply lists APIs, and not ApiVersions")


def api_versions_3(play: Play) -> None:
    if 3 not in play.broker.versions(API_VERSIONS):
        raise NotRun("the broker offers no ApiVersions of version 3")
    fields = play.connect().ask(API_VERSIONS, 3, api_versions_fields(3))
    code, offered = read_api_versions_reply(fields, 3)
    play.want_code("ApiVersions in version 3", code, 0)
    play.want(
        offered.get(HEARTBEAT) == play.broker.offered[HEARTBEAT],
        f"version 3 offers {offered.get(HEARTBEAT)} of the heartbeat, and version 0 {play.broker.offered[HEARTBEAT]}",
    )


def topic_ids(play: Play) -> None:
    version = play.broker.version(METADATA)
    assert version is not None
    topic = play.topic()
    found = read_metadata_reply(play.connect().ask(METADATA, version, metadata_fields(version, [topic.name])), version).topics
    play.want([each.id for each in found] == [topic.id], f"Metadata gives {topic.name} other ids from one time to the next")
    a = joiner(play)
    a.join()
    play.settle(a)


def frame_long_names(play: Play) -> None:
    group, base = play.new_group().ljust(240, "g"), new_id().ljust(239, "m")
    members = [play.member(name, group=group, id=base + name, instance=name.rjust(240, "i")) for name in "ab"]
    for member in members:
        member.join(rack="r" * 240)
        play.want(member.id == base + member.name, f"the join under an id of 240 characters is answered with one of {len(member.id)}")
    play.settle(*members)


def frame_many_subscriptions(play: Play) -> None:
    names = [f"{NO_SUCH_TOPIC}-{number}" for number in range(2_000)]
    a = play.member("a", names=[play.topic().name, *names])
    a.join()
    play.settle(a)


# ---- frames that are wrong


def without_group(play: Play, body: bytes) -> bytes:
    """The same with null in place of the group's id."""
    at = len(head(play))
    size = body[at]
    return framed(body[:at] + b"\0" + body[at + size :])


def instead_of_group(play: Play, body: bytes, field: bytes) -> bytes:
    at = len(head(play))
    return framed(body[:at] + field + body[at + body[at] :])


def with_version(play: Play, body: bytes, version: int) -> bytes:
    return framed(body[:2] + int16(version) + body[4:])


def many_names(play: Play) -> bytes:
    body = text(play.new_group()) + text(new_id()) + int32(0) + text(None) + text(None) + int32(60_000) + varint(2_000_000_000)
    return framed(head(play) + body + int8(2))


def fate(play: Play, connection: Connection) -> Optional[int]:
    """The code of the reply, or None where the connection is closed in place of one."""
    try:
        body = connection.receive()
    except Closed:
        play.story.say("the connection is closed")
        return None
    try:
        code = read_heartbeat_reply(reply_fields(HEARTBEAT, play.version, body)[1]).code
    except Unreadable:
        # The layout of an error for such a request is open; that of an ApiVersions reply begins with the code.
        code = int.from_bytes(body[5:7], "big", signed=True) or UNSUPPORTED_VERSION
    play.story.say(f"it is answered with {code_text(code)}")
    return code


# Bytes that are no request, made of the whole body of a right one.
WRONG: Dict[str, Callable[[Play, bytes], bytes]] = {
    "frame-cut-short": lambda _, body: framed(body[: len(body) // 2]),
    "frame-without-end": lambda _, body: framed(body[:-1]),
    "frame-null-group": without_group,
    "frame-long-group": lambda play, body: instead_of_group(play, body, varint(30_000)),
    "frame-long-varint": lambda play, body: instead_of_group(play, body, b"\x80" * 10 + b"\1"),
    "frame-many-names": lambda play, _: many_names(play),
    "frame-many-tags": lambda _, body: framed(body[:-1] + varint(2_000_000_000)),
    "frame-long-tag": lambda _, body: framed(body[:-1] + varint(1) + varint(3) + varint(1_000_000)),
    "frame-negative-size": lambda _, body: int32(-1) + body,
    "frame-unknown-api": lambda _, body: framed(int16(NO_SUCH_KEY) + body[2:]),
    "frame-unknown-version": lambda play, body: with_version(play, body, 32_000),
    "frame-no-utf-8": lambda play, body: instead_of_group(play, body, varint(5) + b"ab\xff\xfe"),
    "frame-bytes-left": lambda _, body: framed(body + b"abc"),
    "tags-out-of-order": lambda _, body: framed(body[:-1] + varint(2) + (varint(9) + varint(0)) + (varint(8) + varint(0))),
}


def wrong(play: Play) -> None:
    a = play.member("other")
    a.join()
    play.settle(a)
    sender, sends = joiner(play), play.case.sends
    sender.may_be_in = True
    frame = WRONG[play.case.name](play, head(play) + sender.request("join").fields(play.version))
    play.story.say(f"sends {sends}: {frame.hex()}")
    connection = play.connect(play.broker.coordinator_of(play.group))
    connection.send(frame)
    code = fate(play, connection)
    if play.case.level == FREE:
        play.note(f"{sends}: {'the connection is closed' if code is None else code_text(code)}")
    else:
        play.want(code != 0, f"{sends}: it is accepted")
    a.turn()


BODIES = dict.fromkeys(WRONG, wrong)


def frame_huge(play: Play) -> None:
    a = joiner(play)
    a.join()
    connection = play.connect(play.broker.coordinator_of(play.group))
    connection.send(int32(2_000_000_000) + head(play))
    try:
        connection.receive()
        play.fail("it is answered")
    except Closed:
        play.story.say("the connection is closed")
    except Lost:
        play.fail("the broker waits for two thousand million bytes")
    a.turn()


def frame_abandoned(play: Play) -> None:
    a = joiner(play)
    a.join()
    play.settle(a)
    epoch = a.epoch
    address = play.broker.coordinator_of(play.group)
    play.connect(address)
    cut = play.connect(address)
    cut.send(framed(head(play) + a.request("leave").fields(play.version))[:-5])
    cut.close()
    a.turn()
    play.want(a.epoch == epoch, f"it gets from epoch {epoch} to {a.epoch}")


def connection_change(play: Play) -> None:
    a = joiner(play)
    a.join()
    play.settle(a)
    epoch, owned = a.epoch, a.owned
    for _ in range(3):
        a.reconnect()
        a.turn()
    a.beat("full")
    play.want((a.epoch, a.owned) == (epoch, owned), f"over a new connection it is at epoch {a.epoch} with {play.story.partitions(a.owned)}")


def late_request(play: Play) -> None:
    play.topic(0, partitions=2)
    a = joiner(play)
    a.join()
    play.settle(a)
    late = framed(head(play) + a.request("owned", owned=NOTHING).fields(play.version))
    former = a.connection
    a.connects(play.broker.coordinator_of(a.group))
    a.turn()
    former.send(late)
    code = fate(play, former)
    play.note("a late report on a former connection is " + ("not answered" if code is None else f"answered with {code_text(code)}"))


def late_request_stale(play: Play) -> None:
    play.topic(0, partitions=3)
    a = joiner(play)
    a.join()
    play.settle(a)
    late = framed(head(play) + a.request("owned", owned=NOTHING).fields(play.version))
    former = a.connection
    a.connects(play.broker.coordinator_of(a.group))
    for name in "bc":
        play.member(name).join()
        play.settle()
    had = {member.name: member.owned for member in play.members}
    former.send(late)
    play.want(fate(play, former) != 0, "the late report is accepted")
    for member in play.members:
        member.turn()
        play.want(member.owned == had[member.name], f"after it {member.name} has {play.story.partitions(member.owned)}")


def late_leave(play: Play) -> None:
    a = joiner(play)
    a.join()
    play.settle(a)
    late = framed(head(play) + a.request("leave").fields(play.version))
    former = a.connection
    a.connects(play.broker.coordinator_of(a.group))
    a.join()
    former.send(late)
    code = fate(play, former)
    told = "not answered" if code is None else f"answered with {code_text(code)}"
    play.note(f"the late leave is {told}, and the next heartbeat with {code_text(a.tries().code)}")
