"""ConsumerGroupHeartbeat (key 68, versions 0 and 1): a member says that it lives and what it has, and is told what to have.

The coordinator answers these. It speaks version 0, which goes on byte for byte. Version 1 differs in one field, a regular expression over
topic names after the names, so without one it goes on as version 0. The reply is the same in both.
"""

from __future__ import annotations

from broker import codes
from broker.call import Call
from broker.fields import NO_TAGS, NULL, compact_nullable_string, int8, int16, int32
from broker.frames import Reply
from broker.heartbeats import Asked, Told, as_version_0, read_reply, read_request

NO_EPOCH, NO_INTERVAL, NO_ASSIGNMENT = int32(0), int32(0), int8(-1)


async def answer(call: Call) -> Reply:
    request = call.request
    if call.cluster.has_log and request.version == 0:
        # (The log tells the rest.)
        begin, group = request.fields.at, request.fields.compact_string()
        if call.is_coordinator_of(group):
            return [await call.link.ask(request.body, group)]
        request.fields.at = begin
    asked = await read_request(request)
    # (Null and empty both mean that there is none.)
    if asked.regex:
        return refuse(call, asked, codes.INVALID_REQUEST, "regular expressions are not supported")
    if not call.is_coordinator_of(asked.group):
        return refuse(call, asked, codes.NOT_COORDINATOR, "another broker coordinates this group")
    reply = await call.link.ask(request.body if request.version == 0 else as_version_0(request.body, asked), asked.group)
    if not call.cluster.has_log:
        call.watch.heartbeat(request.client, asked, await read_reply(reply, request.pace))
    return [reply]


def refuse(call: Call, asked: Asked, code: int, why: str) -> Reply:
    """A refusal of this broker's own."""
    call.watch.heartbeat(call.request.client, asked, Told(code))
    no_member = NULL
    fields = int32(0) + int16(code) + compact_nullable_string(why) + no_member + NO_EPOCH + NO_INTERVAL + NO_ASSIGNMENT
    return call.request.reply(fields + NO_TAGS)
