"""FindCoordinator (key 10, versions 0 to 2): which broker coordinates a group."""

from __future__ import annotations

from typing import Optional

from broker import codes
from broker.call import Call
from broker.fields import int16, int32, nullable_string, string
from broker.frames import Reply

GROUP = 0
NO_NODE = int32(-1) + string("") + int32(-1)


async def answer(call: Call) -> Reply:
    fields, version = call.request.fields, call.request.version
    key = fields.string()
    kind = fields.int8() if version >= 1 else GROUP
    if kind != GROUP:
        return _reply(call, codes.INVALID_REQUEST, "there are coordinators of groups alone", NO_NODE)
    node = call.cluster.coordinator_of(key)
    if node is None:
        return _reply(call, codes.COORDINATOR_NOT_AVAILABLE, "nobody coordinates this group now", NO_NODE)
    return _reply(call, codes.NONE, None, int32(node.id) + string(node.host) + int32(node.port))


def _reply(call: Call, code: int, message: Optional[str], node: bytes) -> Reply:
    if call.request.version < 1:
        return call.request.reply(int16(code) + node)
    return call.request.reply(int32(0) + int16(code) + nullable_string(message) + node)
