"""ApiVersions (key 18, versions 0 to 3): which APIs and versions are spoken here. A client's first request."""

from __future__ import annotations

from broker import codes
from broker.call import Call
from broker.fields import NO_TAGS, array, compact_array, int16, int32
from broker.frames import Reply
from broker.versions import SPOKEN

NO_THROTTLE = int32(0)
FLEXIBLE = 3


async def answer(call: Call) -> Reply:
    request, version = call.request, call.request.version
    rows = [int16(key) + int16(spoken.lowest) + int16(spoken.highest) for key, spoken in sorted(SPOKEN.items())]
    if not SPOKEN[request.key].has(version):
        # In the layout of version 0, which every client can read.
        return request.reply(int16(codes.UNSUPPORTED_VERSION) + array(rows))
    if version >= FLEXIBLE:
        _software_name, _software_version = request.fields.compact_string(), request.fields.compact_string()
        request.fields.tags()
    if version >= FLEXIBLE:
        return request.reply(int16(codes.NONE) + compact_array(row + NO_TAGS for row in rows) + NO_THROTTLE + NO_TAGS)
    return request.reply(int16(codes.NONE) + array(rows) + (NO_THROTTLE if version >= 1 else b""))
