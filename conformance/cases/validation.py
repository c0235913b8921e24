"""Heartbeats that have to be refused. A refusal changes nothing."""

from __future__ import annotations

from typing import Any, Dict, NamedTuple, Tuple

from conformance.broker import ASK_AGAIN
from conformance.member import Member, new_id
from conformance.play import Play
from conformance.story import code_text

NOT_COORDINATOR, INVALID_GROUP_ID, UNKNOWN_MEMBER_ID, INVALID_REQUEST, UNSUPPORTED_ASSIGNOR = 16, 24, 25, 42, 112
NO_SUCH_ASSIGNOR = "conformance-no-such-assignor"


class Row(NamedTuple):
    """A request of `kind` with some fields changed, and with which codes it may be refused. A join is another member's."""

    kind: str
    changes: Dict[str, Any]
    codes: Tuple[int, ...]


ROWS = {
    "refuse-empty-group": Row("join", {"group": ""}, (INVALID_REQUEST, INVALID_GROUP_ID, NOT_COORDINATOR)),
    "refuse-epoch-below": Row("join", {"epoch": -3}, (INVALID_REQUEST,)),
    "refuse-empty-instance": Row("join", {"instance": ""}, (INVALID_REQUEST,)),
    "refuse-join-without-names": Row("join", {"names": None, "regex": None}, (INVALID_REQUEST,)),
    "refuse-join-without-timeout": Row("join", {"timeout": -1}, (INVALID_REQUEST,)),
    "refuse-assignor": Row("join", {"assignor": NO_SUCH_ASSIGNOR}, (UNSUPPORTED_ASSIGNOR,)),
    "refuse-beat-without-id": Row("short", {"member": ""}, (INVALID_REQUEST, UNKNOWN_MEMBER_ID)),
    "refuse-leave-without-id": Row("leave", {"member": ""}, (INVALID_REQUEST, UNKNOWN_MEMBER_ID)),
    "refuse-away-without-instance": Row("away", {"instance": None}, (INVALID_REQUEST, UNKNOWN_MEMBER_ID)),
    "refuse-beat-assignor": Row("full", {"assignor": NO_SUCH_ASSIGNOR}, (UNSUPPORTED_ASSIGNOR,)),
}


def changes_nothing(play: Play, member: Member) -> None:
    epoch, owned = member.epoch, member.owned
    member.beat("full")
    member.release()
    play.want(member.epoch == epoch, f"a refused heartbeat took the group's member from epoch {epoch} to {member.epoch}")
    play.want(
        member.owned == owned,
        f"after a refused heartbeat the group's member has {play.story.partitions(member.owned)}, and had {play.story.partitions(owned)}",
    )


def refuse(play: Play) -> None:
    row = ROWS[play.case.name]
    a = play.member("a")
    a.join()
    play.settle(a)
    sender = play.member("b") if row.kind == "join" else a
    sender.id = sender.id or new_id()
    # (Who asks for the coordinator of no group may be told that it is another one.)
    sender.asks_again = [code for code in ASK_AGAIN if code not in row.codes]
    reply = sender.ask(sender.request(row.kind, **row.changes))
    play.want_code(play.case.sends, reply.code, *row.codes)
    changes_nothing(play, a)


BODIES = dict.fromkeys(ROWS, refuse)


def refuse_join_owning(play: Play) -> None:
    a, b = play.member("a"), play.member("b", id=new_id())
    a.join()
    play.settle(a)
    reply = b.ask(b.request("join", owned=play.topic().partitions()))
    play.want_code("a join that reports partitions", reply.code, INVALID_REQUEST)
    changes_nothing(play, a)


def refuse_again(play: Play) -> None:
    a = play.member("a", id=new_id())
    reply = a.tries_to_join(assignor=NO_SUCH_ASSIGNOR)
    play.want_code("a join with an assignor that there isn't", reply.code, UNSUPPORTED_ASSIGNOR)
    a.join()
    play.settle(a)


def odd_timeout(play: Play) -> None:
    for timeout in (0, -2):
        reply = play.member(f"timeout {timeout}", id=new_id(), group=play.new_group()).tries_to_join(timeout=timeout)
        play.note(f"a join with rebalance timeout {timeout} is answered with {code_text(reply.code)}")
