"""Members that leave for good: member epoch -1."""

from __future__ import annotations

from conformance.cases.heartbeats import UNKNOWN_MEMBER_ID, settled_pair
from conformance.member import new_id
from conformance.messages import LEAVE
from conformance.play import Play


def leave_reply(play: Play) -> None:
    a = play.member("a")
    a.join()
    reply = a.leave()
    play.want(reply.epoch == LEAVE, f"the reply to the leave has member epoch {reply.epoch}")


def leave_frees(play: Play) -> None:
    a, b = settled_pair(play)
    epoch = a.epoch
    b.leave()
    play.settle(a)
    play.want(a.epoch > epoch, f"after the leave the member is at epoch {a.epoch}, and was at {epoch} before")


def leave_ends_membership(play: Play) -> None:
    a, b = settled_pair(play)
    epoch, owned = b.epoch, b.owned
    b.leave()
    reply = b.ask(b.request("full", epoch=epoch, owned=owned))
    play.want_code("a heartbeat after the leave", reply.code, UNKNOWN_MEMBER_ID)
    play.settle(a)


def leave_twice(play: Play) -> None:
    a, b = settled_pair(play)
    b.leave()
    reply = b.ask(b.request("leave"))
    play.want_code("the second leave", reply.code, UNKNOWN_MEMBER_ID)
    play.settle(a)


def leave_unknown(play: Play) -> None:
    a = play.member("a")
    a.join()
    play.settle(a)
    nobody = play.member("nobody", id=new_id())
    reply = nobody.ask(nobody.request("leave"))
    play.want_refused("the leave of nobody", reply.code)
    play.settle(a)


def leave_while_revoking(play: Play) -> None:
    a, b = play.member("a"), play.member("b")
    a.join()
    play.settle(a)
    b.join()
    a.beat()
    a.leave()
    play.settle(b)


def leave_and_join(play: Play) -> None:
    a, b = play.member("a", id=new_id()), play.member("b")
    a.join()
    b.join()
    play.settle(a, b)
    epoch = a.epoch
    a.leave()
    a.join()
    play.settle(a, b)
    play.want(a.epoch > epoch, f"it joins again at epoch {a.epoch}, and was at {epoch} before")


def last_leaves(play: Play) -> None:
    a, b = play.member("a"), play.member("b")
    a.join()
    play.settle(a)
    a.leave()
    b.join()
    play.settle(b)


def last_leaves_epoch(play: Play) -> None:
    a = play.member("a", id=new_id())
    a.join()
    play.settle(a)
    epoch = a.epoch
    a.leave()
    a.join()
    play.settle(a)
    play.want(a.epoch > epoch, f"it joins again at epoch {a.epoch}, and was at {epoch} before")
