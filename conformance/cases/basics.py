"""What most cases begin with: if one of these fails, the cases that stand on it aren't run."""

from __future__ import annotations

from conformance.play import Play


def join_alone(play: Play) -> None:
    a = play.member("a")
    a.join()
    play.settle(a)


def beat_short(play: Play) -> None:
    a = play.member("a")
    a.join()
    play.settle(a)
    epoch, owned = a.epoch, a.owned
    for _ in range(5):
        a.turn()
    play.want(
        (a.epoch, a.owned) == (epoch, owned),
        f"short heartbeats take it from epoch {epoch} to {a.epoch}, with {play.story.partitions(a.owned)}",
    )


def join_raises_epoch(play: Play) -> None:
    a, b = play.member("a"), play.member("b")
    a.join()
    play.settle(a)
    before = a.epoch
    b.join()
    play.settle(a, b)
    play.want(a.epoch > before, f"after the second join the first member is at epoch {a.epoch}, and was at {before} before")
