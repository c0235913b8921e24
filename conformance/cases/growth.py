"""New partitions of a topic, where the broker can be told of them: `--grow COMMAND`, which has the topic's name in TOPIC.

This comes last: the topic isn't as it was.
"""

from __future__ import annotations

import os
import subprocess
from typing import Set

from conformance.messages import Partition
from conformance.play import Play
from conformance.verdict import NotRun

GROW_SECONDS = 60


def add_partitions(play: Play) -> None:
    command = play.settings.grow
    if command is None:
        raise NotRun("it needs --grow COMMAND, which adds partitions to the first topic")
    play.story.say(f"-- {command}")
    try:
        topic = {**os.environ, "TOPIC": play.topic().name}
        subprocess.run(
            command,
            shell=True,
            check=True,
            env=topic,
            stdin=subprocess.DEVNULL,
            stdout=subprocess.DEVNULL,
            stderr=subprocess.DEVNULL,
            timeout=GROW_SECONDS,
        )
    except (OSError, subprocess.SubprocessError) as why:
        raise NotRun(f"--grow: {why}") from None


def grow(play: Play) -> None:
    if play.settings.grow is None:
        raise NotRun("it needs --grow COMMAND, which adds partitions to the first topic")
    a, b = play.member("a"), play.member("b")
    a.join()
    b.join()
    play.until("both have what they are assigned", lambda: bool(a.owned) and bool(b.owned) and play.are_steady([a, b]), a, b)
    before: Set[Partition] = set(a.owned | b.owned)
    epoch = a.epoch
    add_partitions(play)
    play.until("more partitions are assigned", lambda: len(a.owned | b.owned) > len(before) and play.are_steady([a, b]), a, b)
    play.want(before <= a.owned | b.owned, "partitions that were assigned before aren't any more")
    play.want(a.epoch > epoch, f"both stay at epoch {epoch}")
