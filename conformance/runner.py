"""Runs cases, and gives the result of each. A broker that closes, is silent or ends is a failed case, and the run goes on."""

from __future__ import annotations

import dataclasses
import queue
import threading
import time
from typing import FrozenSet, Iterator, Optional, Sequence, Tuple

from conformance.broker import Broker, NoBroker, look
from conformance.case import FREE, MUST, SHOULD, Case
from conformance.connection import Lost, Silent
from conformance.play import Play, Settings, SoFar
from conformance.starter import Starter
from conformance.verdict import Failed, NotRun, StandsOn
from conformance.wire import Unreadable

PASSED, FAILED, NOTED, NOT_RUN = "passed", "failed", "noted", "not run"
# How long a broker that ends may still seem to be there.
ENDING_SECONDS = 0.1
# A broker that doesn't answer in so many cases isn't waited for any more.
MOST_UNANSWERED = 5


@dataclasses.dataclass
class Result:
    """What came of a case: its status, why in words and how sure the standard is of it, what happened, and how long it took."""

    case: Case
    status: str
    says: str = ""
    level: str = ""
    story: Sequence[str] = ()
    seconds: float = 0.0
    # The cases that it stands on.
    bases: FrozenSet[str] = frozenset()


class Runner:
    def __init__(self, starter: Starter, settings: Settings, seconds: float, version: Optional[int], topics: Optional[Sequence[str]]) -> None:
        self.starter, self.settings = starter, settings
        self.seconds, self.version, self.topics = seconds, version, topics
        self.so_far = SoFar()
        # In how many cases, one after the other, the broker hasn't answered.
        self.unanswered = 0
        self._broker: Optional[Broker] = None

    def look(self) -> Broker:
        """The broker as it is now. Raises NoBroker."""
        address = self.starter.address()
        if self._broker is None or self._broker.address != address:
            self._broker = look(address, self.seconds, self.version, self.topics)
        return self._broker

    def run(self, cases: Sequence[Case]) -> Iterator[Result]:
        """The fast cases one after the other, and the slow ones, which wait most of the time, all at once."""
        for case in cases:
            if not case.is_slow:
                yield self.run_one(case)
        # What makes partitions comes last and alone.
        alone = [case for case in cases if case.name == "grow"]
        yield from self.run_side_by_side([case for case in cases if case.is_slow and case not in alone])
        for case in alone:
            yield self.run_one(case)

    def run_side_by_side(self, cases: Sequence[Case]) -> Iterator[Result]:
        """If the broker ended meanwhile, those that failed are run once more, each alone."""
        found: queue.Queue[Result] = queue.Queue()
        for case in cases:
            # (Nobody waits for these when the run is broken off.)
            threading.Thread(target=lambda case: found.put(self.run_one(case, restarts=False)), args=(case,), daemon=True).start()
        failed = []
        for _ in cases:
            result = found.get()
            if result.status == FAILED:
                failed.append(result)
            else:
                yield result
        has_ended = bool(failed) and self.starter.has_ended()
        for result in failed:
            yield self.run_one(result.case) if has_ended else self.on_base(result)

    def on_base(self, result: Result) -> Result:
        """A case that failed, or wasn't run, since one failed on which it stands."""
        base = min(result.bases & self.so_far.failed - {result.case.name}, default=None)
        return dataclasses.replace(result, status=NOT_RUN, says=f"stands on {base}", story=()) if base else result

    def run_one(self, case: Case, restarts: bool = True) -> Result:
        if self.unanswered >= MOST_UNANSWERED:
            return Result(case, NOT_RUN, f"the broker hasn't answered in {MOST_UNANSWERED} cases one after the other, and isn't asked any more")
        try:
            broker = self.look()
        except NoBroker as why:
            self.unanswered += 1
            return Result(case, NOTED if case.level == FREE else FAILED, f"the broker can't be asked: {why}", case.level)
        began = time.monotonic()
        play = Play(case, broker, self.settings, self.so_far)
        status, says, level, is_silent = outcome(case, play)
        self.unanswered = self.unanswered + 1 if is_silent else 0
        play.close(leaves=not is_silent)
        if status in (FAILED, NOTED):
            self._broker = None
            time.sleep(ENDING_SECONDS)
        if restarts and status != NOT_RUN and self.starter.has_ended():
            status, level = self.ended(case)
            says = f"{self.starter.why()}: {says}" if says else self.starter.why()
        if status == FAILED:
            self.so_far.failed.add(case.name)
        return Result(case, status, says, level, play.story.shown(), time.monotonic() - began, frozenset(play.bases))

    def ended(self, case: Case) -> Tuple[str, str]:
        """Whatever the answer may be, a broker goes on. (After a free case the last one tells.)"""
        if case.level == FREE:
            self.so_far.ended.append(case.name)
            return NOTED, FREE
        return FAILED, MUST


def outcome(case: Case, play: Play) -> Tuple[str, str, str, bool]:
    """The status of a case, why, how sure the standard is of that, and whether nothing came from the broker."""
    status, says, level = NOTED if case.level == FREE else FAILED, "", case.level
    is_silent = False
    try:
        case.run(play)
        play.judge()
        return (NOTED, "; ".join(play.notes), level, False) if play.notes else (PASSED, "", level, False)
    except NotRun as why:
        # (What the checker saw, it saw in the case on which this one stands, too.)
        if not play.faults() or isinstance(why, StandsOn):
            return NOT_RUN, str(why), level, False
    except Failed as why:
        says = str(why)
        level = SHOULD if why.is_minor and level == MUST else level
    except Lost as why:
        says, is_silent = str(why), isinstance(why, Silent)
    except Unreadable as why:
        says = f"a reply can't be read: {why}"
    except Exception as why:  # pylint: disable=broad-except
        # (A reply that nobody thought of: the run goes on.)
        says = f"the case broke off: {type(why).__name__}: {why}"
    # The checker's findings come before the case's result, and no broker may break its rules.
    faults = play.faults()
    level = MUST if faults and case.level != FREE else level
    return status, "; then ".join(dict.fromkeys([*faults, *[says] * bool(says)])), level, is_silent
