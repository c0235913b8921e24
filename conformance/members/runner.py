"""Runs cases side by side, and gives the result of each, and of the rules that are looked at in all of them."""

from __future__ import annotations

import concurrent.futures
import time
from typing import Callable, Dict, List, NamedTuple, Sequence, Tuple

from conformance.case import FREE, MUST, SHOULD
from conformance.members.case import MemberCase, load
from conformance.members.play import Play, Settings, Stopped
from conformance.members.program import NoProgram
from conformance.members.watch import Finding, judge
from conformance.play import Failed, NotRun
from conformance.runner import FAILED, NOT_RUN, NOTED, PASSED, Result

LEVELS = {case.name: case.level for case in load() if case.is_rule}


class Ran(NamedTuple):
    """What came of a case, what the checker found in it, and whether it saw any request."""

    result: Result
    found: Sequence[Finding]
    saw: bool


def outcome(case: MemberCase, play: Play) -> Tuple[str, str, str]:
    """The status of a case, why, and how sure the standard is of that."""
    wrong = NOTED if case.level == FREE else FAILED
    try:
        case.run(play)  # type: ignore[arg-type]
    except NotRun as why:
        return NOT_RUN, str(why), case.level
    except Failed as why:
        return wrong, str(why), SHOULD if why.is_minor and case.level == MUST else case.level
    except NoProgram as why:
        return FAILED, str(why), MUST
    except Stopped:
        raise
    except Exception as why:  # pylint: disable=broad-except
        # (A client that nobody thought of: the run goes on.)
        return FAILED, f"the case broke off: {type(why).__name__}: {why}", case.level
    return (NOTED, "; ".join(play.notes), case.level) if play.notes else (PASSED, "", case.level)


def run_one(case: MemberCase, settings: Settings) -> Ran:
    began, play = time.monotonic(), Play(case.name, settings, case.is_slow)
    try:
        status, says, level = outcome(case, play)
    finally:
        play.close()
    until = play.until_when or time.monotonic()
    found = judge(play.record, play.coordinator, play.group, until, settings.assigned is not None and settings.revoked is not None)
    wrong = [it.words for it in found if LEVELS[it.rule] == MUST]
    if wrong:
        # The checker's findings come before the case's result.
        says = "; then ".join(dict.fromkeys([*wrong, *([says] if status == FAILED else [])]))
        status, level = FAILED, MUST
    elif play.record.floods() and status != FAILED:
        status, says, level = FAILED, "it floods the broker with requests", MUST
    return Ran(Result(case, status, says, level, play.story(), time.monotonic() - began), found, bool(play.record.frames))


def run(cases: Sequence[MemberCase], settings: Settings, jobs: int, tell: Callable[[Result], None]) -> List[Result]:
    """The results of the cases, and of the rules that the checker looks at. An interrupt ends all that runs, and is passed on."""
    rules = [case for case in cases if case.is_rule]
    many = [case for case in cases if not case.is_rule]
    ran: Dict[str, Ran] = {}
    with concurrent.futures.ThreadPoolExecutor(max(1, jobs)) as pool:
        try:
            # (The slow ones first.)
            futures = [pool.submit(run_one, case, settings) for case in sorted(many, key=lambda case: not case.is_slow)]
            for future in concurrent.futures.as_completed(futures):
                it = future.result()
                ran[it.result.case.name] = it
                tell(it.result)
        except BaseException:
            Stopped.asked.set()
            pool.shutdown(cancel_futures=True)
            raise
    always = [of_rule(case, [ran[it.name] for it in many]) for case in rules]
    for result in always:
        tell(result)
    return [ran[case.name].result for case in many] + always


def of_rule(case: MemberCase, ran: Sequence[Ran]) -> Result:
    """What came of a rule: failed if it was broken in any case, with the story of the first one."""
    broken = [(it, found) for it in ran for found in it.found if found.rule == case.name]
    if not any(it.saw for it in ran):
        return Result(case, NOT_RUN, "no case saw a request", case.level)
    if not broken:
        return Result(case, PASSED, "", case.level)
    first, found = broken[0]
    more = f" and {len(broken) - 1} more" if len(broken) > 1 else ""
    return Result(case, FAILED, f"{found.words} (in {first.result.case.name}{more})", case.level, first.result.story)
