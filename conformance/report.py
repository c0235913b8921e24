"""What came of a run: for people, as JSON, and as JUnit's XML."""

from __future__ import annotations

import dataclasses
import json
import pathlib
import re
import xml.etree.ElementTree as ElementTree
from typing import Any, Dict, FrozenSet, List, Sequence

from conformance.broker import Broker
from conformance.case import FREE, MUST, SHOULD
from conformance.messages import HEARTBEAT
from conformance.runner import FAILED, NOT_RUN, NOTED, PASSED, Result

STATUSES = (PASSED, FAILED, NOTED, NOT_RUN)
STANDS_ON = "stands on "
# What failures of one cause don't share: partitions, numbers and ids, and the members' names.
OWN = re.compile(r"\w+\[[^]]*\]|[0-9a-f-]*\d[0-9a-f-]*|\b([a-z]|m\d+|heir)\b|: [a-z]\d* is at .*")
# The cases that are known to fail with the broker of this repository.
KNOWN = str(pathlib.Path(__file__).with_name("known.txt"))


@dataclasses.dataclass(frozen=True)
class Judge:
    """Which failures count: those of a level or a surer one, but for those that are known."""

    level: str = SHOULD
    known: FrozenSet[str] = frozenset()

    def counts(self, result: Result) -> bool:
        levels = (MUST, SHOULD, FREE)
        is_sure = levels.index(result.level or FREE) <= levels.index(self.level)
        return result.status == FAILED and is_sure and result.case.name not in self.known


def known_in(path: str) -> FrozenSet[str]:
    """The names of cases in a file: what each line begins with that isn't empty and doesn't begin with #."""
    lines = pathlib.Path(path).read_text(encoding="utf-8").splitlines()
    return frozenset(line.split()[0].rstrip(":") for line in lines if line.split() and not line.startswith("#"))


def head(broker: Broker) -> str:
    topics = ", ".join(f"{topic.name} ({topic.count})" for topic in broker.topics[:4])
    more = f" and {len(broker.topics) - 4} more" if len(broker.topics) > 4 else ""
    return f"{broker.address[0]}:{broker.address[1]}  heartbeat version {broker.version(HEARTBEAT)}  topics {topics}{more}"


def counts(results: Sequence[Result]) -> str:
    return ", ".join(f"{sum(result.status == status for result in results)} {status}" for status in STATUSES)


def by_topic(results: Sequence[Result]) -> Dict[str, List[Result]]:
    found: Dict[str, List[Result]] = {}
    for result in results:
        found.setdefault(result.case.topic, []).append(result)
    return found


def story(result: Result) -> str:
    """A failed case as a story."""
    case = result.case
    lines = [f"FAILED {case.name}  ({result.level}; {case.section})"]
    lines += [f"  {case.act:16} {case.sends}", f"  what must hold:  {case.holds}", f"  what came:       {result.says}", "  what happened:"]
    return "\n".join([*lines, *(f"    {line}" for line in result.story)])


def stories(results: Sequence[Result], judge: Judge) -> List[str]:
    """The failures, by cause: the one on which most stand first, and those that say the same with the first of them."""
    stand = {result.case.name: 0 for result in results}
    for result in results:
        if result.status == NOT_RUN and result.says.startswith(STANDS_ON):
            stand[result.says[len(STANDS_ON) :]] += 1
    causes: Dict[str, List[Result]] = {}
    failed = sorted((it for it in results if it.status == FAILED), key=lambda it: (not judge.counts(it), -stand[it.case.name]))
    for result in failed:
        causes.setdefault(OWN.sub("", result.says), []).append(result)
    lines: List[str] = []
    for first, *others in causes.values():
        lines += ["", story(first)]
        lines += [f"  {stand[first.case.name]} cases stand on it, and weren't run"] if stand[first.case.name] else []
        lines += [f"  the same came of:  {' '.join(other.case.name for other in others)}"] if others else []
        lines += [] if any(judge.counts(it) for it in (first, *others)) else ["  (This doesn't fail the run.)"]
    return lines


def text(results: Sequence[Result], seconds: float, tells_all: bool, judge: Judge) -> str:
    """The whole report. The stories of cases that passed are told where all are wanted."""
    lines = []
    for topic, some in by_topic(results).items():
        lines.append(f"{topic:16} {counts(some)}")
        shown = [result for result in some if result.status in (NOTED, NOT_RUN) and not result.says.startswith(STANDS_ON)]
        lines += [f"    {result.case.name}: {result.says}" for result in shown]
    for result in results:
        if tells_all and result.status != FAILED:
            lines += ["", f"{result.status} {result.case.name}", *(f"    {line}" for line in result.story)]
    lines += stories(results, judge)
    passes = [result.case.name for result in results if result.case.name in judge.known and result.status == PASSED]
    lines += ["", f"listed as known to fail, and passed: {' '.join(passes)}"] if passes else []
    return "\n".join([*lines, "", f"{counts(results)}  in {seconds:.1f} s"])


def as_json(broker: Broker, results: Sequence[Result], seed: int) -> str:
    cases = [
        {
            "name": result.case.name,
            "topic": result.case.topic,
            "section": result.case.section,
            "level": result.case.level,
            "status": result.status,
            "failed_level": result.level if result.status == FAILED else None,
            "says": result.says,
            "seconds": round(result.seconds, 3),
            "story": list(result.story) if result.status == FAILED else [],
        }
        for result in results
    ]
    it: Dict[str, Any] = {
        "broker": f"{broker.address[0]}:{broker.address[1]}",
        "heartbeat_version": broker.version(HEARTBEAT),
        "seed": seed,
        "topics": {topic.name: topic.count for topic in broker.topics},
        "cases": cases,
    }
    return json.dumps(it, indent=1, ensure_ascii=False) + "\n"


def as_junit(results: Sequence[Result]) -> str:
    top = ElementTree.Element("testsuites", name="conformance")
    for topic, some in by_topic(results).items():
        tally = {"tests": len(some), "failures": sum(it.status == FAILED for it in some), "skipped": sum(it.status == NOT_RUN for it in some)}
        suite = ElementTree.SubElement(
            top,
            "testsuite",
            name=topic,
            time=f"{sum(it.seconds for it in some):.3f}",
            **{key: str(value) for key, value in tally.items()},
        )
        for result in some:
            add_junit(suite, topic, result)
    ElementTree.indent(top)
    return '<?xml version="1.0" encoding="UTF-8"?>\n' + ElementTree.tostring(top, encoding="unicode") + "\n"


def add_junit(suite: ElementTree.Element, topic: str, result: Result) -> None:
    it = ElementTree.SubElement(suite, "testcase", name=result.case.name, classname=f"conformance.{topic}", time=f"{result.seconds:.3f}")
    if result.status == FAILED:
        ElementTree.SubElement(it, "failure", message=result.says, type=result.level).text = story(result)
    elif result.status == NOT_RUN:
        ElementTree.SubElement(it, "skipped", message=result.says)
    elif result.says:
        ElementTree.SubElement(it, "system-out").text = result.says
