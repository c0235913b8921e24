"""The fast cases of the conformance suite, as checks."""

from typing import Iterator, Tuple

from conformance import cases, play, report, starter
from conformance.runner import FAILED, Runner
from gate.checks import Check

SECONDS = 20


def fast_cases(address: Tuple[str, int], version: int) -> Iterator[Check]:
    """Plays them against a broker, over a version of the heartbeat. Those fail that are known to, and no others."""
    runner = Runner(starter.Starter(address, None, SECONDS), play.Settings(SECONDS), SECONDS, version, None)
    for result in runner.run([case for case in cases.load() if not case.is_slow]):
        is_wrong = (result.status == FAILED) != (result.case.name in report.known_in(report.KNOWN))
        says = "\n    ".join([result.says or "it passes, and is known to fail", *result.story])
        yield f"{result.case.name}, heartbeat version {version}", says if is_wrong else None
