"""`python3 -m conformance members`: the command line."""

from __future__ import annotations

import argparse
import json
import os
import pathlib
import re
import signal
import sys
import time
from typing import List, NoReturn, Optional, Pattern, Sequence, Tuple

from conformance import report
from conformance.case import MUST, SHOULD
from conformance.members.case import MemberCase, load
from conformance.members.coordinator import Coordinator, topic
from conformance.members.faults import BadFault, Faults
from conformance.members.play import BILLS, ORDERS, Settings
from conformance.members.record import Record
from conformance.members.runner import run
from conformance.members.stage import Stage
from conformance.runner import FAILED, Result

ALL_WELL, FAILED_STATUS, NO_CLIENT, INTERRUPTED = 0, 1, 2, 130
JOBS = 8
# With --serve: the interval between heartbeats, how often sessions are looked at, and how many requests are kept.
SERVED_INTERVAL_MS, TICK_SECONDS, MOST_SERVED = 5_000, 0.2, 0


class Parser(argparse.ArgumentParser):
    def error(self, message: str) -> NoReturn:
        self.exit(NO_CLIENT, f"conformance members: {message}\n")


def expression(word: str) -> Pattern[str]:
    try:
        return re.compile(word)
    except re.error as why:
        raise argparse.ArgumentTypeError(f"{word!r} is no regular expression: {why}") from None


def count(word: str) -> int:
    if not word.isdigit() or not 0 < int(word) <= 64:
        raise argparse.ArgumentTypeError(f"{word!r} is no number from 1 to 64")
    return int(word)


def parser() -> Parser:
    words = Parser(
        prog=f"{os.environ.get('PROGRAM_NAME', 'python3 -m conformance')} members",
        usage="%(prog)s [OPTIONS] -- COMMAND ..",
        description="Starts a client of KIP-848 by its command, against a coordinator that is played, and judges what it sends. COMMAND has "
        "{bootstrap}, {group} and {topic}, and may have {client} and {instance}. At the end its standard input is closed, and then it gets SIGTERM.",
    )
    words.add_argument("--only", nargs="+", metavar="NAME", help="these cases alone, with all that happens in them")
    words.add_argument("--slow", action="store_true", help="also the cases that wait for timeouts to end")
    words.add_argument("--level", choices=(MUST, SHOULD), default=SHOULD, help="how sure the standard has to be where a failure fails the run")
    words.add_argument("--known", metavar="FILE", help="cases whose failures don't fail the run: a name at the beginning of each line")
    words.add_argument("--list", action="store_true", help="lists the cases, and plays none")
    words.add_argument("--jobs", type=count, default=JOBS, metavar="N", help="so many cases at once (%(default)d)")
    words.add_argument("--patience", type=float, default=Settings.patience, metavar="S", help="how long is waited for a request (%(default)g s)")
    words.add_argument("--assigned", type=expression, metavar="REGEX", help="fits a line that it prints when it is assigned partitions")
    words.add_argument("--revoked", type=expression, metavar="REGEX", help="fits a line that it prints when it gives partitions up")
    words.add_argument("--subscribe", metavar="LINE", help="what it reads on its standard input to change its subscription, with {topic}")
    words.add_argument("--unsubscribe", metavar="LINE", help="what it reads there to give its subscription up")
    words.add_argument("--json", type=pathlib.Path, metavar="FILE", help="writes the result of each case")
    words.add_argument("--junit", type=pathlib.Path, metavar="FILE", help="writes the same as JUnit's XML")
    words.add_argument("--output", type=pathlib.Path, metavar="FOLDER", help="keeps each case's story there, with what the client printed")
    words.add_argument("--serve", action="store_true", help="starts no client: serves until a signal, and prints HOST:PORT")
    words.add_argument("--faults", type=pathlib.Path, metavar="FILE", help="with --serve: what is done to replies; read again if it changes")
    words.add_argument("command", nargs="*", metavar="COMMAND", help="the client under test, after --")
    return words


def split(words: Sequence[str]) -> Tuple[List[str], List[str]]:
    """The options, and the command after `--`."""
    at = list(words).index("--") if "--" in words else len(words)
    return list(words[:at]), list(words[at + 1 :])


def tell(result: Result) -> None:
    if result.status == FAILED:
        print(f"failed: {result.case.name}: {result.says}", file=sys.stderr, flush=True)


def stop(*_: object) -> NoReturn:
    raise KeyboardInterrupt


def main(words: List[str]) -> int:
    given, command = split(words)
    options = parser().parse_args(given)
    signal.signal(signal.SIGTERM, stop)
    cases = load()
    if options.list:
        for case in cases:
            print(f"{case.name:28} {case.level:7} {'slow  ' if case.is_slow else '      '}{case.section}")
        return ALL_WELL
    missing = sorted({*(options.only or ())} - {case.name for case in cases})
    if missing:
        parser().error(f"there is no case {missing[0]}; --list has them")
    if options.serve:
        return serve(options.faults)
    lacks = [place for place in ("{bootstrap}", "{group}", "{topic}") if not any(place in word for word in command)]
    if lacks:
        parser().error(f"wants -- COMMAND, with {' and '.join(lacks)} in it")
    chosen = [case for case in cases if (case.name in options.only if options.only else options.slow or not case.is_slow)]
    settings = Settings(command, options.assigned, options.revoked, options.subscribe, options.unsubscribe, options.patience)
    try:
        return play(chosen, settings, options)
    except KeyboardInterrupt:
        return INTERRUPTED
    except BrokenPipeError:
        raise
    except (OSError, UnicodeDecodeError) as why:
        print(f"conformance members: {why}", file=sys.stderr)
        return NO_CLIENT


def play(cases: Sequence[MemberCase], settings: Settings, options: argparse.Namespace) -> int:
    for path in (options.json, options.junit):
        if path:
            path.open("a", encoding="utf-8").close()
    judge = report.Judge(options.level, report.known_in(options.known) if options.known else frozenset())
    began = time.monotonic()
    results = run(cases, settings, options.jobs, tell)
    print(report.text(results, time.monotonic() - began, options.only is not None, judge))
    if options.json:
        options.json.write_text(as_json(settings.command, results), encoding="utf-8")
    if options.junit:
        options.junit.write_text(report.as_junit(results), encoding="utf-8")
    if options.output:
        options.output.mkdir(parents=True, exist_ok=True)
        for result in results:
            (options.output / f"{result.case.name}.txt").write_text("\n".join([*result.story, ""]), encoding="utf-8")
    return FAILED_STATUS if any(map(judge.counts, results)) else ALL_WELL


def serve(faults: Optional[pathlib.Path]) -> int:
    """A broker and its coordinator for any client, until a signal; sessions end as they do."""
    try:
        brought = Faults(faults)
    except (OSError, BadFault) as why:
        print(f"conformance members: --faults: {getattr(why, 'strerror', None) or why}", file=sys.stderr)
        return NO_CLIENT
    stage = Stage(Coordinator([topic(ORDERS, 4), topic(BILLS, 2)], SERVED_INTERVAL_MS), Record(MOST_SERVED), brought)
    print(stage.address, flush=True)
    try:
        while True:
            time.sleep(TICK_SECONDS)
            told = stage.tick()
            if told:
                print(f"conformance members: --faults: {told}", file=sys.stderr, flush=True)
    except KeyboardInterrupt:
        stage.end()
        return ALL_WELL


def as_json(command: Sequence[str], results: Sequence[Result]) -> str:
    names = ("name", "section", "level")
    rows = [
        {
            **{name: getattr(it.case, name) for name in names},
            **{"status": it.status, "failed_level": it.level if it.status == FAILED else None, "says": it.says},
            **{"seconds": round(it.seconds, 3), "story": list(it.story) if it.status == FAILED else []},
        }
        for it in results
    ]
    return json.dumps({"command": list(command), "cases": rows}, indent=1, ensure_ascii=False) + "\n"
