"""`python3 -m conformance`: the command line."""

from __future__ import annotations

import argparse
import os
import pathlib
import random
import re
import signal
import sys
import time
from typing import List, NoReturn, Sequence

from conformance import report
from conformance.broker import NoBroker, want_coordinator
from conformance.case import MUST, SHOULD, Case
from conformance.cases import load
from conformance.cases.walks import WALKS
from conformance.connection import Address
from conformance.members.command import main as members
from conformance.play import Settings
from conformance.rules.ending import without_traceback
from conformance.runner import FAILED, Result, Runner
from conformance.starter import Starter

ALL_WELL, FAILED_STATUS, NO_BROKER, INTERRUPTED = 0, 1, 2, 130
SEEDS = 1_000_000


class Parser(argparse.ArgumentParser):
    def error(self, message: str) -> NoReturn:
        self.exit(NO_BROKER, f"conformance: {message}\n")


def parser() -> Parser:
    words = Parser(
        prog=os.environ.get("PROGRAM_NAME", "python3 -m conformance"),
        description="Plays members of KIP-848 consumer groups against a broker, and judges its replies by the protocol.",
    )
    words.add_argument("address", nargs="?", type=address_of, metavar="HOST:PORT", help="the broker, or one of its cluster")
    words.add_argument(
        "--start",
        metavar="COMMAND",
        help="starts the broker, and again if it ends; without HOST:PORT the command prints that in its first line",
    )
    words.add_argument("--slow", action="store_true", help="also the cases that wait for sessions and timeouts to end (some minutes)")
    words.add_argument("--only", nargs="+", metavar="NAME", help="these cases alone, with all that happens in them")
    words.add_argument("--skip", nargs="+", default=[], metavar="NAME", help="all but these cases")
    words.add_argument("--level", choices=(MUST, SHOULD), default=SHOULD, help="how sure the standard has to be of a failure that fails the run")
    words.add_argument("--must", action="store_const", const=MUST, dest="level", help="the same as --level must")
    words.add_argument("--known", metavar="FILE", help="cases whose failures don't fail the run: a name at the beginning of each line")
    words.add_argument("--fail-fast", action="store_true", help="ends after the first case that fails the run")
    words.add_argument("--list", action="store_true", help="lists the cases, and plays none")
    words.add_argument("--heartbeat", type=int, choices=(0, 1), help="the version of the heartbeat (the highest that the broker offers)")
    words.add_argument("--topic", action="append", dest="topics", metavar="NAME", help="a topic to play with; may be repeated (all that are there)")
    words.add_argument(
        "--patience",
        type=seconds_of,
        default=10.0,
        metavar="S",
        help="how long members wait for what they should have (%(default)g s)",
    )
    words.add_argument("--timeout", type=seconds_of, default=10.0, metavar="S", help="how long a reply may take (%(default)g s)")
    words.add_argument("--session", type=seconds_of, default=45.0, metavar="S", help="the broker's session timeout (%(default)g s)")
    words.add_argument("--late", type=seconds_of, default=10.0, metavar="S", help="how much later it may notice that a time is over (%(default)g s)")
    words.add_argument("--grow", metavar="COMMAND", help="a command that adds partitions to the first topic")
    words.add_argument("--seed", type=int, metavar="N", help="of the random walks (another one each time; the first line has it)")
    words.add_argument("--walks", type=seconds_of, default=0.0, metavar="S", help="the random walks go on for so long, seed after seed")
    words.add_argument("--json", metavar="FILE", help="writes the result of each case")
    words.add_argument("--junit", metavar="FILE", help="writes the same as JUnit's XML")
    return words


def address_of(word: str) -> Address:
    host, _, port = word.rpartition(":")
    if not host or not re.fullmatch(r"\d{1,5}", port) or not 0 < int(port) < 65_536:
        raise argparse.ArgumentTypeError(f"{word!r} is no HOST:PORT")
    return host.strip("[]"), int(port)


def seconds_of(word: str) -> float:
    try:
        seconds = float(word)
    except ValueError:
        seconds = 0.0
    if not 0 < seconds < 86_400:
        raise argparse.ArgumentTypeError(f"{word!r} is no number of seconds")
    return seconds


def parsed(words: List[str]) -> argparse.Namespace:
    """The options. An address that follows the names of --only or --skip is none of them."""
    it = parser()
    options = it.parse_args(words)
    for names in (options.only or [], options.skip):
        if len(names) > 1 and ":" in names[-1] and options.address is None:
            try:
                options.address = address_of(names.pop())
            except argparse.ArgumentTypeError as why:
                it.error(str(why))
    if options.start is not None and not options.start.strip():
        it.error("--start wants a command")
    if not options.list and options.address is None and options.start is None:
        it.error("wants HOST:PORT, or --start COMMAND")
    return options


def chosen(cases: Sequence[Case], options: argparse.Namespace) -> List[Case]:
    missing = sorted({*(options.only or ()), *options.skip} - {case.name for case in cases})
    if missing:
        raise NoBroker(f"there is no case {missing[0]}; --list has them")
    some = [case for case in cases if (options.slow or not case.is_slow if options.only is None else case.name in options.only)]
    return [case for case in some if case.name not in options.skip]


def want_writable(paths: Sequence[str]) -> None:
    """What can't be written is told before a case is played."""
    for path in paths:
        with open(path, "a", encoding="utf-8"):
            pass


def show_list(cases: Sequence[Case]) -> None:
    for case in cases:
        print(f"{case.name:40} {case.level:7} {'slow  ' if case.is_slow else '      '}{case.section}")


def stop(*_: object) -> NoReturn:
    raise KeyboardInterrupt


def main(words: List[str]) -> int:
    if words[:1] == ["members"]:
        return members(words[1:])
    options = parsed(words)
    signal.signal(signal.SIGTERM, stop)
    cases = load()
    if options.list:
        show_list(cases)
        return ALL_WELL
    seed = random.randrange(SEEDS) if options.seed is None else options.seed
    kinds = len(WALKS.keys() & {*(options.only or WALKS)}) or 1
    settings = Settings(options.patience, options.session, options.late, options.grow, seed, walks=options.walks / kinds)
    starter = Starter(options.address, options.start, options.timeout)
    runner = Runner(starter, settings, options.timeout, options.heartbeat, options.topics)
    try:
        want_writable([path for path in (options.json, options.junit) if path])
        judge = report.Judge(options.level, report.known_in(options.known) if options.known else frozenset())
        return run(runner, chosen(cases, options), options, judge)
    except BrokenPipeError:
        raise
    except (NoBroker, OSError, UnicodeDecodeError) as why:
        print(f"conformance: {why}", file=sys.stderr)
        return NO_BROKER
    except KeyboardInterrupt:
        return INTERRUPTED
    finally:
        starter.end()


def run(runner: Runner, cases: Sequence[Case], options: argparse.Namespace, judge: report.Judge) -> int:
    broker, began = runner.look(), time.monotonic()
    want_coordinator(broker)
    results: List[Result] = []
    print(f"{report.head(broker)}  seed {runner.settings.seed}", flush=True)
    is_whole = play(runner, cases, options.fail_fast, judge, results)
    print(report.text(results, time.monotonic() - began, options.only is not None, judge))
    if len(results) < len(cases):
        print(f"{len(cases) - len(results)} more cases weren't played{'' if is_whole else ': it was interrupted'}")
    seed = runner.settings.seed
    for path, written in ((options.json, report.as_json(broker, results, seed)), (options.junit, report.as_junit(results))):
        if path:
            pathlib.Path(path).write_text(written, encoding="utf-8")
    status = FAILED_STATUS if any(judge.counts(result) for result in results) else ALL_WELL
    return status if is_whole else INTERRUPTED


def play(runner: Runner, cases: Sequence[Case], fails_fast: bool, judge: report.Judge, results: List[Result]) -> bool:
    """Plays the cases, and says whether it wasn't interrupted. The results so far are there in either case."""
    try:
        for result in runner.run(cases):
            results.append(result)
            if result.status == FAILED:
                print(f"failed: {result.case.name}: {result.says}", file=sys.stderr, flush=True)
            if fails_fast and judge.counts(result):
                break
    except KeyboardInterrupt:
        return False
    return True


if __name__ == "__main__":
    without_traceback("conformance")
    ended = main(sys.argv[1:])
    sys.stdout.flush()
    sys.exit(ended)
