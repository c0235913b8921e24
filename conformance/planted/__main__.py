"""`python3 -m conformance.planted`: plants each fault in a copy of the rules, and shows by which cases the suite finds it."""

from __future__ import annotations

import argparse
import concurrent.futures
import contextlib
import pathlib
import signal
import sys
import tempfile
import time
from typing import List, NamedTuple, Sequence, Set, Tuple

from conformance.broker import NoBroker
from conformance.case import FREE, MUST, Case
from conformance.cases import load
from conformance.planted.faults import TOP, BadFault, Fault, found_before, plant, read, variants, write_found
from conformance.planted.stand import SESSION_SECONDS, Broken, Stand, over_rules, stop
from conformance.play import Settings
from conformance.report import KNOWN, counts, known_in, story
from conformance.runner import FAILED, Result, Runner
from conformance.starter import Starter

TIMEOUT, PATIENCE, VARIANT_PATIENCE = 5.0, 1.5, 10.0
# The session timeout if slow cases are played, and how much later its end may be noticed.
SHORT_SESSION, LATE = 3.0, 3.0
# After so many cases that failed no more are played against a fault.
MOST_FAILED = 12


class Found(NamedTuple):
    """By which cases a fault is found, of how many that were played."""

    fault: Fault
    cases: List[str]
    played: int


def main(words: Sequence[str]) -> int:
    parser = argparse.ArgumentParser(prog="python3 -m conformance.planted", description=__doc__)
    parser.add_argument("--only", nargs="+", metavar="FAULT", help="these faults alone, or these variants")
    parser.add_argument("--named", action="store_true", help="plays only the case that has to find the fault")
    parser.add_argument("--write", action="store_true", help="writes what was found into found.json, of which docs/CONFORMANCE.md is made")
    parser.add_argument("--jobs", type=int, default=2, metavar="N", help="how many at once (%(default)d)")
    parser.add_argument("--variants", type=int, nargs="?", const=25, metavar="WALKS", help="plays the cases and this number of walks (25) without a fault")
    parser.add_argument("--slow", action="store_true", help="with --variants: the slow cases too")
    parser.add_argument(
        "--serve",
        nargs="?",
        const="",
        metavar="NAME",
        help="serves a broker with this fault or variant, or with none, until a signal; prints HOST:PORT",
    )
    options = parser.parse_args(words)
    faults, others = {fault.name: fault for fault in read()}, {variant.name: variant for variant in variants()}
    them = others if options.variants else faults if options.serve is None else {**others, **faults}
    missing = [name for name in [*(options.only or ()), *([options.serve] if options.serve else ())] if name not in them]
    if missing:
        parser.error(f"there is no {missing[0]} among these: {' '.join(them)}")
    signal.signal(signal.SIGTERM, stop)
    signal.signal(signal.SIGINT, stop)
    if options.serve is not None:
        return serve([them[options.serve]] if options.serve else [])
    chosen = [them[name] for name in options.only or them]
    return show_variants(chosen, load(), options) if options.variants else show(chosen, load(), options)


def serve(faults: Sequence[Fault]) -> int:
    with contextlib.suppress(KeyboardInterrupt), tempfile.TemporaryDirectory() as folder:
        for fault in faults:
            plant(fault, pathlib.Path(folder))
        sessions = [float(fault.words["session"]) for fault in faults if "session" in fault.words]
        with over_rules(pathlib.Path(folder) if faults else TOP, *sessions) as stand:
            print("%s:%d" % stand.address, flush=True)
            signal.pause()
    return 0


def show(faults: Sequence[Fault], cases: Sequence[Case], options: argparse.Namespace) -> int:
    """Status 0 if each fault is found by the case that names it."""
    finders: Set[str] = set()
    unfound, kept = 0, found_before()
    with contextlib.ExitStack() as stack:
        pool = concurrent.futures.ThreadPoolExecutor(max(1, options.jobs))
        # (If this is stopped, what isn't begun yet never is.)
        stack.callback(pool.shutdown, cancel_futures=True)
        for found in pool.map(lambda fault: try_fault(fault, cases, options.named), faults):
            unfound += found.fault.case not in found.cases
            finders |= {*found.cases}
            kept[found.fault.name] = found.cases
            tell(found)
    if options.write:
        write_found(kept)
    if not options.named:
        print("cases that found none of these: " + " ".join(case.name for case in cases if case.name not in finders))
    print(f"{len(faults) - unfound} of {len(faults)} planted faults are found by the case that names them")
    return int(unfound > 0)


def show_variants(chosen: Sequence[Fault], cases: Sequence[Case], options: argparse.Namespace) -> int:
    """Status 0 if no case that must hold fails with any of them."""
    bad = 0
    with concurrent.futures.ThreadPoolExecutor(max(1, options.jobs)) as pool:
        for variant, results, seconds in pool.map(lambda it: try_variant(it, cases, options), chosen):
            failed = [result for result in results if result.status == FAILED]
            musts = [result for result in failed if result.level == MUST]
            bad += bool(musts)
            told = " ".join(result.case.name for result in failed if result.level != MUST)
            print(f"{'BAD' if musts else 'ok'}  {variant.name}: {variant.words['is']}")
            print(f"    {counts(results)} in {seconds:.0f} s{'; should: ' if told else ''}{told}", flush=True)
            for result in musts:
                print(story(result), flush=True)
    print(f"with {len(chosen) - bad} of {len(chosen)} variants no case fails that must hold")
    return int(bad > 0)


def try_variant(variant: Fault, cases: Sequence[Case], options: argparse.Namespace) -> Tuple[Fault, List[Result], float]:
    began, session = time.monotonic(), float(variant.words.get("session", SHORT_SESSION if options.slow else SESSION_SECONDS))
    with tempfile.TemporaryDirectory() as folder:
        plant(variant, pathlib.Path(folder))
        with over_rules(pathlib.Path(folder), session) as stand:
            settings = Settings(VARIANT_PATIENCE, session, LATE, f"kill -USR1 {stand.process}", rounds=options.variants)
            results = [*runner_of(stand, settings, variant).run([case for case in cases if options.slow or not case.is_slow])]
    return variant, results, time.monotonic() - began


def runner_of(stand: Stand, settings: Settings, fault: Fault) -> Runner:
    version = int(fault.words["heartbeat"]) if "heartbeat" in fault.words else None
    return Runner(Starter(stand.address, None, TIMEOUT), settings, TIMEOUT, version, None)


def tell(found: Found) -> None:
    others = [name for name in found.cases if name != found.fault.case]
    print(f"{'found' if found.fault.case in found.cases else 'NOT FOUND'}  {found.fault.name}: {found.fault.words['is']}")
    of_all = f"{len(found.cases)} of {found.played} cases fail"
    print(f"    by {found.fault.case}; {of_all}{': ' if others else ''}{' '.join(others)}", flush=True)


def try_fault(fault: Fault, cases: Sequence[Case], named: bool) -> Found:
    """Plays the case that has to find the fault, and then the others; the slow ones too if one of them has to find it."""
    is_slow = next(case.is_slow for case in cases if case.name == fault.case)
    first = [case for case in cases if case.name == fault.case]
    # (With a session that ends soon a busy machine may lose a fast case.)
    others = [case for case in cases if case.name != fault.case and not named and case.is_slow == is_slow and case.level != FREE]
    session = SHORT_SESSION if is_slow else SESSION_SECONDS
    with tempfile.TemporaryDirectory() as folder:
        plant(fault, pathlib.Path(folder))
        with over_rules(pathlib.Path(folder), session) as stand:
            settings = Settings(PATIENCE, session, LATE, f"kill -USR1 {stand.process}")
            runner = runner_of(stand, settings, fault)
            results = [*runner.run(first)]
            results += runner.run_side_by_side(others) if is_slow else []
            for case in [] if is_slow else others:
                if sum(result.status == FAILED for result in results) < MOST_FAILED:
                    results.append(runner.run_one(case))
    return Found(fault, [result.case.name for result in results if result.status == FAILED and result.case.name not in known_in(KNOWN)], len(results))


if __name__ == "__main__":
    try:
        sys.exit(main(sys.argv[1:]))
    except (BadFault, Broken, NoBroker) as why:
        print(f"conformance.planted: {why}", file=sys.stderr)
        sys.exit(2)
    except KeyboardInterrupt:
        sys.exit(130)
