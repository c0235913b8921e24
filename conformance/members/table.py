"""The section "Members" of docs/CONFORMANCE.md, made of the cases and of their results with stock clients."""

from __future__ import annotations

import pathlib
from typing import Callable, Dict, List, Mapping

from conformance.case import FREE, MUST, SHOULD
from conformance.members.case import MemberCase, load
from conformance.members.planted import HARMLESS, PLANTED
from conformance.planted.faults import read
from conformance.runner import FAILED, NOT_RUN, NOTED, PASSED

TEXT = pathlib.Path(__file__).with_name("section.md")
# The files of results in conformance/peers, with the heads of their columns.
COLUMNS = {
    "members-consumer": "ours",
    "members-2.8.0": "2.8.0",
    "members-kcat-2.8.0": "kcat with 2.8.0",
    "members-2.14.2": "2.14.2",
    "members-kcat-2.14.2": "kcat with 2.14.2",
    "members-confluent-kafka": "confluent-kafka",
}
# A case's name, and its result: the status, how sure the standard is of a failure, and why.
Kept = Mapping[str, tuple]


def tally(kept: Kept) -> str:
    failed = {level: sum(it[0] == FAILED and it[1] == level for it in kept.values()) for level in (MUST, SHOULD)}
    counts = {status: sum(it[0] == status for it in kept.values()) for status in (PASSED, FAILED, NOTED, NOT_RUN)}
    of_failed = f"{counts[FAILED]} failed ({failed[MUST]} must, {failed[SHOULD]} should)"
    return f"{counts[PASSED]} passed, {of_failed}, {counts[NOTED]} noted, {counts[NOT_RUN]} not run"


def outcome(kept: Kept, case: MemberCase) -> str:
    status, level, _ = kept.get(case.name, (NOT_RUN, case.level, ""))
    return f"**failed** ({level})" if status == FAILED else status


def section(kept_of: Callable[[str], Kept], cell: Callable[[str], str]) -> List[str]:
    cases: List[MemberCase] = load()
    columns: Dict[str, Kept] = {head: kept_of(peer) for peer, head in COLUMNS.items()}
    levels = ", ".join(f"{sum(case.level == level for case in cases)} {level}" for level in (MUST, SHOULD, FREE))
    text = TEXT.read_text(encoding="utf-8").rstrip("\n")
    text = text.replace("@CASES@", f"{len(cases)} cases ({levels}), of which {sum(case.is_slow for case in cases)} are slow")
    text = text.replace("@TALLIES@", "\n".join(f"- {head}: {tally(kept)}." for head, kept in columns.items()))
    text = text.replace("@WRONG@", str(len(read(PLANTED)))).replace("@HARMLESS@", str(len(read(HARMLESS))))
    results = {case.name: {head: said for head, kept in columns.items() if (said := outcome(kept, case)) != PASSED} for case in cases}
    others = [case for case in cases if {*results[case.name].values()} - {NOT_RUN}]
    away = {name: f" (not with {' and '.join(found)})" if found else "" for name, found in results.items()}
    passed = ", ".join(case.name + away[case.name] for case in cases if case not in others)
    lines = ["\n## Members\n", text, "", f"Passed: {passed}.", ""]
    lines += ["|Case|What must hold (of free cases: what the client meets)|Result, unless passed|", "|---|---|---|"]
    for case in cases:
        if case in others:
            said = "; ".join(f"{each}: {', '.join(heads)}" for each, heads in by_result(results[case.name]).items())
            slow = ", slow" if case.is_slow else ""
            lines.append("|" + "|".join([f"{case.name} ({case.level}{slow})", cell(case.sends if case.level == FREE else case.holds), said]) + "|")
    return lines


def by_result(results: Mapping[str, str]) -> Dict[str, List[str]]:
    """The clients that each result was had with; "all" stands for all of them."""
    found = {said: [head for head in results if results[head] == said] for said in results.values()}
    return {said: ["all"] if len(heads) == len(COLUMNS) else heads for said, heads in found.items()}
