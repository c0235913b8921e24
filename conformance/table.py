"""docs/CONFORMANCE.md, made of the cases, of their results with the peers, and of the planted faults.

    python3 -m conformance.table                  writes it
    python3 -m conformance.table --check          status 1 where it isn't up to date
    python3 -m conformance.table --take PEER FILE ..
        takes over what `--json` wrote of runs with a peer; of a case that the first run didn't play, what the second says
"""

from __future__ import annotations

import json
import pathlib
import sys
from typing import Dict, List, NamedTuple, Sequence

from conformance.case import FREE, MUST, SHOULD, Case
from conformance.cases import load
from conformance.members import table as members
from conformance.planted.faults import TOP, Fault, found_before, read
from conformance.runner import FAILED, NOT_RUN, NOTED, PASSED

DOCUMENT = TOP / "docs/CONFORMANCE.md"
PEERS = pathlib.Path(__file__).resolve().parent / "peers"
# The files in PEERS, with the heads of their columns.
COLUMNS = {"migwelun": "Migwelun", "kafka-model": "Kafka (a model)", "librdkafka-mock": "the mock"}


class Kept(NamedTuple):
    """The result of a case: its status, how sure the standard is of a failure, and why."""

    status: str
    level: str
    says: str


def main(words: Sequence[str]) -> int:
    if list(words[:1]) == ["--take"] and len(words) > 2 and words[1] in {**COLUMNS, **members.COLUMNS}:
        try:
            take(words[1], words[2:])
        except (OSError, ValueError, KeyError) as why:
            print(f"conformance.table: no results can be taken: {why}", file=sys.stderr)
            return 2
    elif words not in ([], ["--check"]):
        print(__doc__.split("\n\n")[1], file=sys.stderr)
        return 2
    text = document()
    if words == ["--check"]:
        is_right = DOCUMENT.is_file() and DOCUMENT.read_text(encoding="utf-8") == text
        if not is_right:
            print("docs/CONFORMANCE.md isn't up to date: python3 -m conformance.table writes it", file=sys.stderr)
        return int(not is_right)
    DOCUMENT.write_text(text, encoding="utf-8")
    return 0


# ---- the results of the cases


def take(peer: str, files: Sequence[str]) -> None:
    kept: Dict[str, List[str]] = {}
    for file in files:
        for case in json.loads(pathlib.Path(file).read_text(encoding="utf-8"))["cases"]:
            if kept.get(case["name"], [NOT_RUN])[0] == NOT_RUN:
                kept[case["name"]] = [case["status"], case["failed_level"] or case["level"], case["says"]]
    lines = ",\n".join(f" {json.dumps(name)}: {json.dumps(row, ensure_ascii=False)}" for name, row in kept.items())
    (PEERS / f"{peer}.json").write_text(f"{{\n{lines}\n}}\n", encoding="utf-8")


def kept_of(peer: str) -> Dict[str, Kept]:
    path = PEERS / f"{peer}.json"
    rows = json.loads(path.read_text(encoding="utf-8")) if path.is_file() else {}
    return {name: Kept(*row) for name, row in rows.items()}


# ---- the document


def cell(text: str) -> str:
    """A text in a cell of a table."""
    return text.replace("\\", "\\\\").replace("|", "\\|").replace("<", "&lt;").replace("*", "\\*").replace("_", "\\_")


def outcome(kept: Dict[str, Kept], case: Case) -> str:
    """The result of a case with a peer, or nothing if it passed."""
    found = kept.get(case.name, Kept(NOT_RUN, case.level, "it is newer than the run"))
    if found.status == PASSED:
        return ""
    head = f"**failed** ({found.level})" if found.status == FAILED else found.status
    says = found.says.partition(": the broker closed")[0].removeprefix(f"{case.sends}: ")
    return f"{head}: {cell(says)}"


def tally(kept: Dict[str, Kept], cases: Sequence[Case]) -> str:
    found = [kept[case.name] for case in cases if case.name in kept]
    failed = {level: sum(it.status == FAILED and it.level == level for it in found) for level in (MUST, SHOULD)}
    counts = {status: sum(it.status == status for it in found) for status in (PASSED, FAILED, NOTED, NOT_RUN)}
    of_failed = f"{counts[FAILED]} failed ({failed[MUST]} must, {failed[SHOULD]} should)"
    return f"{counts[PASSED]} passed, {of_failed}, {counts[NOTED]} noted, {counts[NOT_RUN]} not run"


def document() -> str:
    cases, faults = load(), read()
    columns = {head: kept_of(peer) for peer, head in COLUMNS.items()}
    levels = ", ".join(f"{sum(case.level == level for case in cases)} {level}" for level in (MUST, SHOULD, FREE))
    text = (PEERS / "head.md").read_text(encoding="utf-8")
    text = text.replace("@CASES@", f"{len(cases)} cases ({levels}), of which {sum(case.is_slow for case in cases)} are slow")
    text = text.replace("@TALLIES@", "\n".join(f"- {head}: {tally(kept, cases)}." for head, kept in columns.items()))
    parts = [text.rstrip("\n")]
    for topic in dict.fromkeys(case.topic for case in cases):
        parts += of_topic(topic, [case for case in cases if case.topic == topic], columns)
    return "\n".join([*parts, *planted(cases, faults), *members.section(kept_of, cell)]) + "\n"


def of_topic(topic: str, cases: Sequence[Case], columns: Dict[str, Dict[str, Kept]]) -> List[str]:
    """The cases of a topic: the names of those that passed wherever they were played, and a row for each other one."""
    results = {case.name: {head: said for head, kept in columns.items() if (said := outcome(kept, case))} for case in cases}
    others = [case for case in cases if any(not said.startswith(NOT_RUN) for said in results[case.name].values())]
    idle = [case.name for case in cases if case not in others and len(results[case.name]) == len(columns)]
    passed = [played(case, results[case.name]) for case in cases if case not in others and case.name not in idle]
    lines = [f"\n## {topic.capitalize()}"]
    lines += [f"\n{word}: {', '.join(names)}." for word, names in (("Passed", passed), ("Not played", idle)) if names]
    if others:
        lines += ["", "|Case|What must hold (of free cases: what is sent)|Result, unless passed|", "|---|---|---|"]
    return lines + [row(case, results[case.name]) for case in others]


def played(case: Case, results: Dict[str, str]) -> str:
    """A case that passed, and where it wasn't played."""
    return f"{case.name} (not with {' and '.join(results)})" if results else case.name


def planted(cases: Sequence[Case], faults: Sequence[Fault]) -> List[str]:
    """How the planted faults are found, and the cases that found none."""
    found = found_before()
    finders = {name for names in found.values() for name in names}
    idle = str(sum(case.name not in finders and case.level != FREE for case in cases))
    lost = [fault.name for fault in faults if fault.case not in found.get(fault.name, [])]
    text = (PEERS / "planted.md").read_text(encoding="utf-8").replace("@IDLE@", idle).replace("@FAULTS@", str(len(faults)))
    return ["\n## Planted faults\n", text.rstrip("\n"), *(f"\n**Not found**: {', '.join(lost)}." for _ in lost[:1])]


def row(case: Case, results: Dict[str, str]) -> str:
    slow = ", slow" if case.is_slow else ""
    heads = {said: [head for head in results if results[head] == said] for said in results.values()}
    said = "<br>".join(f"{', '.join(each)}: {said}" for said, each in heads.items())
    return "|" + "|".join([f"{case.name} ({case.level}{slow})", cell(case.sends if case.level == FREE else case.holds), said]) + "|"


if __name__ == "__main__":
    sys.exit(main(sys.argv[1:]))
