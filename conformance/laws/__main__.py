"""`python3 -m conformance.laws`: the laws of the protocol over random runs of the rules in Python, and which are false of each turned rule.

A line for each turned rule has the laws that are false of it; what is in capitals fails: one of which no law is false, and that no stored case
refuses. All laws hold of the rules as they are. The last line is `N passed, M failed`, and the status is 0 only where M is 0.
"""

from __future__ import annotations

import argparse
import concurrent.futures
import itertools
import re
import sys
from typing import Dict, Iterator, Optional, Sequence, Tuple

from conformance.laws import of_coord_node, of_group_core, of_group_types, of_machine_laws, of_node_laws, runs, turned
from conformance.planted.faults import TOP, BadFault, Fault

# The laws of a crate stand here by the names that they have there: those of crates that have the definitions, too, and of crates of laws alone.
CRATES = {"group_types": of_group_types, "group_core": of_group_core, "coord_node": of_coord_node}
ABOVE = {"machine_laws": of_machine_laws, "node_laws": of_node_laws}
RIGHT = Fault("the rules as they are")
# So many runs of the rules as they are; of a turned rule so many at least, and further ones until a law is false.
RUNS, LEAST, MOST = 150, 2, 300


def main(words: Sequence[str]) -> int:
    parser = argparse.ArgumentParser(prog="python3 -m conformance.laws", description=__doc__)
    parser.add_argument("--only", nargs="+", metavar="NAME", help="these turned rules alone")
    parser.add_argument("--runs", type=int, metavar="N", help="all laws that are false of any of so many runs")
    parser.add_argument("--seed", type=int, default=0, metavar="N", help="the seed of the first run (%(default)d)")
    parser.add_argument("--jobs", type=int, default=2, metavar="N", help="so many at once (%(default)d)")
    options = parser.parse_args(words)
    them = {fault.name: fault for fault in turned.turned_rules()}
    missing = [name for name in options.only or () if name not in them]
    if missing:
        parser.error(f"there is no {missing[0]} among these: {' '.join(them)}")
    chosen = [them[name] for name in options.only] if options.only else [RIGHT, *them.values()]
    failed = 0
    with concurrent.futures.ProcessPoolExecutor(options.jobs) as pool:
        wanted = turned_in_crates()
        looks = pool.map(looked_at, chosen, [wanted.get(it.name, "") for it in chosen], [options.seed] * len(chosen), [options.runs] * len(chosen))
        for line, is_good in itertools.chain(same_names(them), looks):
            print(line, flush=True)
            failed += not is_good
    count = len(chosen) + len({**CRATES, **ABOVE}) + 1
    print(f"{count - failed} passed, {failed} failed")
    return int(failed > 0)


def same_names(here_turned: Dict[str, Fault]) -> Iterator[Tuple[str, bool]]:
    """Whether each law of a crate stands here, or why no run shows it; and whether each turned definition does."""
    missing = sorted({*turned_in_crates()} - {*here_turned})
    yield f"turned definitions: {'MISSING: ' + ' '.join(missing) if missing else len(turned_in_crates())}", not missing
    for crate, module in {**CRATES, **ABOVE}.items():
        source = (TOP / "crates" / crate / "src/laws.rt").read_text(encoding="utf-8")
        here = {*runs.laws_of(module, "steps"), *runs.laws_of(module, "rules"), *getattr(module, "NOT_SHOWN", {})}
        differ = here ^ {*re.findall(r"^pub fn (\w+)", source, re.MULTILINE)}
        yield (f"{crate}: NOT THE SAME LAWS: {' '.join(sorted(differ))}" if differ else f"{crate}: {len(here)} laws"), not differ


def turned_in_crates() -> Dict[str, str]:
    """By the names of the turned definitions of these crates the law that has to refuse each."""
    texts = [(TOP / "crates" / crate / "wrong.txt").read_text(encoding="utf-8") for crate in CRATES]
    return {name: law for text in texts for name, law in re.findall(r"^name: (\S+)\nby: law laws::(\w+)", text, re.MULTILINE)}


def looked_at(fault: Fault, wanted: str, seed: int, all_runs: Optional[int]) -> Tuple[str, bool]:
    """The line of a turned rule, and whether it is refused; of the rules as they are, whether all laws hold."""
    try:
        if not fault.edits and fault.name != RIGHT.name:
            return f"{fault.name}: not shown: {fault.words.get('why', 'NO EDIT AND NO REASON')}", "why" in fault.words
        rules = turned.rules_with(fault)
        if fault.name == RIGHT.name:
            found = runs.false_laws(rules, seed, all_runs or RUNS, all_runs or RUNS)
            return f"{fault.name}: {'FALSE: ' + ' '.join(sorted(found)) if found else 'all laws hold'}", not found
        found = runs.false_laws(rules, seed, all_runs or LEAST, all_runs or MOST, wanted)
        case = fault.words.get("case")
        if not found and case is not None and turned.is_refused_by(rules, case):
            return f"{fault.name}: refused by {case}", True
    except BadFault as why:
        return f"{fault.name}: BAD EDIT: {why}", False
    what = "" if wanted in found or not wanted else f"NOT FALSE: {wanted}; false: "
    return f"{fault.name}: {what}{' '.join(sorted(found)) or 'NO LAW IS FALSE'}", bool(found) and not what


if __name__ == "__main__":
    sys.exit(main(sys.argv[1:]))
