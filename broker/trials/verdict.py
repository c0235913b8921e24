"""What must hold at the end of every trial."""

import collections
from typing import Dict, List, Sequence, Tuple

from broker.trials.holds import Holds
from broker.trials.log import Exchange
from broker.trials.prints import Owners, Print, overlaps, records_read
from broker.trials.trial import Crowd, Trial


def judge(trial: Trial) -> None:
    exchanges = trial.exchanges()
    judge_frames(trial, exchanges)
    for group, prints in judge_prints(trial).items():
        judge_reading(trial, group, prints, exchanges)


def judge_prints(trial: Crowd) -> Dict[str, List[Print]]:
    """What consumers have printed, by their groups."""
    by_group: Dict[str, List[Print]] = collections.defaultdict(list)
    for it in trial.prints:
        by_group[trial.groups[it.name]].append(it)
    groups = [Owners(prints, trial.ends) for prints in by_group.values()]
    pairs = [pair for of in groups for pair in overlaps(of.spans)]
    faults = [fault for of in groups for fault in of.faults]
    counts = collections.Counter(it.kind for it in trial.prints)
    seen = f"{counts['ASSIGN']} assigns, {counts['REVOKE']} revokes, {counts['LOST']} losses"
    trial.check(not pairs, f"no two consumers of a group owned one partition at a time, by their prints ({seen}){told(pairs)}")
    late = sum(of.late for of in groups)
    if late:
        trial.note(f"consumers that were closing were assigned {late} partitions, which isn't counted")
    trial.check(not faults, f"each gave up what it had, and was assigned what it hadn't{told(faults)}")
    wrong = [it for it in trial.prints if it.kind == "RECORD" and not is_right(it)]
    trial.check(not wrong, f"each record was the right one{told(wrong)}")
    errors = [it for it in trial.prints if it.kind in ("ERROR", "FATAL", "WRONG") and not any(word in it.text for word in trial.expected)]
    trial.check(not errors, f"no error but those that belong here{told(errors)}")
    return by_group


def is_right(it: Print) -> bool:
    """A record's value says where it stands."""
    topic, index, offset, value = it.text.split(" ", 3)
    return value == f"{topic}/{index}/{offset}"


def judge_frames(trial: Trial, exchanges: List[Exchange]) -> None:
    holds = Holds({topic.name: topic.id for topic in trial.topics.values()}).walk(exchanges, trial.restarts)
    trial.check(not holds.faults, f"by the frames: nothing granted while held, no commit taken of what isn't held{told(holds.faults)}")
    trial.note(f"heartbeat codes {dict(sorted(holds.heartbeat_codes.items()))}, commit codes {dict(sorted(holds.commit_codes.items()))}")
    closes = [it.connection for it in exchanges if it.closes]
    if not trial.may_close:
        trial.check(not closes, f"the broker closed no connection over a heartbeat or a commit{told(closes)}")


def judge_reading(trial: Trial, group: str, prints: List[Print], exchanges: List[Exchange]) -> None:
    """Each record below the last offset that was committed was read by somebody of the group."""
    read = records_read(prints)
    committed: Dict[Tuple[str, int], int] = {}
    for it in exchanges:
        if it.is_commit and it.asked.group == group:
            parts = [(name, *part) for name, parts in it.asked.topics for part in parts]
            committed.update({(name, index): offset for (name, index, offset, *_), code in zip(parts, it.codes) if code == 0})
    if read:
        holes = [partition for partition, offset in committed.items() if not read[partition] >= {*range(offset)}]
        count = f"{sum(committed.values())} in {len(committed)} partitions"
        trial.check(not holes, f"group {group}: each record below a committed offset was read ({count}){told(holes)}")


def told(faults: Sequence[object]) -> str:
    return f": {len(faults)}, as {faults[0]}" if faults else ""
