"""Writes the cases that are too long to be stored or written by hand: what a program is given, and what it must print.

usage: python3 cases/made.py NAME PATH

Writes PATH.in and PATH.out. A file cases/SUBCOMMAND/CASE.made has the NAME of its case. Where an answer isn't given here in closed form, it is
that of the rules in Python (conformance/rules).
"""

import pathlib
import sys
import uuid

sys.path.insert(0, str(pathlib.Path(__file__).resolve().parent.parent))

# pylint: disable=wrong-import-position
from conformance.rules.limits import HEARTBEAT_INTERVAL, LONGEST_METADATA, LONGEST_STRING, MOST_GROUPS, MOST_MEMBERS, MOST_PAST_MEMBERS
from conformance.rules.limits import MOST_TOPIC_PARTITIONS, SESSION_TIMEOUT
from conformance.rules.lines import Lines
from conformance.rules.messages import Commit, Heartbeat, commit_frame, reply_frame
from conformance.rules.reply_lines import T, image_line, join, req

A, B = (str(uuid.UUID(int=serial)) for serial in (1, 2))
U, V = (uuid.UUID(bytes=bytes([byte]) * 16) for byte in (0x11, 0x22))


# Of `coord reply`: each line with what is printed for it.


def full_group():
    """10,000 members join one group over two partitions, and one more is refused."""
    yield image_line([("t", T, 2)]), None
    for serial in range(1, MOST_MEMBERS + 1):
        shown = {(T, 0), (T, 1)} if serial == 1 else set()
        yield join(names=["t"]), reply_frame(7, 0, str(uuid.UUID(int=serial)), serial, HEARTBEAT_INTERVAL, shown).hex()
    yield join(names=["t"]), reply_frame(7, 81).hex()


def take_over_in_full_group():
    """Of 10,000 members the last is a static one that goes away: a join takes its place over, without a change, and one more is refused."""
    last, heir = (str(uuid.UUID(int=serial)) for serial in (MOST_MEMBERS, MOST_MEMBERS + 1))
    for serial in range(1, MOST_MEMBERS):
        yield join("g"), reply_frame(7, 0, str(uuid.UUID(int=serial)), serial, HEARTBEAT_INTERVAL, set()).hex()
    yield join("g", instance="i"), reply_frame(7, 0, last, MOST_MEMBERS, HEARTBEAT_INTERVAL, set()).hex()
    yield join("g", instance="j"), reply_frame(7, 81).hex()
    yield join("g", instance="i"), reply_frame(7, 111).hex()
    yield req(Heartbeat("g", last, -2, "i")), reply_frame(7, 0, last, -2).hex()
    yield join("g", instance="j"), reply_frame(7, 81).hex()
    yield join("g", instance="i"), reply_frame(7, 0, heir, MOST_MEMBERS, HEARTBEAT_INTERVAL, set()).hex()
    yield join("g", last), reply_frame(7, 81).hex()
    yield req(Heartbeat("g", heir, -1)), reply_frame(7, 0, heir, -1).hex()
    yield join("g", last), reply_frame(7, 0, last, MOST_MEMBERS + 2, HEARTBEAT_INTERVAL, set()).hex()


def full_node():
    """100,000 groups are made, and no other one is; those that are there go on, and no group goes with its members."""
    for number in range(MOST_GROUPS):
        yield join(f"g{number}", "m"), reply_frame(7, 0, "m", 1, HEARTBEAT_INTERVAL, set()).hex()
    yield join("g", "m"), reply_frame(7, 15).hex()
    yield join("g"), reply_frame(7, 15).hex()
    yield req(Heartbeat("g", "m", 1)), reply_frame(7, 25).hex()
    yield join("g", "m", instance=""), reply_frame(7, 42).hex()
    yield req(Commit("g", "m", -1, [("t", [(0, 1, -1, None)])])), commit_frame(8, [("t", [(0, 69)])]).hex()
    yield join("g0", "n"), reply_frame(7, 0, "n", 2, HEARTBEAT_INTERVAL, set()).hex()
    yield req(Heartbeat("g1", "m", -1)), reply_frame(7, 0, "m", -1).hex()
    yield join("g", "m"), reply_frame(7, 15).hex()
    yield join("g1", "n"), reply_frame(7, 0, "n", 3, HEARTBEAT_INTERVAL, set()).hex()


def forgotten_ids():
    """One id more than are remembered joins and leaves: the first is forgotten, and the second is remembered with its leave's stamp."""
    for number in range(MOST_PAST_MEMBERS + 1):
        member = f"x{number}"
        yield f"stamp 1 {2 * number + 1}", None
        yield join("g", member), reply_frame(7, 0, member, 2 * number + 1, HEARTBEAT_INTERVAL, set()).hex()
        yield f"stamp 1 {2 * number + 2}", None
        yield req(Heartbeat("g", member, -1)), reply_frame(7, 0, member, -1).hex()
    yield "stamp 1 1", None
    yield join("g", "x0"), reply_frame(7, 0, "x0", 2 * MOST_PAST_MEMBERS + 3, HEARTBEAT_INTERVAL, set()).hex()
    yield "stamp 1 4", None
    yield join("g", "x1"), "close"


def long_metadata():
    """Two members share a topic, at epoch 2. A commit's metadata may have 4,096 bytes, and not one more."""
    yield image_line([("t", T, 2)]), None
    yield join(names=["t"]), reply_frame(7, 0, A, 1, HEARTBEAT_INTERVAL, {(T, 0), (T, 1)}).hex()
    yield join(names=["t"]), reply_frame(7, 0, B, 2, HEARTBEAT_INTERVAL, set()).hex()
    yield req(Heartbeat("g", A, 1)), reply_frame(7, 0, A, 1, HEARTBEAT_INTERVAL, {(T, 1)}).hex()
    yield req(Heartbeat("g", A, 1, owned={(T, 1)})), reply_frame(7, 0, A, 2, HEARTBEAT_INTERVAL).hex()
    yield req(Heartbeat("g", B, 2)), reply_frame(7, 0, B, 2, HEARTBEAT_INTERVAL, {(T, 0)}).hex()
    longest, longer = "m" * LONGEST_METADATA, "m" * (LONGEST_METADATA + 1)
    several = [(0, 1, -1, longest), (1, 1, -1, longer), (2, 1, -1, longer), (1, 2, -1, None), (1, 2, -1, "\u00e4" * (LONGEST_METADATA // 2 + 1))]
    for epoch, parts, codes in (
        (2, [(1, 5, -1, longer)], [12]),
        (2, [(1, 5, -1, longest)], [0]),
        (1, [(1, 5, -1, longer)], [113]),
        (2, several, [0, 12, 3, 0, 12]),
    ):
        yield req(Commit("g", A, epoch, [("t", parts)])), commit_frame(8, [("t", [(part[0], code) for part, code in zip(parts, codes)])]).hex()


# Of `coord run`.


def large_topic():
    """A topic of 100,000 partitions is made anew, and three rounds bring its member there."""
    first, second = (",".join(f"{topic}/{index}" for index in range(MOST_TOPIC_PARTITIONS)) for topic in (U, V))
    yield "client a g - - 60000 t", None
    yield f"image t {U} {MOST_TOPIC_PARTITIONS}", "image"
    yield "join a", "sent 1"
    yield "deliver 1", f"reply 1 code 0 epoch 1 shows {first}"
    yield "take 1", "steady"
    yield f"image t {V} {MOST_TOPIC_PARTITIONS}", "image"
    yield "settle", "settled"
    yield None, f"a steady {uuid.UUID(int=1)} 2 {second}"


def forgotten_id():
    """Two clients are removed, and then 4,095 ids more: the first one's is forgotten, and its join isn't delivered."""
    yield from ("client a g - - 60000 -", "client b g - - 60000 -", "client c g - - 60000 -")
    yield from ("join a", "deliver 1", "take 1", "join b", "deliver 2", "take 2", f"tick {SESSION_TIMEOUT}")
    yield from ("beat a short", "deliver 3", "take 3", "join a", "beat b short", "deliver 5", "take 4", "join b", "join c")
    # Each delivery of c's join makes a member, since the join has no id. They are removed in batches.
    for batch in range(2, 65):
        yield from ["deliver 7"] * 65
        yield f"tick {SESSION_TIMEOUT * batch}"
    yield from ("deliver 4", "lose a", "join a", "deliver 8", "deliver 6", "take 4100")


def large_names():
    """A join whose names are 40 texts of 32,767 bytes is sent, and one of 300 such names is too large."""
    yield "client few g - - 60000 " + ",".join(["t" * LONGEST_STRING] * 40)
    yield "client many g - - 60000 " + ",".join(["t" * LONGEST_STRING] * 300)
    yield from ("join many", "join few", "deliver 1", "take 1", "beat few full", "join many")


def large_report():
    """A heartbeat that reports 27 topics of 10,000 partitions is sent and answered."""
    count = 10_000
    topics = [(f"t{byte}", uuid.UUID(bytes=bytes([byte]) * 16)) for byte in range(1, 28)]
    owned = ",".join(f"{topic}/{index}" for _, topic in topics for index in range(count))
    yield "client a g - - 60000 " + ",".join(name for name, _ in topics), None
    yield "image " + " ".join(f"{name} {topic} {count}" for name, topic in topics), "image"
    yield "join a", "sent 1"
    yield "deliver 1", f"reply 1 code 0 epoch 1 shows {owned}"
    yield "take 1", "steady"
    yield "beat a full", "sent 2"
    yield "deliver 2", f"reply 2 code 0 epoch 1 shows {owned}"
    yield "take 2", "steady"
    yield None, f"a steady {uuid.UUID(int=1)} 1 {owned}"


def rows(lines):
    """Each line with what is printed for it, and the report."""
    script = Lines()
    for line in lines:
        yield line, script.line(line)
    for line in script.report():
        yield None, line


MADE = {
    "full-group": full_group,
    "take-over-in-full-group": take_over_in_full_group,
    "full-node": full_node,
    "forgotten-ids": forgotten_ids,
    "long-metadata": long_metadata,
    "large-topic": large_topic,
    "forgotten-id": lambda: rows(forgotten_id()),
    "large-names": lambda: rows(large_names()),
    "large-report": large_report,
}


def main(words):
    if len(words) != 2 or words[0] not in MADE:
        print(f"usage: python3 cases/made.py {'|'.join(MADE)} PATH", file=sys.stderr)
        return 2
    made = [*MADE[words[0]]()]
    for ending, lines in ((".in", [line for line, _ in made]), (".out", [printed for _, printed in made])):
        with open(words[1] + ending, "w", encoding="utf-8") as file:
            file.writelines(f"{line}\n" for line in lines if line is not None)
    return 0


if __name__ == "__main__":
    sys.exit(main(sys.argv[1:]))
