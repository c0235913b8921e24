"""Words for what is printed and shown."""

from __future__ import annotations

from typing import Iterable, List

from broker.partitions import Partitions, Run

LONGEST_NAME = 60
MOST_RANGES = MOST_NAMES = 12
MEMBER_LETTERS = 6


def plain(text: str) -> str:
    """A text that came over the network, as a part of a line: without control characters, and not too long."""
    cut = text if len(text) <= LONGEST_NAME else f"{text[:LONGEST_NAME]}.."
    return "".join(each if each.isprintable() else f"\\u{ord(each):04x}" for each in cut)


def short_id(member: str) -> str:
    """The end of a member id. (The ids of one coordinator begin alike.)"""
    return plain(member[-MEMBER_LETTERS:])


def in_words(partitions: Partitions) -> str:
    """As `orders[0..3,7] bills[0]`."""
    return names_in_words(f"{plain(topic)}[{_indexes(runs)}]" for topic, runs in partitions.runs().items()) or "nothing"


def names_in_words(names: Iterable[str]) -> str:
    shown = list(names)
    return " ".join(shown[:MOST_NAMES]) + (" .." if len(shown) > MOST_NAMES else "")


def _indexes(runs: List[Run]) -> str:
    shown = [str(first) if first == last else f"{first}..{last}" for first, last in runs[:MOST_RANGES]]
    return ",".join(shown) + (",.." if len(runs) > MOST_RANGES else "")
