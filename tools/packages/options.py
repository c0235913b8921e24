"""What --help shows, as a table."""

import dataclasses
import re
from typing import Dict, List, Tuple

CHOICES = re.compile(r" *\[possible values: (.*)\]")


@dataclasses.dataclass(frozen=True)
class Option:
    """`names` are its spellings, and `value` is what the help calls its value, if it has one."""

    names: Tuple[str, ...]
    value: str
    about: str
    choices: Tuple[str, ...]


@dataclasses.dataclass(frozen=True)
class Help:
    """A command's help: its subcommands and arguments are names, each with what is said of it."""

    command: str
    about: str
    usage: str
    subcommands: List[Tuple[str, str]]
    arguments: List[Tuple[str, str]]
    options: List[Option]


def read(command: str, text: str) -> Help:
    """Reads what clap, or Python's argparse, prints for --help."""
    usage = re.search(r"^usage: (.*(?:\n +.*)*)", text, re.M | re.I)
    sections: Dict[str, List[Tuple[str, str]]] = {}
    abouts, rows = [], None
    for line in text.splitlines():
        title = re.fullmatch(r"(\w[\w ]*):", line)
        row = re.fullmatch(r"  +(\S.*?)(?:  +(.*))?", line)
        if title:
            rows = sections.setdefault(title[1].lower().split()[-1], [])
        elif rows is None:
            abouts += [line] * (bool(line) and line not in (usage[0] if usage else ""))
        elif row and rows and not rows[-1][1]:
            rows[-1] = rows[-1][0], row[1]
        elif row:
            rows.append((row[1], row[2] or ""))
    words = " ".join(usage[1].split()) if usage else command
    options = [option(*it) for it in sections.get("options", [])]
    return Help(command, " ".join(abouts), words, sections.get("commands", []), sections.get("arguments", []), options)


def option(spelled: str, about: str) -> Option:
    names = tuple(re.findall(r"(?<![\w-])--?[\w-]+", spelled))
    value = spelled.rpartition(names[-1])[2].strip(" =<>")
    choices = CHOICES.search(about) or re.fullmatch(r"\{(.*)\}", value)
    return Option(names, value, CHOICES.sub("", about), tuple(re.split(", ?", choices[1])) if choices else ())
