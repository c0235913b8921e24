"""Man pages: the options as --help shows them, and what docs/COMMANDS.md says of the command."""

import re
import time
from typing import Iterator, List

from packages.options import Help

BLOCK = re.compile(
    r"```.*\n((?:.*\n)*?)```\n|((?:    .*\n)+)|((?:(?:  )?\|.*\n)+)|((?:- .*\n(?:  (?![| ]).*\n)*)+)|#+ (.*)\n|((?: {0,3}(?!- |\||#|```)\S.*\n)+)"
)


def page(help_of: Help, version: str, seconds: int, text: str, others: List[str]) -> str:
    """The man page of a command. `text` is Markdown, and `others` are the pages that it names."""
    date = time.strftime("%Y-%m-%d", time.gmtime(seconds))
    name = help_of.command.replace(" ", "-")
    first, _, more = help_of.about.partition(". ")
    about = first[:1].lower() + first[1:].rstrip(".")
    lines = [f'.TH {name.upper()} 1 "{date}" "migwelun {version}" Migwelun', ".SH NAME", f"{literal(name)} \\- {inline(about)}"]
    lines += [".SH SYNOPSIS", literal(help_of.usage)]
    rows = [(" ".join([", ".join(it.names), it.value]).strip(), it) for it in help_of.options]
    for title, entries in (
        ("COMMANDS", help_of.subcommands),
        ("ARGUMENTS", help_of.arguments),
        ("OPTIONS", [(head, it.about + (f" One of: {', '.join(it.choices)}." if it.choices else "")) for head, it in rows]),
    ):
        lines += [f".SH {title}"] * bool(entries)
        for head, said in entries:
            lines += [".TP", f"\\fB{literal(head)}\\fR", inline(said)]
    lines += [".SH DESCRIPTION", *blocks(f"{more}\n\n{text}")]
    return "\n".join([*lines, ".SH SEE ALSO", ", ".join(f"\\fB{literal(it)}\\fR(1)" for it in others), ""])


def section(document: str, title: str) -> str:
    """The part of a Markdown document below a heading, with its parts."""
    found = re.search(rf"^(##+) {re.escape(title)}\n(.*?)(?=^(?:\1|##) |\Z)", document, re.M | re.S)
    if found is None:
        raise ValueError(f"there is no section {title!r}")
    return found[2]


def blocks(text: str) -> Iterator[str]:
    """Markdown as roff: paragraphs, lists, tables as lists of their first column, and code."""
    text = re.sub(r"^!\[.*\n", "", text, flags=re.M)
    for fenced, indented, table, points, heading, paragraph in BLOCK.findall(text):
        if fenced or indented:
            yield from (".PP", ".RS 4", ".nf", *(guarded(literal(re.sub("^    ", "", it))) for it in (fenced or indented).splitlines()), ".fi", ".RE")
        elif table:
            yield from rows_of(table)
        elif points:
            for point in re.split(r"^- ", points, flags=re.M)[1:]:
                yield from (".IP \\(bu 2", inline(" ".join(point.split())))
        elif heading:
            yield f".SS {inline(heading)}"
        elif paragraph:
            yield from (".PP", inline(" ".join(paragraph.split())))


def rows_of(table: str) -> Iterator[str]:
    rows = [[cell.strip() for cell in re.split(r"(?<!\\)\|", line.strip().strip("|"))] for line in table.splitlines()]
    titles = rows[0]
    for row in rows[2:]:
        said = [f"{title}: {cell}." if title and len(row) > 2 else cell for title, cell in zip(titles[1:], row[1:]) if cell]
        yield from (".TP", inline(row[0]) or "-", inline(" ".join(said)))


def inline(text: str) -> str:
    """A line of Markdown as roff, with code and what stands out in bold."""
    text = re.sub(r"\[([^\]]*)\]\([^)]*\)", r"\1", text)
    plain = text.replace("\\", "\\e")
    return guarded(re.sub(r"`([^`]+)`|\*\*([^*]+)\*\*", lambda it: "\\fB" + (it[1] or it[2]).replace("-", "\\-") + "\\fR", plain))


def literal(text: str) -> str:
    """Text in which roff reads no command."""
    return text.replace("\\", "\\e").replace("-", "\\-")


def guarded(line: str) -> str:
    return f"\\&{line}" if line[:1] in (".", "'") else line
