"""The definitions of specs/: where each stands, and which others it uses. A form that isn't known here is an error."""

import dataclasses
import pathlib
import re
from typing import Dict, Iterable, Iterator, List, Set, Tuple

Key = Tuple[str, str]  # a file below crates/, and a name

# A definition that is unfolded by name or not, a type, or a name with a type alone.
HEAD = re.compile(r"(?:pub )?(?:abbrev|unfoldable|data|record) (?:pub )?(\S+)(?= )|(?:pub )?([^\s(]+)(?= : )")
MODULE = re.compile(r"module .*\bwhere$")
USE = re.compile(r"(?:ghost )?(?:pub )?use (Rattle\.[\w.]+?)(?:\.\{([^}]*)\}| as (\w+))?;?$")
OTHER = re.compile(r"(?:pub )?(?:use|mod) |infix[lr]? \d|open ")
CONSTRUCTOR = re.compile(r"\s+(?:pub )?(\S+) :")
WORD = re.compile(r"[^\s(){}\[\],;.:]+(?:\.[^\s(){}\[\],;.:]+)*")


class UnknownForm(Exception):
    """A line of specs/ that begins none of the forms above."""


@dataclasses.dataclass
class Definition:
    """A definition: its file below crates/, its name and the lines that it is made of."""

    file: str
    name: str
    lines: List[str]

    @property
    def key(self) -> Key:
        return self.file, self.name

    def is_clause(self, line: str) -> bool:
        """Whether the line is an equation of it; an operator stands between its arguments."""
        sign = self.name.strip("◌")
        return f" {sign} " in line.partition(" = ")[0] if sign != self.name else line.split()[0] == self.name


@dataclasses.dataclass
class Names:
    """What names mean in a file: those that were taken one by one, an operator by its sign, and those of whole modules."""

    single: Dict[str, Set[Key]]
    modules: Dict[str, Set[str]]

    def meanings(self, word: str) -> Set[Key]:
        """The files and names that a word may stand for."""
        head, _, rest = word.partition(".")
        if rest and head in self.modules:
            return {(file, rest.partition(".")[0]) for file in self.modules[head]}
        return self.single.get(head, set())


def module_file(path: str) -> str:
    """The file of a module `Rattle.CRATE.specs.A.B`, below crates/; nothing where it is no such file."""
    parts = path.split(".")
    if len(parts) < 4 or parts[2] != "specs" or parts[3] == "declared":
        return ""
    return f"{parts[1]}/specs/{'/'.join(parts[3:])}.antt"


def joined(lines: Iterable[str]) -> Iterator[Tuple[int, str]]:
    """The lines with their numbers and without comments; a `use` with braces over several lines as one."""
    begun, first = "", 0
    for number, line in enumerate(lines, 1):
        line = "" if line.lstrip().startswith(("--", "//")) else line.partition(" --")[0].rstrip()
        is_use = re.match(r"\s*(?:ghost )?(?:pub )?use ", line)
        if begun or is_use and line.count("{") > line.count("}"):
            begun, first = f"{begun} {line.strip()}".strip(), first or number
            if begun.count("{") > begun.count("}"):
                continue
            number, line, begun, first = first, begun, "", 0
        if line.strip():
            yield number, line


def names_in(lines: Iterable[str]) -> Names:
    """What the `use` lines of a file bring in."""
    found = Names({}, {})
    for _, line in joined(lines):
        use = USE.match(line.strip())
        file = module_file(use[1]) if use else ""
        if not use or not file:
            continue
        for item in (use[2] or "").split(","):
            name, _, other = item.strip().partition(" as ")
            if name:
                found.single.setdefault((other or name).strip("◌"), set()).add((file, name))
        if use[2] is None:
            found.modules.setdefault(use[3] or use[1].rpartition(".")[2], set()).add(file)
    return found


def read(root) -> Tuple[Dict[Key, Definition], Dict[str, Names]]:
    """All definitions below crates/, by file and name; the constructors of a `data` stand for it."""
    found, names = {}, {}
    crates = pathlib.Path(root, "crates")
    for path in sorted(crates.glob("*/specs/**/*.antt")):
        file = str(path.relative_to(crates))
        lines = path.read_text(encoding="utf-8").split("\n")
        names[file] = names_in(lines)
        for definition in definitions_of(file, lines):
            found[definition.key] = definition
            if re.match(r"\s*(pub )?data ", definition.lines[0]):
                for constructor in filter(None, map(CONSTRUCTOR.match, definition.lines[1:])):
                    found.setdefault((file, constructor[1]), definition)
    return found, names


def definitions_of(file: str, lines: Iterable[str]) -> Iterator[Definition]:
    """The definitions of a file. What stands indented under a module is read as what stands at the line's start."""
    known: Dict[str, Definition] = {}
    current, margins = None, [0]
    for number, line in joined(lines):
        text, margin = line.strip(), len(line) - len(line.lstrip())
        if margins[-1] is None:
            margins[-1] = margin
        while margin < margins[-1]:
            margins.pop()
        head = HEAD.match(text)
        if current and (margin > margins[-1] or text[0] in "})"):
            current.lines.append(line)
        elif head:
            name = head[1] or head[2]
            current = known[name] = Definition(file, name, [line])
        elif MODULE.match(text):
            current = None
            margins.append(None)
        elif OTHER.match(text):
            current = None
        else:
            current = next((it for it in known.values() if it.is_clause(text)), None)
            if not current:
                raise UnknownForm(f"crates/{file}:{number}: this begins no form of a definition that is known: {text}")
            current.lines.append(line)
    yield from known.values()


def used_by(definition: Definition, found: Dict[Key, Definition], names: Dict[str, Names]) -> Iterator[Definition]:
    """The definitions that a definition's lines use."""
    for word in WORD.findall("\n".join(definition.lines)):
        head = word.partition(".")[0]
        own = {(definition.file, head), (definition.file, f"◌{head}◌")}
        for key in names[definition.file].meanings(word) or own:
            if key in found and found[key] is not definition:
                yield found[key]


def reached_from(roots: Iterable[Definition], found: Dict[Key, Definition], names: Dict[str, Names]) -> Dict[Key, Definition]:
    """These definitions and all that they use."""
    reached, waiting = {}, [*roots]
    while waiting:
        it = waiting.pop()
        if it.key not in reached:
            reached[it.key] = it
            waiting += used_by(it, found, names)
    return reached
