"""The public items of the crates, and which definitions their clauses and models name."""

import pathlib
import re
from typing import Dict, Iterator, List, Set

from model.definitions import WORD, Definition, Key, names_in

EXPORT = re.compile(r"^pub use ([\w:]+)(?:::\{([^}]*)\})?;", re.M)
ITEM = re.compile(r"^pub (?:unsafe )?(?:fn|struct|enum|trait) (\w+)", re.M)
OWNER = re.compile(r"^(?:pub )?(?:unsafe )?(impl|trait|struct|enum)\b(.*)")
FUNCTION = re.compile(r"( *)(pub )?(?:const )?(?:unsafe )?(?:extern \"C\" )?fn (\w+)")
# What a static library gives to C.
FOR_C = re.compile(r"^pub (?:unsafe )?extern \"C\" fn (\w+)", re.M)
# (How a model is stored says nothing of what it means.)
CLAUSE = re.compile(r" +(?:requires|ensures|ghost (?!use |coded))")


def exported(root_file: pathlib.Path) -> Set[str]:
    """The names that a crate's root file gives out, and its public modules; of a program, all public names."""
    if root_file.name == "main.rt":
        files = root_file.parent.glob("**/*.rt")
        return {it for file in files for it in ITEM.findall(file.read_text(encoding="utf-8"))}
    text = root_file.read_text(encoding="utf-8")
    found = {*re.findall(r"^pub mod (\w+);", text, re.M), *FOR_C.findall(text)}
    for path, names in EXPORT.findall(text):
        found |= {it.strip() for it in names.split(",")} if names else {path.rpartition("::")[2]}
    return found


def clauses_in(lines: List[str], public: Set[str]) -> Iterator[str]:
    """The lines of the clauses of a file's public items."""
    owner_is_public = in_trait = is_open = False
    depth = 0
    for line in lines:
        if depth > 0:
            # a clause of several lines goes on
            yield line
            depth += line.count("{") - line.count("}")
            continue
        owner = OWNER.match(line)
        if owner:
            words = set(re.findall(r"\w+", owner[2].partition(" where ")[0]))
            owner_is_public, in_trait = bool(words & public), owner[1] == "trait" or " for " in owner[2]
            is_open = False
        function = FUNCTION.match(line)
        if function:
            is_open = (owner_is_public and bool(function[2] or in_trait)) if function[1] else function[3] in public
        if CLAUSE.match(line) and (is_open or owner_is_public and line.lstrip().startswith("ghost")):
            yield line
            depth = line.count("{") - line.count("}")


def roots_of(root, crate: str, found: Dict[Key, Definition]) -> Iterator[Definition]:
    """The definitions that the clauses of a crate's public items name."""
    folder = pathlib.Path(root, "crates", crate, "src")
    public = exported(next(it for it in (folder / "lib.rt", folder / "main.rt") if it.is_file()))
    for path in sorted(folder.glob("**/*.rt")):
        text = path.read_text(encoding="utf-8")
        lines = text.split("\n")
        # A public module gives out its functions, too.
        functions = {*re.findall(r"^pub fn (\w+)", text, re.M)} if path.stem in public else set()
        names = names_in(lines)
        for line in clauses_in(lines, public | functions):
            for word in WORD.findall(line):
                yield from (found[key] for key in names.meanings(word) if key in found)
