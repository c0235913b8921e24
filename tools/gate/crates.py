"""The crates of a tree, as crates.txt lists them, and how the checker is called for one of them."""

import contextlib
import hashlib
import os
import shutil
from typing import Dict, Iterable, List, Optional

from gate import commands

# The parts of a crate that a check reads.
PARTS = ("src", "specs", "proofs")


class Tree:
    """A repository's files: its crates, and the libraries that were built of them.

    `is_proved` says that `rt ci` has just built the libraries of the tree's very files.
    """

    def __init__(self, root: str, kit: str, is_proved: bool = False) -> None:
        self.root, self.kit, self.is_proved = root, kit, is_proved
        self.uses = listed(f"{root}/crates.txt")

    def folder(self, crate: str) -> str:
        return f"{self.root}/crates/{crate}"

    def library(self, crate: str) -> str:
        return f"{self.folder(crate)}/out/rlib/{crate}.rlib"

    def own(self, crate: str) -> List[str]:
        """The crates of the tree that this one names."""
        return [it for it in self.uses[crate] if it in self.uses]

    def below(self, crate: str) -> List[str]:
        """The crates of the tree that this one rests on, each after those that it rests on itself."""
        found = []
        for it in self.own(crate):
            found += [low for low in [*self.below(it), it] if low not in found]
        return found

    def above(self, crates: Iterable[str]) -> List[str]:
        """These crates and those that rest on one of them, lowest first."""
        return self.lowest_first([it for it in self.uses if it in crates or {*crates} & {*self.below(it)}])

    def lowest_first(self, crates: Iterable[str]) -> List[str]:
        """These crates, each after those of them that it rests on."""
        order = dict.fromkeys(low for it in crates for low in [*self.below(it), it])
        return [it for it in order if it in crates]

    def root_file(self, crate: str) -> str:
        is_program = os.path.isfile(f"{self.folder(crate)}/src/main.rt")
        return "src/main.rt" if is_program else "src/lib.rt"

    def sources(self, crate: str) -> List[str]:
        """The crate's own files, by their path in it."""
        folder = self.folder(crate)
        found = [f"{at}/{name}" for part in PARTS for at, _, names in os.walk(f"{folder}/{part}") for name in names]
        return sorted(os.path.relpath(it, folder) for it in found)

    def read(self, crate: str, path: str) -> str:
        with open(f"{self.folder(crate)}/{path}", encoding="utf-8") as file:
            return file.read()

    def lay(self, crate: str, folder: str, texts: Optional[Dict[str, str]] = None) -> None:
        """Copies a crate's own files into a folder, with these texts in place of some."""
        for part in filter(lambda part: os.path.isdir(f"{self.folder(crate)}/{part}"), PARTS):
            shutil.copytree(f"{self.folder(crate)}/{part}", f"{folder}/{part}", symlinks=True)
        write(folder, texts or {})

    def check_words(self, crate: str, uses: Optional[List[str]] = None, root_file: Optional[str] = None, verb: str = "check") -> List[str]:
        """The words that check a crate, in a folder that has its files, over the tree's built libraries.

        `uses` and `root_file` are given for code that is no crate of the tree. The verb `build` wants more words behind these.
        """
        uses = self.uses[crate] if uses is None else uses
        words = [f"{self.kit}/bin/rattle", verb, "--crate-name", crate, root_file or self.root_file(crate)]
        own = [it for it in uses if it in self.uses]
        for name in ["std", *(it for it in uses if it not in self.uses)]:
            words += ["--extern", f"{name}={self.kit}/rlibs/{name}.rlib"]
        for name in own:
            words += ["--extern", f"{name}={self.library(name)}"]
        words += ["-L", f"dependency={self.kit}/rlibs"]
        for name in dict.fromkeys(low for it in own for low in [*self.below(it), it]):
            words += ["-L", f"dependency={os.path.dirname(self.library(name))}"]
        words += ["--antt-project", f"{self.kit}/rattle/logic/antt-project.json"]
        return [*words, "--logic-built", f"{self.kit}/logic_built", "--links", f"{crate}="]

    def is_made(self, name: str) -> bool:
        """Whether `rt ci` has just built the library: it leaves no stamp, as `rt lib` does."""
        folder = os.path.dirname(self.library(name))
        return self.is_proved and os.path.isdir(self.library(name)) and not os.path.isfile(f"{folder}/stamp")

    def build_below(self, crates: Iterable[str]) -> None:
        """Builds the libraries that these crates rest on."""
        self.build(dict.fromkeys(low for it in crates for low in self.below(it)))

    def build(self, names: Iterable[str]) -> None:
        """Builds these libraries, where they have changed. Where one does not build, this process ends."""
        for name in (it for it in names if not self.is_made(it)):
            ran = commands.run(["rt", "lib"], self.folder(name))
            if ran.status:
                commands.fail("\n".join([*ran.lines()[-20:], f"the library {name} is not proved"]))


class Kept:
    """What came out as it must before on this machine, and isn't tried again: in the folder for caches, by the sum of all that it rests on."""

    FOLDER = os.path.join(os.environ.get("XDG_CACHE_HOME") or os.path.expanduser("~/.cache"), "migwelun-refused")

    def __init__(self, tree: Tree, *words: object, parts: Iterable[str] = PARTS, below: Optional[Iterable[str]] = None) -> None:
        self.tree, self.parts, self.words = tree, (*parts,), [*words, content(f"{tree.kit}/KIT-ID")]
        # Of the crates below, where it rests on less of them.
        self.below = Kept(tree, parts=below) if below else self
        self.sums: Dict[str, str] = {}

    def place(self, names: Iterable[str], *words: object) -> str:
        parts = [*self.words, *words, *map(self.crate, names)]
        return f"{self.FOLDER}/{hashlib.sha256(repr(parts).encode()).hexdigest()}"

    def crate(self, name: str) -> str:
        """The sum of these parts of a crate and of those below it."""
        if name not in self.sums:
            files = [it for it in self.tree.sources(name) if it.startswith(self.parts)]
            texts = [(it, content(f"{self.tree.folder(name)}/{it}")) for it in files]
            parts = [name, self.tree.uses[name], texts, [self.below.crate(it) for it in self.tree.own(name)]]
            self.sums[name] = hashlib.sha256(repr(parts).encode()).hexdigest()
        return self.sums[name]

    def has(self, names: Iterable[str], *words: object) -> bool:
        return os.path.isfile(self.place(names, *words))

    def keep(self, names: Iterable[str], *words: object) -> None:
        with contextlib.suppress(OSError):
            os.makedirs(self.FOLDER, 0o700, exist_ok=True)
            with open(self.place(names, *words), "w", encoding="utf-8"):
                pass


def write(folder: str, texts: Dict[str, str]) -> None:
    for path, text in texts.items():
        with open(f"{folder}/{path}", "w", encoding="utf-8") as file:
            file.write(text)


def content(path: str) -> bytes:
    """A file's bytes; none where there is no such file."""
    with contextlib.suppress(OSError), open(path, "rb") as file:
        return file.read()
    return b""


def listed(file: str) -> Dict[str, List[str]]:
    """What crates.txt says: each crate, and the libraries that it names."""
    with open(file, encoding="utf-8") as lines:
        parts = [line.partition("#")[0].partition(":") for line in lines]
    return {head.split()[0]: uses.split() for head, colon, uses in parts if colon}


def kit_folder() -> str:
    """The folder of the toolchain."""
    page = commands.run(["rt", "doc"]).lines()[-1]
    return os.path.dirname(page)


def repository() -> str:
    """The repository that these tools stand in."""
    return os.path.dirname(os.path.dirname(os.path.dirname(os.path.realpath(__file__))))


def work_tree() -> Tree:
    """The repository as it stands, with what earlier checks left in it."""
    commands.need("rt")
    return Tree(repository(), kit_folder(), is_proved=os.environ.get("GATE_PROVED") == "1")
