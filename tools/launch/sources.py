"""Which file of out/ was made of which sources.

Beside a file NAME are two notes. NAME.sum has the checksum of the sources that it was made of, and its own. NAME.list is what `list-sources`
printed when these agreed: while it still prints the same, nothing has changed, and no file needs to be read.
"""

import contextlib
import hashlib
import os
import pathlib
import subprocess
from typing import Iterator, Sequence

from gate import crates

PROGRAM, LIBRARY = "scenario_cli", "coord_c"
# The programs by the names of their files, and the crate of each.
COORD, BROKER = "coord", "coord-broker"
PROGRAMS = {COORD: PROGRAM, BROKER: "broker_cli"}
# How long a change may hide behind one of the same moment, in seconds.
TICK = 0.02


class Kept:
    """A file that was built of a crate, with the notes of what it was made of. `beside` are more files that the same build makes."""

    def __init__(self, tree: crates.Tree, name: str, crate: str = PROGRAM, beside: Sequence[str] = ()) -> None:
        self.tree, self.crate = tree, crate
        self.out = pathlib.Path(tree.root, "out")
        self.file, *self.beside = (self.out / it for it in (name, *beside))
        self.list, self.sum = self.out / f"{name}.list", self.out / f"{name}.sum"

    def is_current(self) -> bool:
        """Whether the file was made of the sources as they are. If so, the list is noted that shows it sooner next time."""
        try:
            # The present moment by the clock that dates the files, which may be another machine's.
            os.utime(self.out)
            listed, clock = self.listed(), self.out.stat().st_ctime
            if self.sum.read_text() != self.sums(sum_of(self.tree, self.crate)):
                return False
        except OSError:
            return False
        changes = [float(line.rpartition(b" ")[2]) for line in listed.splitlines()]
        if max(changes, default=clock) < clock - TICK and listed == self.listed():
            self.write(self.list, listed)
        return True

    def what_is_missing(self) -> Iterator[str]:
        """Why a file that is there isn't taken for current, where what goes with it is missing."""
        lost = [f"out/{it.name}" for it in (*self.beside, self.sum) if not it.exists()]
        if self.file.exists() and lost:
            are, say = ("is", "says") if len(lost) == 1 else ("are", "say")
            yield f"out/{self.file.name} is there, and {' and '.join(lost)}, which {say} what it was made of, {are} not: it is built again"

    def sums(self, made_of: str) -> str:
        files = (hashlib.sha256(it.read_bytes()).hexdigest() for it in (self.file, *self.beside))
        return " ".join([made_of, *files]) + "\n"

    def keep(self, folder: str, made_of: str) -> None:
        """Takes the files from the folder, where they were made of the sources with this checksum."""
        for it in (*self.beside, self.file):
            made = pathlib.Path(folder, it.name)
            self.write(it, made.read_bytes(), made.stat().st_mode & 0o777)
        self.write(self.sum, self.sums(made_of).encode())

    def write(self, file: pathlib.Path, content: bytes, mode: int = 0o644) -> None:
        """Writes a file so that nobody meets half of it."""
        part = file.with_name(f"{file.name}.{os.getpid()}")
        self.out.mkdir(exist_ok=True)
        try:
            part.write_bytes(content)
            part.chmod(mode)
            part.replace(file)
        finally:
            part.unlink(missing_ok=True)

    def listed(self) -> bytes:
        words = [f"{self.tree.root}/tools/launch/list-sources", self.file.name]
        return subprocess.run(words, stdout=subprocess.PIPE).stdout


def program(tree: crates.Tree, name: str = COORD, is_proved: bool = True) -> Kept:
    """A program. The object that a proved one is linked of is kept for packages."""
    return Kept(tree, name if is_proved else f"{name}-unproved", PROGRAMS[name], [f"{name}.o"] * is_proved)


def sum_of(tree: crates.Tree, name: str, kit: str = "") -> str:
    """A checksum of all that a crate is made of: its sources, those below it, and the toolchain where given."""
    made = hashlib.sha256()
    with contextlib.suppress(OSError):
        made.update(pathlib.Path(kit, "KIT-ID").read_bytes() if kit else b"")
    for crate in [*tree.below(name), name]:
        made.update(repr((crate, tree.uses[crate])).encode())
        for path in tree.sources(crate):
            content = pathlib.Path(tree.folder(crate), path).read_bytes()
            made.update(repr((path, len(content))).encode() + content)
    return made.hexdigest()


def copy(tree: crates.Tree, folder: str, name: str) -> crates.Tree:
    """Copies the sources of a crate and of those below it, without what was built of them."""
    names = [*tree.below(name), name]
    for crate in names:
        tree.lay(crate, f"{folder}/crates/{crate}")
    pathlib.Path(folder, "crates.txt").write_text("".join(f"{it}: {' '.join(tree.uses[it])}\n" for it in names))
    return crates.Tree(folder, tree.kit)
