"""Compiles the C library without proofs, in a few minutes, once for as long as its sources stay the same.

`rt try --test` translates what the tests of a crate reach. So a copy of the crate gets one that calls each function which the library gives out.
Translated they are called by their paths in the crate, and take what C gives them: here they get their names, and the rest is as of the program.
"""

import pathlib
import re
import time
from typing import Iterator, List, Tuple

from gate import commands, crates
from launch import build, sources, unproved

NAME = "coord_c-unproved.o"
EXPORT = re.compile(r'pub extern "C" fn (migwelun_\w+)\(([^)]*)\)')
# What the test has to give, by the type of an argument. For any other there is a number, or a variable of it.
GIVEN = {"&mut Slot": "&mut slot", "Global": "alloc", "&[u8; 16]": "&[0; 16]", "&[u8]": "b\"\"", "&mut [u8]": "&mut bytes"}
# The module of the crate in which a slot can be made and taken apart.
MODULE, TEST = "slot.rt", """
use crate::{{{names}}};
use std::test::Fail;

#[test]
fn all_that_is_given_out_is_reached(rt: HostRuntime) -> Result<(), Fail> {{
    let alloc = rt.alloc();
    let mut slot = Slot::empty();
    let mut bytes = [0u8; 1];
    {calls}
    let Slot {{ held, full: _ }} = slot;
    held.let_go();
    Ok(())
}}
"""
# A function's beginning in the translated module, and its path there. The test's own `main` isn't given out, and goes away with all of the test.
DEFINED = re.compile(r'^define internal ([^\n@]*)@"coord_c::(?:\w+::)?(migwelun_\w+)"', re.M)
PATH = re.compile(r'@"coord_c::(?:\w+::)?(migwelun_\w+)"')
MAIN = re.compile(r"^define ([^\n@]*@main\()", re.M)


def exports(folder: pathlib.Path) -> Iterator[Tuple[str, List[str]]]:
    """The functions that the library gives out, with the types of their arguments."""
    for path in sorted(folder.glob("*.rt")):
        for name, arguments in EXPORT.findall(path.read_text(encoding="utf-8")):
            yield name, [it.split(":", 1)[1].strip() for it in arguments.split(",") if it.strip()]


def test_of(folder: pathlib.Path) -> str:
    """A test that calls each of them."""
    found, calls, count = dict(exports(folder)), [], 0
    for name, types in found.items():
        given = []
        for it in types:
            if it not in GIVEN and it.startswith("&mut "):
                count += 1
                calls.append(f"let mut number{count} = 0{it[5:]};")
            given.append(GIVEN.get(it) or (f"&mut number{count}" if it.startswith("&mut ") else "0"))
        calls.append(f"{name}({', '.join(given)});")
    return TEST.format(names=", ".join(found), calls="\n    ".join(calls))


def compile_library(tree: crates.Tree, kept: sources.Kept) -> bool:
    """Makes the object and keeps it. Whether it is there."""
    with build.turn(tree):
        if kept.is_current():
            return True
        began = time.monotonic()
        build.say("compiling the library without proofs, once: 2 to 4 minutes")
        with build.room(tree) as folder:
            copied = sources.copy(tree, f"{folder}/0", kept.crate)
            made_of, source = sources.sum_of(copied, kept.crate), pathlib.Path(copied.folder(kept.crate), "src")
            with open(source / MODULE, "a", encoding="utf-8") as file:
                file.write(test_of(source))
            if not unproved.translate(copied, folder, kept.crate, "--test") or not is_compiled(copied, folder):
                build.say("the library was not compiled")
                return False
            kept.keep(folder, made_of)
        build.say(f"compiled in {time.monotonic() - began:.0f} s, and not proved")
    return True


def is_compiled(copied: crates.Tree, folder: str) -> bool:
    """Compiles the functions of module.bc under their names."""
    compiler, text = f"{copied.kit}/toolchain/bin/clang", pathlib.Path(folder, "module.ll")
    target, *_ = words = pathlib.Path(folder, "words").read_text(encoding="utf-8").splitlines()
    told = ["-x", "ir", "-S", "-emit-llvm", "-Xclang", "-disable-llvm-passes", "-o", text.name, "module.bc"]
    if not build.succeeds(commands.run([compiler, target, *told], folder)):
        return False
    named = MAIN.sub(r"define internal \1", PATH.sub(r"@\1", DEFINED.sub(r"define \1@\2", text.read_text(encoding="utf-8"))))
    text.write_text(named, encoding="utf-8")
    turned = {unproved.TRIED: unproved.FAST, "-fPIE": "-fPIC", "module.bc": text.name, "module.o": NAME}
    fast = [turned.get(it, it) for it in words if it != unproved.CHECKED]
    return build.succeeds(commands.run([compiler, *fast], folder))
