"""What `tools/frame-lines` does: input for `coord frame`, and the program's output over it against the reader here."""

import argparse
import os
import resource
import subprocess
import sys
import tempfile

from . import compare
from .frame_lines import SHORTEST_LINE, Frames, frames, printed_for, write_lines

INPUT_BYTES = 67_108_864
# The most memory that the program may take, as a multiple of the input.
MEMORY_RATIO = 4


def faults_of(command, seed, count):
    """Runs a program over the input, and says what is wrong. (Its memory is measured while this process has little itself.)"""
    with tempfile.TemporaryFile() as given, tempfile.TemporaryFile() as printed:
        write_lines(given, seed, count)
        given.seek(0)
        ran = subprocess.run(command, stdin=given, stdout=printed, stderr=subprocess.PIPE, check=False)
        peak = 1024 * resource.getrusage(resource.RUSAGE_CHILDREN).ru_maxrss
        print(f"{count} bytes of lines, seed {seed}; peak memory {peak / 2**20:.0f} MiB, {peak / count:.2f} times the input")
        if compare.ended(ran):
            yield compare.ended(ran)
        if peak >= MEMORY_RATIO * count:
            yield f"the peak of memory is {MEMORY_RATIO} times the input or more"
        printed.seek(0)
        for number, (frame, tags) in enumerate(frames(seed, count), 1):
            wanted = printed_for(frame)
            if tags is not None and not wanted.endswith(f"\ntags {tags}"):
                yield f"line {number} is valid, with {tags} tagged fields, and the reader says {wanted!r}"
            found = printed.read(len(wanted) + 1).decode(errors="replace")
            if found != f"{wanted}\n":
                yield f"line {number}, {frame.hex()[:200]}: expected {wanted[:200]!r}, printed {found[:200]!r}"
                return
        left = printed.read(200)
        if left:
            yield f"after the last line it prints {left!r}"


def main(words, doc):
    if words[:1] == ["answer"]:
        return compare.main(compare.Tool("frame-lines", Frames, list, lambda *_: []), doc)
    parser = argparse.ArgumentParser(prog="tools/frame-lines", description=doc, formatter_class=argparse.RawDescriptionHelpFormatter)
    parser.add_argument("--bytes", type=int, default=INPUT_BYTES, metavar="N")
    parser.add_argument("--seed", type=int, default=compare.SEED, metavar="N")
    parser.add_argument("words", nargs=argparse.REMAINDER, metavar="PROGRAM|FILE")
    is_check = words[:1] == ["check"]
    asked = parser.parse_args(words[is_check:])
    if asked.bytes < SHORTEST_LINE or is_check and not asked.words or not is_check and len(asked.words) > 1:
        parser.error(f"{'a program' if is_check else 'one file'} is wanted, and {SHORTEST_LINE} bytes at least")
    if is_check:
        if not os.path.isfile(asked.words[0]):
            parser.error(f"there is no file {asked.words[0]}")
        asked.words[0] = os.path.realpath(asked.words[0])
        faults = [*faults_of(asked.words, asked.seed, asked.bytes)]
        print(*(f"WRONG: {fault}" for fault in faults), "wrong" if faults else "right: each byte that was printed is as expected", sep="\n")
        return int(bool(faults))
    with open(asked.words[0], "wb") if asked.words else sys.stdout.buffer as out:
        write_lines(out, asked.seed, asked.bytes)
    return 0
