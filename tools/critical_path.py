#!/usr/bin/env python3
"""The critical path of a gate: the chain of crates, each of which waited for the one before, that ended last.

    bash tools/gate.sh | tee gate.txt; python3 tools/critical_path.py gate.txt [CRATE]

Reads the lines `N s: rt: CRATE proved`, and `crates.txt`. The chain ends at the crate that was proved last, or at CRATE; before each
crate comes that one below it which was proved last. What a crate took is the time since then: its proof, and its waits for a
processor. A crate without such a line was kept, and took nothing.
"""
import os
import re
import sys

ROOT = os.path.dirname(os.path.dirname(os.path.abspath(__file__)))
PROVED = re.compile(r"\s*(\d+) s: rt: (\w+) proved$")


def crates():
    """The crates of the repository, each with those that it rests on."""
    with open(f"{ROOT}/crates.txt", encoding="utf-8") as file:
        lines = [line.split("#")[0].split(":") for line in file if ":" in line.split("#")[0]]
    below = {head.split()[0]: rest.split() for head, rest in lines}
    return {name: [it for it in rest if it in below] for name, rest in below.items()}


def seconds_of(path):
    """When each crate was proved, in seconds since the start of the gate."""
    with open(path, encoding="utf-8") as file:
        found = [PROVED.match(line.rstrip("\n")) for line in file]
    return {it[2]: int(it[1]) for it in found if it}


def chain(below, seconds, last):
    """The crates of the path from the first one to the last, each with the time since the one before it was proved."""
    path = []
    while last:
        before = max((it for it in below[last] if it in seconds), key=seconds.get, default=None)
        path.append((last, seconds[last] - seconds.get(before, 0), seconds[last]))
        last = before
    return path[::-1]


def main(path, last=None):
    below, seconds = crates(), seconds_of(path)
    known = {name: at for name, at in seconds.items() if name in below}
    if not known or last and last not in known:
        print(f"{path} has no line that says when {last or 'a crate'} was proved", file=sys.stderr)
        return 1
    print(f"{'took':>7} {'proved at':>11}")
    for name, took, at in chain(below, known, last or max(known, key=known.get)):
        print(f"{took:5d} s {at:9d} s  {name}")
    return 0


if __name__ == "__main__":
    sys.exit(main(*sys.argv[1:3]) if len(sys.argv) in (2, 3) else __doc__)
