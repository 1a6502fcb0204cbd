#!/usr/bin/env python3
"""Counts the instructions of a union through the Rust package, by snap rounding and pair by pair: no load of a machine changes them.

Usage, from the top of the repository: python3 bench/peers/instructions.py [KIND_NUMBER ..]

Each kind of `kinds.py` is made of so many edges, as `blobs_1000`; if none is given, three kinds of 1,000 and of 16,000. A row has the
millions of instructions of one `Overlay` that is made, filled and overlaid, and how many times as many snap rounding takes. One run is
taken from two, so that reading the input does not count. It takes cargo and valgrind.
"""
import os
import re
import subprocess
import sys

import run  # beside this file

PROGRAM = os.path.join(run.OUT, "target/release/ours")
GIVEN = [f"{kind}_{number}" for number in (1000, 16000) for kind in ("blobs", "coast", "town")]


def instructions(path, words):
    """The instructions of one overlay."""
    counted = ["valgrind", "--tool=callgrind", "--callgrind-out-file=/dev/null"]
    commands = [[*counted, PROGRAM, "union", path, runs, "1000", *words] for runs in "12"]
    said = [subprocess.run(it, capture_output=True, text=True, check=True).stderr for it in commands]
    once, twice = (int(re.search(r"Collected : (\d+)", it)[1]) for it in said)
    return (twice - once) / 1e6


def main(rows):
    os.makedirs(run.OUT, exist_ok=True)
    run.compile_ours()
    print("| kind | edges | snap rounding | pairwise | times |\n|---|---|---|---|---|")
    for row in rows or GIVEN:
        kind, number = row.split("_")
        path = run.made(kind, int(number))
        snap, pairs = (instructions(path, words) for words in run.OURS.values())
        print(f"| {kind} | {int(number):,} | {snap:.2f} | {pairs:.2f} | {snap / pairs:.2f} |", flush=True)


if __name__ == "__main__":
    main(sys.argv[1:])
