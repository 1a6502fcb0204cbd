#!/usr/bin/env python3
"""Races a union by snap rounding with one pair by pair and with Clipper's, in many short rounds by turns.

Usage, from the top of the repository:

    python3 bench/peers/rounds.py [--rounds N] [--seconds S] [--kinds KIND,KIND] [--programs NAME,NAME] [NUMBER ..]

In each of N rounds (24) each program repeats each union for S seconds (0.15), all on one processor, and on the next one in the next
round. A row of the table has the least milliseconds of the processor of each, and how many times as long snap rounding took as the others.
It takes some six minutes with the kinds and numbers that are raced if none are given, and cargo, g++ and libpolyclipping-dev.
"""
import argparse
import os
import subprocess
import sys

sys.dont_write_bytecode = True
import run  # noqa: E402  (beside this file)
from kinds import edges  # noqa: E402

# an overlay of few edges is repeated as long as there is time
RUNS = 1_000_000


def spent(name, path, seconds, processor):
    """The least milliseconds of a union in one process."""
    program, more = run.command(name)
    words = ["taskset", "--cpu-list", str(processor), program, "union", path, str(RUNS), str(seconds), *more]
    printed = subprocess.run(words, capture_output=True, text=True, check=True).stdout
    return float(dict(it.split("=") for it in printed.split())["cpu"])


def race(cells, names, given):
    """The least times of each cell, by name."""
    processors = sorted(os.sched_getaffinity(0))
    least = {cell: dict.fromkeys(names, float("inf")) for cell in cells}
    for at in range(given.rounds):
        for cell, times in least.items():
            path = run.made(*cell)
            for name in names:
                times[name] = min(times[name], spent(name, path, given.seconds, processors[at % len(processors)]))
    return least


def main():
    parser = argparse.ArgumentParser(description=__doc__, formatter_class=argparse.RawDescriptionHelpFormatter)
    parser.add_argument("--rounds", type=int, default=24, help="rounds, in each of which all programs run (24)")
    parser.add_argument("--seconds", type=float, default=0.15, help="how long a process repeats a union (0.15)")
    parser.add_argument("--kinds", default="blobs,coast,town,parcels", help="kinds, with commas between them")
    parser.add_argument("--programs", default="ours,pairwise,clipper", help="programs, with commas between them; the first is `ours`")
    parser.add_argument("numbers", nargs="*", type=int, default=[1_000, 4_000, 16_000, 50_000])
    given = parser.parse_args()
    os.makedirs(run.OUT, exist_ok=True)
    run.compile_ours()
    names = [it for it in given.programs.split(",") if it in run.OURS or run.compile_peer(it)]
    cells = [(kind, number) for kind in given.kinds.split(",") for number in given.numbers]
    print("| kind | edges | " + " | ".join([f"{it}, ms" for it in names] + [f"of {it}" for it in names[1:]]) + " |")
    print("|" + "---|" * (1 + 2 * len(names)))
    for (kind, number), times in race(cells, names, given).items():
        ratios = [f"{times[names[0]] / times[it]:.2f}" for it in names[1:]]
        print(f"| {kind} | {edges(kind, number):,} | " + " | ".join([f"{times[it]:.3f}" for it in names] + ratios) + " |")


if __name__ == "__main__":
    main()
