#!/usr/bin/env python3
"""Times `polygons`, by snap rounding and pair by pair, beside `arrange graph` on the same shapes, over the whole range of `i32`.

Usage, from the top of the repository: python3 bench/polygons.py [--turns N] [--rule NAME] [NUMBER ..]

Each kind of polygons of bench/race.py is made of the given numbers of edges (1,000, 4,000, 16,000 and 50,000 if none are given).
For each a row of a table is printed: kind, edges, contours and points of the result by snap rounding, and the least wall time of
nine runs of each in turns, in milliseconds, text included. `arrange` splits pair by pair; what `polygons pairwise` takes longer is
the walk, and its text is shorter.
"""
import argparse
import os
import subprocess
import sys
import time

from race import POLYGONS, SMALLER, TURNS, sides

PROGRAMS = [os.path.join("crates", name, "out", name) for name in ("polygons", "arrange")]


def run(command, text):
    """What a program prints, and the milliseconds that it took."""
    start = time.perf_counter()
    done = subprocess.run(command, input=text, capture_output=True, check=True)
    return done.stdout, 1000 * (time.perf_counter() - start)


def measure(kind, number, rule, turns):
    contours = list(POLYGONS[kind](number))
    texts = [(shape + "".join(f" {x} {y}" for x, y in corners) for shape, corners in contours), sides(contours)]
    texts = [("\n".join(lines) + "\n").encode() for lines in texts]
    commands = [[PROGRAMS[0], f"rule={rule}"], [PROGRAMS[0], "pairwise", f"rule={rule}"], [PROGRAMS[1], "graph", f"rule={rule}"]]
    runs = [[run(*each) for each in zip(commands, [texts[0], *texts])] for _ in range(turns)]
    answer = runs[0][0][0].split(b"\n")[:-1]
    points = sum(len(line.split()) // 2 for line in answer)
    ours, pairwise, graph = (min(turn[place][1] for turn in runs) for place in range(3))
    print(f"| {kind} | {number:,} | {len(answer):,} | {points:,} | {ours:.1f} | {pairwise:.1f} | {graph:.1f} |", flush=True)


def main():
    parser = argparse.ArgumentParser(description=__doc__, formatter_class=argparse.RawDescriptionHelpFormatter)
    parser.add_argument("--turns", type=int, default=TURNS, help="runs of each program (9)")
    parser.add_argument("--rule", default="intersect", help="the overlay rule (intersect)")
    parser.add_argument("numbers", nargs="*", type=int, default=[1_000, 4_000, 16_000, 50_000])
    given = parser.parse_args()
    for program in PROGRAMS:
        if not os.path.exists(program):
            sys.exit(f"{program} is not there: `python3 tools/run.py NAME` proves and builds it")
    print("| kind | edges | contours | points | polygons, ms | pairwise, ms | graph, ms |\n|---|---|---|---|---|---|---|")
    for kind in POLYGONS:
        for number in given.numbers:
            measure(kind, max(16, number // SMALLER.get(kind, 1)), given.rule, given.turns)


if __name__ == "__main__":
    main()
