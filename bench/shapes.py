#!/usr/bin/env python3
"""Times overlays in shapes, and by four rules, beside those in contours, by the example `shapes` of the Rust package.

Usage, from the top of the repository: python3 bench/shapes.py [--turns N] [NUMBER ..]

Each kind is made of the given numbers of edges (50,000 if none are given). For each a row of a table is printed: kind, edges, the
least wall time of nine runs of each, by turns, in milliseconds, of the union as contours and in shapes, and of four rules as contours,
and how many times as long the shapes and the rules took.

The kinds are blobs and coast of bench/race.py, and squares and rings of bench/split.py.
"""
import argparse
import os
import subprocess
import sys

from race import POLYGONS, TURNS
from split import KINDS as LINES

PROGRAM = os.path.join("rust", "target", "release", "examples", "shapes")


def closed(lines):
    """The contours that steps make up one after another: each is closed where a step leads back to its first point."""
    corners = []
    for line in lines:
        shape, *numbers = line.split()
        ax, ay, bx, by = map(int, numbers)
        corners.append((ax, ay))
        if (bx, by) == corners[0]:
            yield shape, corners
            corners = []


def contours(kind, number):
    return POLYGONS[kind](number) if kind in POLYGONS else closed(LINES[kind](number))


def text(kind, number):
    lines = (" ".join([shape, *(f"{x} {y}" for x, y in corners)]) for shape, corners in contours(kind, number))
    return "\n".join(lines) + "\n"


def main():
    parser = argparse.ArgumentParser(description=__doc__, formatter_class=argparse.RawDescriptionHelpFormatter)
    parser.add_argument("--turns", type=int, default=TURNS, help="runs of each (9)")
    parser.add_argument("numbers", nargs="*", type=int, default=[50_000])
    given = parser.parse_args()
    build = ["cargo", "build", "--release", "--offline", "--quiet", "--example", "shapes"]
    if subprocess.run(build, cwd="rust").returncode:
        sys.exit("the example was not built")
    print("| kind | edges | contours, ms | shapes, ms | times | four rules, ms | times |\n|---|---|---|---|---|---|---|")
    for kind in ("blobs", "coast", "squares", "rings"):
        for number in given.numbers:
            done = subprocess.run([PROGRAM, str(given.turns)], input=text(kind, number), text=True, capture_output=True, check=True)
            told = dict(word.split("=") for word in done.stdout.split())
            shapes, rules = (f"{told[name]} | {told[times]}" for name, times in (("shapes_ms", "times"), ("rules_ms", "rules_times")))
            print(f"| {kind} | {int(told['in']):,} | {told['contours_ms']} | {shapes} | {rules} |", flush=True)


if __name__ == "__main__":
    main()
