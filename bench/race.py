#!/usr/bin/env python3
"""Races `arrange graph` against another program with the same words and lines, on polygons over the whole range of `i32`.

Usage, from the top of the repository: python3 bench/race.py --upstream PROGRAM [--turns N] [--words WORD,WORD] [NUMBER ..]

bench/upstream/build.py builds PROGRAM from the files of i_overlay 9.0.1. It takes the commands, words and lines of `arrange`. Each kind is made of
the given numbers of edges (1,000, 4,000, 16,000 and 50,000 if none are given). For each a row of a table is printed: kind,
edges, the least wall time of nine runs of each program in turns, in milliseconds, text included, and how many times as long this
repository's program took. Both have to print the same.

- blobs: overlapping shapes of sixteen corners;
- parcels: a grid of adjoining squares, and the same squares moved;
- coast: two long rings that cross often;
- spiral: two windmills whose edges all pass near the middle;
- checker: long thin rectangles, each of which crosses all of another direction;
- and the kinds of bench/split.py.
"""
import argparse
import math
import os
import random
import subprocess
import sys
import time

from split import FARTHEST, KINDS as LINES, PROGRAM

TURNS = 9


def sides(contours):
    """The sides of contours, each a shape and its corners, but for sides of no length."""
    for shape, corners in contours:
        for a, b in zip(corners, corners[1:] + corners[:1]):
            if a != b:
                yield f"{shape} {a[0]} {a[1]} {b[0]} {b[1]}"


def corner(radius, turn, middle=(0, 0)):
    """A point on a circle; a whole turn is 1."""
    angle = 2 * math.pi * turn
    return round(middle[0] + radius * math.cos(angle)), round(middle[1] + radius * math.sin(angle))


def blobs(number):
    numbers = random.Random(number)
    shapes = max(1, number // 16)
    radius = 0.9 * FARTHEST / math.sqrt(shapes)
    far = FARTHEST - 2 * radius
    for _ in range(shapes):
        middle = numbers.uniform(-far, far), numbers.uniform(-far, far)
        radii = (radius * numbers.uniform(0.7, 1.3) for _ in range(16))
        corners = [corner(each, k / 16, middle) for k, each in enumerate(radii)]
        yield numbers.choice("SC"), corners


def parcels(number):
    side = max(1, math.isqrt(number // 8))
    width = int(1.8 * FARTHEST / (side + 1))
    for place in range(side * side):
        row, column = divmod(place, side)
        for shape, moved in (("S", 0), ("C", width // 3)):
            x, y = (-int(0.9 * FARTHEST) + each * width + moved for each in (column, row))
            yield shape, [(x, y), (x + width, y), (x + width, y + width), (x, y + width)]


def coast(number):
    numbers = random.Random(number)
    for shape in "SC":
        turns = [k / (number // 2) for k in range(number // 2)]
        radii = [0.7 * FARTHEST * (1 + 0.1 * math.sin(14 * math.pi * turn) + numbers.uniform(-0.002, 0.002)) for turn in turns]
        yield shape, [corner(radius, turn) for radius, turn in zip(radii, turns)]


def spiral(number):
    half = number // 2
    for shape, moved in (("S", 0.0), ("C", 0.7)):
        radii = [0.95 * FARTHEST * (1.0 if k % 2 else 0.1) for k in range(half)]
        yield shape, [corner(radius, (k + moved) / half) for k, radius in enumerate(radii)]


def checker(number):
    lines = max(1, number // 8)
    thin = int(0.8 * FARTHEST / lines)
    for line in range(lines):
        at = int(-0.9 * FARTHEST + 1.8 * FARTHEST * line / lines)
        flat = [(-FARTHEST, at), (FARTHEST, at), (FARTHEST, at + thin), (-FARTHEST, at + thin)]
        yield "S", flat
        yield "C", [(y, x) for x, y in reversed(flat)]


POLYGONS = {"blobs": blobs, "parcels": parcels, "coast": coast, "spiral": spiral, "checker": checker}

# what crosses at each of n^2 places is made of fewer edges
SMALLER = {"spiral": 25, "checker": 25}


def run(program, words, text):
    """What a program prints, and the milliseconds that it took."""
    start = time.perf_counter()
    done = subprocess.run([program, "graph", *words], input=text, capture_output=True, check=True)
    return done.stdout, 1000 * (time.perf_counter() - start)


def race(kind, number, programs, words, turns):
    lines = sides(POLYGONS[kind](number)) if kind in POLYGONS else LINES[kind](number)
    text = ("\n".join(lines) + "\n").encode()
    runs = [[run(program, words, text) for program in programs] for _ in range(turns)]
    if len({printed for turn in runs for printed, _ in turn}) > 1:
        sys.exit(f"{kind} {number}: the two programs print different answers")
    ours, theirs = (min(turn[place][1] for turn in runs) for place in (0, 1))
    print(f"| {kind} | {number:,} | {ours:.1f} | {theirs:.1f} | {ours / theirs:.2f} |", flush=True)


def main():
    parser = argparse.ArgumentParser(description=__doc__, formatter_class=argparse.RawDescriptionHelpFormatter)
    parser.add_argument("--upstream", required=True, metavar="PROGRAM", help="the program to race against")
    parser.add_argument("--turns", type=int, default=TURNS, help="runs of each program (9)")
    parser.add_argument("--words", default="", help="words for both, as rule=intersect,strategy=tree")
    parser.add_argument("numbers", nargs="*", type=int, default=[1_000, 4_000, 16_000, 50_000])
    given = parser.parse_args()
    if not os.path.exists(PROGRAM):
        sys.exit(f"{PROGRAM} is not there: `rt run -- graph` in crates/arrange proves and builds it")
    words = [word for word in given.words.split(",") if word]
    print("| kind | edges | this, ms | other, ms | times |\n|---|---|---|---|---|")
    for kind in [*POLYGONS, *LINES]:
        for number in given.numbers:
            race(kind, max(16, number // SMALLER.get(kind, 1)), (PROGRAM, given.upstream), words, given.turns)


if __name__ == "__main__":
    main()
