#!/usr/bin/env python3
"""Races overlays by tiles on threads with one run, and prints the table of docs/MEASUREMENTS.md. It wants a quiet machine.

    python3 bench/peers/tiles.py [--kinds KIND,KIND] [--threads N,N] [--rounds N] [--rule RULE] [NUMBER]

Makes each kind of `kinds.py` of a number of edges (1,000,000), and has the program `tiles` of `ours/` make the overlay in one run and by tiles
on each number of threads (1, 2 and 4), by turns, in N rounds (3): contours in, shapes out, joining included. Prints the least
milliseconds on the wall and of all processors, how many times as fast as one run each is on the wall, and the most memory of a process that
makes one run, and of one that makes tiles on the last number of threads, without what was read.
"""
import argparse
import os
import re
import subprocess
import sys

sys.dont_write_bytecode = True
from kinds import edges, text  # noqa: E402  (beside this file)
from run import OUT, compile_ours  # noqa: E402

WAY = re.compile(r"\S+: wall=(\S+) cpu=(\S+)")
MEMORY = re.compile(r"before=(\d+) most=(\d+)")


def run(rule, path, rounds, ways):
    """The milliseconds of each way, and the memory in kB beyond what the program read."""
    words = [os.path.join(OUT, "target", "release", "tiles"), rule, path, str(rounds), *ways]
    said = subprocess.run(words, capture_output=True, text=True, check=True).stdout
    before, most = map(int, MEMORY.search(said).groups())
    return [tuple(map(float, way)) for way in WAY.findall(said)], most - before


def main():
    parser = argparse.ArgumentParser(description=__doc__, formatter_class=argparse.RawDescriptionHelpFormatter)
    parser.add_argument("number", nargs="?", type=int, default=1_000_000)
    parser.add_argument("--kinds", default="blobs,coast,town,rectangles")
    parser.add_argument("--threads", default="1,2,4")
    parser.add_argument("--rounds", type=int, default=3)
    parser.add_argument("--rule", default="union")
    given = parser.parse_args()
    compile_ours()
    threads = given.threads.split(",")
    print(f"| kind | edges | wall, ms: one run; tiles on {', '.join(threads)} | times as fast | processor, ms | memory, MB: one run; tiles on {threads[-1]} |")
    print("|---|---|---|---|---|---|")
    for kind in given.kinds.split(","):
        path = os.path.join(OUT, f"tiles-{kind}-{given.number}.txt")
        with open(path, "w", encoding="ascii") as file:
            file.write(text(kind, given.number))
        ways, _ = run(given.rule, path, given.rounds, ["plain", *threads])
        memory = [run(given.rule, path, 1, [way])[1] for way in ("plain", threads[-1])]
        walls, processors = [[f"{way[at]:.0f}" for way in ways] for at in (0, 1)]
        gains = ", ".join(f"{ways[0][0] / way[0]:.2f}" for way in ways[1:])
        print(f"| {kind} | {edges(kind, given.number):,} | {walls[0]}; {', '.join(walls[1:])} | {gains} | {processors[0]}; {', '.join(processors[1:])} "
              f"| {memory[0] / 1e3:.0f}; {memory[1] / 1e3:.0f} |", flush=True)


if __name__ == "__main__":
    main()
