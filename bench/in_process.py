#!/usr/bin/env python3
"""Races the library in its own process against another program that times itself, or its own strategies, on the kinds of bench/race.py.

Usage, from the top of the repository:

    python3 bench/in_process.py --upstream PROGRAM [--rounds N] [--turns N] [--strategy NAME] [--kinds KIND,KIND] [NUMBER ..]
    python3 bench/in_process.py --strategies [--rounds N] [--turns N] [--kinds KIND,KIND] [NUMBER ..]

bench/upstream/build.py builds PROGRAM from the files of i_overlay 9.0.1. `PROGRAM bench - - STRATEGY runs=N` reads segments, splits
them and builds the graph of all of them N times, each time with a new splitter and builder, and prints the least times, `split_ms=`
and `graph_ms=`, and `copy_ms=` of the copy of its list that it works on, which ours makes within its time.
Ours is the example `race` of `rust/`, which does the same through the Rust package. Its `all_ms=` has the split, the build, and the
copy of nodes into vectors of Rust, which the other does not make. No text is timed. The two programs run by turns, a few
rounds of some runs each, and the least times count: so a machine whose speed varies slows both alike. A short input is split
more often in each round, as a few runs of some microseconds tell more of the machine than of the programs. A round goes through
all inputs, and both programs run on one processor in it, on another in the next: on a shared machine one may be slow for a while.

For each kind and number a row of a table is printed: kind, segments, and for the split and for the whole: milliseconds of this
repository, of the other, and how many times as long this one took; how many times as long as the other with its copy; at last the
most memory of each process, in megabytes, the text of its input included, where that is more than Python holds before it starts one.

With `--strategies` ours runs under each strategy, and a row has the milliseconds of the split under each, and how many times as long
`AUTO` took as the least of the others.
"""
import argparse
import multiprocessing
import os
import re
import subprocess
import sys
import tempfile

from race import LINES, POLYGONS, SMALLER, sides

# a process begins with what Python holds
LEAST_MEMORY = 32

# each process splits at least so many segments of a short input, in all of its runs, of which the other program takes so many
LEAST_SEGMENTS, MOST_TURNS = 20_000, 1_000

STRATEGIES = ["auto", "list", "tree", "frag"]

ROOT = os.path.dirname(os.path.dirname(os.path.abspath(__file__)))
RACE = os.path.join(ROOT, "rust", "target", "release", "examples", "race")


def edges_of(kind, number):
    return max(16, number // SMALLER.get(kind, 1))


def write_input(kind, number, path):
    edges = edges_of(kind, number)
    lines = sides(POLYGONS[kind](edges)) if kind in POLYGONS else LINES[kind](edges)
    with open(path, "w", encoding="ascii") as file:
        file.writelines(f"{line}\n" for line in lines)


def make_input(kind, number, path):
    """Writes an input in a process of its own, so that this one, whose memory each command begins with, stays small."""
    writer = multiprocessing.Process(target=write_input, args=[kind, number, path])
    writer.start()
    writer.join()
    if writer.exitcode:
        sys.exit(f"{path} was not written")


def run(command, path, processor):
    """The times that a command prints on one processor, by name, and the most memory that it took, in megabytes."""
    command = ["taskset", "--cpu-list", str(processor), *command]
    with open(path, encoding="ascii") as given, subprocess.Popen(command, stdin=given, stdout=subprocess.PIPE, text=True) as process:
        printed = process.stdout.read()
        _, status, used = os.wait4(process.pid, 0)
        process.returncode = os.waitstatus_to_exitcode(status)
    if process.returncode:
        sys.exit(f"{' '.join(command)} failed")
    return {name: float(number) for name, number in re.findall(r"(\w+)_ms=(\S+)", printed)}, used.ru_maxrss / 1024


def least(answers):
    """The least times and the most memory of each command, of what it printed in each round."""
    times = [[times for times, _ in same] for same in zip(*answers)]
    memory = [max(memory for _, memory in same) for same in zip(*answers)]
    return [{name: min(each[name] for each in same) for name in same[0]} for same in times], memory


def commands_of(given, turns):
    """The commands of one round."""
    if given.strategies:
        return [[RACE, strategy, str(turns)] for strategy in STRATEGIES]
    return [[RACE, given.strategy, str(turns)], [given.upstream, "bench", "-", "-", given.strategy, f"runs={turns}"]]


def answers_of(kind, number, given, path, processor):
    """What the commands print in one round."""
    turns = max(given.turns, min(LEAST_SEGMENTS // edges_of(kind, number), MOST_TURNS))
    return [run(command, path, processor) for command in commands_of(given, turns)]


def race(cells, given, folder):
    """What the commands print of each cell, a list with an element for each round."""
    paths = [os.path.join(folder, f"{kind}-{number}.txt") for kind, number in cells]
    for cell, path in zip(cells, paths):
        make_input(*cell, path)
    processors = sorted(os.sched_getaffinity(0))
    rounds = [[answers_of(*cell, given, path, processors[at % len(processors)]) for cell, path in zip(cells, paths)] for at in range(given.rounds)]
    return list(zip(*rounds))


def show_strategies(kind, number, answers):
    times, _ = least(answers)
    splits = [each["split"] for each in times]
    cells = " | ".join(f"{split:.2f}" for split in splits)
    print(f"| {kind} | {number // SMALLER.get(kind, 1):,} | {cells} | {splits[0] / min(splits[1:]):.2f} |", flush=True)


def show(kind, number, answers):
    (ours, theirs), (our_memory, their_memory) = least(answers)
    memory = f"{our_memory:.0f} / {their_memory:.0f}" if min(our_memory, their_memory) > LEAST_MEMORY else ""
    whole = theirs["split"] + theirs["graph"]
    print(f"| {kind} | {number // SMALLER.get(kind, 1):,} | {ours['split']:.2f} / {theirs['split']:.2f} | {ours['split'] / theirs['split']:.2f} "
          f"| {ours['all']:.2f} / {whole:.2f} | {ours['all'] / whole:.2f} | {ours['all'] / (whole + theirs['copy']):.2f} | {memory} |", flush=True)


def main():
    parser = argparse.ArgumentParser(description=__doc__, formatter_class=argparse.RawDescriptionHelpFormatter)
    opponents = parser.add_mutually_exclusive_group(required=True)
    opponents.add_argument("--upstream", metavar="PROGRAM", help="the program to race against")
    opponents.add_argument("--strategies", action="store_true", help="race the strategies with one another")
    parser.add_argument("--rounds", type=int, default=3, help="rounds, in each of which both programs run (3)")
    parser.add_argument("--turns", type=int, default=9, help="runs of a program in each round, of a short input more (9)")
    parser.add_argument("--strategy", default="auto", choices=STRATEGIES)
    parser.add_argument("--kinds", default=",".join([*POLYGONS, *LINES]), help="kinds, with commas between them")
    parser.add_argument("numbers", nargs="*", type=int, default=[1_000, 4_000, 16_000, 50_000])
    given = parser.parse_args()
    subprocess.run(["cargo", "build", "--release", "--offline", "--quiet", "--example", "race"], cwd=os.path.join(ROOT, "rust"), check=True)
    titles = [*STRATEGIES, "times"] if given.strategies else ["split, ms", "times", "split and build, ms", "times", "with its copy", "memory, MB"]
    print(f"| kind | segments | {' | '.join(titles)} |\n|{'---|' * (len(titles) + 2)}")
    cells = [(kind, number) for kind in given.kinds.split(",") for number in given.numbers]
    with tempfile.TemporaryDirectory() as folder:
        for cell, answers in zip(cells, race(cells, given, folder)):
            (show_strategies if given.strategies else show)(*cell, answers)


if __name__ == "__main__":
    main()
