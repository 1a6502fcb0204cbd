#!/usr/bin/env python3
"""Times `arrange split` under each strategy, on segments of eight kinds.

Usage, from the top of the repository: python3 bench/split.py [--against PROGRAM] [NUMBER ..]

Each kind is made of the given numbers of segments (1,000, 4,000, 16,000 and 50,000 if none are given). For each one line
is printed: kind, segments given, segments answered, passes, and the processor's time in seconds, the least of nine runs in
turns: of a sort of as many records by Python, a measure of the machine; of `join`, which reads, sorts, merges and prints as
many; and of `split` under `list`, `tree`, `frag` and `auto`; then
the most memory in megabytes that a run over the list, and one over the grid, took. There are fewer turns where they take
longer than twenty seconds in all. All answers have to be the same. Above 16,000 segments `tree` and `auto` go over the grid,
as `frag` does.

With `--against`, `split` under `auto` is timed by this build and by another one, PROGRAM, in turns: for each kind and number
the least processor time of nine runs of each, and how many times as long this build took. The answers have to be the same; `far`
and `far-one` are left out where the other build refuses such coordinates.

- random: short segments at random places, so that each meets a few others;
- horizontal: segments one above another, none of which meet, all with one range of x: one scan of all pairs;
- grid: blocks of twenty horizontal and twenty vertical lines, each of which crosses the twenty others;
- squares: squares in a row, each of which overlaps the next;
- long: lines from end to end, of many heights and slopes, none of which meet;
- far: as random, over the whole range of `i32`, where the numerators of crossings take 128 bits;
- far-one: as horizontal, but the last one is short and far to the right, so that in a grid all others stand in one column;
- rings: two rings of short edges, of one size, that cross in two places.
"""
import argparse
import math
import os
import random
import resource
import subprocess
import sys
import time

LIMIT = 500_000
FARTHEST = 2**30 - 1
TURNS = 9
ENOUGH = 20
PROGRAM = os.path.join("crates", "arrange", "out", "arrange")


def step(ax, ay, bx, by):
    return f"S {ax} {ay} {bx} {by}"


def random_lines(number, limit=LIMIT):
    numbers = random.Random(number)
    reach = int(8 * limit / number**0.5)
    for _ in range(number):
        ax, ay = (numbers.randint(-limit, limit - reach) for _ in range(2))
        yield step(ax, ay, ax + numbers.randint(1, reach), ay + numbers.randint(0, reach))


def horizontal_lines(number):
    for index in range(number):
        yield step(0, index, 10, index)


def grid_lines(number):
    for index in range(number):
        block, place = divmod(index, 40)
        left = 50 * block - LIMIT
        if place < 20:
            yield step(left, 2 * place + 1, left + 40, 2 * place + 1)
        else:
            across = left + 2 * (place - 20) + 1
            yield step(across, 0, across, 40)


def square_lines(number):
    for index in range(number):
        square, side = divmod(index, 4)
        left = 20 * square - LIMIT
        corners = [(left, 0), (left + 30, 0), (left + 30, 30), (left, 30)]
        yield step(*corners[side], *corners[(side + 1) % 4])


def long_lines(number):
    for index in range(number):
        height = 8 * index - 4 * number
        yield step(-LIMIT, height, LIMIT, height + index % 7)


def far_lines(number):
    return random_lines(number, FARTHEST)


def far_one_lines(number):
    yield from horizontal_lines(number - 1)
    yield step(FARTHEST // 2 + 1, 0, FARTHEST // 2 + 2, 1)


def ring_lines(number):
    for middle, edges in ((-LIMIT // 5, number - number // 2), (LIMIT // 5, number // 2)):
        turns = (2 * math.pi * corner / edges for corner in range(edges))
        corners = [(middle + round(0.8 * LIMIT * math.cos(turn)), round(0.8 * LIMIT * math.sin(turn))) for turn in turns]
        for corner in range(edges):
            yield step(*corners[corner], *corners[(corner + 1) % edges])


STRATEGIES = ("list", "tree", "frag", "auto")

KINDS = {
    "random": random_lines,
    "horizontal": horizontal_lines,
    "grid": grid_lines,
    "squares": square_lines,
    "long": long_lines,
    "far": far_lines,
    "far-one": far_one_lines,
    "rings": ring_lines,
}


def build():
    """The first run proves and builds the program."""
    subprocess.run(["rt", "run", "--", "split"], cwd=os.path.join("crates", "arrange"), input="", text=True,
                   stdout=subprocess.DEVNULL, check=True)


def processor_time():
    """The processor's seconds of all runs so far, which are told more finely than those of the user alone."""
    children = resource.getrusage(resource.RUSAGE_CHILDREN)
    return children.ru_utime + children.ru_stime


def run(program, words, text):
    """What a program prints, and the processor's seconds."""
    before = processor_time()
    printed = subprocess.run([program, *words], input=text, text=True, capture_output=True, check=True).stdout
    return printed, processor_time() - before


def sort_seconds(number):
    """The processor's seconds of a sort of records of four numbers, the least of nine."""
    numbers = random.Random(number)
    records = [tuple(numbers.randint(-LIMIT, LIMIT) for _ in range(4)) for _ in range(number)]
    least = math.inf
    for _ in range(TURNS):
        before = time.process_time()
        sorted(records)
        least = min(least, time.process_time() - before)
    return least


def measure(kind, number):
    text = "\n".join(KINDS[kind](number)) + "\n"
    commands = [["join"], *(["split", f"strategy={strategy}"] for strategy in STRATEGIES)]
    turns = []
    while len(turns) < TURNS and sum(seconds for turn in turns for _, seconds in turn) < ENOUGH:
        turns.append([run(PROGRAM, words, text) for words in commands])
    answers = {turn[command][0] for turn in turns for command in range(1, len(commands))}
    if len(answers) > 1:
        sys.exit(f"{kind} {number}: two strategies answer differently")
    lines = answers.pop().splitlines()
    passes = lines[-1].split()[1]
    times = [sort_seconds(number), *(min(turn[command][1] for turn in turns) for command in range(len(commands)))]
    seconds = " ".join(f"{each:8.3f}" for each in times)
    most = " ".join(f"{memory(strategy, text):5.0f}" for strategy in ("list", "frag"))
    print(f"{kind:10} {number:6} {len(lines) - 2:8} {passes:>6} {seconds} {most}", flush=True)


def compare(other, kind, number):
    text = "\n".join(KINDS[kind](number)) + "\n"
    try:
        turns = [[run(program, ["split"], text) for program in (PROGRAM, other)] for _ in range(TURNS)]
    except subprocess.CalledProcessError as failed:
        if failed.cmd[0] == other and failed.stderr.endswith(": range\n"):
            print(f"{kind:10} {number:6}  out of the other's range", flush=True)
            return
        raise
    if any(answer != turns[0][0][0] for turn in turns for answer, _ in turn):
        sys.exit(f"{kind} {number}: the two builds answer differently")
    this, that = (min(turn[build][1] for turn in turns) for build in (0, 1))
    print(f"{kind:10} {number:6} {this:8.3f} {that:8.3f} {this / that:6.2f}", flush=True)


def memory(strategy, text):
    """The most memory of one run, in megabytes, as its own process tells it."""
    code = ("import resource, subprocess, sys; "
            "subprocess.run(sys.argv[1:], stdin=sys.stdin, stdout=subprocess.DEVNULL, check=True); "
            "print(resource.getrusage(resource.RUSAGE_CHILDREN).ru_maxrss)")
    run = subprocess.run([sys.executable, "-c", code, PROGRAM, "split", f"strategy={strategy}"],
                         input=text, text=True, capture_output=True, check=True)
    return int(run.stdout) / 1024


def main():
    parser = argparse.ArgumentParser(description=__doc__, formatter_class=argparse.RawDescriptionHelpFormatter)
    parser.add_argument("--against", metavar="PROGRAM", help="another build of the program")
    parser.add_argument("numbers", nargs="*", type=int, default=[1_000, 4_000, 16_000, 50_000])
    given = parser.parse_args()
    build()
    if given.against:
        print("kind        given     this    other  times")
        for kind in KINDS:
            for number in given.numbers:
                compare(given.against, kind, number)
        return
    print("kind        given   pieces passes     sort     join " + " ".join(f"{strategy:>8}" for strategy in STRATEGIES) + "  MB list frag")
    for kind in KINDS:
        for number in given.numbers:
            measure(kind, number)


if __name__ == "__main__":
    main()
