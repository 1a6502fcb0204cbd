#!/usr/bin/env python3
"""Times `arrange split` and `arrange graph` under `strategy=list` and `strategy=tree`, side by side.

Usage, from the top of the repository: python3 bench/graph.py [NUMBER ..]

Each kind of bench/split.py is made of the given numbers of segments (16,000 and 50,000 if none are given), and for each
a line is printed: kind, segments given, and the processor's seconds of `split` and `graph` under the list, then under the tree. What
`graph` takes longer than `split` is the sweep, the links and nodes, and the longer text.
"""
import argparse
import subprocess

from split import KINDS, PROGRAM, build, processor_time


def seconds(command, strategy, text):
    start = processor_time()
    subprocess.run([PROGRAM, command, f"strategy={strategy}"], input=text, text=True, stdout=subprocess.DEVNULL,
                   check=True)
    return processor_time() - start


def measure(kind, number):
    text = "\n".join(KINDS[kind](number)) + "\n"
    times = [seconds(command, strategy, text) for strategy in ("list", "tree") for command in ("split", "graph")]
    print(f"{kind:10} {number:6} " + " ".join(f"{each:11.2f}" for each in times), flush=True)


def main():
    parser = argparse.ArgumentParser(description=__doc__, formatter_class=argparse.RawDescriptionHelpFormatter)
    parser.add_argument("numbers", nargs="*", type=int, default=[16_000, 50_000])
    numbers = parser.parse_args().numbers
    build()
    print("kind        given  split list  graph list  split tree  graph tree")
    for kind in KINDS:
        for number in numbers:
            measure(kind, number)


if __name__ == "__main__":
    main()
