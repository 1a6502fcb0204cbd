#!/usr/bin/env python3
"""Runs each example of the Rust package under shrinking limits of its address space: none may die by a signal, as an abort does.

    python3 tools/little_memory.py [--limits N]

A run has to end as without a limit, or with an error of memory. Limits fall by equal steps, N for each example (12), from the most
memory that a run without a limit has, to a little more than a program needs to start.
"""
import argparse
import json
import os
import pathlib
import resource
import subprocess
import sys

ROOT = pathlib.Path(__file__).resolve().parent.parent
# what the examples are given that read their standard input, and which words they take
SQUARES = [(3 * at, 2 * at) for at in range(4_000)]
CORNERS = [[(x, y), (x + 4, y), (x + 4, y + 4), (x, y + 4)] for x, y in SQUARES]
SIDES = [(*a, *b) for corners in CORNERS for a, b in zip(corners, corners[1:] + corners[:1])]
GIVEN = {
    "race": (["auto", "1"], "".join(f"S {ax} {ay} {bx} {by}\n" for ax, ay, bx, by in SIDES)),
    "shapes": (["1"], "".join(f"S {' '.join(f'{x} {y}' for x, y in corners)}\n" for corners in CORNERS)),
}
# those that take more than a mebibyte beyond their start, so that some limit has to stop them
LARGE = {"bench", "footprints", "race", "shapes"}
STEP, MOST = 1 << 18, 1 << 30
# which runs take seconds
SLOW = {"bench": 3}


def examples():
    """Builds the examples, and returns their names and files."""
    words = ["cargo", "build", "--release", "--offline", "--quiet", "--examples", "--message-format=json"]
    built = subprocess.run(words, cwd=ROOT / "rust", stdout=subprocess.PIPE, check=True, text=True)
    found = (json.loads(line) for line in built.stdout.splitlines())
    return {it["target"]["name"]: it["executable"] for it in found if it.get("executable") and "example" in it["target"]["kind"]}


def run(path, name, limit):
    """Runs an example in so many bytes of address space, and returns how it ended."""
    words, given = GIVEN.get(name, ([], ""))

    def lower():
        resource.setrlimit(resource.RLIMIT_AS, (limit, limit))
        resource.setrlimit(resource.RLIMIT_CORE, (0, 0))

    environment = {**os.environ, "RUST_BACKTRACE": "0"}
    return subprocess.run([path, *words], input=given, capture_output=True, text=True, preexec_fn=lower, env=environment, cwd=ROOT, check=False)


def memory_of(path, name):
    """Runs an example without a limit, and returns the most memory that a child of this process has had, in bytes."""
    done = run(path, name, MOST)
    if done.returncode:
        sys.exit(f"{name} fails without a limit: {done.stderr}")
    return resource.getrusage(resource.RUSAGE_CHILDREN).ru_maxrss << 10


def is_stopped(done):
    """Whether a run ended with an error of memory."""
    return done.returncode == 1 and "Memory" in done.stderr


def enough(is_enough, low, high):
    """The least limit, to a step, that is enough."""
    while high - low > STEP:
        middle = (low + high) // 2
        low, high = (low, middle) if is_enough(middle) else (middle, high)
    return high


def main():
    parser = argparse.ArgumentParser(description=__doc__, formatter_class=argparse.RawDescriptionHelpFormatter)
    parser.add_argument("--limits", type=int, default=12)
    count = parser.parse_args().limits
    found = examples()
    least = enough(lambda limit: run(found["union"], "union", limit).returncode == 0, 0, MOST) + (1 << 20)
    faults = tried = 0
    for name, path in sorted(found.items(), key=lambda it: it[0] in LARGE):
        most = max(memory_of(path, name), least)
        stopped, limits = 0, SLOW.get(name, count)
        for index in range(1, limits + 1):
            limit = most - (most - least) * index // limits
            done = run(path, name, limit)
            tried += 1
            stopped += is_stopped(done)
            if done.returncode and not is_stopped(done):
                print(f"{name} in {limit >> 10} KiB: status {done.returncode}: {done.stderr[-300:]}")
                faults += 1
        if name in LARGE and not stopped:
            print(f"{name}: no limit stopped it")
            faults += 1
    print(f"{tried} runs of examples in little memory, {faults} faults")
    return 1 if faults else 0


if __name__ == "__main__":
    sys.exit(main())
