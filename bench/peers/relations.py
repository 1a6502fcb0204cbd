#!/usr/bin/env python3
"""Compares relations of two polygons through the Rust package with those that GEOS finds, and races them.

Usage, from the top of the repository:

    python3 bench/peers/relations.py                  all of the following
    python3 bench/peers/relations.py check 100000     the matrix and six predicates of as many random pairs of valid polygons
    python3 bench/peers/relations.py time 1000 50000  milliseconds for pairs of so many edges together, prepared and not
    python3 bench/peers/relations.py join 2400        milliseconds for joins of two layers of as many buildings

The program in `relations/` is compiled first. Times are the least of several runs, by the processor's clock, on one thread; to make the polygons
of either library is not timed for GEOS, and for ours it is part of each call. The status is 0 if all relations agree, 1 if some
differ, and 3 where cargo or GEOS is not installed (`libgeos-dev` of Debian).
"""
import os
import shutil
import subprocess
import sys

HERE = os.path.dirname(os.path.abspath(__file__))
TARGET = os.path.join(HERE, "out", "target")
ALL = [["check", "100000"], ["time", "1000", "50000"], ["join", "2400"]]
NOT_INSTALLED = 3


def program():
    """The path of the compiled program, or none where something that it needs is not installed."""
    if not shutil.which("cargo"):
        return None
    command = ["cargo", "build", "--release", "--offline", "--quiet", "--target-dir", TARGET]
    done = subprocess.run(command, cwd=os.path.join(HERE, "relations"), capture_output=True, text=True)
    if done.returncode == 0:
        return os.path.join(TARGET, "release", "relations")
    if "-lgeos_c" in done.stderr:
        return None
    sys.exit(done.stderr)


def main():
    path = program()
    if not path:
        print("relations were not compared with GEOS: it is not installed, or cargo is not")
        sys.exit(NOT_INSTALLED)
    runs = [sys.argv[1:]] if sys.argv[1:] else ALL
    sys.exit(max(subprocess.run([path, *words]).returncode for words in runs))


main()
