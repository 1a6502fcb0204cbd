#!/usr/bin/env python3
"""Races overlays of polygons through the Rust package with those of Clipper, Boost.Polygon, GEOS, CGAL and Boost.Geometry.

Usage, from the top of the repository:

    python3 bench/peers/run.py [--kinds KIND,KIND] [--rules RULE,RULE] [--programs NAME,NAME] [--rounds N] [--seconds S] [--limit S]
        [NUMBER ..]

All programs are compiled first, one by one, in `bench/peers/out/`. One that does not compile, since its library is not installed,
is left out. Each kind of `kinds.py` is made of the given numbers of edges (1,000, 16,000 and 50,000 if none are given). For each
kind, number and overlay rule the programs run by turns, in N rounds (3). A program runs in a process of its own, which repeats the
overlay up to nine times, but no longer than S seconds (0.5). One that has used up its limit of the processor's seconds (60) is
stopped, and is not tried on more edges of that kind under that rule.

Prints the versions, then four tables. The first has the least milliseconds of the processor (one thread; reading and the making of
the library's own polygons are not timed), and in brackets how many times as long as `ours` it took. The second says how many per cent of
its time a library took to unite the polygons of each shape, where it takes valid polygons alone. The third has the most memory
of the process in MB, what it read included. The fourth has failures: what was stopped or refused, and results whose area differs
from the median by more than one unit times the length of their edges.
"""
import argparse
import functools
import os
import resource
import signal
import subprocess
import sys

sys.dont_write_bytecode = True
from kinds import KINDS, edges, text  # noqa: E402  (beside this file)

HERE = os.path.dirname(os.path.abspath(__file__))
OUT = os.path.join(HERE, "out")
RUNS = 9
RULES = ["union", "intersect", "difference", "xor"]

# source, words for the compiler, libraries
PEERS = {
    "clipper": ("clipper", [], ["polyclipping"]),
    "polygon": ("boost_polygon", [], []),
    "polygon90": ("boost_polygon", ["-DRECTILINEAR"], []),
    "geos": ("geos", [], ["geos_c"]),
    "geos-floating": ("geos", ["-DFLOATING"], ["geos_c"]),
    "cgal": ("cgal", [], ["gmp", "mpfr"]),
    "geometry": ("boost_geometry", [], []),
}
# the programs of libraries that take valid polygons alone
PREPARING = ["geos", "geos-floating", "cgal", "geometry"]
# the kinds whose sides all lie along the axes
RECTILINEAR = ["parcels", "checker", "rectangles"]
# the program of ours, and the word that chooses the rounding
OURS = {"ours": [], "pairwise": ["pairwise"]}
PACKAGES = ["libpolyclipping-dev", "libboost-dev", "libgeos-dev", "libcgal-dev", "g++"]


def compile_ours():
    target = os.path.join(OUT, "target")
    command = ["cargo", "build", "--release", "--offline", "--quiet", "--target-dir", target]
    if subprocess.run(command, cwd=os.path.join(HERE, "ours")).returncode:
        sys.exit("our program was not built")


def compile_peer(name):
    """Compiles a program where its sources are newer, and returns whether it is there."""
    source, words, libraries = PEERS[name]
    sources = [os.path.join(HERE, "cpp", it) for it in (f"{source}.cpp", "race.h")]
    program = os.path.join(OUT, name)
    if os.path.exists(program) and all(os.path.getmtime(it) < os.path.getmtime(program) for it in sources):
        return True
    command = ["g++", "-O2", "-DNDEBUG", "-std=c++17", "-w", *words, sources[0], "-o", program, *(f"-l{it}" for it in libraries)]
    done = subprocess.run(command, capture_output=True)
    if done.returncode:
        print(f"{name} does not compile and is left out", file=sys.stderr)
    return done.returncode == 0


def command(name):
    """What starts a program, and the words behind those that all have."""
    if name in OURS:
        return os.path.join(OUT, "target", "release", "ours"), OURS[name]
    return os.path.join(OUT, name), []


@functools.cache
def made(kind, number):
    """The file of a kind of a number of edges, which is written once."""
    path = os.path.join(OUT, f"{kind}-{number}.txt")
    with open(path, "w", encoding="ascii") as file:
        file.write(text(kind, number))
    return path


def run(name, rule, path, given):
    """What a program prints, by name, or a text that says how it failed."""
    program, more = command(name)
    words = [program, rule, path, str(RUNS), str(given.seconds), *more]
    limits = (given.limit, given.limit + 1)
    done = subprocess.run(words, capture_output=True, text=True, preexec_fn=lambda: resource.setrlimit(resource.RLIMIT_CPU, limits))
    if done.returncode == -signal.SIGXCPU:
        return f"more than {given.limit} s"
    if done.returncode:
        return f"status {done.returncode}: {done.stderr.strip()[-80:]}"
    return {word: float(number) for word, number in (it.split("=") for it in done.stdout.split())}


def race(cell, names, given):
    """The least times and the most memory of each program, or how it failed."""
    kind, number, rule = cell
    path = made(kind, number)
    found = {}
    for _ in range(given.rounds):
        for name in names:
            last = found.get(name)
            if isinstance(last, str):
                continue
            one = run(name, rule, path, given)
            if last and not isinstance(one, str):
                one |= {it: min(one[it], last[it]) for it in ("cpu", "wall", "prepare")} | {"after": max(one["after"], last["after"])}
            found[name] = one
    return found


def race_all(names, given):
    """What was found for each kind, number and rule."""
    cells, stopped = {}, set()
    for kind in given.kinds.split(","):
        for rule in given.rules.split(","):
            for number in sorted(given.numbers):
                use = [it for it in names if (it, kind, rule) not in stopped and (it != "polygon90" or kind in RECTILINEAR)]
                found = cells[kind, number, rule] = race((kind, number, rule), use, given)
                stopped |= {(it, kind, rule) for it, one in found.items() if isinstance(one, str)}
                print(f"{kind} {number} {rule} is done", file=sys.stderr, flush=True)
    return cells


def table(cells, names, entry):
    if not names:
        return
    print("| kind | edges | rule | " + " | ".join(names) + " |\n|" + "---|" * (len(names) + 3))
    for (kind, number, rule), found in cells.items():
        entries = [entry(found, it) if isinstance(found.get(it), dict) else "failed" if it in found else "" for it in names]
        print(f"| {kind} | {edges(kind, number):,} | {rule} | " + " | ".join(entries) + " |")
    print()


def milliseconds(found, name):
    spent = found[name]["cpu"]
    short = f"{spent:.1f}" if spent < 100 else f"{spent:.0f}"
    is_ours = name == "ours" or not isinstance(found.get("ours"), dict)
    return short if is_ours else f"{short} ({spent / found['ours']['cpu']:.2f})"


def preparation(found, name):
    return f"{100 * found[name]['prepare'] / found[name]['wall']:.0f}"


def memory(found, name):
    return f"{found[name]['after'] / 1024:.0f}"


def faults(found):
    """The programs that failed, and how."""
    areas = sorted(one["area2"] for one in found.values() if isinstance(one, dict))
    for name, one in found.items():
        if isinstance(one, str):
            yield name, one
        elif abs(one["area2"] - areas[len(areas) // 2]) > 2 * one["length"]:
            yield name, f"twice the area is {one['area2']:.6g}, the median {areas[len(areas) // 2]:.6g}"


def failures(cells):
    rows = [f"| {kind} | {edges(kind, number):,} | {rule} | {name} | {fault} |"
            for (kind, number, rule), found in cells.items() for name, fault in faults(found)]
    print("\n".join(["| kind | edges | rule | program | failure |", "|---|---|---|---|---|", *rows]) if rows else "No failures.")


def versions():
    """The versions of what was raced with, where Debian's tools know them."""
    lines = []
    for words in (["dpkg-query", "-W", "-f", "${Package} ${Version}\n", *PACKAGES], ["rustc", "--version"]):
        try:
            lines += subprocess.run(words, capture_output=True, text=True).stdout.splitlines()
        except FileNotFoundError:
            lines.append(f"{words[0]} is not there")
    print(", ".join(lines) + "\n")


def main():
    parser = argparse.ArgumentParser(description=__doc__, formatter_class=argparse.RawDescriptionHelpFormatter)
    parser.add_argument("--kinds", default=",".join(KINDS), help="kinds, with commas between them")
    parser.add_argument("--rules", default=",".join(RULES), help="overlay rules, with commas between them")
    parser.add_argument("--programs", default=",".join([*OURS, *PEERS]), help="programs, with commas between them")
    parser.add_argument("--rounds", type=int, default=3, help="rounds, in each of which all programs run (3)")
    parser.add_argument("--seconds", type=float, default=0.5, help="how long a process repeats an overlay (0.5)")
    parser.add_argument("--limit", type=int, default=60, help="the processor's seconds of a process (60)")
    parser.add_argument("numbers", nargs="*", type=int, default=[1_000, 16_000, 50_000])
    given = parser.parse_args()
    os.makedirs(OUT, exist_ok=True)
    compile_ours()
    names = [it for it in given.programs.split(",") if it in OURS or compile_peer(it)]
    cells = race_all(names, given)
    versions()
    table(cells, names, milliseconds)
    table(cells, [it for it in names if it in PREPARING], preparation)
    table(cells, names, memory)
    failures(cells)


if __name__ == "__main__":
    main()
