"""Makes runs of `polygons` over inputs in which many edges are close to one another or on one line, with bounds on memory and time.

    python3 tools/crowded_inputs.py [--program FILE] [--all]

Snap rounding takes memory in proportion to its input, its crossings and its result, and edges on one line whose counts do not
cancel take time in proportion to their ends, times a logarithm. No contract says so: a definition of the result has no memory. Each
run has to stay below its bound. `--all` makes the largest runs too, which take some minutes.
"""

import argparse
import dataclasses
import os
import pathlib
import random
import subprocess
import sys
import tempfile

TOP = pathlib.Path(__file__).resolve().parent.parent
PROGRAM = TOP / "crates" / "polygons" / "out" / "polygons"
MOST = 2**30 - 6
MEGABYTE = 1_000_000
# how many runs of one input are made for its time, which is the least of them
ROUNDS = 3


def line(numbers: list[int]) -> str:
    return "S " + " ".join(map(str, numbers)) + "\n"


def needles(edges: int) -> str:
    """Ends within a unit of one line through the whole range."""
    chance = random.Random(1)
    points = [chance.randint(-MOST, MOST) for _ in range(edges)]
    return line([number for x in points for number in (x, x // 3 + chance.randint(-1, 1))])


def short_needles(edges: int) -> str:
    """The same along a line of some thousands of units."""
    chance = random.Random(2)
    points = [chance.randint(-25 * edges, 25 * edges) for _ in range(edges)]
    return line([number for x in points for number in (x, x // 3 + chance.randint(-1, 1))])


def flat(edges: int) -> str:
    """Nearly horizontal edges between two heights."""
    chance = random.Random(3)
    return line([number for _ in range(edges) for number in (chance.randint(-MOST, MOST), chance.randint(0, 1))])


def bundle(edges: int) -> str:
    """Edges between two far squares of 100 by 100 points."""
    chance = random.Random(4)
    ends = [(side * 10**8 + chance.randint(0, 99), side * 10**7 + chance.randint(0, 99)) for at in range(edges) for side in [at % 2]]
    return line([number for end in ends for number in end])


def nested(edges: int, turned: bool = False) -> str:
    """Squares with one corner in common, each within the next: at their first point, or at the last one, turned about."""
    sign = -1 if turned else 1
    sides = [10 + at for at in range(edges // 4)]
    return "".join(line([0, 0, sign * side, 0, sign * side, sign * side, 0, sign * side]) for side in sides)


@dataclasses.dataclass(frozen=True)
class Ended:
    """How a run ended: its status, its processor time in seconds, and the most memory that it took, in megabytes."""

    status: int
    seconds: float
    megabytes: float


def run(program: pathlib.Path, given: str) -> Ended:
    with tempfile.TemporaryFile("w+") as text:
        text.write(given)
        text.seek(0)
        process = subprocess.Popen([program, "rule=union", "fill=evenodd"], stdin=text, stdout=subprocess.DEVNULL, stderr=subprocess.DEVNULL)
        _, status, usage = os.wait4(process.pid, 0)
    return Ended(os.waitstatus_to_exitcode(status), usage.ru_utime + usage.ru_stime, usage.ru_maxrss * 1024 / MEGABYTE)


def below_memory(program: pathlib.Path, name: str, given: str, most: float) -> bool:
    ended = run(program, given)
    holds = ended.status == 0 and ended.megabytes <= most
    print(f"{name}: status {ended.status}, {ended.seconds:.2f} s, {ended.megabytes:.0f} MB, at most {most:.0f}{'' if holds else ': TOO MUCH'}")
    return holds


def below_growth(program: pathlib.Path, name: str, small: str, large: str, most: float) -> bool:
    times = []
    for given in (small, large):
        runs = [run(program, given) for _ in range(ROUNDS)]
        if any(it.status for it in runs):
            print(f"{name}: a run FAILED")
            return False
        times.append(min(it.seconds for it in runs))
    growth = times[1] / max(times[0], 0.001)
    holds = growth <= most
    print(f"{name}: {times[0]:.3f} s and {times[1]:.3f} s, {growth:.1f} times, at most {most:.0f}{'' if holds else ': TOO MUCH'}")
    return holds


def main() -> int:
    parser = argparse.ArgumentParser()
    parser.add_argument("--program", type=pathlib.Path, default=PROGRAM)
    parser.add_argument("--all", action="store_true")
    words = parser.parse_args()
    program = words.program
    hold = [below_memory(program, f"{kind.__name__} of 1,000", kind(1_000), 150) for kind in (needles, short_needles, flat, bundle)]
    hold += [
        below_growth(program, "nested of 1,600 and 12,500", nested(1_600), nested(12_500), 10),
        below_growth(program, "the same, turned", nested(1_600, True), nested(12_500, True), 10),
    ]
    if words.all:
        hold += [below_memory(program, f"{kind.__name__} of 4,000", kind(4_000), 2_000) for kind in (needles,)]
    print(f"{sum(hold)} of {len(hold)} crowded inputs stay below their bounds")
    return 0 if all(hold) else 1


if __name__ == "__main__":
    sys.exit(main())
