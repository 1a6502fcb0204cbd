"""Writes random overlays and their results by the shared library, a line of JSON for each, for `node page/test.mjs`.

    PYTHONPATH=python python3 page/cases.py COUNT >cases.json
"""
import json
import random
import sys

from fadrinzo import FILLS, RULES, overlay

chance = random.Random(20261130)
for case in range(int(sys.argv[1])):
    size = chance.choice([4, 9, 100, 10_000, 1 << 30])
    sides = [[[(chance.randint(-size, size - 1), chance.randint(-size, size - 1)) for _ in range(chance.randint(3, 12))]
              for _ in range(chance.randint(0, 3))] for _ in range(2)]
    rule, fill = chance.choice(sorted(RULES)), chance.choice(sorted(FILLS))
    flat = [[[number for point in contour for number in point] for contour in side] for side in sides]
    wanted = [[[number for point in contour for number in point] for contour in [outer, *holes]] for outer, holes in overlay(*sides, rule, fill)]
    # the package for Python leaves out a last point that repeats the first
    flat = [[contour[:-2] if contour[:2] == contour[-2:] else contour for contour in side] for side in flat]
    print(json.dumps([*flat, RULES[rule], FILLS[fill], wanted]))
