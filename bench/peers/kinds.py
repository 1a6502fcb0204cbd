"""The kinds of polygons of the races: those of bench/race.py, and four more. All contours are simple and run counterclockwise.

- rectangles: random rectangles of either shape over the whole range, each of which meets some ten others;
- town: uneven parcels of four sides, side by side, as the subject; as the clip a turned building of four to eight corners on each, every
  fifth of which may cross a border of its parcel;
- slivers: thin triangles over the whole range. Two corners are points that many of them share, or are near to such points, and the
  third is near to the line through them, so that many sides nearly lie on one another;
- nested: squares with one corner, each inside the next, so that their sides overlap along two lines.
"""
import math
import os
import random
import sys

sys.dont_write_bytecode = True
sys.path.insert(0, os.path.dirname(os.path.dirname(os.path.abspath(__file__))))
from race import FARTHEST, POLYGONS, SMALLER  # noqa: E402  (in the folder above)


def rectangles(number):
    numbers = random.Random(number)
    count = max(1, number // 4)
    side = 2 * FARTHEST / math.sqrt(count)
    for _ in range(count):
        width, height = (min(FARTHEST, round(side * numbers.uniform(0.3, 2.5))) for _ in "xy")
        x, y = (round(numbers.uniform(-FARTHEST, FARTHEST - each)) for each in (width, height))
        yield numbers.choice("SC"), [(x, y), (x + width, y), (x + width, y + height), (x, y + height)]


PARCEL = 3000
BUILDINGS = [
    [(-5, -3), (5, -3), (5, 3), (-5, 3)],
    [(-5, -4), (5, -4), (5, 0), (0, 0), (0, 4), (-5, 4)],
    [(-6, -4), (6, -4), (6, 4), (2, 4), (2, 0), (-2, 0), (-2, 4), (-6, 4)],
]


def parcels_of_town(numbers, side):
    def corner(x, y):
        return tuple(round(PARCEL * (each + numbers.uniform(-0.15, 0.15))) for each in (x, y))

    corners = [[corner(x, y) for x in range(side + 1)] for y in range(side + 1)]
    for y in range(side):
        for x in range(side):
            yield "S", [corners[y][x], corners[y][x + 1], corners[y + 1][x + 1], corners[y + 1][x]]


def building(numbers, x, y):
    off = 0.5 if numbers.random() < 0.2 else 0.08
    middle = [PARCEL * (each + 0.5 + numbers.uniform(-off, off)) for each in (x, y)]
    turn, scale = numbers.uniform(0, 2 * math.pi), numbers.uniform(70, 125)
    cosine, sine = scale * math.cos(turn), scale * math.sin(turn)
    for px, py in numbers.choice(BUILDINGS):
        yield round(middle[0] + cosine * px - sine * py), round(middle[1] + sine * px + cosine * py)


def town(number):
    numbers = random.Random(number)
    side = max(1, math.isqrt(number // 10))
    yield from parcels_of_town(numbers, side)
    for place in range(side * side):
        yield "C", list(building(numbers, place % side, place // side))


def sliver(numbers, shared):
    """The corners of a thin triangle, counterclockwise, or nothing where it has no area."""
    def near(place, off):
        return tuple(max(-FARTHEST, min(FARTHEST, round(each) + numbers.randint(-off, off))) for each in place)

    p, q = numbers.sample(shared, 2)
    p, along = near(p, numbers.choice((0, 0, 2))), numbers.random()
    r = near([a + along * (b - a) for a, b in zip(p, q)], 3)
    turn = (q[0] - p[0]) * (r[1] - p[1]) - (q[1] - p[1]) * (r[0] - p[0])
    return [p, q, r] if turn > 0 else [p, r, q] if turn else None


def slivers(number):
    numbers = random.Random(number)
    shared = [tuple(numbers.randint(-FARTHEST, FARTHEST) for _ in "xy") for _ in range(6 + number // 60)]
    made = 0
    while made < number // 3:
        corners = sliver(numbers, shared)
        if corners:
            yield "SC"[made % 2], corners
            made += 1


def nested(number):
    for side in range(10, 10 + number // 4):
        yield "S", [(0, 0), (side, 0), (side, side), (0, side)]


KINDS = {**POLYGONS, "rectangles": rectangles, "town": town, "slivers": slivers, "nested": nested}
FEWER = {**SMALLER, "slivers": 12}


def edges(kind, number):
    """Of how many edges a kind is made, where a number is given."""
    return max(16, number // FEWER.get(kind, 1))


def text(kind, number):
    """The contours of a kind, one a line."""
    lines = (shape + "".join(f" {x} {y}" for x, y in corners) for shape, corners in KINDS[kind](edges(kind, number)))
    return "\n".join(lines) + "\n"
