"""Overlays of WKT: lines of POLYGON and MULTIPOLYGON with decimals in, one MULTIPOLYGON out.

    >>> overlay_wkt(["POLYGON ((0 0, 1.5 0, 1.5 1.5, 0 1.5, 0 0))"], ["POLYGON ((0.5 0.5, 1 0.5, 1 1, 0.5 1, 0.5 0.5))"], "difference")
    'MULTIPOLYGON (((0 1.5, 0 0, 1.5 0, 1.5 1.5, 0 1.5), (0.5 0.5, 0.5 1, 1 1, 1 0.5, 0.5 0.5)))'

The first ring of a polygon is its outer boundary and the others are its holes, whichever way they run. A ring need not repeat its
first point at its end, and one of fewer than three points encloses nothing. Keywords may be in any case, and a member of a
MULTIPOLYGON may be EMPTY. Points have two coordinates: Z and M are refused.

Coordinates are read as they are written, moved to an origin amid all of them, and multiplied by the greatest power of ten for which
they are in range: digits behind that are rounded. Where a polygon vanishes so, a WktWarning says which power that is.
"""
from __future__ import annotations

import decimal
import re
import typing
import warnings

from . import MAX_COORD, Fill, Rule, overlay

__all__ = ["WktError", "WktWarning", "overlay_wkt", "polygons_of"]

WORD = re.compile(r"[(),]|[^\s(),]+")
NUMBER = re.compile(r"[+-]?([0-9]+(\.[0-9]*)?|\.[0-9]+)([eE][+-]?[0-9]+)?")
NOT_FINITE = re.compile(r"[+-]?(nan|inf|infinity)", re.IGNORECASE)
MORE_COORDINATES = ("Z", "M", "ZM")
# the powers of ten between which numbers lie, so that each is written in few digits; those of floats are within them
MOST_EXPONENT = 330
# digits of sums and products: enough for all numbers between these powers
DIGITS = 1_000


class WktError(ValueError):
    """A line is no POLYGON or MULTIPOLYGON; the text says where and why."""


class WktWarning(UserWarning):
    """A polygon is so small beside the others that nothing of it is left on their grid."""


class _Words:
    """The words of a line, each with its column, from the first that is not read yet."""

    def __init__(self, line, where):
        self.found = [(it.start() + 1, it[0]) for it in WORD.finditer(line)]
        self.where, self.at = where, 0

    def next(self):
        """The next word, in capitals; an empty one at the end."""
        return self.found[self.at][1].upper() if self.at < len(self.found) else ""

    def fail(self, wanted):
        """Raises what is wrong with the next word."""
        if self.at == len(self.found):
            raise WktError(f"{self.where}: it ends where {wanted} has to be")
        column, word = self.found[self.at]
        raise WktError(f"{self.where}, column {column}: {word!r} is where {wanted} has to be")

    def refuse(self, why):
        """Raises a sentence on the next word."""
        column, word = self.found[self.at]
        raise WktError(f"{self.where}, column {column}: {word!r} {why}")

    def take(self, wanted, *words):
        """Takes the next word, which has to be one of these."""
        word = self.next()
        if word not in words:
            self.fail(wanted)
        self.at += 1
        return word

    def number(self):
        """Takes a decimal."""
        word = self.next()
        if NOT_FINITE.fullmatch(word):
            self.fail("a finite number")
        if not NUMBER.fullmatch(word):
            self.fail("a number")
        try:
            number = decimal.Decimal(word)
        except decimal.InvalidOperation:
            number = None
        if number is None or number and abs(number.adjusted()) > MOST_EXPONENT:
            self.refuse(f"is not between 1e-{MOST_EXPONENT} and 1e{MOST_EXPONENT}, nor 0")
        self.at += 1
        return number

    def group(self, item):
        """Takes items between parentheses, with commas between them."""
        self.take("`(`", "(")
        items = [item()]
        while self.take("`,` or `)`", ",", ")") == ",":
            items.append(item())
        return items

    def point(self):
        """Takes the coordinates of a point."""
        return self.number(), self.number()

    def polygon(self):
        """Takes the rings of a polygon."""
        return self.group(lambda: self.group(self.point))

    def member(self):
        """Takes a polygon of a MULTIPOLYGON, or EMPTY, which has no ring."""
        if self.next() == "EMPTY":
            self.at += 1
            return []
        return self.polygon()

    def name(self):
        """Takes the name of a geometry of points with two coordinates."""
        word = self.next()
        glued = any(word == name + more for name in ("POLYGON", "MULTIPOLYGON") for more in MORE_COORDINATES)
        if not glued:
            word = self.take("POLYGON or MULTIPOLYGON", "POLYGON", "MULTIPOLYGON")
        if glued or self.next() in MORE_COORDINATES:
            self.refuse("says that points have more than two coordinates: only x and y are read")
        return word

    def polygons(self):
        """Takes all words of a line: a geometry."""
        name = self.name()
        if self.next() == "EMPTY":
            self.at, found = self.at + 1, []
        else:
            found = [self.polygon()] if name == "POLYGON" else self.group(self.member)
        if self.at < len(self.found):
            self.fail("the end")
        return [rings for rings in found if rings]


def polygons_of(lines: typing.Iterable[str], name: str = "line") -> typing.List[typing.List[typing.List[typing.Tuple[decimal.Decimal, decimal.Decimal]]]]:
    """The polygons that the lines write, each a list of rings of decimals. Empty lines are passed over.

    Raises WktError, which names the line by `name` and its number from 1, where one is no POLYGON or MULTIPOLYGON.
    """
    given = enumerate(lines, 1)
    return [it for number, line in given if line.strip() for it in _Words(line, f"{name} {number}").polygons()]


def _grid_of(polygons):
    """The origin and the power of ten that take all points into the range of the library."""
    points = [point for polygon in polygons for ring in polygon for point in ring]
    if not points:
        return (decimal.Decimal(0),) * 2, 0
    low, high = ([of(point[axis] for point in points) for axis in (0, 1)] for of in (min, max))
    half = max((high[axis] - low[axis]) / 2 for axis in (0, 1))
    # no more digits than the width has, so that the origin adds none to those of the points
    grain = decimal.Decimal(1).scaleb(min(half.adjusted() if half else 0, 0))
    origin = tuple(((low[axis] + high[axis]) / 2).quantize(grain) for axis in (0, 1))
    farthest = max(abs(point[axis] - origin[axis]) for point in points for axis in (0, 1))
    digits = decimal.Decimal(MAX_COORD).adjusted() - farthest.adjusted() if farthest else 0
    return origin, digits if farthest.scaleb(digits) <= MAX_COORD else digits - 1


def _doubled_area(points):
    """Twice the area of a ring, positive where it runs counterclockwise."""
    return sum(a[0] * b[1] - a[1] * b[0] for a, b in zip(points, points[1:] + points[:1]))


def _rings(polygons, origin, digits):
    """The rings in whole numbers, outer boundaries counterclockwise and holes clockwise."""
    for polygon in polygons:
        for index, ring in enumerate(polygon):
            points = [tuple(int((point[axis] - origin[axis]).scaleb(digits).to_integral_value()) for axis in (0, 1)) for point in ring]
            area = _doubled_area(points)
            if area == 0 and index == 0 and _doubled_area([[point[axis] - origin[axis] for axis in (0, 1)] for point in ring]) != 0:
                x, y = ring[0]
                warnings.warn(f"the polygon at {x} {y} vanishes: on the grid of all polygons a unit is 1e{-digits}", WktWarning, stacklevel=3)
            yield points[::-1] if (area < 0) == (index == 0) else points


def _text(number, origin, digits):
    """A coordinate of the result as a decimal."""
    text = f"{decimal.Decimal(number).scaleb(-digits) + origin:f}"
    return text.rstrip("0").rstrip(".") if "." in text else text


def overlay_wkt(subject: typing.Iterable[str], clip: typing.Iterable[str], rule: Rule, fill: Fill = "nonzero",
                names: typing.Sequence[str] = ("line", "line")) -> str:
    """The overlay of the polygons that two lists of lines write, as the text of one MULTIPOLYGON.

    Raises WktError where a line is no POLYGON or MULTIPOLYGON, named by `names` of the subject and of the clip, and what `overlay`
    raises.
    """
    with decimal.localcontext() as context:
        context.prec = DIGITS
        sides = [polygons_of(lines, name) for lines, name in zip((subject, clip), names)]
        origin, digits = _grid_of(sides[0] + sides[1])
        given = [list(_rings(side, origin, digits)) for side in sides]
        shapes = overlay(given[0], given[1], rule, fill)

        def ring(points):
            closed = [*points, points[0]]
            return "(" + ", ".join(" ".join(_text(point[axis], origin[axis], digits) for axis in (0, 1)) for point in closed) + ")"

        polygons = ["(" + ", ".join(ring(it) for it in [boundary, *holes]) + ")" for boundary, holes in shapes]
    return f"MULTIPOLYGON ({', '.join(polygons)})" if polygons else "MULTIPOLYGON EMPTY"
