"""Which regions of two lists are related."""
from __future__ import annotations

import bisect
import ctypes
import typing

import fadrinzo as base

Predicate = typing.Literal["share-point", "interiors-meet", "touch", "covers", "is-within", "same-region"]

# of each predicate the relations that have to hold, and whether they do
PREDICATES = {
    "share-point": [("disjoint", False)],
    "interiors-meet": [("interiors-meet", True)],
    "touch": [("touch", True)],
    "covers": [("interiors-meet", True), ("covers", True)],
    "is-within": [("interiors-meet", True), ("is-within", True)],
    "same-region": [("interiors-meet", True), ("same-region", True)],
}


class _Region:
    """The coordinates of a region's contours, the box around them, and its number once it is prepared."""

    def __init__(self, contours, grid, where):
        self.where, self.number = where, None
        self.contours = [base._numbers(contour, grid, f"contour {index} of {where}") for index, contour in enumerate(contours)]
        xs = [x for numbers in self.contours for x in numbers[::2]]
        ys = [y for numbers in self.contours for y in numbers[1::2]]
        self.bounds = (min(xs), min(ys), max(xs), max(ys)) if xs else None

    def prepare(self, handle, fill_code):
        """Has the library keep the region, if it does not yet. Returns its number."""
        if self.number is None:
            calls, number = base._calls(), ctypes.c_size_t()
            base._check(calls.fadrinzo_clear(handle))
            for numbers in self.contours:
                base._check(calls.fadrinzo_add_contour(handle, 0, (ctypes.c_int32 * len(numbers))(*numbers), len(numbers) // 2))
            status = calls.fadrinzo_add_region(handle, fill_code, ctypes.byref(number))
            if status in base.NOT_EXACT:
                raise base.NotExactError(f"two edges of {self.where} cross at a point without integer coordinates")
            base._check(status)
            self.number = number.value
        return self.number


def _regions(given, grid, name):
    """The regions of a list."""
    return [_Region(contours, grid, f"region {index} of the {name} list") for index, contours in enumerate(given)]


def _candidates(first, second):
    """The numbers of regions whose boxes share a point, in order."""
    boxes = sorted((region.bounds, index) for index, region in enumerate(second) if region.bounds)
    starts = [bounds[0] for bounds, _ in boxes]
    widest = max((bounds[2] - bounds[0] for bounds, _ in boxes), default=0)
    for number, region in enumerate(first):
        if not region.bounds:
            continue
        west, south, east, north = region.bounds
        near = boxes[bisect.bisect_left(starts, west - widest):bisect.bisect_right(starts, east)]
        for other in sorted(index for bounds, index in near if bounds[2] >= west and bounds[1] <= north and bounds[3] >= south):
            yield number, other


def related_pairs(first: typing.Iterable[base.Contours], second: typing.Iterable[base.Contours], predicate: Predicate = "share-point",
                  fill: base.Fill = "nonzero", scale: typing.Optional[base.AnyScale] = None,
                  origin: base.Origin = None) -> typing.List[typing.Tuple[int, int]]:
    """The pairs of numbers of a first and a second region that are in a relation, in order, each once, exactly: a region is a list of
    contours. No pair that shares no point is returned. Only pairs whose boxes share a point are looked at, and what depends on one region
    alone is done once.

    Other arguments and errors are those of `interiors_meet`. NotExactError names the region.

    >>> square = lambda low, high: [[(low, low), (high, low), (high, high), (low, high)]]
    >>> related_pairs([square(0, 4), square(4, 8)], [square(1, 3), square(3, 5)], "covers")
    [(0, 0)]
    """
    wanted = base._code("predicate", predicate, PREDICATES)
    fill_code, holds = base._code("fill", fill, base.FILLS), ctypes.c_int()
    grid = base._grid(scale, origin)
    firsts, seconds = _regions(first, grid, "first"), _regions(second, grid, "second")
    found = []
    with base._owned(base._filled(lambda handle: None)) as handle:

        def is_related(one, other):
            for relation, value in wanted:
                base._check(base._calls().fadrinzo_region_relation(handle, one, other, base.RELATIONS[relation], ctypes.byref(holds)))
                if bool(holds.value) != value:
                    return False
            return True

        for number, other in _candidates(firsts, seconds):
            one = firsts[number].prepare(handle, fill_code)
            if is_related(one, seconds[other].prepare(handle, fill_code)):
                found.append((number, other))
    return found
