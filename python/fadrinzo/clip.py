"""Lines that polygons cut, each with its number."""
from __future__ import annotations

import ctypes
import typing

import fadrinzo as base

Line = typing.Iterable[typing.Iterable[base.Coordinate]]
Part = typing.Tuple[int, typing.List[typing.Tuple[base.Number, base.Number]]]


def _given(lines, grid):
    """The coordinates of lines, one after another, and how many points each has."""
    found, lengths = [], []
    for index, line in enumerate(lines):
        where = f"line {index}"
        points = base._points(line, where)
        found += base._flat(points, grid, where)
        lengths.append(len(points))
    return found, lengths


def _parts(found, grid):
    """The parts of a result, each with the number of its line."""
    numbers = found.xy[:2 * found.points]
    if grid is not None:
        numbers = grid.returned(numbers)
    points = list(zip(numbers[::2], numbers[1::2]))
    return [(found.lines[index], points[found.starts[index]:found.starts[index + 1]]) for index in range(found.count)]


@typing.overload
def clip_lines(contours: base.Contours, lines: typing.Iterable[Line], invert: bool = False, boundary_included: bool = False,
               fill: base.Fill = "nonzero", scale: None = None, rounding: base.Rounding = "hot-pixels",
               origin: base.Origin = None) -> typing.List[Part[int]]: ...
@typing.overload
def clip_lines(contours: base.Contours, lines: typing.Iterable[Line], invert: bool = False, boundary_included: bool = False,
               fill: base.Fill = "nonzero", *, scale: base.Scale, rounding: base.Rounding = "hot-pixels",
               origin: base.Origin = None) -> typing.List[Part[base.Scale]]: ...
@typing.overload
def clip_lines(contours: base.Contours, lines: typing.Iterable[Line], invert: bool, boundary_included: bool,
               fill: base.Fill, scale: base.Scale, rounding: base.Rounding = "hot-pixels",
               origin: base.Origin = None) -> typing.List[Part[base.Scale]]: ...
def clip_lines(contours: base.Contours, lines: typing.Iterable[Line], invert: bool = False, boundary_included: bool = False,
               fill: base.Fill = "nonzero", scale: typing.Optional[base.AnyScale] = None, rounding: base.Rounding = "hot-pixels",
               origin: base.Origin = None) -> typing.Any:
    """The parts of lines inside contours or, if `invert`, outside of them: a list of pairs of the number of the line and the points of
    the part, line by line, in the direction and the order of their lines.

    A line is a list of points, each joined to the next one. A part along the boundary counts as inside if `boundary_included`. A part goes
    on from a step of its line to the next if it comes to the end of the step. Lines that overlap have a part each. The direction of a
    contour counts, as for `overlay`. `rounding` is that of `split`: under "hot-pixels" the points of a part lie within half a unit of its
    steps, in x and in y. Points at which lines meet one another, and no contour, are left out. What puts pieces together is tested, not
    proved.

    Other arguments and errors are those of `overlay`; ValueError and TypeError name the line and the point.

    >>> clip_lines([[(0, 0), (10, 0), (10, 10), (0, 10)]], [[(-5, 5), (5, 5), (5, 20)], [(1, 1), (9, 1)]])
    [(0, [(0, 5), (5, 5), (5, 10)]), (1, [(1, 1), (9, 1)])]
    """
    fill_code, rounding_code = base._code("fill", fill, base.FILLS), base._code("rounding", rounding, base.ROUNDINGS)
    grid = base._grid(scale, origin)
    with base._loaded(contours, [], grid) as handle:
        numbers, lengths = _given(lines, grid)
        xy, counts = (ctypes.c_int32 * len(numbers))(*numbers), (ctypes.c_size_t * len(lengths))(*lengths)
        base._check(base._calls().fadrinzo_clip_lines(handle, xy, counts, len(lengths), bool(invert), bool(boundary_included), fill_code,
                                                      rounding_code))
        return _parts(base._calls().fadrinzo_get_parts(handle), grid)
