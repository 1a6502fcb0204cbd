"""Overlays of polygons, by the proved library: lists of points in, outer boundaries with their holes out.

    >>> from fadrinzo import overlay
    >>> overlay([[(0, 0), (8, 0), (8, 8), (0, 8)]], [[(2, 2), (6, 2), (6, 6), (2, 6)]], "difference")
    [([(0, 8), (0, 0), (8, 0), (8, 8)], [[(2, 2), (2, 6), (6, 6), (6, 2)]])]

The library is found beside this file, where `pip install` puts it, else in the folder `c/out` of the repository, or where the variable
FADRINZO_SO names its file.
"""
from __future__ import annotations

import collections.abc
import contextlib
import ctypes
import decimal
import fractions
import numbers
import os
import pathlib
import threading
import typing
import weakref

__version__ = "0.2.0"
__all__ = ["Arrangement", "MAX_COORD", "MIN_COORD", "NotExactError", "OverlayError", "clip_lines", "covers", "interiors_meet", "is_disjoint",
           "is_within", "locate", "overlay", "overlay_by_rules", "overlay_polygons", "relate", "relate_pattern", "related_pairs", "same_region",
           "split", "touches"]

MIN_COORD, MAX_COORD = -(1 << 30), (1 << 30) - 1

RULES = {"subject": 0, "clip": 1, "intersect": 2, "union": 3, "difference": 4, "inverse-difference": 5, "xor": 6}
NOTHING = 16  # the table that keeps no point
FILLS = {"evenodd": 0, "nonzero": 1, "positive": 2, "negative": 3}
LOCATIONS: typing.List[Location] = ["inside", "boundary", "outside"]
RELATIONS = {"interiors-meet": 0, "covers": 1, "is-within": 2, "same-region": 3, "touch": 4, "disjoint": 5}
ROUNDINGS = {"hot-pixels": 0, "pairwise": 1}
MAX_COUNT = (1 << 31) - 1
VERSION = 2
NO_MEMORY = 1
NOT_EXACT = (6, 7)  # of the subject, of the clip

# what calls take: numbers of any library, points and contours in any container, and names
Coordinate = typing.Union[typing.SupportsIndex, typing.SupportsFloat]
Contour = typing.Iterable[typing.Iterable[Coordinate]]
Contours = typing.Iterable[Contour]
Segment = typing.Iterable[typing.Union[typing.Iterable[typing.SupportsIndex], typing.SupportsIndex]]
Rule = typing.Literal["subject", "clip", "intersect", "union", "difference", "inverse-difference", "xor"]
Fill = typing.Literal["evenodd", "nonzero", "positive", "negative"]
Location = typing.Literal["inside", "boundary", "outside"]
Rounding = typing.Literal["hot-pixels", "pairwise"]
# and what they return: numbers of the type of the scale, and int without one
Scale = typing.TypeVar("Scale", float, decimal.Decimal, fractions.Fraction)
Number = typing.TypeVar("Number", int, float, decimal.Decimal, fractions.Fraction)
AnyScale = typing.Union[float, decimal.Decimal, fractions.Fraction]
Origin = typing.Optional[typing.Iterable[Coordinate]]
Ring = typing.List[typing.Tuple[Number, Number]]
Shape = typing.Tuple[Ring[Number], typing.List[Ring[Number]]]
Edge = typing.Tuple[typing.Tuple[int, int], typing.Tuple[int, int], int, int]


class HasGeometry(typing.Protocol):
    """A geometry of another library, as those of shapely."""

    @property
    def __geo_interface__(self) -> typing.Mapping[str, typing.Any]: ...


Geometry = typing.Union[HasGeometry, typing.Mapping[str, typing.Any]]
Polygon = typing.Union[Geometry, typing.Tuple[Contour, typing.Iterable[Contour]], typing.Iterable[Contour]]
Polygons = typing.Union[Geometry, typing.Iterable[Polygon]]


class OverlayError(Exception):
    """The library refused a call: contours wind too often around a point. Where there was no memory it is a MemoryError."""


class NotExactError(OverlayError):
    """Two edges of one shape cross at a point without integer coordinates, so that its relations to another are refused."""


class _Result(ctypes.Structure):
    _fields_ = [
        ("xy", ctypes.POINTER(ctypes.c_int32)),
        ("contour_starts", ctypes.POINTER(ctypes.c_size_t)),
        ("shape_starts", ctypes.POINTER(ctypes.c_size_t)),
        ("points", ctypes.c_size_t),
        ("contours", ctypes.c_size_t),
        ("shapes", ctypes.c_size_t),
        ("reach", ctypes.c_uint64),
    ]


class _Edge(ctypes.Structure):
    _fields_ = [(name, ctypes.c_int32) for name in ("ax", "ay", "bx", "by", "subject", "clip")]


class _Edges(ctypes.Structure):
    _fields_ = [("edges", ctypes.POINTER(_Edge)), ("count", ctypes.c_size_t)]


def _path():
    """The file of the library: the one that FADRINZO_SO names, or the one beside this file, or that of the repository."""
    here = pathlib.Path(__file__).resolve()
    beside = here.with_name("libfadrinzo.so")
    return os.environ.get("FADRINZO_SO") or (beside if beside.is_file() else here.parents[2] / "c/out/libfadrinzo.so")


class _Parts(ctypes.Structure):
    _fields_ = [
        ("xy", ctypes.POINTER(ctypes.c_int32)),
        ("starts", ctypes.POINTER(ctypes.c_size_t)),
        ("lines", ctypes.POINTER(ctypes.c_size_t)),
        ("points", ctypes.c_size_t),
        ("count", ctypes.c_size_t),
    ]


def _load():
    """Loads the library, and declares its calls."""
    path = _path()
    try:
        library = ctypes.CDLL(str(path))
    except OSError as error:
        raise ImportError(f"{path} cannot be loaded: `pip install ./python` or `make -C c`, at the top of the repository, makes it ({error})") from error
    handle, number, points = ctypes.c_void_p, ctypes.c_int, ctypes.POINTER(ctypes.c_int32)
    calls = {
        "version": (ctypes.c_uint32, []),
        "text": (ctypes.c_char_p, [number]),
        "new": (handle, []),
        "free": (None, [handle]),
        "add_contour": (number, [handle, number, points, ctypes.c_size_t]),
        "add_contours": (number, [handle, number, points, ctypes.POINTER(ctypes.c_size_t), ctypes.c_size_t]),
        "add_contour_in_tile": (number, [handle, number, points, ctypes.c_size_t, ctypes.c_void_p]),
        "given": (number, [handle, number]),
        "add_polygon": (number, [handle, number, points, ctypes.POINTER(ctypes.c_size_t), ctypes.c_size_t]),
        "overlay_shapes": (number, [handle, number, number]),
        "overlay_by_rules": (number, [handle, ctypes.POINTER(number), ctypes.c_size_t, number]),
        "arrange": (number, [handle, number]),
        "arranged": (number, [handle, number, number]),
        "arranged_shapes": (number, [handle, number, number]),
        "locate": (number, [handle, number, number, ctypes.c_int32, ctypes.c_int32]),
        "relation": (number, [handle, number, number, ctypes.POINTER(number)]),
        "relate": (number, [handle, number, ctypes.c_char_p]),
        "clear": (number, [handle]),
        "add_region": (number, [handle, number, ctypes.POINTER(ctypes.c_size_t)]),
        "region_relation": (number, [handle, ctypes.c_size_t, ctypes.c_size_t, number, ctypes.POINTER(number)]),
        "get": (_Result, [handle]),
        "split": (number, [handle, ctypes.POINTER(_Edge), ctypes.c_size_t, number]),
        "get_edges": (_Edges, [handle]),
        "clip_lines": (number, [handle, points, ctypes.POINTER(ctypes.c_size_t), ctypes.c_size_t, number, number, number, number]),
        "get_parts": (_Parts, [handle]),
    }
    for name, (result, arguments) in calls.items():
        call = getattr(library, f"fadrinzo_{name}")
        call.restype, call.argtypes = result, arguments
    if library.fadrinzo_version() != VERSION:
        raise ImportError(f"{path} has version {library.fadrinzo_version()}, and this package is for version {VERSION}")
    return library


_library = None


def _calls():
    """The library, loaded at the first use."""
    global _library
    if _library is None:
        _library = _load()
    return _library


def _code(kind, name, codes):
    """The code of a name."""
    if name not in codes:
        raise ValueError(f"{name!r} is no {kind}: one of {', '.join(codes)}")
    return codes[name]


def _shown(value):
    """A value in a sentence, cut where it is long."""
    try:
        text = repr(value)
    except ValueError:
        text = f"a number of {value.bit_length()} bits"
    return text if len(text) <= 60 else f"{text[:60]}.."


def _check_scale(scale):
    """Raises where a scale is no finite number above 0."""
    if scale is None:
        return
    if isinstance(scale, bool) or not isinstance(scale, numbers.Number):
        raise TypeError(f"the scale {_shown(scale)} is no number")
    try:
        is_usable = 0 < scale < float("inf")
    except (TypeError, ArithmeticError):
        is_usable = False
    if not is_usable:
        raise ValueError(f"the scale {_shown(scale)} is no finite number above 0")


class _Grid(typing.NamedTuple):
    """How coordinates become whole ones, and back: less an origin, and times a scale. One of the two may be None."""

    scale: typing.Any
    origin: typing.Any

    def __str__(self):
        less = "" if self.origin is None else f" less the origin {self.origin}"
        return less if self.scale is None else f"{less} times {self.scale}"

    def returned(self, coordinates):
        """The coordinates of a result, x and y after x and y."""
        scale, origin = self
        if origin is not None:
            # one division, so that a decimal scale returns the nearest number to a decimal
            moved = [value if scale is None else value * scale for value in origin]
            coordinates = [number + moved[index % 2] for index, number in enumerate(coordinates)]
        return coordinates if scale is None else [number / scale for number in coordinates]


def _grid(scale, origin):
    """The grid of a scale and an origin, or None where there is neither."""
    _check_scale(scale)
    if origin is None:
        return None if scale is None else _Grid(scale, None)
    found = _point(origin, "the origin")
    for axis, value in zip("xy", found):
        if scale is None:
            _whole(value, f"the origin: {axis}")
        elif isinstance(value, bool) or not isinstance(value, numbers.Number):
            raise TypeError(f"the origin: {axis}: {_shown(value)} is no number")
        elif not float("-inf") < value < float("inf"):
            raise ValueError(f"the origin: {axis}: {_shown(value)} is no finite number")
    return _Grid(scale, found)


def _whole(value, where):
    """A whole number."""
    if isinstance(value, bool) or not hasattr(value, "__index__"):
        raise TypeError(f"{where}: {_shown(value)} is no whole number; give a scale for others")
    return value.__index__()


def _scaled(value, grid, axis, where):
    """A number less the origin and times the scale, where that is in range, else one that is out of it."""
    if not isinstance(value, numbers.Number):
        raise TypeError(f"{where}: {_shown(value)} is no number")
    try:
        scaled = (value if grid.origin is None else value - grid.origin[axis]) * grid.scale
        if scaled != scaled or scaled in (float("inf"), float("-inf")):
            raise ValueError(f"{where}: {_shown(value)} is no finite number")
        # a number far out of range is not rounded: it may have very many digits
        return round(scaled) if MIN_COORD - 1 < scaled < MAX_COORD + 1 else MAX_COORD + 1
    except TypeError as error:
        raise TypeError(f"{where}: {_shown(value)}{_shown_grid(grid)} is no number that can be rounded ({error})") from None
    except (OverflowError, decimal.Overflow):
        return MAX_COORD + 1
    except ArithmeticError:
        raise ValueError(f"{where}: {_shown(value)} is no finite number") from None


def _shown_grid(grid):
    """What a grid does to a number, in a sentence."""
    less = "" if grid.origin is None else f" less the origin {_shown(grid.origin)}"
    return f"{less} times the scale {_shown(grid.scale)}"


def _coordinate(value, grid, axis, where):
    """A coordinate of an axis, 0 for x and 1 for y, as the library takes it."""
    if grid is not None and grid.scale is not None:
        number = _scaled(value, grid, axis, where)
    else:
        number = _whole(value, where) - (0 if grid is None else grid.origin[axis])
    if not MIN_COORD <= number <= MAX_COORD:
        raise ValueError(f"{where}: {_shown(value)}{'' if grid is None else grid} is outside of {MIN_COORD} to {MAX_COORD}")
    return number


def _point(point, where):
    """The coordinates of a point."""
    try:
        found = tuple(point)
    except TypeError:
        raise TypeError(f"{where}: {_shown(point)} is no point of two numbers") from None
    if len(found) != 2:
        raise ValueError(f"{where}: {_shown(point)} has {len(found)} numbers, not two")
    return found


def _points(given, where):
    """The points of a contour or of a line."""
    try:
        listed = list(given)
    except TypeError:
        raise TypeError(f"{where}: {_shown(given)} is no list of points") from None
    return [_point(point, f"{where}, point {index}") for index, point in enumerate(listed)]


def _flat(points, grid, where):
    """The coordinates of points, x and y after x and y."""
    found = []
    for index, point in enumerate(points):
        at = f"{where}, point {index}"
        found += [_coordinate(point[0], grid, 0, f"{at}: x"), _coordinate(point[1], grid, 1, f"{at}: y")]
    return found


def _numbers(contour, grid, where):
    """The coordinates of a contour, without a last point that repeats the first."""
    points = _points(contour, where)
    if len(points) > 1 and points[0] == points[-1]:
        points.pop()
    return _flat(points, grid, where)


def _check(status):
    """Raises what a status says."""
    if status:
        error = MemoryError if status == NO_MEMORY else NotExactError if status in NOT_EXACT else OverlayError
        raise error(_calls().fadrinzo_text(status).decode())


def _contours(result, grid):
    """The contours of a result."""
    for index in range(result.contours):
        start, end = result.contour_starts[index], result.contour_starts[index + 1]
        numbers = result.xy[2 * start:2 * end]
        if grid is not None:
            numbers = grid.returned(numbers)
        yield list(zip(numbers[::2], numbers[1::2]))


def _parts(result, grid):
    """The contours of a result, shape by shape or rule by rule."""
    contours = list(_contours(result, grid))
    starts = result.shape_starts[:result.shapes + 1]
    return [contours[start:end] for start, end in zip(starts, starts[1:])]


def _shapes(handle, grid):
    """The result of a handle in shapes, each an outer boundary and the list of its holes."""
    return [(contours[0], contours[1:]) for contours in _parts(_calls().fadrinzo_get(handle), grid)]


def _filled(add):
    """A new overlay of the library, to which `add` adds contours. The caller frees it."""
    handle = _calls().fadrinzo_new()
    if not handle:
        _check(NO_MEMORY)
    try:
        add(handle)
    except BaseException:
        _calls().fadrinzo_free(handle)
        raise
    return handle


def _load_contours(subject, clip, grid):
    """An overlay of the library with these contours, which the caller frees."""
    given = [[_numbers(contour, grid, f"contour {index} of the {name}") for index, contour in enumerate(contours)]
             for name, contours in [("subject", subject), ("clip", clip)]]

    def add(handle):
        for shape, contours in enumerate(given):
            for numbers in contours:
                _check(_calls().fadrinzo_add_contour(handle, shape, (ctypes.c_int32 * len(numbers))(*numbers), len(numbers) // 2))

    return _filled(add)


def _load_polygons(subject, clip, grid):
    """An overlay of the library with these polygons, which the caller frees."""
    given = [[[_numbers(ring, grid, f"{where}, ring {index}") for index, ring in enumerate(rings)]
              for where, rings in _polygons(polygons, name)] for name, polygons in [("subject", subject), ("clip", clip)]]

    def add(handle):
        for shape, polygons in enumerate(given):
            for rings in polygons:
                numbers = [number for ring in rings for number in ring]
                lengths = [len(ring) // 2 for ring in rings]
                _check(_calls().fadrinzo_add_polygon(handle, shape, (ctypes.c_int32 * len(numbers))(*numbers),
                                                     (ctypes.c_size_t * len(lengths))(*lengths), len(lengths)))

    return _filled(add)


def _polygons(given, name):
    """Of each polygon of a subject or a clip where it is, and its rings."""
    geometry = _geometry(given)
    if geometry is not None:
        return _polygons_of(geometry, f"the {name}")
    try:
        items = list(given)
    except TypeError:
        raise TypeError(f"the {name}: {_shown(given)} is no list of polygons") from None
    found = []
    for index, item in enumerate(items):
        where, geometry = f"polygon {index} of the {name}", _geometry(item)
        found += [(where, _rings(item, where))] if geometry is None else _polygons_of(geometry, where)
    return found


def _rings(polygon, where):
    """The rings of a polygon: of a pair of a boundary and its holes, or of a list of rings."""
    try:
        return [polygon[0], *polygon[1]] if isinstance(polygon, tuple) and len(polygon) == 2 else list(polygon)
    except TypeError:
        raise TypeError(f"{where}: {_shown(polygon)} is no pair of a boundary and its holes, and no list of rings") from None


def _geometry(given):
    """The mapping that an object of another library, or a mapping as of GeoJSON, is, or None."""
    found = getattr(given, "__geo_interface__", given)
    return found if isinstance(found, collections.abc.Mapping) else None


def _polygons_of(geometry, where):
    """Of each polygon of such a mapping where it is, and its rings."""
    kind = geometry.get("type")
    if kind == "Polygon":
        return [(where, list(geometry["coordinates"]))]
    if kind == "MultiPolygon":
        return [(f"{where}, member {index}", list(rings)) for index, rings in enumerate(geometry["coordinates"])]
    if kind == "Feature":
        return [] if geometry["geometry"] is None else _polygons_of(_geometry(geometry["geometry"]), where)
    members = {"GeometryCollection": "geometries", "FeatureCollection": "features"}
    if kind in members:
        return [found for index, member in enumerate(geometry[members[kind]])
                for found in _polygons_of(_geometry(member), f"{where}, member {index}")]
    raise TypeError(f"{where}: a geometry of type {_shown(kind)} has no polygons")


@contextlib.contextmanager
def _owned(handle):
    """An overlay of the library, freed at the end."""
    try:
        yield handle
    finally:
        _calls().fadrinzo_free(handle)


def _loaded(subject, clip, grid):
    """An overlay of the library with these contours, freed at the end."""
    return _owned(_load_contours(subject, clip, grid))


@typing.overload
def overlay(subject: Contours, clip: Contours, rule: Rule, fill: Fill = "nonzero", scale: None = None, origin: Origin = None) -> typing.List[Shape[int]]: ...
@typing.overload
def overlay(subject: Contours, clip: Contours, rule: Rule, fill: Fill = "nonzero", *, scale: Scale, origin: Origin = None) -> typing.List[Shape[Scale]]: ...
@typing.overload
def overlay(subject: Contours, clip: Contours, rule: Rule, fill: Fill, scale: Scale, origin: Origin = None) -> typing.List[Shape[Scale]]: ...
def overlay(subject: Contours, clip: Contours, rule: Rule, fill: Fill = "nonzero", scale: typing.Optional[AnyScale] = None, origin: Origin = None) -> typing.Any:
    """The overlay of two lists of contours: a list of shapes, each an outer boundary and the list of its holes.

    A contour is a list of points, each x and y, whole numbers from MIN_COORD to MAX_COORD; a last point that repeats the first is
    left out. With a `scale`, coordinates may be any numbers: each is multiplied by it and rounded, and results are divided by it.
    A scale of 1,000 or more leaves room below the unit, so that small overlaps do not vanish. With an `origin`, which is a point, it is
    subtracted before that, and added to results: so coordinates far from zero, as meters of a map, keep their digits.

    Under "nonzero" two contours that overlap and run in opposite directions cancel. Under the fill "evenodd" the direction of a contour
    changes the region by no more than half a unit, but it may change points: edges with the same two ends that run against one another
    cancel before anything is cut. `rule` is one of subject, clip, intersect, union, difference, inverse-difference, xor.

    Raises ValueError or TypeError, which name the point, where a coordinate is of no use, OverlayError where contours wind too often, and
    MemoryError where there is no memory; then another call may follow.
    """
    rule_code, fill_code = _code("rule", rule, RULES), _code("fill", fill, FILLS)
    grid = _grid(scale, origin)
    with _loaded(subject, clip, grid) as handle:
        _check(_calls().fadrinzo_overlay_shapes(handle, rule_code, fill_code))
        return _shapes(handle, grid)


@typing.overload
def overlay_polygons(subject: Polygons, clip: Polygons, rule: Rule, fill: Fill = "nonzero", scale: None = None, origin: Origin = None) -> typing.List[Shape[int]]: ...
@typing.overload
def overlay_polygons(subject: Polygons, clip: Polygons, rule: Rule, fill: Fill = "nonzero", *, scale: Scale, origin: Origin = None) -> typing.List[Shape[Scale]]: ...
@typing.overload
def overlay_polygons(subject: Polygons, clip: Polygons, rule: Rule, fill: Fill, scale: Scale, origin: Origin = None) -> typing.List[Shape[Scale]]: ...
def overlay_polygons(subject: Polygons, clip: Polygons, rule: Rule, fill: Fill = "nonzero", scale: typing.Optional[AnyScale] = None, origin: Origin = None) -> typing.Any:
    """The overlay of two lists of polygons, as `overlay` returns it, whichever way their rings run.

    A polygon is a pair of its outer boundary and the list of its holes, as results have them, or the list of its rings, the outer boundary
    first. It may also be a geometry of another library that has `__geo_interface__`, as those of shapely, or a mapping as of GeoJSON, of
    type Polygon, MultiPolygon, Feature or a collection of these; such a one may be the whole subject or clip. The outer boundary is turned
    counterclockwise and each hole clockwise, so holes that lie apart in their boundary are holes. Other arguments and errors are those of
    `overlay`.

    >>> frame = [[(0, 0), (9, 0), (9, 9), (0, 9)], [(3, 3), (6, 3), (6, 6), (3, 6)]]
    >>> window = {"type": "Polygon", "coordinates": [[(3, 3), (3, 6), (6, 6), (6, 3), (3, 3)]]}
    >>> overlay_polygons([frame], window, "union")
    [([(0, 9), (0, 0), (9, 0), (9, 9)], [])]
    """
    rule_code, fill_code = _code("rule", rule, RULES), _code("fill", fill, FILLS)
    grid = _grid(scale, origin)
    with _owned(_load_polygons(subject, clip, grid)) as handle:
        _check(_calls().fadrinzo_overlay_shapes(handle, rule_code, fill_code))
        return _shapes(handle, grid)


class Arrangement(typing.Generic[Number]):
    """Two lists of contours, split once under a fill rule, from which overlays by any rules come.

    Arguments and errors are those of `overlay`. Threads may share one: a call waits for that of another thread. It holds memory of the
    library, so it cannot be copied or pickled; the contours that it was made of can.

    >>> terraced = Arrangement([[(0, 0), (4, 0), (4, 4), (0, 4)]], [[(4, 0), (8, 0), (8, 4), (4, 4)]])
    >>> terraced.overlay("union")
    [([(0, 4), (0, 0), (4, 0), (8, 0), (8, 4), (4, 4)], [])]
    >>> terraced.overlay("union", collinear=False)
    [([(0, 4), (0, 0), (8, 0), (8, 4)], [])]
    >>> terraced.contours("intersect")
    []
    """

    @typing.overload
    def __init__(self: Arrangement[int], subject: Contours, clip: Contours, fill: Fill = "nonzero", scale: None = None, origin: Origin = None) -> None: ...
    @typing.overload
    def __init__(self: Arrangement[float], subject: Contours, clip: Contours, fill: Fill = "nonzero", scale: float = ..., origin: Origin = None) -> None: ...
    @typing.overload
    def __init__(self: Arrangement[decimal.Decimal], subject: Contours, clip: Contours, fill: Fill = "nonzero", scale: decimal.Decimal = ..., origin: Origin = None) -> None: ...
    @typing.overload
    def __init__(self: Arrangement[fractions.Fraction], subject: Contours, clip: Contours, fill: Fill = "nonzero", scale: fractions.Fraction = ..., origin: Origin = None) -> None: ...
    def __init__(self, subject: Contours, clip: Contours, fill: Fill = "nonzero", scale: typing.Optional[AnyScale] = None, origin: Origin = None) -> None:
        fill_code = _code("fill", fill, FILLS)
        self._grid = _grid(scale, origin)
        self._handle = _load_contours(subject, clip, self._grid)
        self._lock = threading.Lock()
        weakref.finalize(self, _calls().fadrinzo_free, self._handle)
        _check(_calls().fadrinzo_arrange(self._handle, fill_code))

    def __reduce__(self) -> typing.NoReturn:
        raise TypeError("an Arrangement cannot be copied or pickled; make another one of the same contours")

    def overlay(self, rule: Rule, collinear: bool = True) -> typing.List[Shape[Number]]:
        """The overlay by a rule, as `overlay` returns it; if `collinear` is false, without the points at which a contour goes
        straight on."""
        code = _code("rule", rule, RULES)
        with self._lock:
            _check(_calls().fadrinzo_arranged_shapes(self._handle, code, not collinear))
            return _shapes(self._handle, self._grid)

    @property
    def reach(self) -> int:
        """How far the split moved edges at most, in x and in y, in halves of a unit, which is 1 / scale where there is a `scale`.

        It is 0 where no two edges cross at a point without whole coordinates, and at most 1. How given coordinates are rounded is not
        counted.

        >>> Arrangement([[(0, 0), (5, 5), (0, 5)]], [[(0, 5), (5, 0), (5, 5)]]).reach
        1
        """
        # an overlay that keeps nothing has the reach of its arrangement
        with self._lock:
            _check(_calls().fadrinzo_arranged(self._handle, NOTHING, 0))
            return _calls().fadrinzo_get(self._handle).reach

    def contours(self, rule: Rule, collinear: bool = True) -> typing.List[Ring[Number]]:
        """The same as contours that have it on their left: outer boundaries counterclockwise, holes clockwise."""
        code = _code("rule", rule, RULES)
        with self._lock:
            _check(_calls().fadrinzo_arranged(self._handle, code, not collinear))
            return list(_contours(_calls().fadrinzo_get(self._handle), self._grid))


@typing.overload
def overlay_by_rules(subject: Contours, clip: Contours, rules: typing.Iterable[Rule], fill: Fill = "nonzero", scale: None = None, origin: Origin = None) -> typing.List[typing.List[Ring[int]]]: ...
@typing.overload
def overlay_by_rules(subject: Contours, clip: Contours, rules: typing.Iterable[Rule], fill: Fill = "nonzero", *, scale: Scale, origin: Origin = None) -> typing.List[typing.List[Ring[Scale]]]: ...
@typing.overload
def overlay_by_rules(subject: Contours, clip: Contours, rules: typing.Iterable[Rule], fill: Fill, scale: Scale, origin: Origin = None) -> typing.List[typing.List[Ring[Scale]]]: ...
def overlay_by_rules(subject: Contours, clip: Contours, rules: typing.Iterable[Rule], fill: Fill = "nonzero", scale: typing.Optional[AnyScale] = None, origin: Origin = None) -> typing.Any:
    """The overlays of two lists of contours by several rules, of one split: for each rule a list of contours, in the order of the
    rules. Outer boundaries run counterclockwise, and holes clockwise.

    Arguments and errors are those of `overlay`.

    >>> overlay_by_rules([[(0, 0), (4, 0), (4, 4), (0, 4)]], [[(2, 2), (6, 2), (6, 6), (2, 6)]], ["intersect", "subject"])
    [[[(2, 4), (2, 2), (4, 2), (4, 4)]], [[(0, 4), (0, 0), (4, 0), (4, 2), (4, 4), (2, 4)]]]
    """
    codes, fill_code = [_code("rule", rule, RULES) for rule in rules], _code("fill", fill, FILLS)
    grid = _grid(scale, origin)
    with _loaded(subject, clip, grid) as handle:
        _check(_calls().fadrinzo_overlay_by_rules(handle, (ctypes.c_int * len(codes))(*codes), len(codes), fill_code))
        return _parts(_calls().fadrinzo_get(handle), grid)


def _count(value, where):
    """How often a segment winds, as the library takes it."""
    if isinstance(value, bool) or not hasattr(value, "__index__"):
        raise TypeError(f"{where}: {_shown(value)} is no whole number")
    number = value.__index__()
    if not -MAX_COUNT <= number <= MAX_COUNT:
        raise ValueError(f"{where}: {_shown(value)} is outside of {-MAX_COUNT} to {MAX_COUNT}")
    return number


def _edge(segment, where):
    """A segment as the library takes it: two ends, which may be followed by two counts."""
    try:
        found = tuple(segment)
    except TypeError:
        raise TypeError(f"{where}: {_shown(segment)} is no segment of two ends") from None
    if len(found) not in (2, 4):
        raise ValueError(f"{where}: {_shown(segment)} has {len(found)} parts, not two ends, or these and two counts")
    (ax, ay), (bx, by) = [[_coordinate(value, None, 0, f"{where}, {end} end: {axis}") for axis, value in zip("xy", _point(point, f"{where}, {end} end"))]
                          for end, point in zip(("first", "second"), found)]
    subject, clip = [_count(value, f"{where}, {name}") for name, value in zip(("subject", "clip"), found[2:] or (1, 0))]
    if (ax, ay) == (bx, by):
        raise ValueError(f"{where}: both ends are {_shown((ax, ay))}")
    if subject == clip == 0:
        raise ValueError(f"{where}: both counts are 0")
    return _Edge(ax, ay, bx, by, subject, clip)


def split(segments: typing.Iterable[Segment], rounding: Rounding = "hot-pixels") -> typing.List[Edge]:
    """Splits segments into a planar arrangement: a list of segments, of which every two share at most a common end.

    A segment is a pair of its ends, each x and y, whole numbers from MIN_COORD to MAX_COORD, or its ends and two counts: how often it winds
    for the subject and for the clip, from the first end to the second; 1 and 0 where they are left out. Results are ends and counts,
    ordered by their ends in x and then in y, and each runs in that order. Of segments on the same two ends the counts are added up, and where
    both are 0 then there is none.

    Under the rounding "hot-pixels" crossings without integer coordinates are rounded by snap rounding: no segment moves by more than half a
    unit, in x and in y, and few nearly parallel segments leave few. Under "pairwise" they are rounded pair by pair, pass after pass, as
    i_overlay does: six nearly parallel segments can leave hundreds of thousands.

    Raises ValueError or TypeError, which name the segment, OverlayError where counts add up to more than 2147483647, and MemoryError.

    >>> split([((0, 0), (4, 4)), ((0, 4), (4, 0))])
    [((0, 0), (2, 2), 1, 0), ((0, 4), (2, 2), 1, 0), ((2, 2), (4, 0), 1, 0), ((2, 2), (4, 4), 1, 0)]
    """
    code = _code("rounding", rounding, ROUNDINGS)
    edges = [_edge(segment, f"segment {index}") for index, segment in enumerate(segments)]
    with _owned(_filled(lambda handle: None)) as handle:
        _check(_calls().fadrinzo_split(handle, (_Edge * len(edges))(*edges), len(edges), code))
        found = _calls().fadrinzo_get_edges(handle)
        return [((edge.ax, edge.ay), (edge.bx, edge.by), edge.subject, edge.clip) for edge in found.edges[:found.count]]


def locate(contours: Contours, point: typing.Iterable[Coordinate], fill: Fill = "nonzero", scale: typing.Optional[AnyScale] = None, origin: Origin = None) -> Location:
    """Where a point lies with respect to contours, exactly: "boundary" if it lies on a step of one of them, else "inside" or "outside"
    under the fill rule. With a `scale` the point is multiplied by it and rounded, as the contours are.

    >>> [locate([[(0, 0), (4, 0), (4, 4), (0, 4)]], (x, 2)) for x in (3, 4, 5)]
    ['inside', 'boundary', 'outside']
    """
    fill_code = _code("fill", fill, FILLS)
    grid = _grid(scale, origin)
    x, y = _numbers([point], grid, "the point")
    with _loaded(contours, [], grid) as handle:
        return LOCATIONS[_calls().fadrinzo_locate(handle, 0, fill_code, x, y)]


def _relation(relation, subject, clip, fill, grid):
    """Whether a relation holds."""
    fill_code, holds = _code("fill", fill, FILLS), ctypes.c_int()
    with _loaded(subject, clip, grid) as handle:
        _check(_calls().fadrinzo_relation(handle, RELATIONS[relation], fill_code, ctypes.byref(holds)))
        return bool(holds.value)


def interiors_meet(subject: Contours, clip: Contours, fill: Fill = "nonzero", scale: typing.Optional[AnyScale] = None, origin: Origin = None) -> bool:
    """Whether some point is inside both of two lists of contours, exactly: points have any rational coordinates, and nothing is rounded.

    Shapes that share parts of their boundaries alone do not meet. Arguments and errors are those of `overlay`. With a `scale` the relation
    is that of the contours as they are multiplied and rounded. Raises NotExactError, which names the shape, where two edges of one shape
    cross at a point without integer coordinates, as those of valid polygons and of results never do: the overlay of that shape by "subject"
    is the same region but for rounding, and has no such crossing.

    >>> square = [(0, 0), (4, 0), (4, 4), (0, 4)]
    >>> interiors_meet([square], [[(3, 3), (6, 3), (6, 6), (3, 6)]])
    True
    >>> interiors_meet([square], [[(4, 4), (6, 4), (6, 6), (4, 6)]])
    False
    """
    return _relation("interiors-meet", subject, clip, fill, _grid(scale, origin))


def covers(subject: Contours, clip: Contours, fill: Fill = "nonzero", scale: typing.Optional[AnyScale] = None, origin: Origin = None) -> bool:
    """Whether each point inside the clip is inside the subject. Arguments and errors are those of `interiors_meet`.

    >>> covers([[(0, 0), (4, 0), (4, 4), (0, 4)]], [[(0, 0), (4, 0), (4, 3)]])
    True
    """
    return _relation("covers", subject, clip, fill, _grid(scale, origin))


def is_within(subject: Contours, clip: Contours, fill: Fill = "nonzero", scale: typing.Optional[AnyScale] = None, origin: Origin = None) -> bool:
    """Whether each point inside the subject is inside the clip. Arguments and errors are those of `interiors_meet`.

    >>> is_within([[(0, 0), (4, 0), (4, 4), (0, 4)]], [[(0, 0), (4, 0), (4, 3)]])
    False
    """
    return _relation("is-within", subject, clip, fill, _grid(scale, origin))


def same_region(subject: Contours, clip: Contours, fill: Fill = "nonzero", scale: typing.Optional[AnyScale] = None, origin: Origin = None) -> bool:
    """Whether each point is inside both of two lists of contours, or inside neither. Arguments and errors are those of `interiors_meet`.

    >>> same_region([[(0, 0), (4, 0), (4, 4), (0, 4)]], [[(4, 4), (4, 0), (0, 0), (0, 3), (0, 4)]])
    True
    """
    return _relation("same-region", subject, clip, fill, _grid(scale, origin))


def touches(subject: Contours, clip: Contours, fill: Fill = "nonzero", scale: typing.Optional[AnyScale] = None, origin: Origin = None) -> bool:
    """Whether two lists of contours share a point, inside or on their boundaries, and no point is inside both. Arguments and errors are
    those of `interiors_meet`.

    >>> touches([[(0, 0), (4, 0), (4, 4), (0, 4)]], [[(4, 4), (6, 4), (6, 6), (4, 6)]])
    True
    """
    return _relation("touch", subject, clip, fill, _grid(scale, origin))


def is_disjoint(subject: Contours, clip: Contours, fill: Fill = "nonzero", scale: typing.Optional[AnyScale] = None, origin: Origin = None) -> bool:
    """Whether two lists of contours share no point, neither inside nor on their boundaries. Arguments and errors are those of
    `interiors_meet`.

    >>> is_disjoint([[(0, 0), (4, 0), (4, 4), (0, 4)]], [[(4, 4), (6, 4), (6, 6), (4, 6)]])
    False
    """
    return _relation("disjoint", subject, clip, fill, _grid(scale, origin))


def relate(subject: Contours, clip: Contours, fill: Fill = "nonzero", scale: typing.Optional[AnyScale] = None, origin: Origin = None) -> str:
    """Which parts of two lists of contours meet: nine letters, T where some point is in both parts and F where none is, row by row for the
    interior, the boundary and the exterior of the subject, as OGC's matrix without dimensions. Arguments and errors are those of
    `interiors_meet`.

    >>> relate([[(0, 0), (4, 0), (4, 4), (0, 4)]], [[(4, 4), (6, 4), (6, 6), (4, 6)]])
    'FFTFTTTTT'
    """
    fill_code, letters = _code("fill", fill, FILLS), ctypes.create_string_buffer(10)
    with _loaded(subject, clip, _grid(scale, origin)) as handle:
        _check(_calls().fadrinzo_relate(handle, fill_code, letters))
        return letters.value.decode()


def relate_pattern(subject: Contours, clip: Contours, pattern: str, fill: Fill = "nonzero", scale: typing.Optional[AnyScale] = None, origin: Origin = None) -> bool:
    """Whether the letters of `relate` are those of a pattern: T, F, or * for either. Other arguments and errors are those of
    `interiors_meet`; ValueError where the pattern has other letters, as digits of dimensions, or not nine.

    >>> relate_pattern([[(0, 0), (4, 0), (4, 4), (0, 4)]], [[(4, 4), (6, 4), (6, 6), (4, 6)]], "F***T****")
    True
    """
    if not isinstance(pattern, str) or len(pattern) != 9 or not set(pattern) <= set("TF*"):
        raise ValueError(f"the pattern {_shown(pattern)} is not nine letters of T, F and *")
    return all(letter in ("*", found) for letter, found in zip(pattern, relate(subject, clip, fill, scale, origin)))


from fadrinzo.clip import clip_lines  # noqa: E402  (it takes names from above)
from fadrinzo.related import related_pairs  # noqa: E402  (it takes names from above)
