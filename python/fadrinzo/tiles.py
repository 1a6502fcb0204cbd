"""Overlays by tiles: rectangles of the plane, whose parts are made one by one, by threads, or by other processes, and joined.

    >>> squares = [[(n, n), (n + 15, n), (n + 15, n + 15), (n, n + 15)] for n in range(0, 200, 10)]
    >>> left, right = (0, 0, 100, 215), (100, 0, 215, 215)
    >>> parts = [overlay_tile(squares, [], "subject", tile) for tile in (left, right)]
    >>> [len(part) for part in parts], len(join_tiles(parts))
    ([1, 1], 1)

A tile is given by its least x and y and its greatest x and y. Its left and its upper border belong to it. The part that `overlay_tile` returns lies
in the tile, and is right at each of its points that is farther than a whole unit from every given edge that runs along no axis, in x or in
y. So any engine maps it over tiles that are apart by lines and cover the contours: it takes lists and numbers, and returns them. A tile needs the
contours whose bounding boxes meet it, those around it too.
"""
from __future__ import annotations

import concurrent.futures
import ctypes
import os
import typing

from . import FILLS, RULES, Contours, Fill, Ring, Rule, Shape, _calls, _check, _code, _contours, _filled, _numbers, _owned, _shapes

__all__ = ["clip_to_tile", "divide_part", "join_tiles", "overlay_tile", "overlay_tiled", "tiles_around"]

Tile = typing.Tuple[int, int, int, int]


class _Box(ctypes.Structure):
    _fields_ = [(name, ctypes.c_int32) for name in ("min_x", "min_y", "max_x", "max_y")]


class _Given:
    """A contour as the library takes it, and its bounding box."""

    def __init__(self, shape, numbers):
        self.shape, self.count = shape, len(numbers) // 2
        self.points = (ctypes.c_int32 * len(numbers))(*numbers)
        xs, ys = numbers[::2], numbers[1::2]
        self.box = (min(xs), min(ys), max(xs), max(ys)) if numbers else None


def _given(subject, clip):
    """The contours of a subject and of a clip that have points."""
    found = [_Given(shape, _numbers(contour, None, f"contour {index} of the {name}"))
             for shape, (name, contours) in enumerate([("subject", subject), ("clip", clip)]) for index, contour in enumerate(contours)]
    return [it for it in found if it.box]


def _is_beside(box, tile):
    return box[2] <= tile[0] or tile[2] <= box[0] or box[3] <= tile[1] or tile[3] <= box[1]


def _box(tile):
    """A tile as the library takes it."""
    numbers = _numbers([tile[:2], tile[2:]], None, "the tile")
    if len(numbers) < 4 or numbers[0] >= numbers[2] or numbers[1] >= numbers[3]:
        raise ValueError(f"the tile {tile} is not wider and higher than 0")
    return _Box(*numbers)


def _loaded(given, tile):
    """An overlay of the library with what a tile has of contours, freed at the end."""
    box = _box(tile)

    def add(handle):
        for it in given:
            if not _is_beside(it.box, tile):
                _check(_calls().fadrinzo_add_contour_in_tile(handle, it.shape, it.points, it.count, ctypes.byref(box)))

    return _owned(_filled(add))


def _part(given, rule_code, fill_code, tile):
    """The part of an overlay that belongs to a tile. The library runs without the interpreter's lock."""
    with _loaded(given, tile) as handle:
        _check(_calls().fadrinzo_overlay_shapes(handle, rule_code, fill_code))
        return _shapes(handle, None)


def clip_to_tile(contours: Contours, tile: Tile) -> typing.List[Ring[int]]:
    """What a tile has of contours: each one, cut and clamped to the tile, without those that lie beside it.

    It is what another process needs of them for `overlay_tile`. Steps may run along the borders, some of them back and forth.

    >>> clip_to_tile([[(1, 1), (5, 1), (5, 5), (1, 5)]], (0, 0, 3, 10))
    [[(1, 1), (3, 1), (3, 5), (1, 5)]]
    """
    with _loaded(_given(contours, []), tile) as handle:
        _check(_calls().fadrinzo_given(handle, 0))
        return list(_contours(_calls().fadrinzo_get(handle), None))


def overlay_tile(subject: Contours, clip: Contours, rule: Rule, tile: Tile, fill: Fill = "nonzero") -> typing.List[Shape[int]]:
    """The part of an overlay that belongs to a tile, in shapes. Other arguments and errors are those of `overlay`."""
    return _part(_given(subject, clip), _code("rule", rule, RULES), _code("fill", fill, FILLS), tile)


def join_tiles(parts: typing.Iterable[typing.Iterable[Shape[int]]]) -> typing.List[Shape[int]]:
    """The parts of tiles that are apart by lines, joined. Nothing is rounded. Parts that are joined may be joined again with others."""

    def add(handle):
        for boundary, holes in (shape for part in parts for shape in part):
            for index, ring in enumerate([boundary, *holes]):
                numbers = _numbers(ring, None, f"ring {index} of a part")
                _check(_calls().fadrinzo_add_contour(handle, 0, (ctypes.c_int32 * len(numbers))(*numbers), len(numbers) // 2))

    with _owned(_filled(add)) as handle:
        _check(_calls().fadrinzo_overlay_shapes(handle, RULES["subject"], FILLS["nonzero"]))
        return _shapes(handle, None)


def tiles_around(contours: Contours, count: int) -> typing.List[Tile]:
    """About so many tiles that make up the bounding box of contours, each with about as many of their points.

    >>> tiles_around([[(0, 0), (8, 0), (8, 4), (0, 4)]], 2)
    [(0, 0, 8, 4)]
    """
    return _tiles(_given(contours, []), count)


def _tiles(given, count):
    boxes = [it.box for it in given]
    if not boxes:
        return []
    whole = (min(it[0] for it in boxes), min(it[1] for it in boxes), max(it[2] for it in boxes), max(it[3] for it in boxes))
    if whole[0] == whole[2] or whole[1] == whole[3]:
        return []
    step = sum(it.count for it in given) // (1 << 14) + 1
    samples = [(it.points[2 * index], it.points[2 * index + 1]) for it in given for index in range(0, it.count, step)]
    return list(_halved(whole, samples, count))


def _halved(tile, samples, count):
    """About so many tiles that make up a tile, by points in it: halves of halves, across the longer side."""
    if count < 2 or not samples:
        yield tile
        return
    for axis in (0, 1) if tile[2] - tile[0] >= tile[3] - tile[1] else (1, 0):
        numbers = sorted(point[axis] for point in samples)
        line = numbers[len(numbers) * (count // 2) // count]
        if tile[axis] < line < tile[axis + 2]:
            low = tuple(line if place == axis + 2 else number for place, number in enumerate(tile))
            high = tuple(line if place == axis else number for place, number in enumerate(tile))
            yield from _halved(low, [point for point in samples if point[axis] < line], count // 2)
            yield from _halved(high, [point for point in samples if point[axis] >= line], count - count // 2)
            return
    yield tile


def _reaches(shape, tile):
    """Whether a shape has a point on the border of its tile."""
    xs, ys = ([point[axis] for point in shape[0]] for axis in (0, 1))
    return min(xs) == tile[0] or max(xs) == tile[2] or min(ys) == tile[1] or max(ys) == tile[3]


def divide_part(part: typing.Iterable[Shape[int]], tile: Tile) -> typing.Tuple[typing.List[Shape[int]], typing.List[Shape[int]]]:
    """The shapes of a tile's part in two lists: those apart from its border, and those that reach it.

    The first are shapes of the whole overlay. So `join_tiles` needs the others alone, which other tiles continue.

    >>> near, far = [(1, 1), (2, 1), (2, 2)], [(3, 8), (4, 9), (3, 9)]
    >>> divide_part([(near, []), (far, [])], (0, 0, 4, 10))
    ([([(1, 1), (2, 1), (2, 2)], [])], [([(3, 8), (4, 9), (3, 9)], [])])
    """
    whole, reaching = [], []
    for shape in part:
        (reaching if _reaches(shape, tile) else whole).append(shape)
    return whole, reaching


def overlay_tiled(subject: Contours, clip: Contours, rule: Rule, fill: Fill = "nonzero", tiles: int = 16,
                  threads: typing.Optional[int] = None) -> typing.List[Shape[int]]:
    """The overlay of two lists of contours, tile by tile, on so many threads, or as many as there are processors.

    It is right at each point that is farther than a whole unit from every given edge that runs along no axis, and has points on lines
    between tiles. Other arguments and errors are those of `overlay`; the first tile that is refused stops all.

    >>> squares = [[(n, n), (n + 15, n), (n + 15, n + 15), (n, n + 15)] for n in range(0, 200, 10)]
    >>> len(overlay_tiled(squares, [], "subject", tiles=4))
    1
    """
    rule_code, fill_code, given = _code("rule", rule, RULES), _code("fill", fill, FILLS), _given(subject, clip)
    made = _tiles(given, tiles)
    with concurrent.futures.ThreadPoolExecutor(threads or os.cpu_count()) as pool:
        futures = [pool.submit(_part, given, rule_code, fill_code, tile) for tile in made]
        try:
            parts = [future.result() for future in futures]
        except BaseException:
            for future in futures:
                future.cancel()
            raise
    divided = [divide_part(part, tile) for part, tile in zip(parts, made)]
    return [shape for whole, _ in divided for shape in whole] + join_tiles([reaching for _, reaching in divided])
