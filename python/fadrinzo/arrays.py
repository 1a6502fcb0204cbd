"""Overlays of arrays of numpy, which are read and returned without a copy in Python.

    >>> import numpy
    >>> xy = numpy.array([(0, 0), (8, 0), (8, 8), (0, 8)], numpy.int32)
    >>> overlay_arrays((xy, [0, 4]), (xy // 2 + 2, [0, 4]), "difference").contour_starts
    array([0, 4, 8], dtype=uint64)

Contours are given as a pair: an array of 32-bit points, of shape (n, 2), and the starts of the contours in it with n behind them. A
result has its arrays in the same form. They lie in the memory of the library, which is freed with the last of them, and cannot be
written.
"""
from __future__ import annotations

import ctypes
import typing

import numpy

from . import FILLS, NO_MEMORY, RULES, Fill, Rule, _calls, _check, _code

if typing.TYPE_CHECKING:
    import numpy.typing

__all__ = ["Shapes", "overlay_arrays"]


class Shapes(typing.NamedTuple):
    """Shapes: the points of all contours, where each contour starts, and with which contour each shape starts."""

    xy: numpy.typing.NDArray[numpy.int32]
    contour_starts: numpy.typing.NDArray[numpy.uint64]
    shape_starts: numpy.typing.NDArray[numpy.uint64]


class _Handle:
    """An overlay of the library, freed with the last reference to it."""

    def __init__(self):
        self.free, self.at = _calls().fadrinzo_free, _calls().fadrinzo_new()
        if not self.at:
            _check(NO_MEMORY)

    def __del__(self):
        if getattr(self, "at", None):
            self.free(self.at)


def _view(handle, address, count, kind, shape):
    """An array over memory of the library, which keeps its handle."""
    if not count:
        return numpy.zeros(shape, kind)
    memory = (ctypes.c_char * (count * numpy.dtype(kind).itemsize)).from_address(ctypes.cast(address, ctypes.c_void_p).value)
    memory.handle = handle
    array = numpy.frombuffer(memory, kind).reshape(shape)
    array.flags.writeable = False
    return array


def _add(handle, shape, xy, starts):
    """Adds the contours of a shape."""
    if not isinstance(xy, numpy.ndarray) or xy.dtype != numpy.int32 or xy.ndim != 2 or xy.shape[1] != 2 or not xy.flags.c_contiguous:
        raise TypeError("points are a contiguous array of numpy.int32 of shape (n, 2)")
    starts = numpy.asarray(starts, numpy.int64)
    if starts.ndim != 1 or len(starts) < 1 or starts[0] != 0 or starts[-1] != len(xy) or (numpy.diff(starts) < 0).any():
        raise ValueError("the starts of contours go up, from 0 to the number of points")
    lengths = numpy.ascontiguousarray(numpy.diff(starts), numpy.uintp)
    points, sizes = xy.ctypes.data_as(ctypes.POINTER(ctypes.c_int32)), lengths.ctypes.data_as(ctypes.POINTER(ctypes.c_size_t))
    _check(_calls().fadrinzo_add_contours(handle.at, shape, points, sizes, len(lengths)))


def overlay_arrays(subject: typing.Tuple[numpy.typing.NDArray[numpy.int32], numpy.typing.ArrayLike],
                   clip: typing.Tuple[numpy.typing.NDArray[numpy.int32], numpy.typing.ArrayLike], rule: Rule, fill: Fill = "nonzero") -> Shapes:
    """The overlay of two pairs of points and starts, as `Shapes`. Rules and fills are those of `overlay`."""
    rule_code, fill_code = _code("rule", rule, RULES), _code("fill", fill, FILLS)
    handle = _Handle()
    for shape, (xy, starts) in enumerate([subject, clip]):
        _add(handle, shape, xy, starts)
    _check(_calls().fadrinzo_overlay_shapes(handle.at, rule_code, fill_code))
    result = _calls().fadrinzo_get(handle.at)
    return Shapes(
        _view(handle, result.xy, 2 * result.points, numpy.int32, (result.points, 2)),
        _view(handle, result.contour_starts, result.contours + 1, numpy.uint64, (result.contours + 1,)),
        _view(handle, result.shape_starts, result.shapes + 1, numpy.uint64, (result.shapes + 1,)),
    )
