"""Tests of overlays of arrays, where numpy is."""
import doctest
import gc
import unittest

from fadrinzo import FILLS, RULES, overlay

try:
    import numpy
    from fadrinzo import arrays
except ImportError:
    numpy = None

SUBJECT = [[(0, 0), (12, 0), (12, 12), (0, 12)], [(2, 2), (2, 5), (5, 5), (5, 2)], [(20, 20), (30, 20), (25, 30)]]
CLIP = [[(4, -1), (8, -1), (8, 22), (4, 22)], [(21, 21), (40, 23), (22, 40)]]


@unittest.skipIf(numpy is None, "numpy is not here")
class Arrays(unittest.TestCase):
    def given(self, contours):
        starts = [0]
        for contour in contours:
            starts.append(starts[-1] + len(contour))
        return numpy.array([point for contour in contours for point in contour], numpy.int32).reshape(-1, 2), starts

    def test_shapes_are_those_of_lists(self):
        for rule in RULES:
            for fill in FILLS:
                found = arrays.overlay_arrays(self.given(SUBJECT), self.given(CLIP), rule, fill)
                contours = [list(map(tuple, found.xy[start:end].tolist())) for start, end in zip(found.contour_starts[:-1].tolist(), found.contour_starts[1:].tolist())]
                shapes = [contours[start:end] for start, end in zip(found.shape_starts[:-1].tolist(), found.shape_starts[1:].tolist())]
                self.assertEqual([(shape[0], shape[1:]) for shape in shapes], overlay(SUBJECT, CLIP, rule, fill))

    def test_arrays_keep_their_memory(self):
        xy = arrays.overlay_arrays(self.given(SUBJECT), self.given(CLIP), "xor").xy
        before = xy.copy()
        gc.collect()
        for _ in range(50):
            arrays.overlay_arrays(self.given(SUBJECT), self.given(CLIP), "union")
        self.assertTrue((xy == before).all())
        with self.assertRaises(ValueError):
            xy[0, 0] = 1

    def test_nothing(self):
        found = arrays.overlay_arrays(self.given([]), self.given([]), "union")
        self.assertEqual((found.xy.shape, found.contour_starts.tolist(), found.shape_starts.tolist()), ((0, 2), [0], [0]))

    def test_wrong_arrays(self):
        xy, starts = self.given(SUBJECT)
        for wrong in (xy.astype(numpy.int64), xy[:, :1], xy[::2], xy.tolist(), xy.T):
            with self.assertRaises(TypeError):
                arrays.overlay_arrays((wrong, starts), self.given(CLIP), "union")
        for wrong in ([], [0], starts[1:], starts[:-1], [0, 8, 4, 11], [[0, 11]], [-1, 11]):
            with self.assertRaises(ValueError):
                arrays.overlay_arrays((xy, wrong), self.given(CLIP), "union")

    def test_example(self):
        self.assertEqual(doctest.testmod(arrays).failed, 0)


if __name__ == "__main__":
    unittest.main()
