"""Tests of splits of segments, by either rounding."""
import unittest

import fadrinzo
from fadrinzo import split

# a closed chain of six edges that are nearly parallel, over most of the range
CHAIN = [(929775894, 738301379), (-820272779, 900600856), (929775891, 738301379), (-820272780, 900600857), (929775893, 738301379),
         (-820272774, 900600852)]
EDGES = list(zip(CHAIN, CHAIN[1:] + CHAIN[:1]))
# what snap rounding leaves of the first five, by its definition over fractions: one path, run backward
PATH = [(-820272774, 900600852), (767476416, 753353029), (842559844, 746389793), (859653589, 744804520), (929775891, 738301379),
        (929775893, 738301379), (929775894, 738301379)]


class Splits(unittest.TestCase):
    def test_six_nearly_parallel_segments(self):
        self.assertEqual(split(EDGES[:5]), [(a, b, -1, 0) for a, b in zip(PATH, PATH[1:])])
        # back and forth, all six cancel where they go through the same points
        self.assertEqual(split(EDGES), [])
        self.assertEqual(len(split(EDGES, rounding="pairwise")), 238653)

    def test_counts(self):
        given = [((0, 0), (4, 4)), ((0, 4), (4, 0), 2, 0), ((4, 4), (0, 0), 0, 3)]
        wanted = [((0, 0), (2, 2), 1, -3), ((0, 4), (2, 2), 2, 0), ((2, 2), (4, 0), 2, 0), ((2, 2), (4, 4), 1, -3)]
        for rounding in fadrinzo.ROUNDINGS:
            self.assertEqual(split(given, rounding), wanted)
        self.assertEqual(split([]), [])
        self.assertEqual(split([((0, 0), (1, 1)), ((1, 1), (0, 0))]), [])

    def test_moves_by_half_a_unit(self):
        # the two cross at (2.5, 2.5), which lies in the pixel of (3, 3): a pixel has its lower left corner
        self.assertEqual(split([((0, 0), (5, 5)), ((0, 5), (5, 0))]),
                         [((0, 0), (3, 3), 1, 0), ((0, 5), (3, 3), 1, 0), ((3, 3), (5, 0), 1, 0), ((3, 3), (5, 5), 1, 0)])

    def test_refusals(self):
        great = (1 << 31) - 1
        for given, error, part in [
            ([((0, 0), (0, 0))], ValueError, "segment 0: both ends are (0, 0)"),
            ([((0, 0), (1, 1)), ((0, 0), (1, 1), 0, 0)], ValueError, "segment 1: both counts are 0"),
            ([((0, 0), (1, 1), great + 1, 0)], ValueError, "segment 0, subject: 2147483648 is outside of -2147483647 to 2147483647"),
            ([((0, 0), (1, 1), 0.5, 0)], TypeError, "segment 0, subject: 0.5 is no whole number"),
            ([((0, 0), (1, 1 << 30))], ValueError, "segment 0, second end: y: 1073741824 is outside"),
            ([((0, 0, 0), (1, 1))], ValueError, "segment 0, first end: (0, 0, 0) has 3 numbers, not two"),
            ([((0, 0),)], ValueError, "segment 0: ((0, 0),) has 1 parts"),
            ([7], TypeError, "segment 0: 7 is no segment of two ends"),
            ([((0, 0), (1, 1), great, 0), ((0, 0), (1, 1))], fadrinzo.OverlayError, "2147483647"),
        ]:
            with self.assertRaises(error) as caught:
                split(given)
            self.assertIn(part, str(caught.exception))
        with self.assertRaises(ValueError) as caught:
            split([], rounding="onion")
        self.assertIn("'onion' is no rounding: one of hot-pixels, pairwise", str(caught.exception))


if __name__ == "__main__":
    unittest.main()
