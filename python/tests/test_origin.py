"""Coordinates far from zero: an origin is subtracted before they are scaled, and added to results."""
import decimal
import fractions
import random
import unittest

from fadrinzo import (Arrangement, MAX_COORD, clip_lines, covers, locate, overlay, overlay_by_rules, overlay_polygons, relate, relate_pattern,
                      related_pairs)

EAST, NORTH = 690000, 5334000


def square(low, high):
    return [(low, low), (high, low), (high, high), (low, high)]


def moved_ring(ring, x, y):
    """A ring, moved."""
    return [(px + x, py + y) for px, py in ring]


def moved(shapes, x, y):
    """Shapes, moved."""
    return [(moved_ring(outer, x, y), [moved_ring(hole, x, y) for hole in holes]) for outer, holes in shapes]


class TestOrigin(unittest.TestCase):
    def test_meters_of_a_map_keep_their_millimeters(self):
        plot = [(690000.125, 5334194.975), (690010.5, 5334194.975), (690010.5, 5334200.001), (690000.125, 5334200.001)]
        with self.assertRaisesRegex(ValueError, "contour 0 of the subject, point 0: y: 5334194.975 times 1000 is outside of"):
            overlay([plot], [], "subject", scale=1000)
        [(outer, holes)] = overlay([plot], [], "subject", scale=1000, origin=(EAST, NORTH))
        self.assertEqual((sorted(outer), holes), (sorted(plot), []))
        exact = [(decimal.Decimal(str(x)), decimal.Decimal(str(y))) for x, y in plot]
        [(outer, _)] = overlay([exact], [], "subject", scale=decimal.Decimal(1000), origin=(EAST, NORTH))
        self.assertEqual(sorted(outer), sorted(exact))

    def test_each_call_is_that_of_moved_contours(self):
        draw = random.Random(5)
        for _ in range(200):
            rings = [[(draw.randrange(9), draw.randrange(9)) for _ in range(4)] for _ in range(3)]
            far = [[(x + EAST, y + NORTH) for x, y in ring] for ring in rings]
            origin = (EAST, NORTH)
            near, there = (rings[:1], rings[1:2]), (far[:1], far[1:2])
            self.assertEqual(overlay(*there, "xor", origin=origin), moved(overlay(*near, "xor"), *origin))
            self.assertEqual(overlay_polygons([there[0]], [there[1]], "xor", origin=origin),
                             moved(overlay_polygons([near[0]], [near[1]], "xor"), *origin))
            rules = ["union", "intersect"]
            self.assertEqual(overlay_by_rules(*there, rules, origin=origin),
                             [[[(x + EAST, y + NORTH) for x, y in ring] for ring in found] for found in overlay_by_rules(*near, rules)])
            arrangement = Arrangement(*there, origin=origin)
            self.assertEqual(arrangement.overlay("union"), moved(Arrangement(*near).overlay("union"), *origin))
            self.assertEqual(locate(far, far[0][0], origin=origin), locate(rings, rings[0][0]))
            self.assertEqual(clip_lines(far[:2], far[2:], origin=origin),
                             [(line, [(x + EAST, y + NORTH) for x, y in part]) for line, part in clip_lines(rings[:2], rings[2:])])

    def test_relations_do_not_change(self):
        one, other = square(0, 4), square(1, 3)
        far_one, far_other = [[(x + EAST, y + NORTH) for x, y in ring] for ring in (one, other)]
        origin = (EAST, NORTH)
        self.assertTrue(covers([far_one], [far_other], origin=origin))
        self.assertEqual(relate([far_one], [far_other], origin=origin), relate([one], [other]))
        self.assertTrue(relate_pattern([far_one], [far_other], "TTTFFTFFT", origin=origin))
        self.assertEqual(related_pairs([[far_one]], [[far_other]], "covers", origin=origin), [(0, 0)])

    def test_whole_numbers_of_any_size_fit_beside_an_origin(self):
        far = 10**18
        found = overlay([[(far, 0), (far + 4, 0), (far + 4, 4)]], [], "subject", origin=(far, 0))
        self.assertEqual(found, [([(far, 0), (far + 4, 0), (far + 4, 4)], [])])
        with self.assertRaisesRegex(ValueError, rf"point 1: x: {far + MAX_COORD + 1} less the origin \({far}, 0\) is outside of"):
            overlay([[(far, 0), (far + MAX_COORD + 1, 0), (far, 4)]], [], "subject", origin=(far, 0))

    def test_an_origin_of_no_use_is_named(self):
        given = ([square(0, 4)], [], "subject")
        for origin, scale, error, said in [
                ((0.5, 0), None, TypeError, "the origin: x: 0.5 is no whole number; give a scale for others"),
                ((0, "1"), 10, TypeError, "the origin: y: '1' is no number"),
                ((0, float("nan")), 10, ValueError, "the origin: y: nan is no finite number"),
                ((0, float("inf")), 10, ValueError, "the origin: y: inf is no finite number"),
                ((0, 0, 0), 10, ValueError, r"the origin: \(0, 0, 0\) has 3 numbers, not two"),
                (7, 10, TypeError, "the origin: 7 is no point of two numbers"),
                ((0.5, 0), decimal.Decimal(10), TypeError, r"point 0: x: 0 less the origin \(0.5, 0\) times the scale Decimal\('10'\) is no number")]:
            with self.assertRaisesRegex(error, said):
                overlay(*given, origin=origin, scale=scale)
        half = fractions.Fraction(1, 2)
        [(outer, _)] = overlay(*given, origin=(half, half), scale=fractions.Fraction(2))
        self.assertEqual(sorted(outer), sorted(square(0, 4)))


if __name__ == "__main__":
    unittest.main()
