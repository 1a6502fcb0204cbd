"""Tests of lines that polygons cut: by hand, and against how often contours wind beside each unit of a line."""
import doctest
import fractions
import random
import unittest

import fadrinzo
from fadrinzo import clip, clip_lines

SQUARE = [(0, 0), (10, 0), (10, 10), (0, 10)]
FILLS = {"evenodd": lambda n: n % 2 != 0, "nonzero": lambda n: n != 0, "positive": lambda n: n > 0, "negative": lambda n: n < 0}


def winding(x, y, contours):
    """How often contours along the axes wind around a place that lies on none of their sides."""
    found = 0
    for contour in contours:
        for (ax, ay), (bx, by) in zip(contour, contour[1:] + contour[:1]):
            if ax == bx and ax > x and min(ay, by) < y < max(ay, by):
                found += 1 if ay < by else -1
    return found


def sign(number):
    return (number > 0) - (number < 0)


def parts_by_units(contours, lines, invert, boundary_included, fill):
    """The parts of lines along the axes: each unit is kept by how often contours wind on its two sides, and goes on from the one before it."""
    found = []
    for line, points in enumerate(lines):
        is_open = False
        for (ax, ay), (bx, by) in zip(points, points[1:]):
            dx, dy = sign(bx - ax), sign(by - ay)
            while (ax, ay) != (bx, by):
                x, y = ax + dx / 2, ay + dy / 2
                inside = [FILLS[fill](winding(x + side * dy / 4, y + side * dx / 4, contours)) for side in (1, -1)]
                is_kept = (any(inside) if boundary_included else all(inside)) != invert
                if is_kept and not is_open:
                    found.append((line, [(ax, ay)]))
                ax, ay, is_open = ax + dx, ay + dy, is_kept
                if is_kept:
                    found[-1][1].append((ax, ay))
    return found


def with_corners_alone(points):
    """A part without the points at which it goes straight on."""
    kept = []
    for x, y in points:
        if len(kept) > 1:
            (ax, ay), (bx, by) = kept[-2:]
            if (sign(bx - ax), sign(by - ay)) == (sign(x - bx), sign(y - by)):
                kept.pop()
        kept.append((x, y))
    return kept


def walk(numbers, count, is_closed):
    """A closed or an open walk along the axes."""
    points = [(numbers.randrange(10), numbers.randrange(10))]
    for index in range(1, count):
        (x, y), value = points[-1], numbers.randrange(10)
        points.append((value, y) if index % 2 == 0 else (x, value))
    return points + [(points[0][0], points[-1][1])] if is_closed else points


class ClipsByHand(unittest.TestCase):
    def test_parts_run_along_their_line(self):
        lines = [[(20, 5), (-5, 5)], [(5, 20), (5, -20)], [(2, 2), (4, 2), (4, 2), (4, 30)], [(1, 1)], []]
        self.assertEqual(clip_lines([SQUARE], lines),
                         [(0, [(10, 5), (0, 5)]), (1, [(5, 10), (5, 0)]), (2, [(2, 2), (4, 2), (4, 10)])])
        self.assertEqual(clip_lines([SQUARE], lines, invert=True),
                         [(0, [(20, 5), (10, 5)]), (0, [(0, 5), (-5, 5)]), (1, [(5, 20), (5, 10)]), (1, [(5, 0), (5, -20)]), (2, [(4, 10), (4, 30)])])
        self.assertEqual(clip_lines([SQUARE], []), [])
        self.assertEqual(clip_lines([], lines[:1]), [])
        self.assertEqual(clip_lines([], lines[:1], invert=True), [(0, [(20, 5), (-5, 5)])])

    def test_a_part_ends_where_the_line_leaves(self):
        around = [(5, 5), (12, 5), (12, 9), (12, 5), (2, 5)]
        self.assertEqual(clip_lines([SQUARE], [around]), [(0, [(5, 5), (10, 5)]), (0, [(10, 5), (2, 5)])])
        self.assertEqual(clip_lines([SQUARE], [around], invert=True), [(0, [(10, 5), (12, 5), (12, 9), (12, 5), (10, 5)])])
        self.assertEqual(clip_lines([SQUARE], [[(5, 5), (15, 5), (5, 5)]]), [(0, [(5, 5), (10, 5)]), (0, [(10, 5), (5, 5)])])
        # within the polygons a turn is no end, and a line that is closed ends where it began
        self.assertEqual(clip_lines([SQUARE], [[(5, 5), (8, 5), (5, 5)]]), [(0, [(5, 5), (8, 5), (5, 5)])])

    def test_the_boundary(self):
        line = [[(0, 2), (0, 8), (-3, 8)]]
        self.assertEqual(clip_lines([SQUARE], line), [])
        self.assertEqual(clip_lines([SQUARE], line, boundary_included=True), [(0, [(0, 2), (0, 8)])])
        self.assertEqual(clip_lines([SQUARE], line, invert=True, boundary_included=True), [(0, [(0, 8), (-3, 8)])])
        self.assertEqual(clip_lines([SQUARE], line, True), [(0, [(0, 2), (0, 8), (-3, 8)])])

    def test_rounding_fill_and_scale(self):
        # the line meets the diagonal at (2.5, 2.5), in the pixel of (3, 3)
        triangle = [(0, 0), (5, 5), (0, 5)]
        for rounding in fadrinzo.ROUNDINGS:
            (part,) = clip_lines([triangle], [[(0, 5), (5, 0)]], boundary_included=True, rounding=rounding)
            self.assertEqual((part[0], part[1][0]), (0, (0, 5)))
            self.assertTrue(all(abs(value - 2.5) == 0.5 for value in part[1][1]), rounding)
        self.assertEqual(clip_lines([triangle], [[(0, 5), (5, 0)]]), [(0, [(0, 5), (3, 3)])])
        self.assertEqual(clip_lines([SQUARE], [[(2, 2), (3, 3)]], fill="negative"), [])
        self.assertEqual(clip_lines([SQUARE[::-1]], [[(2, 2), (3, 3)]], fill="negative"), [(0, [(2, 2), (3, 3)])])
        half = fractions.Fraction(1, 2)
        self.assertEqual(clip_lines([SQUARE], [[(9, half), (12, half)]], scale=fractions.Fraction(2)), [(0, [(9, half), (10, half)])])

    def test_few_sides_of_many(self):
        # sides far beside the lines are left out, whose winding counts all the same
        comb = [(100_000 - index, 900_000 + 100_000 * (index % 2)) for index in range(2001)] + [(98_000, -10**6), (100_001, -10**6)]
        track = [(98_100 + 9 * index, index % 3) for index in range(200)]
        self.assertEqual(clip_lines([comb[::-1]], [track]), [(0, track)])


class ClipsByUnits(unittest.TestCase):
    def test_parts_are_those_of_units(self):
        numbers, found_parts = random.Random(11), 0
        for _ in range(3000):
            contours = [walk(numbers, 3 + numbers.randrange(5), True) for _ in range(numbers.randrange(3))]
            lines = [walk(numbers, numbers.randrange(7), False) for _ in range(2)]
            rules = numbers.randrange(2) == 0, numbers.randrange(2) == 0, numbers.choice(list(FILLS))
            found = clip_lines(contours, lines, *rules)
            wanted = parts_by_units(contours, lines, *rules)
            self.assertEqual([(line, with_corners_alone(part)) for line, part in found], [(line, with_corners_alone(part)) for line, part in wanted],
                             (contours, lines, rules))
            found_parts += len(found)
        self.assertGreater(found_parts, 2000)


class Refusals(unittest.TestCase):
    def test_points_are_named(self):
        good, far = (0, 0), (0, 1 << 30)
        for contours, lines, error, part in [
            ([[good]], [[good], [good, far]], ValueError, "line 1, point 1: y: 1073741824 is outside of -1073741824 to 1073741823"),
            ([[far]], [[good]], ValueError, "contour 0 of the subject, point 0: y: 1073741824 is outside"),
            ([], [[good, (0.5, 0)]], TypeError, "line 0, point 1: x: 0.5 is no whole number"),
            ([], [[good, (1, 2, 3)]], ValueError, "line 0, point 1: (1, 2, 3) has 3 numbers, not two"),
            ([], [[good], 7], TypeError, "line 1: 7 is no list of points"),
        ]:
            with self.assertRaises(error) as caught:
                clip_lines(contours, lines)
            self.assertIn(part, str(caught.exception))
        with self.assertRaisesRegex(ValueError, "'onion' is no rounding: one of hot-pixels, pairwise"):
            clip_lines([], [], rounding="onion")
        with self.assertRaisesRegex(ValueError, "'odd' is no fill: one of evenodd, "):
            clip_lines([], [], fill="odd")


def load_tests(_, tests, __):
    tests.addTests(doctest.DocTestSuite(clip))
    return tests


if __name__ == "__main__":
    unittest.main()
