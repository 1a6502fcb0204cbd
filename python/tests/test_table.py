"""One table of all rules, fills and refusals over a few inputs. What a call has to return is found from definitions: how often contours
wind around the middle of each unit square, which windings a fill counts as inside, and what a rule says of inside and outside."""
import decimal
import fractions
import itertools
import os
import pathlib
import subprocess
import sys
import unittest

import fadrinzo
from fadrinzo import Arrangement, locate, overlay, overlay_by_rules

FILLS = {
    "evenodd": lambda winds: winds % 2 != 0,
    "nonzero": lambda winds: winds != 0,
    "positive": lambda winds: winds > 0,
    "negative": lambda winds: winds < 0,
}
RELATIONS = (fadrinzo.interiors_meet, fadrinzo.covers, fadrinzo.is_within, fadrinzo.same_region, fadrinzo.touches, fadrinzo.is_disjoint)
RULES = {
    "subject": lambda s, c: s,
    "clip": lambda s, c: c,
    "intersect": lambda s, c: s and c,
    "union": lambda s, c: s or c,
    "difference": lambda s, c: s and not c,
    "inverse-difference": lambda s, c: c and not s,
    "xor": lambda s, c: s != c,
}


def rectangle(left, bottom, right, top):
    return [(left, bottom), (right, bottom), (right, top), (left, top)]


# contours that wind -1, 0, 1 and 2 times, for the subject and for the clip, and cross at whole points
SUBJECT = [rectangle(0, 0, 12, 12), rectangle(2, 2, 10, 10), rectangle(8, 6, 20, 20)[::-1]]
CLIP = [rectangle(4, 1, 18, 9), rectangle(6, 3, 15, 8), rectangle(1, 5, 14, 17)[::-1]]
MIDDLES = [(x + 0.5, y + 0.5) for x in range(-2, 22) for y in range(-2, 22)][::5]
# triangles whose edges cross at (12.5, 12.5), and points away from their edges
UPPER, RIGHT = [[(0, 0), (25, 25), (0, 25)]], [[(0, 25), (25, 0), (25, 25)]]
AWAY = [(x, y) for x, y in MIDDLES + [(12.5, 20.5), (3.5, 15.5), (22.5, 15.5), (12.5, 3.5)] if abs(x - y) > 1 and abs(x + y - 25) > 1]


def winding(contours, x, y):
    """How often contours wind around a point that lies on none of their steps."""
    steps = [step for it in contours for step in zip(it, it[1:] + it[:1])]
    turns = [((ax - x) * (by - y) - (ay - y) * (bx - x), ay <= y < by, by <= y < ay) for (ax, ay), (bx, by) in steps]
    return sum(is_up and turn > 0 for turn, is_up, _ in turns) - sum(is_down and turn < 0 for turn, _, is_down in turns)


def rings(shapes):
    return [ring for boundary, holes in shapes for ring in [boundary, *holes]]


def doubled_area(ring):
    return sum(a[0] * b[1] - a[1] * b[0] for a, b in zip(ring, ring[1:] + ring[:1]))


def goes_straight_on(ring):
    corners = zip(ring, ring[1:] + ring[:1], ring[2:] + ring[:2])
    return any((b[0] - a[0]) * (c[1] - b[1]) == (b[1] - a[1]) * (c[0] - b[0]) for a, b, c in corners)


def part(squares, x, y):
    """The part of a shape of unit squares in which a point at halves of a unit lies."""
    around = itertools.product(range((x + 1) // 2 - 1, x // 2 + 1), range((y + 1) // 2 - 1, y // 2 + 1))
    kinds = {at in squares for at in around}
    return "B" if len(kinds) == 2 else "I" if True in kinds else "E"


class Table(unittest.TestCase):
    def check(self, found, subject, clip, places, rule, fill):
        for x, y in places:
            inside = [FILLS[fill](winding(side, x, y)) for side in (subject, clip)]
            self.assertEqual(winding(found, x, y), int(RULES[rule](*inside)), (rule, fill, x, y))

    def check_shapes(self, shapes):
        for boundary, holes in shapes:
            self.assertGreater(doubled_area(boundary), 0)
            self.assertTrue(all(doubled_area(hole) < 0 for hole in holes))
            for ring in [boundary, *holes]:
                self.assertEqual(len(set(ring)), len(ring))

    def test_names(self):
        self.assertEqual(list(fadrinzo.RULES), list(RULES))
        self.assertEqual(list(fadrinzo.FILLS), list(FILLS))

    def test_rules_and_fills(self):
        for (subject, clip, places), fill in itertools.product([(SUBJECT, CLIP, MIDDLES), (UPPER, RIGHT, AWAY)], FILLS):
            arrangement = Arrangement(subject, clip, fill=fill)
            self.assertEqual(arrangement.reach, int(subject is UPPER))
            by_rules = overlay_by_rules(subject, clip, list(RULES), fill=fill)
            self.assertEqual(len(by_rules), len(RULES))
            for rule, of_rules in zip(RULES, by_rules):
                shapes = overlay(subject, clip, rule, fill=fill)
                self.check_shapes(shapes)
                arranged = [arrangement.overlay(rule), arrangement.overlay(rule, collinear=False)]
                contours = [arrangement.contours(rule), arrangement.contours(rule, collinear=False)]
                self.assertEqual(arranged[0], shapes)
                self.check_shapes(arranged[1])
                self.assertFalse(any(map(goes_straight_on, [*rings(arranged[1]), *contours[1]])))
                for found in [rings(shapes), of_rules, rings(arranged[1]), *contours]:
                    self.check(found, subject, clip, places, rule, fill)
            self.assertEqual(arrangement.reach, int(subject is UPPER))

    def test_snap_rounding(self):
        # the crossing goes to one whole point, and passes over pairs would leave more of them
        points = {point for ring in rings(overlay(UPPER, RIGHT, "xor")) for point in ring}
        self.assertEqual(points, {(0, 0), (0, 25), (25, 0), (25, 25), (13, 13)})

    def test_locations(self):
        for fill, contours in itertools.product(FILLS, [SUBJECT, CLIP]):
            doubled = [[(2 * x, 2 * y) for x, y in contour] for contour in contours]
            for x, y in MIDDLES:
                wanted = "inside" if FILLS[fill](winding(contours, x, y)) else "outside"
                self.assertEqual(locate(doubled, (int(2 * x), int(2 * y)), fill=fill), wanted)
            self.assertEqual(locate(doubled, doubled[0][2], fill=fill), "boundary")

    def test_relations(self):
        # squares in one another, and one with a corner of them: each unit square is inside or outside as a whole
        nested = [rectangle(0, 0, 6, 6), rectangle(1, 1, 5, 5)[::-1], rectangle(6, 6, 9, 9), rectangle(2, 2, 3, 3)]
        corners = [(x, y) for x in range(10) for y in range(10)]
        choices = [list(it) for count in range(3) for it in itertools.combinations(nested, count)]
        for subject, clip, (fill, counts) in itertools.product(choices, choices, FILLS.items()):
            inside = [{(x, y) for x, y in corners if counts(winding(side, x + 0.5, y + 0.5))} for side in (subject, clip)]
            s, c = inside
            share = bool(set.intersection(*({(x + dx, y + dy) for x, y in side for dx in (0, 1) for dy in (0, 1)} for side in inside)))
            wanted = (bool(s & c), c <= s, s <= c, s == c, share and not s & c, not share)
            found = tuple(call(subject, clip, fill=fill) for call in RELATIONS)
            self.assertEqual(found, wanted, (subject, clip, fill))
            # a point at halves of a unit has one, two or four unit squares around it
            parts = [[part(side, x, y) for x in range(21) for y in range(21)] for side in inside]
            met = set(zip(*parts))
            letters = "".join("FT"[pair in met] for pair in itertools.product("IBE", repeat=2))
            self.assertEqual(fadrinzo.relate(subject, clip, fill=fill), letters, (subject, clip, fill))
            self.assertTrue(fadrinzo.relate_pattern(subject, clip, letters[:4] + "*" + letters[5:], fill=fill))
            self.assertFalse(fadrinzo.relate_pattern(subject, clip, letters.translate({ord("T"): "F", ord("F"): "T"}), fill=fill))

    def test_relations_without_rounding(self):
        # less than a tenth in common, less than a tenth apart, and two that touch
        below = [[(0, 0), (10, 0), (10, 1)]]
        for clip, wanted in [([(0, 0), (11, 1), (0, 1)], True), ([(0, 0), (9, 1), (0, 1)], False), ([(0, 0), (10, 1), (0, 1)], False)]:
            self.assertEqual(fadrinzo.interiors_meet(below, [clip]), wanted)
        self.assertTrue(fadrinzo.interiors_meet(below, [[(0, 0), (10, 0.9), (0, 1)]], scale=10))

    def test_wrong_patterns(self):
        for pattern in ("", "T" * 8, "T" * 10, "T*F**FFF2", "tttffffff", None, 3):
            with self.assertRaises(ValueError) as caught:
                fadrinzo.relate_pattern(SUBJECT, CLIP, pattern)
            self.assertIn("is not nine letters of T, F and *", str(caught.exception))

    def test_shapes_that_cross_themselves_are_named(self):
        bow = [[(0, 0), (1, 1), (1, 0), (0, 1)]]
        for subject, clip, named in [(bow, SUBJECT, "subject"), (SUBJECT, bow, "clip"), (bow, bow, "subject")]:
            for call in RELATIONS:
                with self.assertRaises(fadrinzo.NotExactError) as caught:
                    call(subject, clip, fill="evenodd")
                self.assertIn(f"two edges of the {named} cross", str(caught.exception))
            alone = [rings(overlay(it, [], "subject", fill="evenodd")) for it in (subject, clip)]
            self.assertEqual(fadrinzo.same_region(*alone), alone[0] == alone[1])

    def test_coordinates_are_rounded_to_the_nearest(self):
        # times ten: 1.6, -1.6, and numbers of other types
        for value, wanted in [(0.16, 2), (-0.16, -2), (0.24, 2), (fractions.Fraction(16, 100), 2), (decimal.Decimal("-0.16"), -2)]:
            (boundary, _), = overlay([[(value, value), (value + 9, value), (value + 9, value + 9)]], [], "subject", scale=10)
            self.assertEqual(min(boundary), (wanted / 10, wanted / 10), value)
            (boundary, _), = Arrangement([[(value, value), (value + 9, value), (value + 9, value + 9)]], [], scale=10).overlay("subject")
            self.assertEqual(min(boundary), (wanted / 10, wanted / 10), value)
        self.assertEqual(locate([rectangle(0, 0, 2, 2)], (0.16, 0.19), scale=10), "inside")
        self.assertEqual(locate([rectangle(0, 0, 2, 2)], (1.96, 1), scale=10), "boundary")
        (found,), = overlay_by_rules([rectangle(0, 0, 0.16, 0.16)], [], ["subject"], scale=10)
        self.assertEqual(max(found), (0.2, 0.2))

    def test_closed_rings_and_few_points(self):
        closed = [ring + ring[:1] for ring in SUBJECT]
        for rule in RULES:
            self.assertEqual(overlay(closed, CLIP, rule), overlay(SUBJECT, CLIP, rule))
        for ring in ([], [(1, 1)], [(1, 1), (3, 3)], [(1, 1), (3, 3), (1, 1)]):
            self.assertEqual(overlay([ring], [], "union"), [])


class Refusals(unittest.TestCase):
    def calls(self, contours, scale):
        """Each call with these contours of the clip, and those of the clip as they are named."""
        return [
            lambda: overlay(SUBJECT, contours, "union", scale=scale),
            lambda: overlay_by_rules(SUBJECT, contours, ["union"], scale=scale),
            lambda: Arrangement(SUBJECT, contours, scale=scale),
        ]

    def fails(self, error, value, text, scale=None):
        for call in self.calls([rectangle(0, 0, 1, 1), [(0, 0), (1, value)]], scale):
            with self.assertRaises(error) as caught:
                call()
            self.assertIn(f"contour 1 of the clip, point 1: y: {text}", str(caught.exception))
        with self.assertRaises(error) as caught:
            locate(SUBJECT, (value, 0), scale=scale)
        self.assertIn(f"the point, point 0: x: {text}", str(caught.exception))

    def test_coordinates_without_a_scale(self):
        for value in (0.5, None, "1", True, 1j, [], decimal.Decimal(1)):
            self.fails(TypeError, value, f"{value!r} is no whole number; give a scale")
        for value in (-(1 << 30) - 1, 1 << 30, 1 << 32, -(1 << 64)):
            self.fails(ValueError, value, f"{value} is outside of -1073741824 to 1073741823")
        self.fails(ValueError, 10 ** 5000, "a number of 16610 bits is outside")
        for value in (-(1 << 30), (1 << 30) - 1):
            self.assertEqual(overlay([[(value, 0)]], [], "union"), [])

    def test_coordinates_with_a_scale(self):
        for value in (None, "1", b"1", [], (1,)):
            self.fails(TypeError, value, f"{value!r} is no number", scale=1000.0)
        self.fails(TypeError, 1j, "1j times the scale 10 is no number that can be rounded", scale=10)
        self.fails(TypeError, decimal.Decimal("0.5"), "Decimal('0.5') times the scale 0.5 is no number", scale=0.5)
        for value in (float("nan"), float("inf"), decimal.Decimal("sNaN"), decimal.Decimal("NaN"), decimal.Decimal("-Infinity")):
            self.fails(ValueError, value, f"{value!r} is no finite number", scale=10)
        self.fails(ValueError, 10 ** 400, "1000000000000", scale=1000.0)
        self.fails(ValueError, decimal.Decimal("1e999999999"), "Decimal('1E+999999999') times 1 is outside", scale=1)
        self.fails(ValueError, 107374182.4, "107374182.4 times 10 is outside of", scale=10)
        self.fails(ValueError, -107374182.5, "-107374182.5 times 10 is outside of", scale=10)
        self.assertEqual(overlay([[(107374182.3, -107374182.4)]], [], "union", scale=10), [])

    def test_points(self):
        for point, error, text in [((1, 2, 3), ValueError, "has 3 numbers, not two"), ((), ValueError, "has 0 numbers"), (7, TypeError, "7 is no point of two numbers")]:
            for call in self.calls([[(0, 0), point]], None):
                with self.assertRaises(error) as caught:
                    call()
                self.assertIn("contour 0 of the clip, point 1: ", str(caught.exception))
                self.assertIn(text, str(caught.exception))
        with self.assertRaises(TypeError) as caught:
            overlay([5], [], "union")
        self.assertIn("contour 0 of the subject: 5 is no list of points", str(caught.exception))

    def test_names(self):
        for wrong in ("", "Union", "table:3", None, 3):
            for call in (overlay, lambda *it: overlay_by_rules(*it[:2], [it[2]]), lambda *it: Arrangement(*it[:2]).contours(it[2]), lambda *it: Arrangement(*it[:2]).overlay(it[2])):
                with self.assertRaises(ValueError) as caught:
                    call(SUBJECT, CLIP, wrong)
                self.assertIn("is no rule: one of subject, clip, intersect", str(caught.exception))
        for wrong in ("", "even-odd", None, 3):
            for call in (*(lambda fill, it=it: it(SUBJECT, CLIP, "union", fill=fill) for it in (overlay,)), lambda fill: Arrangement(SUBJECT, CLIP, fill=fill),
                         lambda fill: locate(SUBJECT, (0, 0), fill=fill), lambda fill: overlay_by_rules(SUBJECT, CLIP, [], fill=fill),
                         *(lambda fill, it=it: it(SUBJECT, CLIP, fill=fill) for it in RELATIONS)):
                with self.assertRaises(ValueError) as caught:
                    call(wrong)
                self.assertIn("is no fill: one of evenodd, nonzero", str(caught.exception))


# overlays under a limit that grows from what the process has: each is right, or raises MemoryError
UNDER_A_LIMIT = """
import resource
import fadrinzo
squares = [[(3 * i, 0), (3 * i + 4, 0), (3 * i + 4, 4), (3 * i, 4)] for i in range(8000)]
wanted = fadrinzo.overlay(squares[:2], [], "union")
had = int(open("/proc/self/statm").read().split()[0]) * resource.getpagesize()
refused = right = 0
for step in range(40):
    resource.setrlimit(resource.RLIMIT_AS, (had + (step << 20), resource.RLIM_INFINITY))
    try:
        found = fadrinzo.overlay(squares, [], "union")
        ring = found[0][0]
        area = sum(a[0] * b[1] - a[1] * b[0] for a, b in zip(ring, ring[1:] + ring[:1]))
        right += len(found) == 1 and area == 2 * 4 * 24001
    except MemoryError:
        refused += 1
    finally:
        resource.setrlimit(resource.RLIMIT_AS, (resource.RLIM_INFINITY,) * 2)
    assert fadrinzo.overlay(squares[:2], [], "union") == wanted
print(refused, right)
"""


class Memory(unittest.TestCase):
    @unittest.skipUnless(sys.platform == "linux", "reads /proc")
    def test_refused_memory_is_an_error(self):
        environment = {**os.environ, "PYTHONPATH": str(pathlib.Path(__file__).resolve().parents[1])}
        done = subprocess.run([sys.executable, "-B", "-c", UNDER_A_LIMIT], capture_output=True, text=True, env=environment, check=False)
        self.assertEqual(done.returncode, 0, done.stderr)
        refused, right = map(int, done.stdout.split())
        self.assertEqual(refused + right, 40)
        self.assertGreater(refused, 0)

    def test_statuses(self):
        with self.assertRaises(MemoryError):
            fadrinzo._check(fadrinzo.NO_MEMORY)
        with self.assertRaises(fadrinzo.OverlayError):
            fadrinzo._check(2)


if __name__ == "__main__":
    unittest.main()
