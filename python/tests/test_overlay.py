"""Tests of the package: `PYTHONPATH=python python3 -m unittest discover -s python/tests`."""
import copy
import doctest
import itertools
import math
import pickle
import threading
import unittest

import fadrinzo
from fadrinzo import overlay, overlay_polygons


def square(low, high):
    return [(low, low), (high, low), (high, high), (low, high)]


def doubled_area(contour):
    return sum(a[0] * b[1] - a[1] * b[0] for a, b in zip(contour, contour[1:] + contour[:1]))


class Overlays(unittest.TestCase):
    def test_shapes_with_holes(self):
        (boundary, holes), = overlay([square(0, 8)], [square(2, 6)], "difference")
        self.assertEqual(doubled_area(boundary), 128)
        self.assertEqual([doubled_area(hole) for hole in holes], [-32])

    def test_closed_rings(self):
        ring = square(0, 4)
        self.assertEqual(overlay([ring + ring[:1]], [], "subject"), overlay([ring], [], "subject"))

    def test_areas_add_up(self):
        subject, clip = [[(0, 0), (1000, 10), (900, 800)]], [[(100, -50), (700, 300), (200, 900)]]
        area = {rule: sum(doubled_area(it) for shape in overlay(subject, clip, rule) for it in [shape[0], *shape[1]])
                for rule in fadrinzo.RULES}
        self.assertEqual(area["union"] + area["intersect"], area["subject"] + area["clip"])
        self.assertEqual(area["xor"], area["union"] - area["intersect"])

    def test_several_rules(self):
        subject, clip = [square(0, 9), square(20, 22)], [square(3, 6), square(8, 12)]
        found = fadrinzo.overlay_by_rules(subject, clip, fadrinzo.RULES, fill="evenodd")
        for rule, contours in zip(fadrinzo.RULES, found):
            alone = sum(doubled_area(it) for shape in overlay(subject, clip, rule, fill="evenodd") for it in [shape[0], *shape[1]])
            self.assertEqual(sum(map(doubled_area, contours)), alone)
        self.assertEqual(fadrinzo.overlay_by_rules(subject, clip, []), [])

    def test_arrangement(self):
        subject, clip = [square(0, 9), square(20, 22)], [square(3, 6), square(8, 12)]
        arrangement = fadrinzo.Arrangement(subject, clip, fill="evenodd")
        for rule in fadrinzo.RULES:
            self.assertEqual(arrangement.overlay(rule), overlay(subject, clip, rule, fill="evenodd"))
            self.assertEqual([arrangement.contours(rule)], fadrinzo.overlay_by_rules(subject, clip, [rule], fill="evenodd"))
        with self.assertRaises(ValueError):
            arrangement.overlay("onion")

    def test_without_collinear(self):
        beside = [(x + 8, y) for x, y in square(0, 8)]
        terraced = fadrinzo.Arrangement([square(0, 8)], [beside], scale=2)
        (boundary, _), = terraced.overlay("union", collinear=False)
        self.assertEqual(sorted(boundary), [(0, 0), (0, 8), (16, 0), (16, 8)])
        self.assertEqual(len(terraced.contours("union")[0]), 6)

    def test_where_a_point_lies(self):
        ring = [square(0, 8), square(2, 6)[::-1]]
        found = [fadrinzo.locate(ring, (x, 4)) for x in range(-1, 5)]
        self.assertEqual(found, ["outside", "boundary", "inside", "boundary", "outside", "outside"])
        self.assertEqual(fadrinzo.locate([square(0, 1)], (0.25, 0.5), scale=100), "inside")

    def test_floats(self):
        (boundary, holes), = overlay([[(0.0, 0.0), (0.5, 0.0), (0.5, 0.25)]], [], "subject", scale=1000)
        self.assertEqual(sorted(boundary), [(0.0, 0.0), (0.5, 0.0), (0.5, 0.25)])
        self.assertEqual(holes, [])

    def test_nothing(self):
        self.assertEqual(overlay([], [], "union"), [])
        self.assertEqual(overlay([[]], [square(0, 1)], "intersect"), [])

    def test_example(self):
        failed, tried = doctest.testmod(fadrinzo)
        self.assertEqual((failed, tried > 0), (0, True))


class Geometry:
    """A geometry of another library."""

    def __init__(self, kind, **members):
        self.__geo_interface__ = {"type": kind, **members}


class Polygons(unittest.TestCase):
    def test_rings_are_turned(self):
        for outer, hole in itertools.product(*([ring, ring[::-1], ring + ring[:1]] for ring in (square(0, 9), square(3, 6)))):
            for polygon in ([outer, hole], (outer, [hole]), Geometry("Polygon", coordinates=(outer, hole))):
                (boundary, holes), = overlay_polygons([polygon], [], "subject")
                self.assertEqual((doubled_area(boundary), [doubled_area(it) for it in holes]), (162, [-18]))
        apart = [square(0, 4), square(2, 6)[::-1]]
        (boundary, holes), = overlay_polygons([[ring] for ring in apart], [], "union")
        self.assertEqual((doubled_area(boundary), holes), (2 * 28, []))

    def test_results_are_taken(self):
        ring = overlay([square(0, 9)], [square(3, 6)], "difference")
        inner = overlay([square(0, 9)], [square(3, 6)], "intersect")
        self.assertEqual(overlay_polygons(ring, inner, "union"), overlay([square(0, 9)], [], "subject"))
        self.assertEqual(overlay_polygons(ring, inner, "intersect"), [])

    def test_geometries(self):
        rings = ((square(0, 9), square(3, 6)), (square(20, 22),))
        one = {"type": "Polygon", "coordinates": rings[0]}
        two = Geometry("MultiPolygon", coordinates=rings)
        nothing = {"type": "Feature", "geometry": None}
        collections = [two, {"type": "Feature", "geometry": two.__geo_interface__},
                       {"type": "FeatureCollection", "features": [nothing, {"type": "Feature", "geometry": two}]},
                       {"type": "GeometryCollection", "geometries": [two]}, [one, [square(20, 22)]],
                       [Geometry("Feature", geometry=one), ([*square(20, 22)], [])]]
        wanted = overlay_polygons([list(it) for it in rings], [], "subject")
        self.assertEqual([len(holes) for _, holes in wanted], [1, 0])
        for given in collections:
            self.assertEqual(overlay_polygons(given, [], "subject"), wanted)
            self.assertEqual(overlay_polygons([], given, "clip"), wanted)
        triangle = [(0.0, 0.0), (0.5, 0.0), (0.5, 0.25)]
        self.assertEqual(overlay_polygons([[triangle]], [], "union", scale=8), [(triangle, [])])

    def test_mistakes(self):
        for error, text, given in [
                (TypeError, "the subject: 5 is no list of polygons", 5),
                (TypeError, "polygon 1 of the subject: 5 is no pair of a boundary and its holes, and no list of rings", [[], 5]),
                (TypeError, "polygon 0 of the subject: a geometry of type 'LineString' has no polygons",
                 [Geometry("LineString", coordinates=[])]),
                (TypeError, "the subject, member 1: a geometry of type 'Point' has no polygons",
                 {"type": "GeometryCollection", "geometries": [{"type": "MultiPolygon", "coordinates": []}, {"type": "Point"}]}),
                (ValueError, "the subject, member 0, ring 1, point 2: (1, 2, 3) has 3 numbers, not two",
                 Geometry("MultiPolygon", coordinates=[[square(0, 9), [(3, 3), (4, 4), (1, 2, 3)]]])),
                (ValueError, "polygon 0 of the subject, ring 0, point 1: x: 4294967296", [[[(0, 0), (1 << 32, 0), (0, 1)]]])]:
            with self.assertRaises(error) as caught:
                overlay_polygons(given, [], "union")
            self.assertIn(text, str(caught.exception))


class Mistakes(unittest.TestCase):
    def fails(self, error, text, *arguments, **named):
        with self.assertRaises(error) as caught:
            overlay(*arguments, **named)
        self.assertIn(text, str(caught.exception))

    def test_numbers_that_would_be_cut(self):
        self.fails(ValueError, "contour 0 of the subject, point 1: x: 4294967296", [[(0, 0), (1 << 32, 0), (0, 1)]], [], "union")
        self.fails(ValueError, "outside of -1073741824 to 1073741823", [], [[(0, 1 << 30)]], "union")

    def test_decimals(self):
        self.fails(TypeError, "point 0: y: 0.5 is no whole number; give a scale", [[(0, 0.5)]], [], "union")

    def test_no_numbers(self):
        for value in (math.nan, math.inf):
            self.fails(ValueError, "is no finite number", [[(value, 0)]], [], "union", scale=10)
        self.fails(ValueError, "has 3 numbers, not two", [[(1, 2, 3)]], [], "union")

    def test_names(self):
        self.fails(ValueError, "'intersection' is no rule: one of subject, clip, intersect", [], [], "intersection")
        self.fails(ValueError, "'even-odd' is no fill: one of evenodd", [], [], "union", fill="even-odd")


    def test_scales(self):
        contours = [square(0, 8)]
        for scale in (0, -1000, math.nan, math.inf, -0.0):
            self.fails(ValueError, f"the scale {scale!r} is no finite number above 0", contours, [], "union", scale=scale)
        for scale in ("1000", True, [1], 1j):
            self.fails(ValueError if scale == 1j else TypeError, f"the scale {scale!r} is no", contours, [], "union", scale=scale)
        for call in (lambda: fadrinzo.locate(contours, (0, 0), scale=0), lambda: fadrinzo.Arrangement(contours, [], scale=0)):
            self.assertRaisesRegex(ValueError, "the scale 0 is no finite number above 0", call)

    def test_arrangements_are_not_copied(self):
        arrangement = fadrinzo.Arrangement([square(0, 8)], [])
        for call in (copy.copy, copy.deepcopy, pickle.dumps):
            self.assertRaisesRegex(TypeError, "cannot be copied or pickled", call, arrangement)
        self.assertEqual(len(arrangement.overlay("union")), 1)


class Threads(unittest.TestCase):
    def test_one_arrangement(self):
        squares = [square(3 * index, 2 + index % 3) for index in range(200)]
        arrangement = fadrinzo.Arrangement(squares[::2], squares[1::2])
        calls = [lambda rule=rule: arrangement.overlay(rule) for rule in ("union", "intersect", "xor")]
        calls += [lambda: arrangement.contours("difference"), lambda: arrangement.reach]
        wanted, found = [call() for call in calls], [None] * len(calls)

        def run(index):
            found[index] = [calls[index]() for _ in range(40)]

        threads = [threading.Thread(target=run, args=(index,)) for index in range(len(calls))]
        for thread in threads:
            thread.start()
        for thread in threads:
            thread.join()
        self.assertEqual(found, [[result] * 40 for result in wanted])

    def test_threads(self):
        results = [None] * 4

        def run(index):
            results[index] = [overlay([square(0, 8)], [square(index, 6)], "xor") for _ in range(50)]

        threads = [threading.Thread(target=run, args=(index,)) for index in range(4)]
        for thread in threads:
            thread.start()
        for thread in threads:
            thread.join()
        for index, found in enumerate(results):
            self.assertEqual(found, [overlay([square(0, 8)], [square(index, 6)], "xor")] * 50)


if __name__ == "__main__":
    unittest.main()
