"""Tests of overlays of WKT."""
import doctest
import os
import pathlib
import subprocess
import sys
import tempfile
import unittest
import warnings

from fadrinzo import wkt
from fadrinzo.wkt import WktError, overlay_wkt, polygons_of

HERE = pathlib.Path(__file__).resolve()
TOWN = HERE.parents[2] / "rust/examples/footprints"


def area_of(text):
    """The area of a MULTIPOLYGON, by its rings as they run."""
    rings = [[(float(x), float(y)) for x, y in ring] for polygon in polygons_of([text]) for ring in polygon]
    return sum(a[0] * b[1] - a[1] * b[0] for ring in rings for a, b in zip(ring, ring[1:])) / 2


def run(*words, given=""):
    """Runs the command line."""
    environment = {**os.environ, "PYTHONPATH": str(HERE.parents[1])}
    return subprocess.run([sys.executable, "-B", "-m", "fadrinzo", *words], input=given, capture_output=True, text=True, env=environment, check=False)


class Overlays(unittest.TestCase):
    def test_rings_in_any_direction(self):
        outer = ["0 0, 9 0, 9 9, 0 9, 0 0", "0 0, 0 9, 9 9, 9 0, 0 0"]
        inner = ["3 3, 6 3, 6 6, 3 6, 3 3", "3 3, 3 6, 6 6, 6 3, 3 3"]
        texts = {overlay_wkt([f"POLYGON (({a}), ({b}))"], [], "subject") for a in outer for b in inner}
        self.assertEqual(texts, {"MULTIPOLYGON (((0 9, 0 0, 9 0, 9 9, 0 9), (3 3, 3 6, 6 6, 6 3, 3 3)))"})

    def test_decimals_far_from_zero(self):
        square = "POLYGON ((691449.864 5334194.975, 691450.864 5334194.975, 691450.864 5334195.975, 691449.864 5334195.975))"
        text = overlay_wkt([square], [], "subject")
        self.assertEqual(polygons_of([text])[0][0][:4], polygons_of([square])[0][0][3:] + polygons_of([square])[0][0][:3])

    def test_result_is_read_again(self):
        subject, clip = "POLYGON ((0 0, 10 0.5, 9 8, 0 0))", "MULTIPOLYGON (((1 -1, 7 3, 2 9)), ((8 0, 9 0, 9 9)))"
        once = overlay_wkt([subject], [clip], "xor")
        self.assertEqual(overlay_wkt([once], [], "subject"), once)

    def test_nothing(self):
        self.assertEqual(overlay_wkt([], [], "union"), "MULTIPOLYGON EMPTY")
        self.assertEqual(overlay_wkt(["POLYGON EMPTY", "", "MULTIPOLYGON EMPTY"], [], "union"), "MULTIPOLYGON EMPTY")

    def test_areas_of_a_town_add_up(self):
        read = lambda name: (TOWN / name).read_text(encoding="utf-8").splitlines()
        buildings, tile = read("buildings.wkt"), read("tile.wkt")
        area = {rule: area_of(overlay_wkt(buildings, tile, rule)) for rule in ("union", "intersect", "difference", "subject")}
        self.assertAlmostEqual(area["union"] + area["intersect"], area["subject"] + 1_000_000, places=1)
        self.assertAlmostEqual(area["difference"] + area["intersect"], area["subject"], places=1)


class Faults(unittest.TestCase):
    def fails(self, line, text):
        with self.assertRaises(WktError) as caught:
            polygons_of(["POLYGON EMPTY", line])
        self.assertIn(text, str(caught.exception))

    def test_faults_are_named(self):
        self.fails("POINT (0 0)", "line 2, column 1: 'POINT' is where POLYGON or MULTIPOLYGON has to be")
        self.fails("POLYGON ((0 0, 1 x, 1 1))", "line 2, column 18: 'x' is where a number has to be")
        self.fails("POLYGON ((0 0, 1 nan, 1 1))", "column 18: 'nan' is where a finite number has to be")
        self.fails("POLYGON ((0 0, 1 0 1 1))", "column 20: '1' is where `,` or `)` has to be")
        self.fails("POLYGON ((0 0, 1 0, 1 1)", "line 2: it ends where `,` or `)` has to be")
        self.fails("POLYGON ((0 0, 1 0, 1 1)) POLYGON", "column 27: 'POLYGON' is where the end has to be")
        self.fails("POLYGON ((0 0, 1 0, 1 1)) x", "column 27: 'x' is where the end has to be")
        self.fails("MULTIPOLYGON (((0 0, 1 0, 1 1)), EMPT)", "column 34: 'EMPT' is where `(` has to be")
        self.fails("POLYGON (EMPTY)", "column 10: 'EMPTY' is where `(` has to be")

    def test_digits_are_those_of_ascii(self):
        for word in ("1_0", "\u0661", "\uff11", "0x1", "1e", "1.", ".", "+", "--1", "1e5.0", "1\u00b2"):
            if word == "1.":
                self.assertEqual(polygons_of([f"POLYGON (({word} 0))"]), polygons_of(["POLYGON ((1 0))"]))
            else:
                self.fails(f"POLYGON (({word} 0, 1 1))", f"line 2, column 11: {word!r} is where a number has to be")

    def test_powers_of_ten(self):
        for word in ("1e99999", "-1e999999", "1e999999999", "1e-99999", "1e99999999999999999999", "1e331", "1e-331"):
            with self.assertRaises(WktError) as caught:
                overlay_wkt([f"POLYGON ((0 0, {word} 0, 1 1, 0 0))"], [], "union")
            self.assertIn(f"line 1, column 16: {word.upper()!r} is not between".upper(), str(caught.exception).upper())
        text = overlay_wkt(["POLYGON ((0 0, 1e300 0, 1e300 1e300, 0 0e999999))"], [], "union")
        self.assertIn("1" + "0" * 300, text)

    def test_more_coordinates(self):
        for line in ("POLYGON Z ((0 0 0))", "MULTIPOLYGON ZM (((0 0 0 0)))", "polygon m ((0 0 0))", "POLYGON Z EMPTY", "POLYGONZ ((0 0 0))", "MultiPolygonM EMPTY"):
            self.fails(line, "says that points have more than two coordinates: only x and y are read")
        self.fails("POLYGON ((0 0 0, 1 1 0))", "column 15: '0' is where `,` or `)` has to be")


class Forms(unittest.TestCase):
    def test_keywords_in_any_case(self):
        for line in ("polygon ((0 0, 4 0, 4 4, 0 4, 0 0))", "MultiPolygon (((0 0, 4 0, 4 4, 0 4, 0 0)), empty)", "MULTIPOLYGON (EMPTY, ((0 0, 4 0, 4 4, 0 4)), Empty)"):
            self.assertEqual(overlay_wkt([line], [], "union"), "MULTIPOLYGON (((0 4, 0 0, 4 0, 4 4, 0 4)))")
        for line in ("polygon empty", "Multipolygon Empty", "MULTIPOLYGON (EMPTY)", "MULTIPOLYGON (EMPTY, empty)"):
            self.assertEqual(polygons_of([line]), [])

    def test_unclosed_and_short_rings(self):
        closed = overlay_wkt(["POLYGON ((0 0, 6 0, 6 6, 0 6, 0 0), (1 1, 2 1, 2 2, 1 1))"], [], "union")
        self.assertEqual(overlay_wkt(["POLYGON ((0 0, 6 0, 6 6, 0 6), (1 1, 2 1, 2 2))"], [], "union"), closed)
        for ring in ("1 1", "1 1, 1 1", "0 0, 6 0", "0 0, 6 0, 0 0"):
            self.assertEqual(overlay_wkt([f"POLYGON (({ring}))"], [], "union"), "MULTIPOLYGON EMPTY")
            self.assertEqual(overlay_wkt(["POLYGON ((0 0, 6 0, 6 6, 0 6), (1 1, 2 1, 2 2))", f"POLYGON (({ring}))"], [], "union").count("("), 4)

    def test_small_figures_stay(self):
        for line in ("POLYGON ((1e-10 0, 2e-10 0, 2e-10 1e-10, 1e-10 0))", "POLYGON ((0.25 0.25, 0.2500000001 0.25, 0.25 0.2500000001, 0.25 0.25))",
                     "POLYGON ((1e-300 0, 2e-300 0, 2e-300 1e-300, 1e-300 0))", "POLYGON ((7e20 0, 7e20 1, 700000000000000000001 0, 7e20 0))"):
            with warnings.catch_warnings():
                warnings.simplefilter("error")
                (polygon,) = polygons_of([overlay_wkt([line], [], "union")])
            self.assertEqual({*polygon[0]}, {*polygons_of([line])[0][0]})

    def test_figures_that_vanish_are_named(self):
        far = "POLYGON ((0 0, 1e300 0, 0 1e300, 0 0))"
        with self.assertWarnsRegex(wkt.WktWarning, r"the polygon at 5 5 vanishes: .* a unit is 1e\+?2[0-9]+"):
            overlay_wkt([far, "POLYGON ((5 5, 6 5, 6 6, 5 5))"], [], "union")
        done = run("union", "-", given=f"{far}\nPOLYGON ((5 5, 6 5, 6 6, 5 5))\n")
        self.assertEqual(done.returncode, 0)
        self.assertIn("the polygon at 5 5 vanishes", done.stderr)


class CommandLine(unittest.TestCase):
    def test_files(self):
        with tempfile.TemporaryDirectory() as folder:
            clip = pathlib.Path(folder, "clip.wkt")
            clip.write_text("POLYGON ((2 2, 4 2, 4 4, 2 4, 2 2))\n", encoding="utf-8")
            done = run("difference", "-", str(clip), given="POLYGON ((0 0, 6 0, 6 6, 0 6, 0 0))\n")
        self.assertEqual((done.returncode, done.stderr), (0, ""))
        self.assertEqual(done.stdout, "MULTIPOLYGON (((0 6, 0 0, 6 0, 6 6, 0 6), (2 2, 2 4, 4 4, 4 2, 2 2)))\n")

    def test_faults(self):
        done = run("union", "-", given="POLYGON ((0 0, 6 0, 6 6\n")
        self.assertEqual((done.returncode, done.stdout), (1, ""))
        self.assertIn("-, line 1: it ends where", done.stderr)
        self.assertIn("No such file", run("union", "nowhere.wkt").stderr)
        self.assertEqual(run("unite", "-").returncode, 2)


def load_tests(loader, tests, pattern):
    tests.addTests(doctest.DocTestSuite(wkt))
    return tests


if __name__ == "__main__":
    unittest.main()
