"""Tests of overlays by tiles: how results wind, by whole arithmetic of their own."""
import doctest
import random
import unittest

import fadrinzo
from fadrinzo import tiles

SQUARE = [(0, 0), (12, 0), (12, 12), (0, 12)]


def load_tests(loader, tests, pattern):
    tests.addTests(doctest.DocTestSuite(tiles))
    return tests


def winding(contours, x, y):
    """How often contours winds around the middle of the unit square at a point."""
    sum_of = 0
    for contour in contours:
        for (ax, ay), (bx, by) in zip(contour, contour[1:] + contour[:1]):
            if (2 * ax <= 2 * x + 1) != (2 * bx <= 2 * x + 1):
                side = (bx - ax) * (2 * y + 1 - 2 * ay) - (by - ay) * (2 * x + 1 - 2 * ax)
                sum_of += (side > 0) * (bx > ax) - (side < 0) * (bx < ax)
    return sum_of


def rectangles(numbers):
    for _ in range(numbers.randint(1, 5)):
        (x, y), (width, height) = ((numbers.randint(-9, 9) for _ in "xy"), (numbers.randint(1, 12) for _ in "xy"))
        yield [(x, y), (x + width, y), (x + width, y + height), (x, y + height)][::numbers.choice((1, -1))]


class Tiles(unittest.TestCase):
    def test_rectangles(self):
        """All edges run along the axes, so each unit square is inside or outside as a whole."""
        numbers = random.Random(89)
        for case in range(30):
            subject, clip, count = list(rectangles(numbers)), list(rectangles(numbers)), numbers.randint(1, 9)
            if case % 2:
                found = tiles.overlay_tiled(subject, clip, "difference", "nonzero", count, 2)
            else:
                made = tiles.tiles_around(subject + clip, count)
                found = tiles.join_tiles([tiles.overlay_tile(tiles.clip_to_tile(subject, it), tiles.clip_to_tile(clip, it), "difference", it) for it in made])
            rings = [ring for boundary, holes in found for ring in [boundary, *holes]]
            for x in range(-11, 23):
                for y in range(-11, 23):
                    wanted = bool(winding(subject, x, y)) and not winding(clip, x, y)
                    self.assertEqual(winding(rings, x, y), wanted, (case, subject, clip, x, y))

    def test_parts_are_joined_in_any_order(self):
        numbers = random.Random(7)
        given = [[(numbers.randint(0, 400), numbers.randint(0, 400)) for _ in range(5)] for _ in range(60)]
        made = tiles.tiles_around(given, 8)
        self.assertEqual(len(made), 8)
        parts = [tiles.overlay_tile(given, [], "subject", tile, "evenodd") for tile in made]
        whole = tiles.join_tiles(parts)
        halves = [tiles.join_tiles(parts[::2]), tiles.join_tiles(parts[1::2])]
        self.assertEqual(sorted(map(str, tiles.join_tiles(halves))), sorted(map(str, whole)))

    def test_refusals(self):
        for tile in [(0, 0, 0, 4), (0, 0, 4, 0), (4, 0, 0, 4)]:
            with self.assertRaisesRegex(ValueError, "not wider and higher"):
                tiles.overlay_tile([SQUARE], [], "union", tile)
        with self.assertRaisesRegex(ValueError, "the tile, point 1: x: 1073741824"):
            tiles.clip_to_tile([SQUARE], (0, 0, fadrinzo.MAX_COORD + 1, 4))
        with self.assertRaisesRegex(ValueError, "contour 1 of the clip, point 0: y"):
            tiles.overlay_tiled([], [SQUARE, [(0, 1 << 31), (1, 1), (2, 0)]], "union")
        self.assertEqual(tiles.overlay_tiled([[(0, 0), (0, 9), (0, 4)]], [[]], "union"), [])


if __name__ == "__main__":
    unittest.main()
