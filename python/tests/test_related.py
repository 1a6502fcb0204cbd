"""Tests of related pairs, against the relation of each pair."""
import doctest
import itertools
import random
import unittest

import fadrinzo
from fadrinzo import related

PREDICATES = {
    "share-point": lambda one, other: not fadrinzo.is_disjoint(one, other),
    "interiors-meet": fadrinzo.interiors_meet,
    "touch": fadrinzo.touches,
    "covers": lambda one, other: fadrinzo.interiors_meet(one, other) and fadrinzo.covers(one, other),
    "is-within": lambda one, other: fadrinzo.interiors_meet(one, other) and fadrinzo.is_within(one, other),
    "same-region": lambda one, other: fadrinzo.interiors_meet(one, other) and fadrinzo.same_region(one, other),
}
BOW = [[(0, 0), (1, 1), (1, 0), (0, 1)]]


def load_tests(loader, tests, pattern):
    tests.addTests(doctest.DocTestSuite(related))
    return tests


def square(low, high):
    return [(low, low), (high, low), (high, high), (low, high)]


def regions(numbers, count):
    """Squares on a grid, some of them in two parts, some without area or without contours."""
    found = []
    for _ in range(count):
        x, y, far = numbers.randrange(20), numbers.randrange(20), numbers.randrange(1, 6)
        corners = [(x, y), (x + far, y), (x + far, y + far), (x, y + far)]
        found.append(numbers.choice([[corners], [corners], [corners, square(30, 30 + far)], [corners[:3]], [corners[:2]], []]))
    return found


class RelatedPairs(unittest.TestCase):
    def test_pairs_are_those_of_all_pairs(self):
        numbers = random.Random(88)
        for first, second in [(0, 5), (5, 0), (1, 20), (20, 1), (16, 24)]:
            first, second = regions(numbers, first), regions(numbers, second)
            second += first[:3]
            for predicate, holds in PREDICATES.items():
                wanted = [(i, j) for (i, one), (j, other) in itertools.product(enumerate(first), enumerate(second)) if holds(one, other)]
                self.assertEqual(fadrinzo.related_pairs(first, second, predicate), wanted, predicate)
        self.assertTrue(wanted)

    def test_scale_and_fill(self):
        halves = [[(0.0, 0.0), (0.5, 0.0), (0.5, 0.5), (0.0, 0.5)]]
        self.assertEqual(fadrinzo.related_pairs([halves], [halves], "same-region", scale=2.0), [(0, 0)])
        self.assertEqual(fadrinzo.related_pairs([[square(0, 4)]], [[square(1, 3)]], fill="negative"), [])

    def test_faults_are_named(self):
        far = [square(50, 60)]
        with self.assertRaisesRegex(fadrinzo.NotExactError, "two edges of region 1 of the second list cross at a point without integer coordinates"):
            fadrinzo.related_pairs([[square(0, 4)]], [far, BOW], fill="evenodd")
        # a region that is near no other is not looked at
        self.assertEqual(fadrinzo.related_pairs([far], [BOW], fill="evenodd"), [])
        with self.assertRaisesRegex(TypeError, "contour 0 of region 1 of the first list, point 0: x: 0.5 is no whole number; give a scale for others"):
            fadrinzo.related_pairs([far, [[(0.5, 1)]]], [far])
        with self.assertRaisesRegex(ValueError, "'cover' is no predicate: one of share-point, "):
            fadrinzo.related_pairs([far], [far], "cover")


if __name__ == "__main__":
    unittest.main()
