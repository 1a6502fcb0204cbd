//! Inputs that are hard on an overlay: few nearly parallel edges, which passes over pairs turn into
//! very many points, and inputs on which other libraries fail. The overlay is small, valid, and
//! near what it is given.

mod validity;

use fadrinzo::{FillRule, IntContour, IntPoint, Overlay, OverlayRule, Rounding, Solver};
use std::collections::BTreeSet;
use validity::wrongs;

/// The contours of each input, a line each: `S` or `C`, and the coordinates of its points.
const INPUTS: [(&str, &str); 13] = [
    ("four edges", include_str!("inputs/four_edges.txt")),
    ("six edges", include_str!("inputs/six_edges.txt")),
    ("twenty edges", include_str!("inputs/twenty_edges.txt")),
    ("forty edges", include_str!("inputs/forty_edges.txt")),
    ("seven contours", include_str!("inputs/seven_contours.txt")),
    ("three triangles", include_str!("inputs/three_triangles.txt")),
    ("24 triangles", include_str!("inputs/twenty_four_triangles.txt")),
    ("copies of a shape", include_str!("inputs/copies_of_a_shape.txt")),
    ("an area that Boost.Geometry has wrong", include_str!("inputs/boost_geometry_wrong_area.txt")),
    ("a star on which Clipper fails", include_str!("inputs/clipper_fails.txt")),
    ("a topology exception of GEOS", include_str!("inputs/geos_topology_exception.txt")),
    ("an assertion of GEOS", include_str!("inputs/geos_assertion.txt")),
    ("an area that GEOS has wrong", include_str!("inputs/geos_wrong_area.txt")),
];

const RULES: [OverlayRule; 4] = [OverlayRule::Union, OverlayRule::Intersect, OverlayRule::Difference, OverlayRule::Xor];

/// The contours of a subject and of a clip.
fn contours(text: &str) -> [Vec<IntContour>; 2] {
    let mut sides = [Vec::new(), Vec::new()];
    for line in text.lines().filter(|line| !line.is_empty()) {
        let (letter, numbers) = line.split_at(1);
        let numbers: Vec<i32> = numbers.split_whitespace().map(|number| number.parse().unwrap()).collect();
        let points = numbers.chunks(2).map(|pair| IntPoint::new(pair[0], pair[1])).collect();
        sides[usize::from(letter == "C")].push(points);
    }
    sides
}

/// The edges of contours, each once.
fn edges(sides: &[Vec<IntContour>; 2]) -> Vec<[IntPoint; 2]> {
    let steps = sides.iter().flatten().flat_map(|points| points.iter().zip(points.iter().cycle().skip(1)));
    let edges: BTreeSet<[IntPoint; 2]> =
        steps.filter(|(p, q)| p != q).map(|(&p, &q)| if p < q { [p, q] } else { [q, p] }).collect();
    edges.into_iter().collect()
}

/// On which side of the line through two points a third one lies.
fn side(a: IntPoint, b: IntPoint, p: IntPoint) -> i128 {
    let [ax, ay, bx, by, px, py] = [a.x, a.y, b.x, b.y, p.x, p.y].map(i128::from);
    ((bx - ax) * (py - ay) - (by - ay) * (px - ax)).signum()
}

/// How many pairs of edges meet in one point or more.
fn meeting_pairs(edges: &[[IntPoint; 2]]) -> usize {
    let meet = |[a, b]: [IntPoint; 2], [c, d]: [IntPoint; 2]| {
        side(a, b, c) * side(a, b, d) <= 0 && side(c, d, a) * side(c, d, b) <= 0
    };
    (1..edges.len()).map(|k| edges[..k].iter().filter(|&&edge| meet(edge, edges[k])).count()).sum()
}

/// Of n edges and K pairs that meet at most 3 (2 n + K) - 6 edges are left, as of any planar graph over as many points; and
/// each rule keeps some of them.
#[test]
fn few_edges_leave_few_points() {
    for (name, text) in INPUTS {
        let sides = contours(text);
        let edges = edges(&sides);
        let most = 3 * (2 * edges.len() + meeting_pairs(&edges)) - 6;
        let mut overlay = Overlay::with_contours(&sides[0], &sides[1]).unwrap();
        for rule in RULES {
            let contours = overlay.overlay(rule, FillRule::NonZero).unwrap();
            let points: usize = contours.iter().map(Vec::len).sum();
            assert!(points <= most, "{name}, {rule:?}: {points} points, of {most}");
            assert_eq!(overlay.passes(), 1, "{name}");
            assert!(overlay.reach() <= 1, "{name}");
            for solver in [Solver::LIST, Solver::TREE, Solver::FRAG] {
                assert_eq!(overlay.overlay_with_solver(rule, FillRule::NonZero, solver).unwrap(), contours, "{name}");
            }
            let shapes = overlay.overlay_shapes(rule, FillRule::NonZero).unwrap();
            assert_eq!(wrongs(&shapes, &contours), BTreeSet::new(), "{name}, {rule:?}");
        }
    }
}

/// Passes over pairs make thousands of points of four edges.
#[test]
fn passes_over_pairs_leave_many() {
    let sides = contours(INPUTS[0].1);
    let mut overlay = Overlay::with_contours(&sides[0], &sides[1]).unwrap().with_rounding(Rounding::Pairwise);
    let contours = overlay.overlay(OverlayRule::Xor, FillRule::EvenOdd).unwrap();
    assert!(contours.iter().map(Vec::len).sum::<usize>() > 1_000);
    assert!(overlay.passes() > 10);
}
