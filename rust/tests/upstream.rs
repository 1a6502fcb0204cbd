//! Unit tests of `i_overlay` 9.0.1, through this package: its inputs and the values that it expects, written anew. The doc
//! of each test names the upstream module and the tests there.

use fadrinzo::{
    cross, ClipRule, CrossType, FillRule, IntPoint, LineSegment, Overlay, Precision, Rounding, Segment,
    ShapeCountBoolean, Solver,
};

const SOLVERS: [Solver; 3] = [Solver::LIST, Solver::TREE, Solver::FRAG];

/// The coordinates of both ends.
type Ends = [i32; 4];

/// How two segments meet, and where, if that is given.
type Met = (CrossType, Option<IntPoint>);

fn point(x: i32, y: i32) -> IntPoint {
    IntPoint::new(x, y)
}

fn segment([ax, ay, bx, by]: Ends, subj: i32, clip: i32) -> Segment {
    Segment { a: point(ax, ay), b: point(bx, by), count: ShapeCountBoolean { subj, clip } }
}

fn in_order(mut segments: Vec<Segment>) -> Vec<Segment> {
    segments.sort_by_key(|segment| (segment.a, segment.b));
    segments
}

/// What a join leaves.
fn joined(segments: &[Segment]) -> Vec<Segment> {
    let mut overlay = Overlay::new().unwrap().with_rounding(Rounding::Pairwise);
    overlay.join(segments).unwrap();
    overlay.segments().unwrap().to_vec()
}

/// Each strategy splits the given segments into the wanted ones.
fn split_into(given: &[Segment], wanted: &[Segment]) {
    let mut overlay = Overlay::new().unwrap().with_rounding(Rounding::Pairwise);
    for solver in SOLVERS {
        overlay.split(given, solver).unwrap();
        assert_eq!(overlay.segments().unwrap(), wanted, "{:?}", solver.strategy);
    }
}

/// `segm::merge`, its seven tests.
#[test]
fn merge() {
    let (ends, back) = ([1, 2, 3, 4], [3, 4, 1, 2]);
    let one = segment(ends, 1, 1);
    let other = segment([5, 6, 7, 8], 0, 1);
    let apart = [segment([1, 1, 2, 2], 1, 1), segment([3, 3, 4, 4], 2, 2), segment([5, 5, 6, 6], 3, 3)];
    let turned = segment([1, 2, 3, 4], -1, 1);
    assert_eq!(joined(&[]), []);
    assert_eq!(joined(&[one]), [one]);
    assert_eq!(joined(&[segment(ends, 1, 0), other]), [segment(ends, 1, 0), other]);
    assert_eq!(joined(&[segment(ends, 1, 0), segment(ends, 0, 1)]), [one]);
    let three = [segment(ends, 1, 0), segment(ends, 0, 1), segment(ends, 2, 2)];
    assert_eq!(joined(&three), [segment(ends, 3, 3)]);
    assert_eq!(joined(&apart), apart);
    // given backward, it winds by -1 from its lower end; upstream's test compares the ends alone
    assert_eq!(joined(&[segment(back, 1, 0), segment(ends, 0, 1)]), [turned]);
}

/// `split::cross_solver`: `snapping_compares_squared_distance_directly_with_the_threshold`.
#[test]
fn squared_distance_is_compared_with_the_squared_radius() {
    let (target, other) = (segment([0, 0, 5, 5], 1, 0), segment([0, 3, 5, -2], 1, 0));
    let found = |radius| cross(&target, &other, radius).unwrap().map(|found| (found.cross_type, found.point));
    assert_eq!(found(4), Some((CrossType::Pure, point(2, 2))));
    assert_eq!(found(5), Some((CrossType::OtherEnd, point(0, 3))));
}

/// `split::cross_solver`: `test_simple_cross` to `test_penetration`, twelve tests.
#[test]
fn crossings() {
    let (s, q) = (1_024_000_000, 512_000_000);
    let wide = [-s, 0, s, 0];
    let cases: [(Ends, Ends, Option<Met>); 12] = [
        ([-1024, 0, 1024, 0], [0, -1024, 0, 1024], Some((CrossType::Pure, Some(point(0, 0))))),
        (wide, [0, -s, 0, s], Some((CrossType::Pure, Some(point(0, 0))))),
        (wide, [1024, -s, 1024, s], Some((CrossType::Pure, Some(point(1024, 0))))),
        ([-s, -s, s, s], [q, -s, q, s], Some((CrossType::Pure, Some(point(q, q))))),
        (wide, [-s, -s, -s, s], Some((CrossType::TargetEnd, Some(point(-s, 0))))),
        (wide, [s, -s, s, s], Some((CrossType::TargetEnd, Some(point(s, 0))))),
        ([-s, s, s, s], [-s, -s, -s, s], None),
        ([7256, -14637, 7454, -15045], [7343, -14833, 7506, -15144], Some((CrossType::Pure, None))),
        (
            [-8_555_798, -1_599_355, -1_024_000, 0],
            [-8_571_363, 1_513_719, -1_023_948, -10_239],
            Some((CrossType::Pure, Some(point(-1_048_691, -5_243)))),
        ),
        (
            [-8_555_798, -1_599_355, 513_224, -5_243],
            [-8_555_798, -1_599_355, 513_224, -5_243],
            Some((CrossType::Overlay, Some(IntPoint::ZERO))),
        ),
        (
            [-276_659_431, 380_789_039, -221_915_258, 435_533_212],
            [-276_659_432, 380_789_038, -276_659_430, 380_789_040],
            Some((CrossType::Overlay, Some(IntPoint::ZERO))),
        ),
        ([-1024, 0, 512, 0], [0, 0, 1024, 0], Some((CrossType::Overlay, Some(IntPoint::ZERO)))),
    ];
    for (target, other, wanted) in cases {
        let found = cross(&segment(target, 1, 0), &segment(other, 1, 0), 2).unwrap();
        assert_eq!(found.map(|found| found.cross_type), wanted.map(|wanted| wanted.0), "{target:?} {other:?}");
        if let (Some(found), Some((_, Some(at)))) = (found, wanted) {
            assert_eq!(found.point, at, "{target:?} {other:?}");
        }
    }
}

/// `split::solver`: `grid_intersections_do_not_create_zero_length_segments`. Segments between points of a small square, two
/// by two: no segment is split at its own end, and both are split into segments with two ends.
#[test]
fn no_segment_is_split_at_its_end() {
    let points: Vec<IntPoint> = (-2..=2).flat_map(|x| (-2..=2).map(move |y| point(x, y))).collect();
    let pairs = |count: usize| (0..count).flat_map(move |first| (first + 1..count).map(move |second| (first, second)));
    let count = ShapeCountBoolean::SUBJ_DIRECT;
    let edges: Vec<Segment> = pairs(points.len()).map(|(a, b)| Segment { a: points[a], b: points[b], count }).collect();
    let mut overlay = Overlay::new().unwrap().with_rounding(Rounding::Pairwise);
    for (first, second) in pairs(edges.len()) {
        let (target, other) = (edges[first], edges[second]);
        for (start, radius) in [(0, 1), (1, 2), (2, 4), (4, 16)] {
            if let Some(found) = cross(&target, &other, radius).unwrap() {
                let (of_target, of_other) = match found.cross_type {
                    CrossType::Pure => (false, false),
                    CrossType::TargetEnd => (true, false),
                    CrossType::OtherEnd => (false, true),
                    CrossType::Overlay => continue,
                };
                assert_eq!([target.a, target.b].contains(&found.point), of_target, "{target:?} {other:?} {radius}");
                assert_eq!([other.a, other.b].contains(&found.point), of_other, "{target:?} {other:?} {radius}");
            }
            let solver = Solver { precision: Precision { start, progression: 0 }, ..Solver::LIST };
            overlay.split(&[target, other], solver).unwrap();
            assert!(overlay.segments().unwrap().iter().all(|segment| segment.a < segment.b));
        }
    }
}

/// `split::solver_fragment`: `collinear_overlap_starts_in_a_later_column`.
#[test]
fn collinear_overlap_starts_in_a_later_column() {
    for (start, end, far_end) in [(80, 100, 150), (180, 300, 400)] {
        for slope in [-1, 0, 1] {
            let piece = |from, to, subj| segment([from, slope * from, to, slope * to], subj, 0);
            let aside = [1000, 2000].map(|y| segment([0, y, far_end, y], 1, 0));
            let given = [&[piece(0, end, 1), piece(start, far_end, 1)], &aside[..]].concat();
            let wanted = [&[piece(0, start, 1), piece(start, end, 2), piece(end, far_end, 1)], &aside[..]].concat();
            split_into(&in_order(given), &in_order(wanted));
        }
    }
}

/// `split::solver_fragment`: the seven tests `border_..`, as rows of edges and of what their vertical ones become.
#[test]
fn ends_on_the_border_of_a_column() {
    let cases: [(&[Ends], &[Ends]); 8] = [
        (&[[4, 0, 4, 6], [0, 3, 4, 3]], &[[4, 0, 4, 3], [4, 3, 4, 6]]),
        (&[[8, 0, 8, 6], [0, 3, 8, 3]], &[[8, 0, 8, 3], [8, 3, 8, 6]]),
        (&[[4, 0, 4, 6], [0, 0, 4, 3], [0, 6, 4, 3]], &[[4, 0, 4, 3], [4, 3, 4, 6]]),
        (
            &[[4, 0, 4, 3], [4, 5, 4, 8], [0, 1, 4, 1], [0, 2, 4, 2], [0, 6, 4, 6], [0, 7, 4, 7]],
            &[[4, 0, 4, 1], [4, 1, 4, 2], [4, 2, 4, 3], [4, 5, 4, 6], [4, 6, 4, 7], [4, 7, 4, 8]],
        ),
        (
            &[[4, 0, 4, 6], [8, 0, 8, 6], [0, 1, 4, 1], [6, 3, 8, 3]],
            &[[4, 0, 4, 1], [4, 1, 4, 6], [8, 0, 8, 3], [8, 3, 8, 6]],
        ),
        (&[[4, 0, 4, 6], [0, -1, 4, -1], [0, 0, 4, 0], [0, 6, 4, 6], [0, 7, 4, 7]], &[[4, 0, 4, 6]]),
        (&[[4, 0, 4, 6], [4, 3, 8, 3]], &[[4, 0, 4, 3], [4, 3, 4, 6]]),
        (&[[0, 0, 0, 6], [0, 3, 8, 3]], &[[0, 0, 0, 3], [0, 3, 0, 6]]),
    ];
    // with these the columns are four wide; they meet none of the edges
    let aside = [[0, 100, 8, 100], [0, 102, 8, 102]];
    for (edges, verticals) in cases {
        for dx in [-11, 0, 7] {
            let moved = |&[ax, ay, bx, by]: &Ends| segment([ax + dx, ay, bx + dx, by], 1, 0);
            let leaning = edges.iter().filter(|[ax, _, bx, _]| ax != bx);
            let given = edges.iter().chain(&aside).map(moved).collect();
            let wanted = leaning.chain(verticals).chain(&aside).map(moved).collect();
            split_into(&in_order(given), &in_order(wanted));
        }
    }
}

/// `build::string`: `empty_segment_set_builds_empty_graph_for_every_fill_rule`.
#[test]
fn no_lines() {
    let mut overlay = Overlay::new().unwrap().with_rounding(Rounding::Pairwise);
    for fill in [FillRule::EvenOdd, FillRule::NonZero, FillRule::Positive, FillRule::Negative] {
        let graph = overlay.build_clip(&[], ClipRule::default(), fill, Solver::AUTO).unwrap();
        assert!(graph.links().is_empty());
        assert_eq!(graph.node_count(), 0);
    }
}

/// The parts of a line that are kept, as pairs of points.
fn clipped(contour: &[IntPoint], line: &[IntPoint], invert: bool) -> Vec<(IntPoint, IntPoint)> {
    let sides = (0..contour.len()).map(|index| (contour[index], contour[(index + 1) % contour.len()]));
    let sides = sides.filter(|(a, b)| a != b).map(|(a, b)| LineSegment::side(a, b));
    let steps = line.windows(2).map(|step| LineSegment::line(step[0], step[1]));
    let segments: Vec<LineSegment> = sides.chain(steps).collect();
    let rule = ClipRule { invert, boundary_included: false };
    let mut overlay = Overlay::new().unwrap().with_rounding(Rounding::Pairwise);
    let graph = overlay.build_clip(&segments, rule, FillRule::NonZero, Solver::AUTO).unwrap();
    graph.links().iter().map(|link| (link.a.point, link.b.point)).collect()
}

/// `build::string`: `repeated_string_points_are_normalized_consistently`, for the line without repeated points.
#[test]
fn a_line_through_a_square() {
    let shape = [point(0, 0), point(10, 0), point(10, 10), point(0, 10)];
    let line = [point(-5, 5), point(5, 5), point(15, 5)];
    assert_eq!(clipped(&shape, &line, false), [(point(0, 5), point(5, 5)), (point(5, 5), point(10, 5))]);
}

/// `build::string`: `zero_area_subject_contours_do_not_affect_clipping`. The line stays whole, in parts that join.
#[test]
fn contours_without_area() {
    let line = [point(-5, 0), point(15, 0)];
    for corners in [&[0][..], &[0, 0], &[0, 10], &[0, 5, 10]] {
        let contour: Vec<IntPoint> = corners.iter().map(|&x| point(x, 0)).collect();
        assert_eq!(clipped(&contour, &line, false), []);
        let kept = clipped(&contour, &line, true);
        assert_eq!((kept[0].0, kept[kept.len() - 1].1), (line[0], line[1]));
        assert!(kept.windows(2).all(|parts| parts[0].1 == parts[1].0));
    }
}
