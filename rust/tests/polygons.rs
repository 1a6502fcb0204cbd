//! Contours in, contours out.

mod common;

use common::Random;
use fadrinzo::{
    square, Axis, Error, FillRule, IntContour, IntPoint, Overlay, OverlayRule, PointLocation, Precision, RangeFault,
    Rounding, RuleTable, ShapeType, Solver, Strategy, MAX_COORD, MIN_COORD,
};

/// Twice the area to the left of contours.
fn doubled_area(contours: &[IntContour]) -> i64 {
    let steps = contours.iter().flat_map(|points| points.iter().zip(points.iter().cycle().skip(1)));
    steps.map(|(p, q)| i64::from(p.x) * i64::from(q.y) - i64::from(p.y) * i64::from(q.x)).sum()
}

fn area(overlay: &mut Overlay, rule: OverlayRule) -> i64 {
    doubled_area(&overlay.overlay(rule, FillRule::NonZero).unwrap()) / 2
}

#[test]
fn a_square_with_a_hole() {
    let mut overlay = Overlay::with_contours(&[square(0, 9).to_vec()], &[square(3, 6).to_vec()]).unwrap();
    let ring = overlay.overlay(OverlayRule::Difference, FillRule::EvenOdd).unwrap();
    let mut areas: Vec<i64> = ring.iter().map(|contour| doubled_area(std::slice::from_ref(contour)) / 2).collect();
    areas.sort_unstable();
    assert_eq!(areas, [-9, 81]);
    assert_eq!(area(&mut overlay, OverlayRule::Intersect), 9);
}

/// The areas of overlays of rectangles add up: the sides are along the axes, so no crossing is moved.
#[test]
fn areas_add_up() {
    let mut random = Random(3);
    let mut overlay = Overlay::new().unwrap();
    for _ in 0..200 {
        overlay.clear();
        for shape in [ShapeType::Subject, ShapeType::Clip] {
            for _ in 0..1 + random.below(5) {
                let (x, y) = (random.below(20), random.below(20));
                let (right, top) = (x + 1 + random.below(9), y + 1 + random.below(9));
                let corners = [(x, y), (right, y), (right, top), (x, top)];
                overlay.add_contour(&corners.map(|(x, y)| IntPoint::new(x, y)), shape).unwrap();
            }
        }
        let mut area = |rule| area(&mut overlay, rule);
        let (subject, clip) = (area(OverlayRule::Subject), area(OverlayRule::Clip));
        let shared = area(OverlayRule::Intersect);
        assert!(shared >= 0 && subject > 0 && clip > 0);
        assert_eq!(area(OverlayRule::Union), subject + clip - shared);
        assert_eq!(area(OverlayRule::Xor), subject + clip - 2 * shared);
        assert_eq!(area(OverlayRule::Difference), subject - shared);
        assert_eq!(area(OverlayRule::InverseDifference), clip - shared);
        // outside of both no boundary is kept, so what neither covers is shown by clockwise
        // contours
        let neither = OverlayRule::Table(RuleTable::new(1).unwrap());
        assert_eq!(area(neither), shared - subject - clip);
    }
}

/// Several rules at once return what each returns alone, and report the same run.
#[test]
fn several_rules_at_once() {
    let mut random = Random(12);
    let rules = [
        OverlayRule::Union,
        OverlayRule::Intersect,
        OverlayRule::Table(RuleTable::new(1).unwrap()),
        OverlayRule::Union,
        OverlayRule::Xor,
    ];
    for _ in 0..200 {
        let mut overlay = Overlay::new().unwrap();
        for shape in [ShapeType::Subject, ShapeType::Clip] {
            let corners = (0..6).map(|_| IntPoint::new(random.below(20), random.below(20)));
            overlay.add_contour(&corners.collect::<Vec<_>>(), shape).unwrap();
        }
        let together = overlay.overlay_by_rules(&rules, FillRule::EvenOdd).unwrap();
        let report = (overlay.passes(), overlay.reach());
        let alone = rules.map(|rule| overlay.overlay(rule, FillRule::EvenOdd).unwrap());
        assert_eq!(together, alone);
        assert_eq!(report, (overlay.passes(), overlay.reach()));
        assert!(overlay.overlay_by_rules(&[], FillRule::EvenOdd).unwrap().is_empty());
    }
}

/// An arrangement returns by each rule what an overlay returns, and without collinear points what is left of that where
/// points in the middle of a straight way are dropped.
#[test]
fn arrangements_return_what_overlays_return() {
    let mut random = Random(14);
    for _ in 0..200 {
        let mut overlay = Overlay::new().unwrap();
        for shape in [ShapeType::Subject, ShapeType::Clip] {
            let corners = (0..6).map(|_| IntPoint::new(random.below(9), random.below(9)));
            overlay.add_contour(&corners.collect::<Vec<_>>(), shape).unwrap();
        }
        for rule in [OverlayRule::Union, OverlayRule::Difference, OverlayRule::Table(RuleTable::new(1).unwrap())] {
            let contours = overlay.overlay(rule, FillRule::EvenOdd).unwrap();
            let shapes = overlay.overlay_shapes(rule, FillRule::EvenOdd).unwrap();
            let mut arrangement = overlay.arrange(FillRule::EvenOdd).unwrap();
            assert_eq!(arrangement.contours(rule).unwrap(), contours);
            assert_eq!(arrangement.shapes(rule).unwrap(), shapes);
            let corners: Vec<_> = contours.iter().map(|contour| without_straight(contour)).collect();
            assert_eq!(arrangement.contours_without_collinear(rule).unwrap(), corners);
            let corners: Vec<Vec<_>> =
                shapes.iter().map(|shape| shape.iter().map(|contour| without_straight(contour)).collect()).collect();
            assert_eq!(arrangement.shapes_without_collinear(rule).unwrap(), corners);
        }
    }
}

/// The points of a contour at which its direction changes, by the directions of the steps in lowest terms.
fn without_straight(contour: &[IntPoint]) -> Vec<IntPoint> {
    fn divisor(a: i32, b: i32) -> i32 {
        if b == 0 {
            a.abs()
        } else {
            divisor(b, a % b)
        }
    }
    let direction = |from: IntPoint, to: IntPoint| {
        let (x, y) = (to.x - from.x, to.y - from.y);
        (x / divisor(x, y), y / divisor(x, y))
    };
    let count = contour.len();
    let turns = (0..count).filter(|&index| {
        let (before, at, after) = (contour[(index + count - 1) % count], contour[index], contour[(index + 1) % count]);
        direction(before, at) != direction(at, after)
    });
    turns.map(|index| contour[index]).collect()
}

/// Where points lie, by a ray to the right, in whole numbers: another way than the winding along the ray straight down.
#[test]
fn where_points_lie() {
    let mut random = Random(13);
    for _ in 0..300 {
        let corners: Vec<IntPoint> =
            (0..1 + random.below(7)).map(|_| IntPoint::new(random.below(9), random.below(9))).collect();
        let mut overlay = Overlay::with_contours(&[], &[corners.clone()]).unwrap();
        for (x, y) in (-1..10).flat_map(|x| (-1..10).map(move |y| (x, y))) {
            let (mut is_on, mut winding) = (false, 0);
            for (a, b) in corners.iter().zip(corners.iter().cycle().skip(1)) {
                let turn = (b.x - a.x) * (y - a.y) - (b.y - a.y) * (x - a.x);
                let is_in_box = |u: i32, v: i32, at: i32| (u.min(v)..=u.max(v)).contains(&at);
                is_on |= turn == 0 && is_in_box(a.x, b.x, x) && is_in_box(a.y, b.y, y);
                winding += i32::from(a.y <= y && y < b.y && turn > 0) - i32::from(b.y <= y && y < a.y && turn < 0);
            }
            let rules = [
                (FillRule::EvenOdd, winding % 2 != 0),
                (FillRule::NonZero, winding != 0),
                (FillRule::Positive, winding > 0),
                (FillRule::Negative, winding < 0),
            ];
            for (rule, is_inside) in rules {
                let wanted = match (is_on, is_inside) {
                    (true, _) => PointLocation::OnBoundary,
                    (false, true) => PointLocation::Inside,
                    (false, false) => PointLocation::Outside,
                };
                assert_eq!(overlay.locate_point(ShapeType::Clip, rule, IntPoint::new(x, y)), wanted);
            }
        }
    }
}

#[test]
fn a_ring_and_an_island() {
    let mut overlay = Overlay::with_contours(&[square(0, 9).to_vec()], &[square(3, 6).to_vec()]).unwrap();
    overlay.add_contour(&square(4, 5), ShapeType::Subject).unwrap();
    overlay.add_contour(&square(20, 22), ShapeType::Subject).unwrap();
    // by even-odd the square in the clip is no part of the subject, so that it is one of the exclusive or
    let shapes = overlay.overlay_shapes(OverlayRule::Xor, FillRule::EvenOdd).unwrap();
    let areas: Vec<Vec<i64>> = shapes
        .iter()
        .map(|shape| shape.iter().map(|contour| doubled_area(std::slice::from_ref(contour)) / 2).collect())
        .collect();
    assert_eq!(areas, [vec![81, -9], vec![1], vec![4]]);
    // contours have no shapes, and shapes come again
    let contours = overlay.overlay(OverlayRule::Xor, FillRule::EvenOdd).unwrap();
    assert_eq!(doubled_area(&contours), 2 * (81 - 9 + 1 + 4));
    assert_eq!(overlay.overlay_shapes(OverlayRule::Xor, FillRule::EvenOdd).unwrap(), shapes);
    overlay.clear();
    assert!(overlay.overlay_shapes(OverlayRule::Xor, FillRule::EvenOdd).unwrap().is_empty());
}

/// The areas of the shapes of rectangles add up to that of their contours.
#[test]
fn areas_of_shapes_add_up() {
    let mut random = Random(7);
    let mut overlay = Overlay::new().unwrap();
    for _ in 0..200 {
        overlay.clear();
        for shape in [ShapeType::Subject, ShapeType::Clip] {
            for _ in 0..1 + random.below(5) {
                let (x, y) = (random.below(20), random.below(20));
                let (right, top) = (x + 1 + random.below(9), y + 1 + random.below(9));
                let corners = [(x, y), (right, y), (right, top), (x, top)];
                overlay.add_contour(&corners.map(|(x, y)| IntPoint::new(x, y)), shape).unwrap();
            }
        }
        let shapes = overlay.overlay_shapes(OverlayRule::Xor, FillRule::NonZero).unwrap();
        assert!(shapes.iter().all(|shape| doubled_area(shape) > 0));
        let whole: i64 = shapes.iter().map(|shape| doubled_area(shape)).sum();
        assert_eq!(whole / 2, area(&mut overlay, OverlayRule::Xor));
    }
}

#[test]
fn an_overlay_tells_its_reach() {
    let mut overlay = Overlay::with_contours(&[square(0, 4).to_vec()], &[square(2, 6).to_vec()]).unwrap();
    assert_eq!((overlay.passes(), overlay.reach()), (0, 0));
    overlay.overlay(OverlayRule::Union, FillRule::NonZero).unwrap();
    assert_eq!((overlay.passes(), overlay.reach()), (1, 0));
    // the upper side of the triangle crosses the right side of the first square at a height of 2 and a third
    let corners = [(3, 2), (6, 2), (6, 3)].map(|(x, y)| IntPoint::new(x, y));
    overlay.add_contour(&corners, ShapeType::Clip).unwrap();
    overlay.overlay(OverlayRule::Union, FillRule::NonZero).unwrap();
    let report = (overlay.passes(), overlay.reach());
    assert_eq!(report, (1, 1));
    overlay.overlay_shapes(OverlayRule::Union, FillRule::NonZero).unwrap();
    assert_eq!((overlay.passes(), overlay.reach()), report);
    // neither segments nor a cleared overlay change it
    overlay.split(&[], Solver::AUTO).unwrap();
    overlay.clear();
    assert_eq!((overlay.passes(), overlay.reach()), report);
    // passes over pairs move things farther, and of nothing there are none
    let mut overlay = overlay.with_rounding(Rounding::Pairwise);
    overlay.add_contour(&square(0, 4), ShapeType::Subject).unwrap();
    overlay.add_contour(&corners, ShapeType::Clip).unwrap();
    overlay.overlay_shapes(OverlayRule::Union, FillRule::NonZero).unwrap();
    assert!(overlay.passes() >= 2 && overlay.reach() >= 2);
    overlay.clear();
    overlay.overlay_shapes(OverlayRule::Union, FillRule::NonZero).unwrap();
    assert_eq!((overlay.passes(), overlay.reach()), (0, 0));
}

#[test]
fn each_strategy_answers_the_same() {
    let mut random = Random(5);
    for _ in 0..50 {
        let mut contour = || [0; 40].map(|_| IntPoint::new(random.below(60), random.below(60)));
        let mut overlay = Overlay::with_contours(&[contour(), contour()], &[contour()]).unwrap();
        let wanted = overlay.overlay(OverlayRule::Xor, FillRule::EvenOdd).unwrap();
        for strategy in [Strategy::List, Strategy::Tree, Strategy::Frag] {
            let solver = Solver { strategy, precision: Precision::HIGH };
            let found = overlay.overlay_with_solver(OverlayRule::Xor, FillRule::EvenOdd, solver).unwrap();
            assert_eq!(found, wanted);
        }
    }
}

#[test]
fn contours_out_of_range() {
    let mut overlay = Overlay::new().unwrap();
    overlay.add_contour(&square(MIN_COORD, MAX_COORD), ShapeType::Clip).unwrap();
    let bad = [(0, 0), (5, 0), (0, MAX_COORD + 1), (i32::MIN, 0)].map(|(x, y)| IntPoint::new(x, y));
    let refused = overlay.add_contour(&bad, ShapeType::Clip).unwrap_err();
    let fault = RangeFault { axis: Axis::Y, value: MAX_COORD + 1, bound: MAX_COORD };
    assert_eq!(refused, Error::Point { shape_type: ShapeType::Clip, contour: 1, point: 2, fault });
    assert_eq!(refused.to_string(), "contour 1 of the clip, point 2: y is 1073741824, the greatest is 1073741823");
    // nothing was added
    assert_eq!(overlay.overlay(OverlayRule::Union, FillRule::NonZero).unwrap().len(), 1);
    assert_eq!(area(&mut overlay, OverlayRule::Clip), i64::from(u32::MAX >> 1).pow(2));
    overlay.clear();
    let refused = overlay.add_contour(&bad[2..], ShapeType::Clip).unwrap_err();
    assert_eq!(refused, Error::Point { shape_type: ShapeType::Clip, contour: 0, point: 0, fault });
}

#[test]
fn few_points() {
    let point = IntPoint::new(4, 4);
    let mut overlay = Overlay::with_contours(&[vec![], vec![point], vec![point; 3]], &[]).unwrap();
    overlay.add_contour(&[IntPoint::ZERO, point], ShapeType::Subject).unwrap();
    assert_eq!(overlay.overlay(OverlayRule::Subject, FillRule::EvenOdd).unwrap(), Vec::<IntContour>::new());
}

/// Two squares, the smaller one a hole in the other, in each of the ways in which their rings may run, closed by a repeated
/// point or not.
#[test]
fn rings_of_a_polygon_are_turned() {
    let ring = |low, high, is_reversed: bool, is_closed: bool| {
        let mut points = square(low, high).to_vec();
        if is_reversed {
            points.reverse();
        }
        if is_closed {
            points.push(points[0]);
        }
        points
    };
    let mut overlay = Overlay::new().unwrap();
    for bits in 0..16 {
        let is = |bit: i32| bits >> bit & 1 == 1;
        let (outer, holes) = (ring(0, 9, is(0), is(1)), [ring(3, 6, is(2), is(3))]);
        for shape_type in [ShapeType::Subject, ShapeType::Clip] {
            let rule = if shape_type == ShapeType::Subject { OverlayRule::Subject } else { OverlayRule::Clip };
            overlay.clear();
            overlay.add_polygon(&outer, &holes, shape_type).unwrap();
            for fill_rule in [FillRule::EvenOdd, FillRule::NonZero, FillRule::Positive] {
                let shapes = overlay.overlay_shapes(rule, fill_rule).unwrap();
                assert_eq!(shapes.iter().map(Vec::len).collect::<Vec<_>>(), [2]);
                assert_eq!(doubled_area(&shapes[0]), 2 * (81 - 9));
            }
            assert!(overlay.overlay(rule, FillRule::Negative).unwrap().is_empty());
        }
    }
}

#[test]
fn rings_without_area() {
    let point = IntPoint::new(4, 4);
    let rings = [vec![], vec![point], vec![point; 2], vec![point; 3], vec![IntPoint::ZERO, point, IntPoint::ZERO]];
    let mut overlay = Overlay::new().unwrap();
    for outer in &rings {
        overlay.add_polygon(outer, &rings, ShapeType::Subject).unwrap();
    }
    assert!(overlay.overlay(OverlayRule::Subject, FillRule::EvenOdd).unwrap().is_empty());
    // they count as contours all the same
    let bad = IntPoint::new(MAX_COORD + 1, 0);
    let refused = overlay.add_contour(&[bad], ShapeType::Subject).unwrap_err();
    assert!(matches!(refused, Error::Point { contour: 30, point: 0, .. }));
}

/// The index of a point is that of the given ring, and nothing is added.
#[test]
fn polygons_out_of_range() {
    let mut overlay = Overlay::new().unwrap();
    overlay.add_contour(&square(0, 1), ShapeType::Clip).unwrap();
    let mut hole = square(3, 6);
    hole[1].x = MAX_COORD + 1;
    let refused = overlay.add_polygon(&square(0, 9), &[square(1, 2), hole], ShapeType::Clip).unwrap_err();
    assert!(matches!(refused, Error::Point { shape_type: ShapeType::Clip, contour: 3, point: 1, .. }));
    assert_eq!(area(&mut overlay, OverlayRule::Clip), 1);
}

#[test]
fn an_overlay_is_shown() {
    let overlay = Overlay::with_contours(&[square(0, 4), square(6, 9)], &[square(2, 6)]).unwrap();
    let shown = format!("{overlay:?}");
    assert_eq!(shown, "Overlay { engine: I32, rounding: HotPixels, contour_counts: [2, 1], passes: 0, reach: 0, .. }");
}

/// Segments that are split in between leave the contours as they are.
#[test]
fn contours_and_segments_by_turns() {
    let mut overlay = Overlay::with_contours(&[square(0, 4).to_vec()], &[square(2, 6).to_vec()]).unwrap();
    let mut segments = Vec::new();
    ShapeType::Subject.push_contour(&square(0, 9), &mut segments).unwrap();
    overlay.build_graph(&segments, OverlayRule::Subject, FillRule::NonZero).unwrap();
    assert_eq!(area(&mut overlay, OverlayRule::Union), 28);
    assert_eq!(overlay.segments().unwrap().len(), 4);
}
