//! Calls the proved core from safe Rust: the examples of the README, random input, and input that is refused.

mod common;

use common::Random;
use fadrinzo::{
    cross, square, Axis, Change, ClipRule, CollinearMask, CrossResult, CrossType, DataSegment, Engine, Error, Fault,
    FillRule, IntPoint, LineSegment, Overlay, OverlayNode, OverlayRule, Precision, RangeFault, RuleTable, Segment,
    SegmentFault, ShapeCountBoolean, ShapeType, Solver, Strategy, MAX_COORD, MIN_COORD,
};
use std::collections::HashMap;

const RULES: [OverlayRule; 7] = [
    OverlayRule::Subject,
    OverlayRule::Clip,
    OverlayRule::Intersect,
    OverlayRule::Union,
    OverlayRule::Difference,
    OverlayRule::InverseDifference,
    OverlayRule::Xor,
];

const FILLS: [FillRule; 4] = [FillRule::EvenOdd, FillRule::NonZero, FillRule::Positive, FillRule::Negative];

fn two_squares() -> Vec<Segment> {
    let mut segments = Vec::new();
    ShapeType::Subject.push_contour(&square(0, 4), &mut segments).unwrap();
    ShapeType::Clip.push_contour(&square(2, 6), &mut segments).unwrap();
    segments
}

fn range_fault(axis: Axis, value: i32, bound: i32) -> SegmentFault {
    SegmentFault::Range(RangeFault { axis, value, bound })
}

#[test]
fn two_squares_share_a_square() {
    let mut overlay = Overlay::new().unwrap();
    let graph = overlay.build_graph(&two_squares(), OverlayRule::Intersect, FillRule::NonZero).unwrap();
    let ends: Vec<_> = graph.links().iter().map(|link| (link.a.point, link.b.point, link.fill)).collect();
    let point = IntPoint::new;
    let wanted = [
        (point(2, 2), point(2, 4), 11),
        (point(2, 2), point(4, 2), 7),
        (point(2, 4), point(4, 4), 14),
        (point(4, 2), point(4, 4), 13),
    ];
    assert_eq!(ends, wanted);
    let nodes: Vec<_> = graph.nodes().collect();
    let bridges = [[0, 1], [2, 0], [3, 1], [2, 3]].map(OverlayNode::Bridge);
    assert_eq!(nodes, bridges);
}

/// Segments with numbers that count from a first one.
fn numbered(segments: &[Segment], first: u64) -> Vec<DataSegment> {
    segments.iter().zip(first..=u64::MAX).map(|(&segment, data)| DataSegment { segment, data }).collect()
}

/// The sides of the two squares from 0 to 7, each from the left one counterclockwise.
#[test]
fn links_tell_the_side_they_came_from() {
    let mut overlay = Overlay::new().unwrap();
    let sides = numbered(&two_squares(), 0);
    let mut data = |rule| {
        let graph = overlay.build_graph_with_data(&sides, rule, FillRule::NonZero, Solver::AUTO).unwrap();
        assert_eq!(graph.data().len(), graph.links().len());
        graph.data().to_vec()
    };
    assert_eq!(data(OverlayRule::Intersect), [4, 5, 3, 2]);
    assert_eq!(data(OverlayRule::Union), [0, 1, 3, 4, 7, 2, 5, 6]);
    assert_eq!(data(OverlayRule::Subject), [0, 1, 3, 3, 2, 2]);
    assert_eq!(overlay.segments().unwrap().len(), 12);
    let graph = overlay.build_graph_with_data(&[], OverlayRule::Union, FillRule::NonZero, Solver::AUTO).unwrap();
    assert!(graph.data().is_empty());
}

/// Without their numbers, the graph and the arrangement are those of the same segments.
#[test]
fn numbers_change_no_graph() {
    let mut overlay = Overlay::new().unwrap();
    let sides = numbered(&two_squares(), u64::MAX - 7);
    let (rule, fill) = (OverlayRule::Xor, FillRule::EvenOdd);
    let graph = overlay.build_graph_with_data(&sides, rule, fill, Solver::AUTO).unwrap();
    let (links, nodes) = (graph.links().to_vec(), graph.node_count());
    assert!(graph.data().iter().all(|&number| number >= u64::MAX - 7));
    let segments = overlay.segments().unwrap().to_vec();
    let plain = overlay.build_graph(&two_squares(), rule, fill).unwrap();
    assert_eq!((plain.links(), plain.node_count()), (links.as_slice(), nodes));
    assert_eq!(overlay.segments().unwrap(), segments);
}

/// Of two sides between the same points the first one's number stays, whichever way it runs.
#[test]
fn equal_sides_have_the_number_of_the_first() {
    let mut overlay = Overlay::new().unwrap();
    let mut data = |sides: &[DataSegment]| {
        let (rule, fill) = (OverlayRule::Subject, FillRule::NonZero);
        overlay.build_graph_with_data(sides, rule, fill, Solver::AUTO).unwrap().data().to_vec()
    };
    let (mut there, mut back) = (Vec::new(), Vec::new());
    ShapeType::Subject.push_contour(&square(0, 4), &mut there).unwrap();
    let mut corners = square(0, 4);
    corners.reverse();
    ShapeType::Clip.push_contour(&corners, &mut back).unwrap();
    let (there, back) = (numbered(&there, 10), numbered(&back, 20));
    // there: left, bottom, right, top; back: left, top, right, bottom. Links: left, bottom, top, right.
    assert_eq!(data(&[there.clone(), back.clone()].concat()), [10, 11, 13, 12]);
    assert_eq!(data(&[back, there].concat()), [20, 23, 21, 22]);
}

#[test]
fn a_bad_segment_with_a_number() {
    let mut overlay = Overlay::new().unwrap();
    let mut sides = numbered(&two_squares(), 0);
    sides[5].segment.b = sides[5].segment.a;
    let refused = overlay.build_graph_with_data(&sides, OverlayRule::Union, FillRule::NonZero, Solver::AUTO).err();
    assert_eq!(refused, Some(Error::Segment { index: 5, fault: SegmentFault::EqualEnds }));
    assert!(overlay.segments().unwrap().is_empty());
}

#[test]
fn a_line_cut_by_a_square() {
    let corners = square(0, 10);
    let mut segments: Vec<LineSegment> =
        (0..4).map(|index| LineSegment::side(corners[index], corners[(index + 1) % 4])).collect();
    segments.push(LineSegment::line(IntPoint::new(-5, 5), IntPoint::new(15, 5)));
    let mut overlay = Overlay::new().unwrap();
    let mut parts = |invert| {
        let rule = ClipRule { invert, boundary_included: false };
        let graph = overlay.build_clip(&segments, rule, FillRule::NonZero, Solver::AUTO).unwrap();
        let ends = graph.links().iter().map(|link| (link.a.point.x, link.b.point.x));
        ends.collect::<Vec<_>>()
    };
    assert_eq!(parts(false), [(0, 10)]);
    assert_eq!(parts(true), [(-5, 0), (10, 15)]);
    // the line is cut at two sides, and these at the line
    let (lines, sides): (Vec<LineSegment>, Vec<_>) = overlay.lines().unwrap().iter().partition(|part| part.mask != 0);
    assert_eq!((lines.len(), sides.len()), (3, 6));
    assert!(lines.iter().all(|part| part.subj == 0 && part.a.y == 5 && part.b.y == 5));
    segments[2].mask = 4;
    let refused = overlay.build_clip(&segments, ClipRule::default(), FillRule::NonZero, Solver::AUTO).err();
    assert_eq!(refused, Some(Error::Segment { index: 2, fault: SegmentFault::Count }));
    assert!(overlay.lines().unwrap().is_empty());
}

#[test]
fn where_two_segments_meet() {
    let step = |ax, ay, bx, by| Segment {
        a: IntPoint::new(ax, ay),
        b: IntPoint::new(bx, by),
        count: ShapeCountBoolean::default(),
    };
    let found = |point: (i32, i32), cross_type, is_round| {
        let mask = CollinearMask::default();
        Ok(Some(CrossResult { point: IntPoint::new(point.0, point.1), cross_type, is_round, mask }))
    };
    let rising = step(0, 0, 10, 10);
    assert_eq!(cross(&rising, &step(0, 10, 10, 0), 1), found((5, 5), CrossType::Pure, false));
    assert_eq!(cross(&rising, &step(4, 4, 9, 0), 1), found((4, 4), CrossType::OtherEnd, false));
    assert_eq!(cross(&step(4, 4, 9, 0), &rising, i64::MIN), found((4, 4), CrossType::TargetEnd, false));
    assert_eq!(cross(&rising, &step(20, 20, 12, 12), 1), found((0, 0), CrossType::Overlay, false));
    assert_eq!(cross(&rising, &step(1, 0, 11, 10), 1), Ok(None));
    assert!(cross(&step(0, 0, 10, 3), &step(0, 10, 7, -10), 1).unwrap().unwrap().is_round);
    let equal = Error::Segment { index: 1, fault: SegmentFault::EqualEnds };
    assert_eq!(cross(&rising, &step(3, 3, 3, 3), 1), Err(equal));
    let range = Error::Segment { index: 0, fault: range_fault(Axis::Y, i32::MIN, MIN_COORD) };
    assert_eq!(cross(&step(0, i32::MIN, 1, 1), &rising, 1), Err(range));
}

#[test]
fn ends_inside_one_another() {
    let step =
        |ax, bx| Segment { a: IntPoint::new(ax, -ax), b: IntPoint::new(bx, -bx), count: ShapeCountBoolean::default() };
    let inside = |target: [i32; 2], other: [i32; 2]| {
        let found = cross(&step(target[0], target[1]), &step(other[0], other[1]), 1).unwrap().unwrap();
        assert_eq!(found.cross_type, CrossType::Overlay);
        let mask = found.mask;
        [mask.is_target_a, mask.is_target_b, mask.is_other_a, mask.is_other_b]
    };
    assert_eq!(inside([0, 4], [2, 6]), [false, true, true, false]);
    assert_eq!(inside([2, 6], [0, 4]), [true, false, false, true]);
    assert_eq!(inside([0, 6], [2, 4]), [false, false, true, true]);
    assert_eq!(inside([4, 2], [6, 0]), [true, true, false, false]);
    assert_eq!(inside([0, 4], [0, 4]), [false; 4]);
    assert_eq!(inside([0, 4], [4, 6]), [false; 4]);
}

/// Tables by their bits: the rule with a name that says the same.
#[test]
fn tables_are_rules() {
    let named = [(10, 0), (12, 1), (8, 2), (14, 3), (2, 4), (4, 5), (6, 6)];
    let mut overlay = Overlay::new().unwrap();
    let mut links = |rule| overlay.build_graph(&two_squares(), rule, FillRule::NonZero).unwrap().links().to_vec();
    for (bits, index) in named {
        let table = |bits| OverlayRule::Table(RuleTable::new(bits).unwrap());
        let wanted = links(RULES[index]);
        assert_eq!(links(table(bits)), wanted);
        assert_eq!(links(table(15 - bits)), wanted);
    }
    for nothing in [0, 15] {
        assert_eq!(links(OverlayRule::Table(RuleTable::new(nothing).unwrap())), []);
    }
    assert!((16..=u8::MAX).all(|bits| RuleTable::new(bits).is_none()));
}

#[test]
fn splits_and_joins() {
    let mut overlay = Overlay::new().unwrap();
    let change = overlay.split(&two_squares(), Solver::AUTO).unwrap();
    assert_eq!(change, Change { has_changed: true, passes: 1 });
    assert_eq!(overlay.segments().unwrap().len(), 12);
    let arrangement = overlay.segments().unwrap().to_vec();
    assert!(!overlay.split(&arrangement, Solver::AUTO).unwrap().has_changed);
    assert_eq!(overlay.segments().unwrap(), arrangement);
    let twice = [two_squares(), two_squares()].concat();
    assert!(overlay.join(&twice).unwrap().has_changed);
    assert_eq!(overlay.segments().unwrap().len(), 8);
    assert!(overlay.segments().unwrap().iter().all(|segment| segment.count.subj.abs() + segment.count.clip.abs() == 2));
    assert!(!overlay.join(&two_squares()).unwrap().has_changed);
    let all = overlay.build_all(&two_squares(), FillRule::NonZero, Solver::AUTO).unwrap();
    assert_eq!((all.links().len(), all.node_count()), (12, 10));
}

#[test]
fn contours_of_each_rule() {
    let mut overlay = Overlay::new().unwrap();
    let areas = RULES.map(|rule| {
        let contours = overlay.build_contours(&two_squares(), rule, FillRule::NonZero, Solver::AUTO).unwrap().unwrap();
        contours.iter().map(|contour| doubled_area(contour).abs()).sum::<i64>() / 2
    });
    assert_eq!(areas, [16, 16, 4, 28, 12, 12, 24]);
}

fn doubled_area(contour: &[IntPoint]) -> i64 {
    let mut last = contour[contour.len() - 1];
    let mut sum = 0;
    for &point in contour {
        sum += i64::from(last.x) * i64::from(point.y) - i64::from(last.y) * i64::from(point.x);
        last = point;
    }
    sum
}

#[test]
fn the_arrangement() {
    let mut overlay = Overlay::new().unwrap();
    assert!(overlay.segments().unwrap().is_empty());
    overlay.build_graph(&two_squares(), OverlayRule::Union, FillRule::NonZero).unwrap();
    let segments = overlay.segments().unwrap();
    assert_eq!(segments.len(), 12);
    assert!(segments.iter().all(|segment| segment.a < segment.b));
}

#[test]
fn nothing() {
    let mut overlay = Overlay::new().unwrap();
    let graph = overlay.build_graph(&[], OverlayRule::Xor, FillRule::EvenOdd).unwrap();
    assert!(graph.links().is_empty());
    assert_eq!(graph.node_count(), 0);
    assert_eq!(graph.node(0), None);
    let contours = overlay.build_contours(&[], OverlayRule::Xor, FillRule::EvenOdd, Solver::AUTO).unwrap();
    assert_eq!(contours, Some(Vec::new()));
    assert!(overlay.segments().unwrap().is_empty());
}

#[test]
fn bad_segments() {
    let mut overlay = Overlay::new().unwrap();
    let good = two_squares();
    let step = |a: (i32, i32), b: (i32, i32), subj, clip| Segment {
        a: IntPoint::new(a.0, a.1),
        b: IntPoint::new(b.0, b.1),
        count: ShapeCountBoolean { subj, clip },
    };
    let cases = [
        (step((0, 0), (MAX_COORD + 1, 0), 1, 0), range_fault(Axis::X, MAX_COORD + 1, MAX_COORD)),
        (step((0, MIN_COORD - 1), (1, 0), 1, 0), range_fault(Axis::Y, MIN_COORD - 1, MIN_COORD)),
        (step((i32::MIN, 0), (i32::MAX, 0), 1, 0), range_fault(Axis::X, i32::MIN, MIN_COORD)),
        (step((7, 7), (7, 7), 1, 0), SegmentFault::EqualEnds),
        (step((0, 0), (1, 0), 0, 0), SegmentFault::Count),
        (step((0, 0), (1, 0), i32::MIN, 0), SegmentFault::Count),
        (step((1, 0), (0, 0), 0, i32::MIN), SegmentFault::Count),
    ];
    for (bad, fault) in cases {
        let mut segments = good.clone();
        segments.insert(3, bad);
        let refused = overlay.build_graph(&segments, OverlayRule::Union, FillRule::NonZero).err();
        assert_eq!(refused, Some(Error::Segment { index: 3, fault }));
        assert!(overlay.segments().unwrap().is_empty());
        // The engine can be used again.
        assert!(overlay.build_graph(&good, OverlayRule::Union, FillRule::NonZero).is_ok());
    }
    let edge = [step((MIN_COORD, MIN_COORD), (MAX_COORD, MAX_COORD), -i32::MAX, i32::MAX)];
    assert!(overlay.build_graph(&edge, OverlayRule::Union, FillRule::NonZero).is_ok());
}

/// The text of an error says what is wrong, and what to do.
#[test]
fn texts_of_errors() {
    let mut overlay = Overlay::new().unwrap();
    let mut text = |a, b, subj, clip| {
        let segment = Segment { a: IntPoint::from(a), b: IntPoint::from(b), count: ShapeCountBoolean { subj, clip } };
        overlay.split(&[segment], Solver::AUTO).unwrap_err().to_string()
    };
    assert_eq!(text((0, 0), (1, MIN_COORD - 1), 1, 0), "segment 0: y is -1073741825, the least is -1073741824");
    assert_eq!(text((7, 7), (7, 7), 1, 0), "segment 0: both ends are one point; leave it out");
    let counts =
        "its counts have to be from -2147483647 to 2147483647, one of them not 0 (of a line: a mask from 1 to 3)";
    assert_eq!(text((0, 0), (1, 0), 0, 0), format!("segment 0: {counts}"));
    assert_eq!(Fault::Memory.to_string(), "out of memory; the overlay can be used again");
}

/// The engine of 16 bits takes its whole range and no more, and names the segment that leaves it.
#[test]
fn the_range_of_each_engine() {
    let mut overlay = Overlay::new().unwrap().with_engine(Engine::I16);
    let count = ShapeType::Subject.direct_count();
    let step = |a: (i32, i32), b: (i32, i32)| Segment { a: IntPoint::new(a.0, a.1), b: IntPoint::new(b.0, b.1), count };
    let widest = step((-16_384, 16_383), (16_383, -16_384));
    assert!(!overlay.split(&[widest], Solver::AUTO).unwrap().has_changed);
    assert_eq!(overlay.segments().unwrap(), [widest]);
    let cases = [
        (step((0, 0), (16_384, 0)), range_fault(Axis::X, 16_384, 16_383)),
        (step((0, -16_385), (1, 0)), range_fault(Axis::Y, -16_385, -16_384)),
        (step((i32::MIN, 0), (65_536, 0)), range_fault(Axis::X, i32::MIN, -16_384)),
    ];
    for (bad, fault) in cases {
        let range = |index| Err(Error::Segment { index, fault });
        let given = [widest, bad];
        assert_eq!(overlay.split(&given, Solver::AUTO), range(1));
        assert!(overlay.segments().unwrap().is_empty());
        assert_eq!(overlay.join(&given), range(1));
        assert_eq!(overlay.build_all(&given, FillRule::NonZero, Solver::AUTO).err(), range(1).err());
        let data =
            overlay.build_graph_with_data(&numbered(&given, 0), OverlayRule::Union, FillRule::NonZero, Solver::AUTO);
        assert_eq!(data.err(), range(1).err());
        let line = LineSegment::line(bad.a, bad.b);
        assert_eq!(
            overlay.build_clip(&[line], ClipRule::default(), FillRule::NonZero, Solver::AUTO).err(),
            range(0).err()
        );
    }
    overlay = overlay.with_engine(Engine::I32);
    assert!(overlay.split(&[step((0, 0), (16_384, 0))], Solver::AUTO).is_ok());
}

/// Where crossings have whole coordinates both engines return the same.
#[test]
fn both_engines_on_exact_input() {
    let [mut wide, mut narrow] = [Engine::I32, Engine::I16].map(|engine| Overlay::new().unwrap().with_engine(engine));
    let sides = numbered(&two_squares(), 3);
    for (rule, fill) in FILLS.iter().flat_map(|&fill| RULES.map(|rule| (rule, fill))) {
        let first = wide.build_graph_with_data(&sides, rule, fill, Solver::AUTO).unwrap();
        let second = narrow.build_graph_with_data(&sides, rule, fill, Solver::AUTO).unwrap();
        assert_eq!((first.links(), first.data()), (second.links(), second.data()));
        assert!(first.nodes().eq(second.nodes()));
        assert_eq!(wide.segments().unwrap(), narrow.segments().unwrap());
        let contours = |overlay: &mut Overlay| overlay.build_contours(&two_squares(), rule, fill, Solver::AUTO);
        assert_eq!(contours(&mut wide), contours(&mut narrow));
    }
}

#[test]
fn counts_that_leave_the_range() {
    let mut overlay = Overlay::new().unwrap();
    let (a, b) = (IntPoint::ZERO, IntPoint::new(5, 0));
    let big = Segment { a, b, count: ShapeCountBoolean { subj: i32::MAX, clip: 0 } };
    let refused = overlay.build_graph(&[big, big], OverlayRule::Union, FillRule::NonZero).err();
    assert_eq!(refused, Some(Error::Fault(Fault::CountOutOfRange)));
    assert_eq!(
        refused.unwrap().to_string(),
        "a sum of winding counts leaves -2147483647..=2147483647; give smaller counts"
    );
}

/// The arrangement stays where the graph alone is refused, and nothing does where the split is.
#[test]
fn what_stands_after_a_refusal() {
    let mut overlay = Overlay::new().unwrap();
    let count = ShapeCountBoolean { subj: i32::MAX, clip: 0 };
    let step = |y| Segment { a: IntPoint::new(0, y), b: IntPoint::new(5, y), count };
    let fault = Some(Error::Fault(Fault::CountOutOfRange));
    let stacked = [step(0), step(3)];
    let mut refused = |given: &[Segment]| {
        let graph = overlay.build_graph(given, OverlayRule::Union, FillRule::NonZero).err();
        let kept = overlay.segments().unwrap().to_vec();
        let all = overlay.build_all(given, FillRule::NonZero, Solver::AUTO).err();
        assert_eq!((graph, all, overlay.segments().unwrap()), (fault, fault, kept.as_slice()));
        let sides = numbered(given, 0);
        let data = overlay.build_graph_with_data(&sides, OverlayRule::Union, FillRule::NonZero, Solver::AUTO).err();
        assert_eq!((data, overlay.segments().unwrap()), (fault, kept.as_slice()));
        kept
    };
    assert_eq!(refused(&stacked), stacked);
    assert_eq!(refused(&[step(0), step(0)]), []);
}

/// The segments of the call before do not stay after a join that is refused, whatever it is refused
/// for.
#[test]
fn nothing_stands_after_a_refused_join() {
    let mut overlay = Overlay::new().unwrap();
    let step =
        |x, subj| Segment { a: IntPoint::ZERO, b: IntPoint::new(x, 0), count: ShapeCountBoolean { subj, clip: 0 } };
    let refusals = [
        ([step(5, i32::MAX), step(5, 1)], Error::Fault(Fault::CountOutOfRange)),
        ([step(5, 1), step(0, 1)], Error::Segment { index: 1, fault: SegmentFault::EqualEnds }),
    ];
    for (given, error) in refusals {
        overlay.join(&two_squares()).unwrap();
        assert_eq!(overlay.segments().unwrap().len(), 8);
        assert_eq!(overlay.join(&given), Err(error));
        assert!(overlay.segments().unwrap().is_empty());
    }
    overlay.join(&[step(5, i32::MAX)]).unwrap();
    assert_eq!(overlay.segments().unwrap(), [step(5, i32::MAX)]);
}

#[test]
fn a_path_that_does_not_close() {
    let mut overlay = Overlay::new().unwrap();
    let open = &two_squares()[..3];
    let contours = overlay.build_contours(open, OverlayRule::Subject, FillRule::NonZero, Solver::AUTO);
    assert_eq!(contours, Ok(None));
    assert!(overlay.build_graph(open, OverlayRule::Subject, FillRule::NonZero).is_ok());
}

#[test]
fn random_polygons() {
    let mut overlay = Overlay::new().unwrap();
    let mut random = Random(7);
    for round in 0..300 {
        let mut segments = Vec::new();
        for shape in [ShapeType::Subject, ShapeType::Clip] {
            let size = 3 + random.below(30);
            let range = 4 + random.below(if round % 2 == 0 { 12 } else { 1000 });
            let contour: Vec<IntPoint> =
                (0..size).map(|_| IntPoint::new(random.below(range), random.below(range))).collect();
            shape.push_contour(&contour, &mut segments).unwrap();
        }
        for fill in FILLS {
            for rule in RULES {
                well_formed(&mut overlay, &segments, rule, fill);
            }
        }
    }
}

/// Tests a result: links in order, ends at nodes in order, indexes that fit, even nodes, walks that
/// pass each link once, and the same result by each strategy.
fn well_formed(overlay: &mut Overlay, segments: &[Segment], rule: OverlayRule, fill: FillRule) {
    let graph = overlay.build_graph(segments, rule, fill).unwrap();
    let links = graph.links().to_vec();
    assert!(links.windows(2).all(|pair| (pair[0].a.point, pair[0].b.point) < (pair[1].a.point, pair[1].b.point)));
    let mut points = HashMap::new();
    for end in links.iter().flat_map(|link| [link.a, link.b]) {
        assert_eq!(*points.entry(end.id).or_insert(end.point), end.point);
    }
    assert_eq!(points.len(), graph.node_count());
    for (id, node) in graph.nodes().enumerate() {
        let indexes = match &node {
            OverlayNode::Bridge(two) => two.as_slice(),
            OverlayNode::Cross(several) => several,
        };
        assert_eq!(indexes.len() % 2, 0);
        assert!(indexes.iter().all(|&index| links[index].a.id == id || links[index].b.id == id));
        assert!(id == 0 || points[&(id - 1)] < points[&id]);
    }
    let contours = overlay.build_contours(segments, rule, fill, Solver::AUTO).unwrap().unwrap();
    assert_eq!(contours.iter().map(Vec::len).sum::<usize>(), links.len());
    for strategy in [Strategy::List, Strategy::Tree, Strategy::Frag] {
        let solver = Solver { strategy, precision: Precision::HIGH };
        let again = overlay.build_graph_with_solver(segments, rule, fill, solver).unwrap();
        assert_eq!(again.links(), links);
    }
}
