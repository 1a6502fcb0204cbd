//! One table of all rules, truth tables, fill rules, roundings, strategies and refusals over two inputs. What a call has to return is
//! found from definitions: how often contours wind around the middle of each unit square, which windings a fill rule counts as
//! inside, and what a rule says of inside and outside.

use fadrinzo::{
    doubled_area, Axis, Engine, Error, FillRule, FloatOverlay, FloatPointAdapter, IntContour, IntPoint, IntShape,
    Overlay, OverlayRule, PointLocation, RangeFault, Rounding, RuleTable, Segment, SegmentFault, ShapeType, Solver,
    MAX_COORD, MIN_COORD,
};

const FILLS: [FillRule; 4] = [FillRule::EvenOdd, FillRule::NonZero, FillRule::Positive, FillRule::Negative];
const SOLVERS: [Solver; 4] = [Solver::LIST, Solver::TREE, Solver::FRAG, Solver::AUTO];

type Named = fn(bool, bool) -> bool;
type Holds = Box<dyn Fn(bool, bool) -> bool>;

/// Each rule, with what it says of a point inside the subject or not, and inside the clip or not.
fn rules() -> Vec<(OverlayRule, Holds)> {
    let named: [(OverlayRule, Named); 7] = [
        (OverlayRule::Subject, |s, _| s),
        (OverlayRule::Clip, |_, c| c),
        (OverlayRule::Intersect, |s, c| s && c),
        (OverlayRule::Union, |s, c| s || c),
        (OverlayRule::Difference, |s, c| s && !c),
        (OverlayRule::InverseDifference, |s, c| c && !s),
        (OverlayRule::Xor, |s, c| s != c),
    ];
    let tables = (0..16).map(|bits: u8| {
        let table = RuleTable::new(bits).expect("below 16");
        let holds = move |s, c| bits / [[1, 4], [2, 8]][usize::from(s)][usize::from(c)] % 2 == 1;
        (OverlayRule::Table(table), Box::new(holds) as Holds)
    });
    named.into_iter().map(|(rule, holds)| (rule, Box::new(holds) as Holds)).chain(tables).collect()
}

fn is_inside(fill: FillRule, winds: i32) -> bool {
    match fill {
        FillRule::EvenOdd => winds % 2 != 0,
        FillRule::NonZero => winds != 0,
        FillRule::Positive => winds > 0,
        FillRule::Negative => winds < 0,
    }
}

/// How often contours wind around (x + 1/2, y + 1/2), which lies on none of their steps.
fn winding(contours: &[IntContour], x: i32, y: i32) -> i32 {
    let from = |p: IntPoint| [i64::from(p.x) * 2 - i64::from(2 * x + 1), i64::from(p.y) * 2 - i64::from(2 * y + 1)];
    let steps = contours.iter().flat_map(|it| it.iter().zip(it.iter().cycle().skip(1)));
    let winds = steps.map(|(&a, &b)| {
        let ([ax, ay], [bx, by]) = (from(a), from(b));
        let turn = ax * by - ay * bx;
        i32::from(ay <= 0 && by > 0 && turn > 0) - i32::from(by <= 0 && ay > 0 && turn < 0)
    });
    winds.sum()
}

fn contour(points: &[[i32; 2]]) -> IntContour {
    points.iter().copied().map(IntPoint::from).collect()
}

fn rectangle([left, bottom, right, top]: [i32; 4]) -> IntContour {
    contour(&[[left, bottom], [right, bottom], [right, top], [left, top]])
}

fn reversed(mut contour: IntContour) -> IntContour {
    contour.reverse();
    contour
}

/// Contours of a subject and of a clip, and whether all of their edges cross at whole points.
struct Input {
    sides: [Vec<IntContour>; 2],
    is_exact: bool,
}

/// Contours that wind -1, 0, 1 and 2 times, and triangles whose edges cross at (12.5, 12.5).
fn inputs() -> [Input; 2] {
    let subject = [[0, 0, 12, 12], [2, 2, 10, 10]].map(rectangle).into_iter();
    let clip = [[4, 1, 18, 9], [6, 3, 15, 8]].map(rectangle).into_iter();
    let squares = [
        subject.chain([reversed(rectangle([8, 6, 20, 20]))]).collect(),
        clip.chain([reversed(rectangle([1, 5, 14, 17]))]).collect(),
    ];
    let triangles = [vec![contour(&[[0, 0], [25, 25], [0, 25]])], vec![contour(&[[0, 25], [25, 0], [25, 25]])]];
    [Input { sides: squares, is_exact: true }, Input { sides: triangles, is_exact: false }]
}

impl Input {
    fn overlay(&self) -> Overlay {
        Overlay::with_contours(&self.sides[0], &self.sides[1]).unwrap()
    }

    /// The unit squares whose middles are far from edges that rounding moves.
    fn middles(&self) -> impl Iterator<Item = (i32, i32)> + '_ {
        let all = (-2..26_i32).flat_map(|x| (-2..26_i32).map(move |y| (x, y)));
        all.filter(|&(x, y)| self.is_exact || ((x - y).abs() > 4 && (x + y - 24).abs() > 4))
    }

    /// Checks that contours wind as a rule says, and once less where it holds outside.
    fn check(&self, found: &[IntContour], holds: &Holds, fill: FillRule, of: &str) {
        for (x, y) in self.middles() {
            let [s, c] = [0, 1].map(|side: usize| is_inside(fill, winding(&self.sides[side], x, y)));
            let wanted = i32::from(holds(s, c)) - i32::from(holds(false, false));
            assert_eq!(winding(found, x, y), wanted, "{of}, {fill}, at {x} {y}");
        }
    }

    /// Checks passes and reach: snap rounding moves the one crossing by half a unit, in one pass, and passes over pairs
    /// move it farther.
    fn check_report(&self, (passes, reach): (u128, u128), rounding: Rounding, of: &str) {
        let hot = u128::from(!self.is_exact);
        match rounding {
            Rounding::HotPixels => assert_eq!((passes, reach), (1, hot), "{of}"),
            Rounding::Pairwise => assert_eq!((reach > 1, passes > 1), (hot > 0, hot > 0), "{of}"),
        }
    }
}

/// Checks shapes, and returns their contours.
fn contours_of(shapes: Vec<IntShape>, holds: &Holds) -> Vec<IntContour> {
    for shape in shapes.iter().filter(|_| !holds(false, false)) {
        assert!(doubled_area(&shape[0]) > 0 && shape[1..].iter().all(|hole| doubled_area(hole) < 0), "{shape:?}");
    }
    shapes.concat()
}

fn goes_straight_on(contour: &IntContour) -> bool {
    (0..contour.len()).any(|index| {
        let [a, b, c] = [0, 1, 2].map(|more| contour[(index + more) % contour.len()]);
        let wide = |p: i32, q: i32| i64::from(p) - i64::from(q);
        wide(b.x, a.x) * wide(c.y, b.y) == wide(b.y, a.y) * wide(c.x, b.x)
    })
}

#[test]
fn overlays_are_as_the_definitions_say() {
    for (input, rounding) in inputs().iter().flat_map(|it| [(it, Rounding::HotPixels), (it, Rounding::Pairwise)]) {
        let mut overlay = input.overlay().with_rounding(rounding);
        for fill in FILLS {
            let all: Vec<OverlayRule> = rules().into_iter().map(|(rule, _)| rule).collect();
            let by_rules = overlay.overlay_by_rules(&all, fill).unwrap();
            assert_eq!(by_rules.len(), all.len());
            for ((rule, holds), of_rules) in rules().into_iter().zip(by_rules) {
                let of = format!("{rounding}, {rule}");
                input.check(&of_rules, &holds, fill, &of);
                let contours = overlay.overlay(rule, fill).unwrap();
                input.check(&contours, &holds, fill, &of);
                let solver = SOLVERS[contours.len() % 4];
                assert_eq!(overlay.overlay_with_solver(rule, fill, solver).unwrap(), contours, "{of}");
                let shapes = overlay.overlay_shapes(rule, fill).unwrap();
                assert_eq!(overlay.overlay_shapes_with_solver(rule, fill, solver).unwrap(), shapes, "{of}");
                input.check(&contours_of(shapes, &holds), &holds, fill, &of);
                input.check_report((overlay.passes(), overlay.reach()), rounding, &of);
            }
        }
    }
}

#[test]
fn arrangements_are_as_the_definitions_say() {
    for (input, rounding) in inputs().iter().flat_map(|it| [(it, Rounding::HotPixels), (it, Rounding::Pairwise)]) {
        let mut overlay = input.overlay().with_rounding(rounding);
        for fill in FILLS {
            let mut arrangement = overlay.arrange(fill).unwrap();
            input.check_report((arrangement.passes(), arrangement.reach()), rounding, &fill.to_string());
            for (rule, holds) in rules() {
                let of = format!("{rounding}, {rule}");
                let corners = arrangement.contours_without_collinear(rule).unwrap();
                let shapes = arrangement.shapes_without_collinear(rule).unwrap();
                input.check(&corners, &holds, fill, &of);
                let of_shapes = contours_of(shapes, &holds);
                assert!(!corners.iter().chain(&of_shapes).any(goes_straight_on), "{of}");
                input.check(&of_shapes, &holds, fill, &of);
                input.check(&arrangement.contours(rule).unwrap(), &holds, fill, &of);
                input.check(&contours_of(arrangement.shapes(rule).unwrap(), &holds), &holds, fill, &of);
            }
        }
    }
}

/// An arrangement reports its own run, whatever the last overlay reports, and leaves that.
#[test]
fn arrangements_report_their_own_run() {
    let [squares, triangles] = inputs();
    for (overlaid, arranged) in [(&squares, &triangles), (&triangles, &squares)] {
        let mut overlay = overlaid.overlay();
        overlay.overlay(OverlayRule::Union, FillRule::NonZero).unwrap();
        overlay.clear();
        for (side, shape_type) in arranged.sides.iter().zip([ShapeType::Subject, ShapeType::Clip]) {
            side.iter().for_each(|it| overlay.add_contour(it, shape_type).unwrap());
        }
        let mut arrangement = overlay.arrange(FillRule::NonZero).unwrap();
        arranged.check_report((arrangement.passes(), arrangement.reach()), Rounding::HotPixels, "arranged");
        arrangement.contours(OverlayRule::Union).unwrap();
        arranged.check_report((arrangement.passes(), arrangement.reach()), Rounding::HotPixels, "arranged");
        overlaid.check_report((overlay.passes(), overlay.reach()), Rounding::HotPixels, "overlaid");
    }
}

fn segments_of(input: &Input) -> Vec<Segment> {
    let mut segments = Vec::new();
    for (side, shape_type) in [ShapeType::Subject, ShapeType::Clip].into_iter().enumerate() {
        input.sides[side].iter().for_each(|it| shape_type.push_contour(it, &mut segments).unwrap());
    }
    segments
}

/// Links have the rule on one of their sides alone, with the fills that the windings beside them say.
#[test]
fn graphs_are_as_the_definitions_say() {
    let [input, _] = inputs();
    let segments = segments_of(&input);
    for (engine, fill) in [Engine::I32, Engine::I16].into_iter().flat_map(|engine| FILLS.map(|fill| (engine, fill))) {
        let mut overlay = Overlay::new().unwrap().with_engine(engine);
        for (rule, holds) in rules() {
            // the units of all edges on which the rule changes from one side to the other
            let inside = |x: i32, y: i32| [0, 1].map(|side: usize| is_inside(fill, winding(&input.sides[side], x, y)));
            let mut wanted = 0;
            for (x, y) in (-2..26).flat_map(|x| (-2..26).map(move |y| (x, y))) {
                let [here, left, below] = [inside(x, y), inside(x - 1, y), inside(x, y - 1)].map(|[s, c]| holds(s, c));
                wanted += i32::from(here != left) + i32::from(here != below);
            }
            let graph = overlay.build_graph(&segments, rule, fill).unwrap();
            let mut units = 0;
            for link in graph.links() {
                let (a, b) = (link.a.point, link.b.point);
                units += (b.x - a.x) + (b.y - a.y);
                // a vertical link has its left on top
                let [top, bottom] = if a.x == b.x {
                    [inside(a.x - 1, a.y), inside(a.x, a.y)]
                } else {
                    [inside(a.x, a.y), inside(a.x, a.y - 1)]
                };
                let bits = [(top[0], 1), (bottom[0], 2), (top[1], 4), (bottom[1], 8)];
                let fills: u8 = bits.iter().map(|&(is_there, bit)| if is_there { bit } else { 0 }).sum();
                assert_eq!(link.fill, fills, "{engine}, {rule}, {fill}, {a:?} {b:?}");
                assert_ne!(holds(top[0], top[1]), holds(bottom[0], bottom[1]), "{rule}, {fill}");
            }
            assert_eq!(units, wanted, "{engine}, {rule}, {fill}");
            let walks = overlay.build_contours(&segments, rule, fill, Solver::AUTO).unwrap().unwrap();
            let length = |it: &IntContour| -> i32 {
                it.iter().zip(it.iter().cycle().skip(1)).map(|(p, q)| (p.x - q.x).abs() + (p.y - q.y).abs()).sum()
            };
            assert_eq!(walks.iter().map(length).sum::<i32>(), wanted, "{engine}, {rule}, {fill}");
        }
    }
}

#[test]
fn points_lie_where_the_windings_say() {
    let [input, _] = inputs();
    let doubled = |it: &IntContour| it.iter().map(|at| IntPoint::new(2 * at.x, 2 * at.y)).collect::<IntContour>();
    let sides = [0, 1].map(|side: usize| input.sides[side].iter().map(doubled).collect::<Vec<_>>());
    let mut overlay = Overlay::with_contours(&sides[0], &sides[1]).unwrap();
    for (side, shape) in [ShapeType::Subject, ShapeType::Clip].into_iter().enumerate() {
        for fill in FILLS {
            for (x, y) in input.middles() {
                let is_there = is_inside(fill, winding(&input.sides[side], x, y));
                let wanted = if is_there { PointLocation::Inside } else { PointLocation::Outside };
                assert_eq!(
                    overlay.locate_point(shape, fill, IntPoint::new(2 * x + 1, 2 * y + 1)),
                    wanted,
                    "{shape} {x} {y}"
                );
            }
            for &corner in sides[side].iter().flatten() {
                assert_eq!(overlay.locate_point(shape, fill, corner), PointLocation::OnBoundary);
            }
            for far in [[MAX_COORD + 1, 0], [0, MIN_COORD - 1], [i32::MIN, i32::MAX]].map(IntPoint::from) {
                assert_eq!(overlay.locate_point(shape, fill, far), PointLocation::Outside);
            }
        }
    }
}

/// Polygons are added whichever way their rings run, in whole numbers and in floats, which are rounded to the nearest.
#[test]
fn polygons_and_floats_are_as_the_definitions_say() {
    let [outer, hole] = [[0, 0, 12, 12], [3, 4, 9, 8]].map(rectangle);
    let polygon = Input { sides: [vec![outer.clone(), reversed(hole.clone())], vec![]], is_exact: true };
    let holds: Holds = Box::new(|s, _| s);
    let adapter = FloatPointAdapter::with_scale([0.0; 2], [24.0; 2], 0.5).unwrap();
    let float =
        |at: &IntPoint| [f64::from(at.x) * 2.0 - 0.9, f64::from(at.y) * 2.0 + 0.9].map(|it: f64| it.clamp(0.0, 24.0));
    for turns in 0..4 {
        let ring = |it: &IntContour, is_turned| if is_turned { reversed(it.clone()) } else { it.clone() };
        let [outer, hole] = [ring(&outer, turns % 2 == 1), ring(&hole, turns / 2 == 1)];
        let mut overlay = Overlay::new().unwrap();
        overlay.add_polygon(&outer, std::slice::from_ref(&hole), ShapeType::Subject).unwrap();
        for fill in FILLS {
            let found = overlay.overlay_shapes(OverlayRule::Subject, fill).unwrap();
            polygon.check(&contours_of(found, &holds), &holds, fill, "add_polygon");
        }
        let floats = [outer, hole].map(|it| it.iter().map(float).collect::<Vec<_>>());
        let mut overlay = FloatOverlay::with_adapter(adapter).unwrap();
        overlay.add_polygon(&floats[0], &floats[1..], ShapeType::Subject).unwrap();
        let found = overlay.overlay_shapes(OverlayRule::Subject, FillRule::NonZero).unwrap().concat();
        assert_eq!(overlay.overlay(OverlayRule::Subject, FillRule::NonZero).unwrap(), found);
        let whole = |it: &Vec<[f64; 2]>| it.iter().map(|at| IntPoint::from(at.map(|it| (it / 2.0) as i32))).collect();
        assert!(found.iter().flatten().flatten().all(|it| it % 2.0 == 0.0), "{found:?}");
        polygon.check(&found.iter().map(whole).collect::<Vec<_>>(), &holds, FillRule::NonZero, "floats");
        assert!((overlay.reach() - 1.0).abs() < 1e-9, "{}", overlay.reach());
    }
}

#[test]
fn refusals_are_named() {
    let ends = [(MIN_COORD, MIN_COORD - 1), (MAX_COORD, MAX_COORD + 1)];
    for ((bound, value), axis) in ends.into_iter().flat_map(|end| [(end, Axis::X), (end, Axis::Y)]) {
        let at = |value| if axis == Axis::X { IntPoint::new(value, 1) } else { IntPoint::new(1, value) };
        let fault = RangeFault { axis, value, bound };
        let mut overlay = Overlay::new().unwrap();
        overlay.add_contour(&[at(bound)], ShapeType::Clip).unwrap();
        let wanted = Err(Error::Point { shape_type: ShapeType::Clip, contour: 1, point: 2, fault });
        let bad = [at(0), at(1), at(value)];
        assert_eq!(overlay.add_contour(&bad, ShapeType::Clip), wanted);
        assert_eq!(overlay.add_polygon(&bad.to_vec(), &[], ShapeType::Clip), wanted);
        let segment = |a, b| Segment { a, b, count: ShapeType::Subject.direct_count() };
        let refused = overlay.split(&[segment(at(0), at(bound)), segment(at(value), at(0))], Solver::AUTO);
        assert_eq!(refused.unwrap_err(), Error::Segment { index: 1, fault: SegmentFault::Range(fault) });
        let refused = overlay.join(&[segment(at(0), at(0))]).unwrap_err();
        assert_eq!(refused, Error::Segment { index: 0, fault: SegmentFault::EqualEnds });
        let uncounted = Segment { count: Default::default(), ..segment(at(0), at(1)) };
        let refused = overlay.build_graph(&[uncounted], OverlayRule::Union, FillRule::NonZero).unwrap_err();
        assert_eq!(refused, Error::Segment { index: 0, fault: SegmentFault::Count });
    }
    assert!((16..=255).all(|bits| RuleTable::new(bits).is_none()));
}
