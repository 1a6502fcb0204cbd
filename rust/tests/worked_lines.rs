//! Lines cut by a square, worked by hand, under each strategy and with both engines.

use fadrinzo::{
    ClipRule, Engine, Error, Fault, FillRule, IntPoint, LineSegment, Overlay, Precision, Rounding, SegmentFill, Solver,
    Strategy,
};

/// A segment as the tables write it: from, to, the count for the subject, the mask of the line.
type Row = ((i32, i32), (i32, i32), i32, u8);

/// A link as the tables write it: from, to, the fill.
type LinkRow = ((i32, i32), (i32, i32), SegmentFill);

const STRATEGIES: [Strategy; 4] = [Strategy::List, Strategy::Tree, Strategy::Frag, Strategy::Auto];

const INSIDE: ClipRule = ClipRule { invert: false, boundary_included: false };

/// A square with corners (0, 0) and (10, 10), run counterclockwise.
const SQUARE: [Row; 4] =
    [((0, 0), (10, 0), 1, 0), ((10, 0), (10, 10), 1, 0), ((10, 10), (0, 10), 1, 0), ((0, 10), (0, 0), 1, 0)];

/// A line through the square, one along its lower side, and the same run back.
const THROUGH: Row = ((-5, 5), (15, 5), 0, 2);

const ALONG: Row = ((0, 0), (10, 0), 0, 2);

const BACK: Row = ((10, 0), (0, 0), 0, 2);

/// The line, inverted, boundary included, and the links that are left.
const CUTS: [(&str, Row, bool, bool, &[LinkRow]); 12] = [
    ("in", THROUGH, false, false, &[((0, 5), (10, 5), 11)]),
    ("in or on", THROUGH, false, true, &[((0, 5), (10, 5), 11)]),
    ("out or on", THROUGH, true, false, &[((-5, 5), (0, 5), 8), ((10, 5), (15, 5), 8)]),
    ("out", THROUGH, true, true, &[((-5, 5), (0, 5), 8), ((10, 5), (15, 5), 8)]),
    ("a side, in", ALONG, false, false, &[]),
    ("a side, in or on", ALONG, false, true, &[((0, 0), (10, 0), 9)]),
    ("a side, out or on", ALONG, true, false, &[((0, 0), (10, 0), 9)]),
    ("a side, out", ALONG, true, true, &[]),
    ("back, in", BACK, false, false, &[]),
    ("back, in or on", BACK, false, true, &[((0, 0), (10, 0), 5)]),
    ("back, out or on", BACK, true, false, &[((0, 0), (10, 0), 5)]),
    ("back, out", BACK, true, true, &[]),
];

fn segments(rows: &[Row]) -> Vec<LineSegment> {
    let segment = |&(a, b, subj, mask): &Row| LineSegment { a: a.into(), b: b.into(), subj, mask };
    rows.iter().map(segment).collect()
}

fn rows(lines: &[LineSegment]) -> Vec<Row> {
    lines.iter().map(|it| (it.a.into(), it.b.into(), it.subj, it.mask)).collect()
}

/// A solver with a strategy, at the precision that upstream takes.
fn high(strategy: Strategy) -> Solver {
    Solver { strategy, precision: Precision::HIGH }
}

/// The links of a line that is cut by the square.
fn cut(overlay: &mut Overlay, line: Row, solver: Solver, fill: FillRule, rule: ClipRule) -> Vec<LinkRow> {
    let given = segments(&[SQUARE.as_slice(), &[line]].concat());
    let graph = overlay.build_clip(&given, rule, fill, solver).unwrap();
    graph.links().iter().map(|link| (link.a.point.into(), link.b.point.into(), link.fill)).collect()
}

/// The square winds once around its inside, which is odd, not 0 and positive.
#[test]
fn lines_over_a_square() {
    for engine in [Engine::I16, Engine::I32] {
        let mut overlay = Overlay::new().unwrap().with_rounding(Rounding::Pairwise).with_engine(engine);
        for solver in STRATEGIES.map(high) {
            for fill in [FillRule::EvenOdd, FillRule::NonZero, FillRule::Positive] {
                for (name, line, invert, boundary_included, links) in CUTS {
                    let rule = ClipRule { invert, boundary_included };
                    let found = cut(&mut overlay, line, solver, fill, rule);
                    assert_eq!(found, links, "{name} {engine:?} {solver:?} {fill:?}");
                }
            }
        }
    }
}

/// Nothing has a negative winding, so a line through the square is outside with all its parts.
#[test]
fn a_line_over_a_square_without_inside() {
    let parts: &[LinkRow] = &[((-5, 5), (0, 5), 8), ((0, 5), (10, 5), 8), ((10, 5), (15, 5), 8)];
    for engine in [Engine::I16, Engine::I32] {
        let mut overlay = Overlay::new().unwrap().with_rounding(Rounding::Pairwise).with_engine(engine);
        for solver in STRATEGIES.map(high) {
            for (invert, boundary_included) in [(false, false), (false, true), (true, false), (true, true)] {
                let rule = ClipRule { invert, boundary_included };
                let wanted = if invert { parts } else { &[] };
                assert_eq!(cut(&mut overlay, THROUGH, solver, FillRule::Negative, rule), wanted, "{solver:?} {rule:?}");
            }
        }
    }
}

/// A line along the lower side, or one back, becomes a mask of that side.
#[test]
fn a_line_joins_a_side() {
    let mut overlay = Overlay::new().unwrap().with_rounding(Rounding::Pairwise);
    for solver in STRATEGIES.map(high) {
        for (line, mask) in [(ALONG, 2), (BACK, 1)] {
            cut(&mut overlay, line, solver, FillRule::NonZero, INSIDE);
            let after = rows(overlay.lines().unwrap());
            assert!(after.len() == 4 && after.contains(&((0, 0), (10, 0), 1, mask)), "{after:?}");
        }
    }
}

const LEAVES_RANGE: Error = Error::Fault(Fault::CountOutOfRange);

/// Lists on one pair of ends, or one above the other, how many links are left of them, and the lines after the call. On one
/// pair the split refuses counts that leave the range, and one above the other the build does.
const COUNTS: [(&[Row], Result<usize, Error>, &[Row]); 5] = [
    (&[((0, 0), (4, 0), i32::MAX, 1), ((0, 0), (4, 0), -i32::MAX, 2)], Ok(0), &[((0, 0), (4, 0), 0, 3)]),
    (&[((0, 0), (4, 0), i32::MAX, 1), ((0, 0), (4, 0), 1, 0)], Err(LEAVES_RANGE), &[]),
    (&[((0, 0), (4, 0), i32::MAX, 2), ((0, 0), (4, 0), 1, 0)], Err(LEAVES_RANGE), &[]),
    (
        &[((0, 0), (4, 0), i32::MAX, 0), ((0, 1), (4, 1), i32::MAX, 2)],
        Err(LEAVES_RANGE),
        &[((0, 0), (4, 0), i32::MAX, 0), ((0, 1), (4, 1), i32::MAX, 2)],
    ),
    (&[], Ok(0), &[]),
];

#[test]
fn counts_of_lines() {
    let mut overlay = Overlay::new().unwrap().with_rounding(Rounding::Pairwise);
    for solver in STRATEGIES.map(high) {
        for (given, wanted, left) in COUNTS {
            let built = overlay.build_clip(&segments(given), INSIDE, FillRule::NonZero, solver);
            assert_eq!(built.map(|graph| graph.links().len()), wanted, "{given:?}");
            assert_eq!(rows(overlay.lines().unwrap()), left, "{given:?}");
        }
    }
}

/// The parts of a line inside a square, as a program finds them.
#[test]
fn a_part_inside() {
    let mut given = segments(&SQUARE);
    given.push(LineSegment::line(IntPoint::new(-5, 5), IntPoint::new(15, 5)));
    let mut overlay = Overlay::new().unwrap().with_rounding(Rounding::Pairwise);
    let graph = overlay.build_clip(&given, INSIDE, FillRule::NonZero, Solver::AUTO).unwrap();
    let ends: Vec<_> = graph.links().iter().map(|link| (link.a.point, link.b.point)).collect();
    assert_eq!(ends, [(IntPoint::new(0, 5), IntPoint::new(10, 5))]);
}
