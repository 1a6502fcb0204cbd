//! Overlays of segments worked by hand, under each strategy and with both engines.

use fadrinzo::{
    Engine, Error, Fault, FillRule, IntPoint, Overlay, OverlayNode, OverlayRule, Precision, Rounding, Segment,
    ShapeCountBoolean, Solver, Strategy,
};

/// A segment as the tables write it: from, to, the counts for the subject and the clip.
type Row = ((i32, i32), (i32, i32), i32, i32);

const STRATEGIES: [Strategy; 4] = [Strategy::List, Strategy::Tree, Strategy::Frag, Strategy::Auto];

const FILL_RULES: [FillRule; 4] = [FillRule::EvenOdd, FillRule::NonZero, FillRule::Positive, FillRule::Negative];

/// A subject square with corners (0, 0) and (4, 4), and a clip square with corners (2, 2) and (6, 6).
const SQUARES: [Row; 8] = [
    ((0, 0), (4, 0), 1, 0),
    ((4, 0), (4, 4), 1, 0),
    ((4, 4), (0, 4), 1, 0),
    ((0, 4), (0, 0), 1, 0),
    ((2, 2), (6, 2), 0, 1),
    ((6, 2), (6, 6), 0, 1),
    ((6, 6), (2, 6), 0, 1),
    ((2, 6), (2, 2), 0, 1),
];

/// The same after the split.
const SPLIT_SQUARES: [Row; 12] = [
    ((0, 0), (0, 4), -1, 0),
    ((0, 0), (4, 0), 1, 0),
    ((0, 4), (2, 4), -1, 0),
    ((2, 2), (2, 4), 0, -1),
    ((2, 2), (4, 2), 0, 1),
    ((2, 4), (2, 6), 0, -1),
    ((2, 4), (4, 4), -1, 0),
    ((2, 6), (6, 6), 0, -1),
    ((4, 0), (4, 2), 1, 0),
    ((4, 2), (4, 4), 1, 0),
    ((4, 2), (6, 2), 0, 1),
    ((6, 2), (6, 6), 0, 1),
];

/// What each rule keeps of them.
const KEPT: [(OverlayRule, &[usize]); 7] = [
    (OverlayRule::Subject, &[0, 1, 2, 6, 8, 9]),
    (OverlayRule::Clip, &[3, 4, 5, 7, 10, 11]),
    (OverlayRule::Intersect, &[3, 4, 6, 9]),
    (OverlayRule::Union, &[0, 1, 2, 5, 7, 8, 10, 11]),
    (OverlayRule::Difference, &[0, 1, 2, 3, 4, 8]),
    (OverlayRule::InverseDifference, &[5, 6, 7, 9, 10, 11]),
    (OverlayRule::Xor, &[0, 1, 2, 3, 4, 5, 6, 7, 8, 9, 10, 11]),
];

/// Two lines, one above the other, whose counts leave the range together.
const GREATEST_COUNTS: [Row; 2] = [((0, 0), (4, 0), i32::MAX, 0), ((0, 1), (4, 1), i32::MAX, 0)];

/// Two on one pair of ends, whose counts leave the range together.
const EQUAL_LINES: [Row; 2] = [((0, 0), (4, 0), i32::MAX, 0), ((0, 0), (4, 0), i32::MAX, 0)];

const LINE: [Row; 1] = [((0, 0), (4, 0), 1, 0)];

fn segments(rows: &[Row]) -> Vec<Segment> {
    let segment =
        |&(a, b, subj, clip): &Row| Segment { a: a.into(), b: b.into(), count: ShapeCountBoolean { subj, clip } };
    rows.iter().map(segment).collect()
}

fn rows(segments: &[Segment]) -> Vec<Row> {
    segments.iter().map(|it| (it.a.into(), it.b.into(), it.count.subj, it.count.clip)).collect()
}

/// A solver with a strategy, at the precision that upstream takes.
fn high(strategy: Strategy) -> Solver {
    Solver { strategy, precision: Precision::HIGH }
}

#[test]
fn two_squares() {
    for engine in [Engine::I16, Engine::I32] {
        for strategy in STRATEGIES {
            let mut overlay = Overlay::new().unwrap().with_rounding(Rounding::Pairwise).with_engine(engine);
            let (rule, fill) = (OverlayRule::Intersect, FillRule::NonZero);
            let graph = overlay.build_graph_with_solver(&segments(&SQUARES), rule, fill, high(strategy)).unwrap();
            let links: Vec<_> =
                graph.links().iter().map(|it| (it.a.point, it.b.point, it.fill, [it.a.id, it.b.id])).collect();
            let point = IntPoint::new;
            let wanted = [
                (point(2, 2), point(2, 4), 11, [0, 1]),
                (point(2, 2), point(4, 2), 7, [0, 2]),
                (point(2, 4), point(4, 4), 14, [1, 3]),
                (point(4, 2), point(4, 4), 13, [2, 3]),
            ];
            assert_eq!(links, wanted, "{engine:?} {strategy:?}");
            let bridges = [[0, 1], [2, 0], [3, 1], [2, 3]].map(OverlayNode::Bridge);
            assert_eq!(graph.nodes().collect::<Vec<_>>(), bridges, "{engine:?} {strategy:?}");
            assert_eq!(rows(overlay.segments().unwrap()), SPLIT_SQUARES, "{engine:?} {strategy:?}");
        }
    }
}

/// A square that runs clockwise.
const CLOCKWISE: [Row; 4] =
    [((0, 0), (0, 4), 1, 0), ((0, 0), (4, 0), -1, 0), ((0, 4), (4, 4), 1, 0), ((4, 0), (4, 4), -1, 0)];

/// A line and a shorter one above it, and a line that ends below the start of another.
const LINE_UNDER_LINE: [Row; 2] = [((0, 0), (4, 0), 1, 0), ((1, 1), (3, 1), 1, 0)];
const LINE_BESIDE_LINE: [Row; 2] = [((0, 0), (4, 0), 1, 0), ((4, 1), (6, 1), 1, 0)];

/// What is given, the fill rules, and of the graph of all links the fills.
const FILLS: [(&[Row], &[FillRule], &[u8]); 6] = [
    (&SQUARES, &[FillRule::NonZero], &[2, 1, 2, 11, 7, 8, 14, 8, 1, 13, 4, 4]),
    (&CLOCKWISE, &[FillRule::NonZero, FillRule::EvenOdd, FillRule::Negative], &[2, 1, 2, 1]),
    (&CLOCKWISE, &[FillRule::Positive], &[0, 0, 0, 0]),
    (&LINE_UNDER_LINE, &[FillRule::EvenOdd], &[1, 2]),
    (&LINE_UNDER_LINE, &[FillRule::NonZero], &[1, 3]),
    (&LINE_BESIDE_LINE, &[FillRule::EvenOdd], &[1, 1]),
];

#[test]
fn fills_of_all_links() {
    for solver in STRATEGIES.map(high) {
        for (given, fill_rules, wanted) in FILLS {
            for &fill_rule in fill_rules {
                let mut overlay = Overlay::new().unwrap().with_rounding(Rounding::Pairwise);
                let graph = overlay.build_all(&segments(given), fill_rule, solver).unwrap();
                let fills: Vec<u8> = graph.links().iter().map(|link| link.fill).collect();
                assert_eq!(fills, wanted, "{solver:?} {fill_rule:?}");
            }
        }
    }
}

/// The nodes at which not just two links meet.
#[test]
fn nodes_of_all_links() {
    for solver in STRATEGIES.map(high) {
        for (given, links, nodes, wanted) in
            [(&SQUARES[..], 12, 10, [&[5, 6, 2, 3][..], &[9, 10, 4, 8]]), (&LINE[..], 1, 2, [&[0], &[0]])]
        {
            let mut overlay = Overlay::new().unwrap().with_rounding(Rounding::Pairwise);
            let graph = overlay.build_all(&segments(given), FillRule::EvenOdd, solver).unwrap();
            assert_eq!((graph.links().len(), graph.node_count()), (links, nodes), "{solver:?}");
            let crosses: Vec<OverlayNode> =
                graph.nodes().filter(|node| matches!(node, OverlayNode::Cross(_))).collect();
            assert_eq!(crosses, wanted.map(OverlayNode::Cross), "{solver:?}");
        }
    }
}

/// The ends of the links of one overlay, and how many nodes it has.
fn ends_of_links(
    overlay: &mut Overlay,
    given: &[Row],
    solver: Solver,
    fill: FillRule,
    rule: OverlayRule,
) -> (Vec<[IntPoint; 2]>, usize) {
    let graph = overlay.build_graph_with_solver(&segments(given), rule, fill, solver).unwrap();
    (graph.links().iter().map(|link| [link.a.point, link.b.point]).collect(), graph.node_count())
}

/// Both squares wind once around their inside, which is odd, not 0 and positive; nothing has a negative winding.
#[test]
fn what_each_rule_keeps() {
    for engine in [Engine::I16, Engine::I32] {
        let mut overlay = Overlay::new().unwrap().with_rounding(Rounding::Pairwise).with_engine(engine);
        for solver in STRATEGIES.map(high) {
            for fill in FILL_RULES {
                for (rule, kept) in KEPT {
                    let (links, _) = ends_of_links(&mut overlay, &SQUARES, solver, fill, rule);
                    let kept = if fill == FillRule::Negative { &[] } else { kept };
                    let wanted: Vec<[IntPoint; 2]> =
                        kept.iter().map(|&it| [SPLIT_SQUARES[it].0.into(), SPLIT_SQUARES[it].1.into()]).collect();
                    assert_eq!(links, wanted, "{engine:?} {solver:?} {fill:?} {rule:?}");
                }
            }
        }
    }
}

#[test]
fn nothing_gives_an_empty_graph() {
    let mut overlay = Overlay::new().unwrap().with_rounding(Rounding::Pairwise);
    for solver in STRATEGIES.map(high) {
        for fill in FILL_RULES {
            for (rule, _) in KEPT {
                assert_eq!(ends_of_links(&mut overlay, &[], solver, fill, rule), (Vec::new(), 0), "{fill:?} {rule:?}");
            }
        }
    }
}

/// One of several calls with the same overlay.
struct Call {
    name: &'static str,
    given: &'static [Row],
    rule: OverlayRule,
    /// The numbers of links and nodes of the graph.
    sizes: Result<(usize, usize), Error>,
    /// The segments after it.
    left: &'static [Row],
}

const LEAVES_RANGE: Error = Error::Fault(Fault::CountOutOfRange);

const CALLS: [Call; 6] = [
    Call {
        name: "two squares",
        given: &SQUARES,
        rule: OverlayRule::Intersect,
        sizes: Ok((4, 4)),
        left: &SPLIT_SQUARES,
    },
    Call { name: "a line that is no clip", given: &LINE, rule: OverlayRule::Clip, sizes: Ok((0, 0)), left: &LINE },
    Call {
        name: "two squares again",
        given: &SQUARES,
        rule: OverlayRule::Xor,
        sizes: Ok((12, 10)),
        left: &SPLIT_SQUARES,
    },
    Call {
        name: "a split that is refused",
        given: &EQUAL_LINES,
        rule: OverlayRule::Subject,
        sizes: Err(LEAVES_RANGE),
        left: &[],
    },
    Call {
        name: "a build that is refused",
        given: &GREATEST_COUNTS,
        rule: OverlayRule::Subject,
        sizes: Err(LEAVES_RANGE),
        left: &GREATEST_COUNTS,
    },
    Call {
        name: "two squares after the refusals",
        given: &SQUARES,
        rule: OverlayRule::Intersect,
        sizes: Ok((4, 4)),
        left: &SPLIT_SQUARES,
    },
];

#[test]
fn one_overlay_is_used_again() {
    let mut overlay = Overlay::new().unwrap().with_rounding(Rounding::Pairwise);
    for solver in STRATEGIES.map(high) {
        for Call { name, given, rule, sizes, left } in CALLS {
            let graph = overlay.build_graph_with_solver(&segments(given), rule, FillRule::NonZero, solver);
            let found = graph.map(|graph| (graph.links().len(), graph.node_count()));
            assert_eq!(found, sizes, "{name} {solver:?}");
            assert_eq!(rows(overlay.segments().unwrap()), left, "{name} {solver:?}");
        }
    }
}

/// A split leaves these counts as they are, and a build of all links refuses them.
#[test]
fn greatest_counts_above_one_another() {
    let mut overlay = Overlay::new().unwrap().with_rounding(Rounding::Pairwise);
    for solver in STRATEGIES.map(high) {
        let change = overlay.split(&segments(&GREATEST_COUNTS), solver).unwrap();
        assert_eq!((change.has_changed, change.passes), (false, 1), "{solver:?}");
        assert_eq!(rows(overlay.segments().unwrap()), GREATEST_COUNTS, "{solver:?}");
        let built = overlay.build_all(&segments(&GREATEST_COUNTS), FillRule::NonZero, solver);
        assert_eq!(built.map(|graph| graph.node_count()), Err(LEAVES_RANGE), "{solver:?}");
    }
}

/// A steep line of the greatest count is bent through an end of another line, so that its lower half runs backward.
#[test]
fn a_line_of_the_greatest_count_is_bent() {
    let given = segments(&[((0, 0), (100, 1), 1, 0), ((1, -50), (1, 50), i32::MAX, 0)]);
    let wanted = [((0, 0), (1, -50), -i32::MAX, 0), ((0, 0), (1, 50), i32::MAX, 0), ((0, 0), (100, 1), 1, 0)];
    let mut overlay = Overlay::new().unwrap().with_rounding(Rounding::Pairwise);
    for solver in STRATEGIES.map(high) {
        let change = overlay.split(&given, solver).unwrap();
        assert_eq!((change.has_changed, change.passes), (true, 2), "{solver:?}");
        assert_eq!(rows(overlay.segments().unwrap()), wanted, "{solver:?}");
        let graph = overlay.build_all(&given, FillRule::NonZero, solver).unwrap();
        assert_eq!(graph.links().iter().map(|link| link.fill).collect::<Vec<_>>(), [1, 3, 3], "{solver:?}");
    }
}

/// Forty-one lines through one point, joined to one closed contour: from each left end to its right end, and on to the
/// left end of the next line; from the last one back to the first.
fn closed_star() -> Vec<Row> {
    let line = |y: i32| {
        let next = if y == 40 { 0 } else { y + 1 };
        [((-1000, y), (999, 40 - y), 1, 0), ((999, 40 - y), (-1000, next), 1, 0)]
    };
    (0..=40).flat_map(line).collect()
}

/// Splits the star, and wants an even number of links at each node of each rule's graph. Returns the number of passes and of
/// segments.
fn even_star(strategy: Strategy, limit: u32) -> (u64, usize) {
    let mut overlay = Overlay::with_snap_limit(limit).unwrap().with_rounding(Rounding::Pairwise);
    let change = overlay.split(&segments(&closed_star()), high(strategy)).unwrap();
    assert!(change.has_changed);
    let arranged = overlay.segments().unwrap().to_vec();
    for fill in FILL_RULES {
        for (rule, _) in KEPT {
            let graph = overlay.build_graph_with_solver(&arranged, rule, fill, high(strategy)).unwrap();
            let is_even = |node| {
                matches!(node, OverlayNode::Bridge(_))
                    || matches!(node, OverlayNode::Cross(links) if links.len() % 2 == 0)
            };
            assert!(graph.nodes().all(is_even), "{fill:?} {rule:?}");
        }
    }
    (change.passes, arranged.len())
}

#[test]
fn a_closed_star_has_even_nodes() {
    for limit in [0, 256] {
        let told = even_star(Strategy::List, limit);
        for strategy in [Strategy::Tree, Strategy::Frag, Strategy::Auto] {
            assert_eq!(even_star(strategy, limit), told, "{strategy:?}");
        }
    }
}

#[test]
fn a_closed_star_that_snaps_once() {
    assert_eq!(even_star(Strategy::Tree, 1), (668, 1023));
}
