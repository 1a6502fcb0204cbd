//! Splits worked by hand, under each strategy and with both engines.

use fadrinzo::{
    Change, Engine, Error, Fault, IntPoint, Overlay, Precision, Rounding, Segment, ShapeCountBoolean, ShapeType,
    Solver, Strategy,
};
use std::collections::BTreeMap;

/// A segment as the tables write it: from, to, the count for the subject.
type Row = ((i32, i32), (i32, i32), i32);

const STRATEGIES: [Strategy; 4] = [Strategy::List, Strategy::Tree, Strategy::Frag, Strategy::Auto];

const ENGINES: [Engine; 2] = [Engine::I16, Engine::I32];

const LEAVES_RANGE: Result<bool, Error> = Err(Error::Fault(Fault::CountOutOfRange));

const WIDE_START: Precision = Precision { start: 3, progression: 1 };

const GREATEST: Precision = Precision { start: usize::MAX, progression: usize::MAX };

/// A name, the precision, the snap limit, what is given, the flag, the number of passes, and the list after the split.
type Split = (&'static str, Precision, u32, &'static [Row], Result<bool, Error>, u64, &'static [Row]);

const SPLITS: [Split; 23] = [
    ("nothing", Precision::HIGH, 256, &[], Ok(false), 0, &[]),
    ("two that cancel", Precision::HIGH, 256, &[((0, 0), (3, 1), 1), ((0, 0), (3, 1), -1)], Ok(true), 0, &[]),
    (
        "a cross",
        Precision::HIGH,
        256,
        &[((-2, 0), (2, 0), 1), ((0, -2), (0, 2), 1)],
        Ok(true),
        1,
        &[((-2, 0), (0, 0), 1), ((0, -2), (0, 0), 1), ((0, 0), (0, 2), 1), ((0, 0), (2, 0), 1)],
    ),
    (
        "a crossing between whole points",
        Precision::HIGH,
        256,
        &[((0, 0), (5, 5), 1), ((0, 3), (5, -2), 1)],
        Ok(true),
        2,
        &[((0, 0), (2, 2), 1), ((0, 3), (2, 2), 1), ((2, 2), (5, -2), 1), ((2, 2), (5, 5), 1)],
    ),
    (
        "the same with an end within the radius",
        WIDE_START,
        256,
        &[((0, 0), (5, 5), 1), ((0, 3), (5, -2), 1)],
        Ok(true),
        2,
        &[((0, 0), (0, 3), 1), ((0, 3), (5, -2), 1), ((0, 3), (5, 5), 1)],
    ),
    (
        "the same, settled from the first pass",
        Precision::HIGH,
        0,
        &[((0, 0), (5, 5), 1), ((0, 3), (5, -2), 1)],
        Ok(true),
        2,
        &[((0, 0), (2, 2), 1), ((0, 3), (2, 2), 1), ((2, 2), (5, -2), 1), ((2, 2), (5, 5), 1)],
    ),
    (
        "the same under the greatest precision",
        GREATEST,
        256,
        &[((0, 0), (5, 5), 1), ((0, 3), (5, -2), 1)],
        Ok(true),
        2,
        &[((0, 0), (0, 3), 1), ((0, 3), (5, -2), 1), ((0, 3), (5, 5), 1)],
    ),
    (
        "a piece that is turned",
        Precision::HIGH,
        256,
        &[((0, 0), (100, 1), 1), ((1, -50), (1, 50), 1)],
        Ok(true),
        2,
        &[((0, 0), (1, -50), -1), ((0, 0), (1, 50), 1), ((0, 0), (100, 1), 1)],
    ),
    (
        "the same, with one pass that snaps",
        Precision::HIGH,
        1,
        &[((0, 0), (100, 1), 1), ((1, -50), (1, 50), 1)],
        Ok(true),
        2,
        &[((0, 0), (1, -50), -1), ((0, 0), (1, 50), 1), ((0, 0), (100, 1), 1)],
    ),
    (
        "the same, settled from the first pass",
        Precision::HIGH,
        0,
        &[((0, 0), (100, 1), 1), ((1, -50), (1, 50), 1)],
        Ok(true),
        2,
        &[((0, 0), (1, 0), 1), ((1, -50), (1, 0), 1), ((1, 0), (1, 50), 1), ((1, 0), (100, 1), 1)],
    ),
    (
        "a crossing that settles on an end",
        Precision::HIGH,
        0,
        &[((0, -1), (1, 0), 1), ((0, 0), (1, -1), 1)],
        Ok(true),
        2,
        &[((0, -1), (1, 0), 1), ((0, 0), (1, 0), 1), ((1, -1), (1, 0), -1)],
    ),
    (
        "a crossing that settles upward",
        Precision::HIGH,
        0,
        &[((-1, 1), (2, -2), 1), ((0, -1), (1, 0), 1)],
        Ok(true),
        2,
        &[((-1, 1), (1, 0), 1), ((0, -1), (1, 0), 1), ((1, 0), (2, -2), 1)],
    ),
    (
        "an overlap",
        Precision::HIGH,
        256,
        &[((0, 0), (100, 0), 1), ((80, 0), (150, 0), 1), ((0, 1000), (150, 1000), 1), ((0, 2000), (150, 2000), 1)],
        Ok(true),
        1,
        &[
            ((0, 0), (80, 0), 1),
            ((0, 1000), (150, 1000), 1),
            ((0, 2000), (150, 2000), 1),
            ((80, 0), (100, 0), 2),
            ((100, 0), (150, 0), 1),
        ],
    ),
    (
        "a right end that touches a vertical",
        Precision::HIGH,
        256,
        &[((4, 0), (4, 6), 1), ((0, 3), (4, 3), 1), ((0, 100), (8, 100), 1), ((0, 102), (8, 102), 1)],
        Ok(true),
        1,
        &[
            ((0, 3), (4, 3), 1),
            ((0, 100), (8, 100), 1),
            ((0, 102), (8, 102), 1),
            ((4, 0), (4, 3), 1),
            ((4, 3), (4, 6), 1),
        ],
    ),
    (
        "right ends on borders of columns",
        Precision::HIGH,
        256,
        &[
            ((4, 0), (4, 6), 1),
            ((8, 0), (8, 6), 1),
            ((0, 1), (4, 1), 1),
            ((6, 3), (8, 3), 1),
            ((0, 100), (8, 100), 1),
            ((0, 102), (8, 102), 1),
        ],
        Ok(true),
        1,
        &[
            ((0, 1), (4, 1), 1),
            ((0, 100), (8, 100), 1),
            ((0, 102), (8, 102), 1),
            ((4, 0), (4, 1), 1),
            ((4, 1), (4, 6), 1),
            ((6, 3), (8, 3), 1),
            ((8, 0), (8, 3), 1),
            ((8, 3), (8, 6), 1),
        ],
    ),
    (
        "the same, moved to the left",
        Precision::HIGH,
        256,
        &[
            ((-7, 0), (-7, 6), 1),
            ((-3, 0), (-3, 6), 1),
            ((-11, 1), (-7, 1), 1),
            ((-5, 3), (-3, 3), 1),
            ((-11, 100), (-3, 100), 1),
            ((-11, 102), (-3, 102), 1),
        ],
        Ok(true),
        1,
        &[
            ((-11, 1), (-7, 1), 1),
            ((-11, 100), (-3, 100), 1),
            ((-11, 102), (-3, 102), 1),
            ((-7, 0), (-7, 1), 1),
            ((-7, 1), (-7, 6), 1),
            ((-5, 3), (-3, 3), 1),
            ((-3, 0), (-3, 3), 1),
            ((-3, 3), (-3, 6), 1),
        ],
    ),
    (
        "the same, moved to the right",
        Precision::HIGH,
        256,
        &[
            ((11, 0), (11, 6), 1),
            ((15, 0), (15, 6), 1),
            ((7, 1), (11, 1), 1),
            ((13, 3), (15, 3), 1),
            ((7, 100), (15, 100), 1),
            ((7, 102), (15, 102), 1),
        ],
        Ok(true),
        1,
        &[
            ((7, 1), (11, 1), 1),
            ((7, 100), (15, 100), 1),
            ((7, 102), (15, 102), 1),
            ((11, 0), (11, 1), 1),
            ((11, 1), (11, 6), 1),
            ((13, 3), (15, 3), 1),
            ((15, 0), (15, 3), 1),
            ((15, 3), (15, 6), 1),
        ],
    ),
    (
        "counts that are too large together",
        Precision::HIGH,
        256,
        &[((0, 0), (4, 0), i32::MAX), ((0, 0), (4, 0), i32::MAX)],
        LEAVES_RANGE,
        0,
        &[],
    ),
    (
        "an overlap whose sum is too large",
        Precision::HIGH,
        256,
        &[((0, 0), (4, 0), i32::MAX), ((2, 0), (6, 0), 1)],
        LEAVES_RANGE,
        0,
        &[],
    ),
    (
        "an overlap of a count and its opposite",
        Precision::HIGH,
        256,
        &[((0, 0), (4, 0), i32::MAX), ((2, 0), (6, 0), -1)],
        Ok(true),
        1,
        &[((0, 0), (2, 0), i32::MAX), ((2, 0), (4, 0), i32::MAX - 1), ((4, 0), (6, 0), -1)],
    ),
    (
        "a running sum that is too large",
        Precision::HIGH,
        256,
        &[((0, 0), (4, 0), i32::MAX), ((0, 0), (4, 0), i32::MAX), ((0, 0), (4, 0), -i32::MAX)],
        LEAVES_RANGE,
        0,
        &[],
    ),
    (
        "the same counts in another order",
        Precision::HIGH,
        256,
        &[((0, 0), (4, 0), i32::MAX), ((0, 0), (4, 0), -i32::MAX), ((0, 0), (4, 0), i32::MAX)],
        Ok(true),
        0,
        &[((0, 0), (4, 0), i32::MAX)],
    ),
    (
        "a crossing half way between two points",
        Precision::HIGH,
        256,
        &[((0, 0), (100, 1), 1), ((0, 1), (100, 0), 1)],
        Ok(true),
        2,
        &[((0, 0), (50, 1), 1), ((0, 1), (50, 1), 1), ((50, 1), (100, 0), 1), ((50, 1), (100, 1), 1)],
    ),
];

fn segments(rows: &[Row]) -> Vec<Segment> {
    let segment =
        |&(a, b, subj): &Row| Segment { a: a.into(), b: b.into(), count: ShapeCountBoolean { subj, clip: 0 } };
    rows.iter().map(segment).collect()
}

/// A solver with a strategy, at the precision that upstream takes.
fn high(strategy: Strategy) -> Solver {
    Solver { strategy, precision: Precision::HIGH }
}

/// What a split returns, and the segments after it.
fn split(overlay: &mut Overlay, given: &[Row], solver: Solver) -> (Result<Change, Error>, Vec<Row>) {
    let change = overlay.split(&segments(given), solver);
    let rows = overlay.segments().unwrap().iter().map(|it| (it.a.into(), it.b.into(), it.count.subj));
    (change, rows.collect())
}

#[test]
fn splits() {
    for engine in ENGINES {
        for strategy in STRATEGIES {
            for (name, precision, limit, given, flag, passes, wanted) in SPLITS {
                let mut overlay =
                    Overlay::with_snap_limit(limit).unwrap().with_rounding(Rounding::Pairwise).with_engine(engine);
                let (change, rows) = split(&mut overlay, given, Solver { strategy, precision });
                let wanted_change = flag.map(|has_changed| Change { has_changed, passes });
                assert_eq!((change, rows.as_slice()), (wanted_change, wanted), "{name} {engine:?} {strategy:?}");
            }
        }
    }
}

/// Segments on one pair of ends, some of them given from right to left, and the counts of the one that is left.
#[test]
fn segments_on_one_pair() {
    type Counts = [((i32, i32), (i32, i32), i32, i32)];
    let cases: [(&Counts, (i32, i32)); 2] = [
        (&[((1, 2), (3, 4), 1, 0), ((1, 2), (3, 4), 0, 1), ((1, 2), (3, 4), 2, 2)], (3, 3)),
        (&[((3, 4), (1, 2), 1, 0), ((1, 2), (3, 4), 0, 1)], (-1, 1)),
    ];
    let segment = |a: (i32, i32), b: (i32, i32), subj, clip| Segment {
        a: a.into(),
        b: b.into(),
        count: ShapeCountBoolean { subj, clip },
    };
    let mut overlay = Overlay::new().unwrap().with_rounding(Rounding::Pairwise);
    for strategy in STRATEGIES {
        for (counts, (subj, clip)) in cases {
            let given: Vec<Segment> = counts.iter().map(|&(a, b, subj, clip)| segment(a, b, subj, clip)).collect();
            assert!(overlay.split(&given, high(strategy)).unwrap().has_changed, "{strategy:?}");
            assert_eq!(overlay.segments().unwrap(), [segment((1, 2), (3, 4), subj, clip)], "{strategy:?}");
        }
    }
}

/// How many passes three segments take that are nearly parallel, each x times a factor, and how many segments are left.
fn split_slivers(factor: i32, limit: u32, solver: Solver) -> (u64, usize) {
    let slivers = [((282, 3), (1000, 0), 1), ((143, 2), (886, 1), 1), ((164, 2), (705, 1), 1)];
    let given = slivers.map(|((ax, ay), (bx, by), subj)| ((ax * factor, ay), (bx * factor, by), subj));
    let mut overlay =
        Overlay::with_snap_limit(limit).unwrap().with_rounding(Rounding::Pairwise).with_engine(Engine::I16);
    let (change, rows) = split(&mut overlay, &given, solver);
    let Change { has_changed, passes } = change.unwrap();
    assert!(has_changed);
    (passes, rows.len())
}

#[test]
fn slivers_need_many_passes() {
    for strategy in STRATEGIES {
        let absolute = Solver { strategy, precision: Precision::ABSOLUTE };
        assert_eq!(split_slivers(1, 0, high(strategy)), (278, 282));
        assert_eq!(split_slivers(1, 256, absolute).0, 20);
        assert_eq!(split_slivers(1, 256, high(strategy)).0, 4);
    }
}

#[test]
fn slivers_past_the_snap_limit() {
    let absolute = Solver { strategy: Strategy::Auto, precision: Precision::ABSOLUTE };
    assert_eq!(split_slivers(14, 256, absolute), (3734, 3738));
}

/// What is given, and the list after the split, with any snap limit.
struct FarSplit {
    name: &'static str,
    given: [Row; 2],
    after: [Row; 4],
}

const WIDE_SPLITS: [FarSplit; 2] = [
    FarSplit {
        name: "diagonals of the wide engine",
        given: [
            ((-1_073_741_824, -1_073_741_824), (1_073_741_823, 1_073_741_823), 1),
            ((-1_073_741_824, 1_073_741_823), (1_073_741_823, -1_073_741_824), 1),
        ],
        after: [
            ((-1_073_741_824, -1_073_741_824), (0, 0), 1),
            ((-1_073_741_824, 1_073_741_823), (0, 0), 1),
            ((0, 0), (1_073_741_823, -1_073_741_824), 1),
            ((0, 0), (1_073_741_823, 1_073_741_823), 1),
        ],
    },
    FarSplit {
        name: "slivers of the wide engine",
        given: [((-1_073_741_824, 0), (1_073_741_822, 1), 1), ((-1_073_741_824, 1), (1_073_741_822, 0), 1)],
        after: [
            ((-1_073_741_824, 0), (-1, 1), 1),
            ((-1_073_741_824, 1), (-1, 1), 1),
            ((-1, 1), (1_073_741_822, 0), 1),
            ((-1, 1), (1_073_741_822, 1), 1),
        ],
    },
];

const NARROW_SPLITS: [FarSplit; 2] = [
    FarSplit {
        name: "diagonals of the narrow engine",
        given: [((-16_384, -16_384), (16_383, 16_383), 1), ((-16_384, 16_383), (16_383, -16_384), 1)],
        after: [
            ((-16_384, -16_384), (0, 0), 1),
            ((-16_384, 16_383), (0, 0), 1),
            ((0, 0), (16_383, -16_384), 1),
            ((0, 0), (16_383, 16_383), 1),
        ],
    },
    FarSplit {
        name: "slivers of the narrow engine",
        given: [((-16_384, 0), (16_382, 1), 1), ((-16_384, 1), (16_382, 0), 1)],
        after: [
            ((-16_384, 0), (-1, 1), 1),
            ((-16_384, 1), (-1, 1), 1),
            ((-1, 1), (16_382, 0), 1),
            ((-1, 1), (16_382, 1), 1),
        ],
    },
];

/// Splits at the limits of both engines: diagonals from corner to corner, and slivers over the whole range.
#[test]
fn splits_at_the_limits() {
    for (engine, splits) in [(Engine::I16, NARROW_SPLITS), (Engine::I32, WIDE_SPLITS)] {
        for strategy in STRATEGIES {
            for limit in [256, 0] {
                for FarSplit { name, given, after } in &splits {
                    let mut overlay =
                        Overlay::with_snap_limit(limit).unwrap().with_rounding(Rounding::Pairwise).with_engine(engine);
                    let (change, rows) = split(&mut overlay, given, high(strategy));
                    assert_eq!(change, Ok(Change { has_changed: true, passes: 2 }), "{name} {strategy:?} {limit}");
                    assert_eq!(rows, after, "{name} {strategy:?} {limit}");
                }
            }
        }
    }
}

// Many segments through few points: forty-one lines through one point, and all 300 segments between the points of a small
// square. Each is split with both engines, at each named precision, with the snap limits 0, 1 and 256.

const PRECISIONS: [Precision; 6] = [
    Precision::ABSOLUTE,
    Precision::HIGH,
    Precision::MEDIUM_HIGH,
    Precision::MEDIUM,
    Precision::MEDIUM_LOW,
    Precision::LOW,
];

/// At each point, the counts of the segments that start there less those of the segments that end there, but for zeros.
fn balances(rows: &[Row]) -> BTreeMap<(i32, i32), i64> {
    let mut balances = BTreeMap::new();
    for &(a, b, subj) in rows {
        *balances.entry(a).or_default() += i64::from(subj);
        *balances.entry(b).or_default() -= i64::from(subj);
    }
    balances.retain(|_, balance| *balance != 0);
    balances
}

/// Splits under every strategy, and wants one result that keeps each point's balance, after no more passes than these.
fn check_agreed(given: &[Row], most_passes: u64) {
    for engine in ENGINES {
        for precision in PRECISIONS {
            for limit in [0, 1, 256] {
                let by = |strategy| {
                    let mut overlay =
                        Overlay::with_snap_limit(limit).unwrap().with_rounding(Rounding::Pairwise).with_engine(engine);
                    split(&mut overlay, given, Solver { strategy, precision })
                };
                let (change, rows) = by(Strategy::List);
                let Change { has_changed, passes } = change.unwrap();
                assert!(has_changed && passes <= most_passes, "{precision:?} {limit}");
                assert_eq!(balances(given), balances(&rows), "{precision:?} {limit}");
                for strategy in [Strategy::Tree, Strategy::Frag, Strategy::Auto] {
                    assert!(by(strategy) == (change, rows.clone()), "{strategy:?} {precision:?} {limit}");
                }
            }
        }
    }
}

/// Lines from x = -1000 to x = 999, all of them through (-1/2, 20). As many passes at most are the potential of the star, the
/// sum of its heights and widths less one for each line, and one: where the first pass settles.
#[test]
fn lines_through_one_point() {
    let star: Vec<Row> = (0..=40).map(|y| ((-1000, y), (999, 40 - y), 1)).collect();
    check_agreed(&star, 82_759);
}

/// All segments between two of the 25 points of the square from (-2, -2) to (2, 2), each from its smaller end.
#[test]
fn segments_of_a_small_square() {
    let points: Vec<(i32, i32)> = (-2..=2).flat_map(|x| (-2..=2).map(move |y| (x, y))).collect();
    let rows = points.iter().flat_map(|&a| points.iter().map(move |&b| (a, b, 1)));
    let square: Vec<Row> = rows.filter(|(a, b, _)| a < b).collect();
    assert_eq!(square.len(), 300);
    check_agreed(&square, 701);
}

/// A split that is refused leaves no segments, and the next one is as the first.
#[test]
fn an_overlay_after_a_refusal() {
    const CROSS: [Row; 2] = [((-2, 0), (2, 0), 1), ((0, -2), (0, 2), 1)];
    const LARGE: [Row; 2] = [((0, 0), (4, 0), i32::MAX), ((0, 0), (4, 0), i32::MAX)];
    let mut overlay = Overlay::new().unwrap().with_rounding(Rounding::Pairwise);
    let (first, rows) = split(&mut overlay, &CROSS, Solver::AUTO);
    assert_eq!(first, Ok(Change { has_changed: true, passes: 1 }));
    assert_eq!(split(&mut overlay, &LARGE, Solver::AUTO), (Err(Error::Fault(Fault::CountOutOfRange)), Vec::new()));
    assert_eq!(split(&mut overlay, &CROSS, Solver::AUTO), (first, rows));
}

// Long lists and many live segments: under `Tree` and `Auto` a tree or a grid takes the place of the list of all pairs, and every
// result stays.

/// Horizontal lines above one another, from x = 0 to x = 10, and one vertical that crosses them all.
fn crossed_lines(count: i32) -> Vec<Row> {
    let lines = (0..count).map(|y| ((0, y), (10, y), 1));
    lines.chain([((5, -1), (5, count), 1)]).collect()
}

/// Splits under every strategy, and wants one result. Returns it, with what the split did.
fn split_alike(given: &[Row]) -> (Vec<Row>, Change) {
    let mut overlay = Overlay::new().unwrap().with_rounding(Rounding::Pairwise);
    let (change, rows) = split(&mut overlay, given, Solver::LIST);
    for solver in [Solver::TREE, Solver::FRAG, Solver::AUTO] {
        assert!(split(&mut overlay, given, solver) == (change, rows.clone()), "{solver:?}");
    }
    (rows, change.unwrap())
}

/// One segment fewer than the limit from which `Auto` leaves the list of all pairs, as many, and as many as have a grid. Those have five fragments
/// each, so a tree is tried first, and serves.
#[test]
fn crossed_lines_around_the_limits() {
    for (count, after) in [(3998, 11_995), (3999, 11_998), (16_000, 48_001)] {
        let (rows, change) = split_alike(&crossed_lines(count));
        assert_eq!((rows.len(), change), (after, Change { has_changed: true, passes: 1 }));
    }
}

/// Under `Auto` the first pass goes over the list, rounds, and leaves more than 4,000 segments to the second. Two segments cross
/// half way between two points.
#[test]
fn the_second_pass_has_more_segments() {
    let mut given = crossed_lines(3996);
    given.extend([((200, 0), (300, 1), 1), ((200, 1), (300, 0), 1)]);
    let (rows, change) = split_alike(&given);
    assert_eq!((rows.len(), change), (11_993, Change { has_changed: true, passes: 2 }));
    let near: [Row; 4] =
        [((200, 0), (250, 1), 1), ((200, 1), (250, 1), 1), ((250, 1), (300, 0), 1), ((250, 1), (300, 1), 1)];
    assert!(rows.ends_with(&near));
}

/// More than 4,000 segments: under `Auto` short ones are found over a list, longer ones in columns, and slanted ones, whose heights
/// nearly all meet, over a tree.
#[test]
fn many_segments_are_found_alike() {
    let short = (0..4_500).map(|i| ((40 * i, 5 * (i % 2)), (40 * i + 60, 4 - 3 * (i % 2)), 1));
    let scattered = |i: i32, step: i32| i * step % 9_973;
    let longer = (0..4_500).map(|i| {
        let (x, y) = (scattered(i, 4_001), scattered(i, 7_919));
        ((x, y), (x + 300 + i % 200, y + i % 400 - 200), 1)
    });
    let slanted = (0..4_100).map(|line| ((0, 2 * line), (4_000, 2 * line + 4_000 + 5 * (line % 2)), 1));
    for given in [short.collect::<Vec<Row>>(), longer.collect(), slanted.collect()] {
        let (_, change) = split_alike(&given);
        assert!(change.has_changed);
    }
}

/// Sixty lines of many slopes, and twenty verticals across them: sixty segments are live at once, more than are compared one by
/// one, so they are in the tree.
#[test]
fn many_long_lines_at_once() {
    let lines = (0..60).map(|line| ((0, 10 * line), (1000 + line, 10 * (line * 7 % 60)), 1));
    let verticals = (0..20).map(|line| ((50 * line + 3, -5), (50 * line + 3, 605), 1));
    let (_, change) = split_alike(&lines.chain(verticals).collect::<Vec<Row>>());
    assert!(change.has_changed);
}

/// Parallel lines whose boxes meet: more pairs of boxes than there are fragments, so that no tree does for them.
#[test]
fn parallel_lines() {
    let given: Vec<Row> = (0..200).map(|line| ((0, 40 * line), (4000, 40 * line + 4000), 1)).collect();
    let (rows, change) = split_alike(&given);
    assert_eq!((rows.len(), change), (200, Change { has_changed: false, passes: 1 }));
}

/// A segment with both counts: from, to, the count for the subject and for the clip.
type CountedRow = ((i32, i32), (i32, i32), (i32, i32));

/// What is sorted and merged, the result, and the list after it.
type Join = (&'static str, &'static [CountedRow], Result<bool, Error>, &'static [CountedRow]);

const JOINS: [Join; 9] = [
    ("nothing", &[], Ok(false), &[]),
    (
        "three on one pair",
        &[((1, 2), (3, 4), (1, 0)), ((1, 2), (3, 4), (0, 1)), ((1, 2), (3, 4), (2, 2))],
        Ok(true),
        &[((1, 2), (3, 4), (3, 3))],
    ),
    (
        "two that run in opposite directions",
        &[((3, 4), (1, 2), (1, 0)), ((1, 2), (3, 4), (0, 1))],
        Ok(true),
        &[((1, 2), (3, 4), (-1, 1))],
    ),
    ("two that cancel", &[((0, 0), (3, 1), (1, 0)), ((0, 0), (3, 1), (-1, 0))], Ok(true), &[]),
    ("a sum that is too large", &[((0, 0), (4, 0), (i32::MAX, 0)), ((0, 0), (4, 0), (i32::MAX, 0))], LEAVES_RANGE, &[]),
    (
        "a running sum that is too large",
        &[((0, 0), (4, 0), (i32::MAX, 0)), ((0, 0), (4, 0), (i32::MAX, 0)), ((0, 0), (4, 0), (-i32::MAX, 0))],
        LEAVES_RANGE,
        &[],
    ),
    (
        "the same counts in an order whose sums are in range",
        &[((0, 0), (4, 0), (i32::MAX, 0)), ((0, 0), (4, 0), (-i32::MAX, 0)), ((0, 0), (4, 0), (i32::MAX, 0))],
        Ok(true),
        &[((0, 0), (4, 0), (i32::MAX, 0))],
    ),
    (
        "counts at the limits",
        &[((0, 0), (4, 0), (-i32::MAX, i32::MAX)), ((0, 1), (4, 1), (i32::MAX, -i32::MAX))],
        Ok(false),
        &[((0, 0), (4, 0), (-i32::MAX, i32::MAX)), ((0, 1), (4, 1), (i32::MAX, -i32::MAX))],
    ),
    (
        "pairs that share an end",
        &[((2, 0), (0, 0), (1, 0)), ((0, 0), (0, 2), (1, 0)), ((0, 2), (2, 0), (1, 0)), ((0, 0), (2, 0), (0, 1))],
        Ok(true),
        &[((0, 0), (0, 2), (1, 0)), ((0, 0), (2, 0), (-1, 1)), ((0, 2), (2, 0), (1, 0))],
    ),
];

#[test]
fn joins() {
    let segment = |&(a, b, (subj, clip)): &CountedRow| Segment {
        a: a.into(),
        b: b.into(),
        count: ShapeCountBoolean { subj, clip },
    };
    for engine in ENGINES {
        let mut overlay = Overlay::new().unwrap().with_rounding(Rounding::Pairwise).with_engine(engine);
        for (name, given, flag, wanted) in JOINS {
            let joined = overlay.join(&given.iter().map(segment).collect::<Vec<_>>());
            assert_eq!(joined.map(|change| change.has_changed), flag, "{name} {engine:?}");
            let wanted: Vec<Segment> = wanted.iter().map(segment).collect();
            assert_eq!(overlay.segments().unwrap(), wanted, "{name} {engine:?}");
        }
    }
}

/// How many squares a row of a grid has.
const SQUARES: i32 = 12;

/// The sides of the squares of a grid.
fn sides_of_squares() -> Vec<Segment> {
    let mut segments = Vec::new();
    for (x, y) in (0..SQUARES).flat_map(|y| (0..SQUARES).map(move |x| (x, y))) {
        let corners = [(x, y), (x + 1, y), (x + 1, y + 1), (x, y + 1)];
        ShapeType::Subject.push_contour(&corners.map(IntPoint::from), &mut segments).unwrap();
    }
    segments
}

fn side(a: (i32, i32), b: (i32, i32), subj: i32) -> Segment {
    Segment { a: a.into(), b: b.into(), count: ShapeCountBoolean { subj, clip: 0 } }
}

/// Sides that two squares of a grid share cancel, and the sides around the grid are left. There are so many equal pairs that
/// segments are joined before the list is sorted.
#[test]
fn sides_of_neighbors_cancel() {
    let mut wanted = Vec::new();
    for at in 0..SQUARES {
        wanted.extend([side((at, 0), (at + 1, 0), 1), side((at, SQUARES), (at + 1, SQUARES), -1)]);
        wanted.extend([side((0, at), (0, at + 1), -1), side((SQUARES, at), (SQUARES, at + 1), 1)]);
    }
    wanted.sort_by_key(|segment| (segment.a.x, segment.a.y, segment.b.x, segment.b.y));
    for (engine, strategy) in ENGINES.into_iter().flat_map(|engine| STRATEGIES.map(|strategy| (engine, strategy))) {
        let mut overlay = Overlay::new().unwrap().with_rounding(Rounding::Pairwise).with_engine(engine);
        let change = overlay.split(&sides_of_squares(), Solver { strategy, precision: Precision::HIGH }).unwrap();
        assert_eq!((change.has_changed, change.passes), (true, 1), "{engine:?} {strategy:?}");
        assert_eq!(overlay.segments().unwrap(), wanted, "{engine:?} {strategy:?}");
    }
}

/// Where counts are so great that a sum may leave the range, segments are joined after the sort, and a sum that leaves it is
/// refused.
#[test]
fn great_counts_of_neighbors() {
    let mut segments = sides_of_squares();
    let mut overlay = Overlay::new().unwrap().with_rounding(Rounding::Pairwise);
    segments.push(side((0, 0), (1, 0), i32::MAX - 1));
    overlay.split(&segments, Solver::AUTO).unwrap();
    let kept = overlay.segments().unwrap();
    assert!(kept.contains(&side((0, 0), (1, 0), i32::MAX)) && kept.len() == 4 * SQUARES as usize);
    segments.push(side((0, 0), (1, 0), 1));
    assert_eq!(overlay.split(&segments, Solver::AUTO).map(|change| change.has_changed), LEAVES_RANGE);
}
