//! Segments and lines by snap rounding, which is the default, and by upstream's passes.

mod common;

use common::Random;
use fadrinzo::{
    ClipRule, DataSegment, FillRule, IntPoint, LineSegment, Overlay, OverlayRule, Rounding, Segment, ShapeType, Solver,
};

/// A closed chain of six edges that are nearly parallel, over most of the range.
const CHAIN: [[i32; 2]; 6] = [
    [929_775_894, 738_301_379],
    [-820_272_779, 900_600_856],
    [929_775_891, 738_301_379],
    [-820_272_780, 900_600_857],
    [929_775_893, 738_301_379],
    [-820_272_774, 900_600_852],
];

fn chain() -> Vec<Segment> {
    let mut sides = Vec::new();
    ShapeType::Subject.push_contour(&CHAIN.map(IntPoint::from), &mut sides).unwrap();
    sides
}

/// What snap rounding leaves of the first five edges, by its definition over fractions: one path, run backward.
const PATH: [[i32; 2]; 7] = [
    [-820_272_774, 900_600_852],
    [767_476_416, 753_353_029],
    [842_559_844, 746_389_793],
    [859_653_589, 744_804_520],
    [929_775_891, 738_301_379],
    [929_775_893, 738_301_379],
    [929_775_894, 738_301_379],
];

/// All six run back and forth, and cancel where they go through the same points.
#[test]
fn six_nearly_parallel_segments_leave_few() {
    let (rule, fill) = (OverlayRule::Union, FillRule::NonZero);
    let mut overlay = Overlay::new().unwrap();
    for count in [5, 6] {
        // the first side is the one that closes the chain
        let given = &chain()[6 - count..];
        assert_eq!(overlay.split(given, Solver::AUTO).unwrap().passes, 1);
        let path = PATH.windows(2).map(|two| (two[0].into(), two[1].into(), -1));
        let wanted: Vec<(IntPoint, IntPoint, i32)> = if count == 5 { path.collect() } else { Vec::new() };
        let found = overlay.segments().unwrap().iter().map(|it| (it.a, it.b, it.count.subj));
        assert_eq!(found.collect::<Vec<_>>(), wanted);
        let left = wanted.len();
        assert!(overlay.build_graph(given, rule, fill).unwrap().links().len() <= left);
        assert_eq!(overlay.segments().unwrap().len(), left);
        let numbered: Vec<_> = given.iter().zip(0..).map(|(&segment, data)| DataSegment { segment, data }).collect();
        let graph = overlay.build_graph_with_data(&numbered, rule, fill, Solver::AUTO).unwrap();
        assert!(graph.data().len() <= left && graph.data().iter().all(|&data| data < count as u64));
        assert_eq!(overlay.build_all(given, fill, Solver::AUTO).unwrap().links().len(), left);
        let lines: Vec<_> = given.iter().map(|it| LineSegment::line(it.a, it.b)).collect();
        overlay.build_clip(&lines, ClipRule::default(), fill, Solver::AUTO).unwrap();
        // masks do not cancel
        assert!((1..=30).contains(&overlay.lines().unwrap().len()));
    }
    let mut overlay = overlay.with_rounding(Rounding::Pairwise);
    overlay.split(&chain(), Solver::AUTO).unwrap();
    assert_eq!(overlay.segments().unwrap().len(), 238_653);
}

/// The two segments cross at (2.5, 2.5). Snap rounding makes one pass, also in the call after one of two passes.
#[test]
fn each_call_takes_the_rounding_that_is_set() {
    let segment =
        |a: [i32; 2], b: [i32; 2]| Segment { a: a.into(), b: b.into(), count: ShapeType::Subject.direct_count() };
    let given = [segment([0, 0], [5, 5]), segment([0, 5], [5, 0])];
    let mut overlay = Overlay::new().unwrap();
    for (rounding, passes) in [(Rounding::HotPixels, 1), (Rounding::Pairwise, 2), (Rounding::HotPixels, 1)] {
        overlay = overlay.with_rounding(rounding);
        assert_eq!(overlay.split(&given, Solver::AUTO).unwrap().passes, passes, "{rounding}");
        let snapped = Overlay::new().unwrap().with_rounding(rounding).split(&given, Solver::AUTO).unwrap();
        assert_eq!(overlay.split(&given, Solver::LIST).unwrap(), snapped);
    }
}

/// The line crosses y = 1 at x = 4 and 5/6, and the edge from (7, 1) to (0, 5) at x = 4 and 23/38, y = 2 and 7/19. So by snap
/// rounding it goes through (5, 1) and (5, 2), and no other vertex lies within half a unit of it.
#[test]
fn parts_of_a_line_follow_one_another_on_coarse_coordinates() {
    let triangle = [[0, 5], [2, 1], [7, 1]].map(IntPoint::from);
    let line = [[5, 0], [4, 6]].map(IntPoint::from);
    let mut overlay = Overlay::new().unwrap();
    let rule = ClipRule { invert: false, boundary_included: true };
    let parts = overlay.clip_lines(&[triangle], &[line], rule, FillRule::NonZero).unwrap();
    assert_eq!(parts, [(0, [[5, 1], [5, 2]].map(IntPoint::from).to_vec())]);
    let outside = ClipRule { invert: true, boundary_included: true };
    let parts = overlay.clip_lines(&[triangle], &[line], outside, FillRule::NonZero).unwrap();
    let wanted = [[[5, 0], [5, 1]], [[5, 2], [4, 6]]].map(|part| (0, part.map(IntPoint::from).to_vec()));
    assert_eq!(parts, wanted);
}

/// How far a point lies along a step, times its squared length.
fn along(step: [IntPoint; 2], at: IntPoint) -> i32 {
    let [a, b] = step;
    (at.x - a.x) * (b.x - a.x) + (at.y - a.y) * (b.y - a.y)
}

/// Triangles and lines on a grid of 8 by 8 points: under upstream's passes a few of their parts lie beside one another.
#[test]
fn parts_share_no_more_than_points() {
    let (mut random, mut overlay, mut several) = (Random(3), Overlay::new().unwrap(), 0);
    for round in 0..20_000 {
        let mut point = || IntPoint::new(random.below(8), random.below(8));
        let (triangle, step) = ([point(), point(), point()], [point(), point()]);
        let rule = ClipRule { invert: round % 2 == 0, boundary_included: round % 4 < 2 };
        let parts = overlay.clip_lines(&[triangle], &[step], rule, FillRule::NonZero).unwrap();
        let places: Vec<i32> = parts.iter().flat_map(|(_, part)| part).map(|&at| along(step, at)).collect();
        assert!(places.windows(2).all(|two| two[0] <= two[1]), "{parts:?} of {step:?} and {triangle:?}");
        assert!(parts.iter().all(|(_, part)| part.windows(2).all(|two| along(step, two[0]) < along(step, two[1]))));
        several += usize::from(parts.len() > 1);
    }
    assert!(several > 500, "{several}");
}
