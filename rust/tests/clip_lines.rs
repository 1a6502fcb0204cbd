//! Random lines cut by random polygons: at places far enough from all edges a part is there exactly where the winding says so.

mod common;

use common::Random;
use fadrinzo::{Axis, ClipRule, Engine, Error, FillRule, IntPoint, Overlay, RangeFault, MAX_COORD};

/// How far from each edge a place has to be, in units. Each place is in 64ths.
const FAR: i128 = 8;
const PARTS: i128 = 64;

type Place = (i128, i128);

fn scaled(point: IntPoint) -> Place {
    (PARTS * i128::from(point.x), PARTS * i128::from(point.y))
}

/// Twice the area of a triangle.
fn turn(a: Place, b: Place, c: Place) -> i128 {
    (b.0 - a.0) * (c.1 - a.1) - (b.1 - a.1) * (c.0 - a.0)
}

/// Whether a place lies within a distance of a segment's line, beside the segment or near its ends.
fn is_near(p: Place, a: Place, b: Place, distance: i128) -> bool {
    let (dx, dy) = (b.0 - a.0, b.1 - a.1);
    let square = dx * dx + dy * dy;
    let along = (p.0 - a.0) * dx + (p.1 - a.1) * dy;
    let of_end = |e: Place| (p.0 - e.0).pow(2) + (p.1 - e.1).pow(2) <= distance * distance;
    if square == 0 || along <= 0 || along >= square {
        of_end(a) || of_end(b)
    } else {
        turn(a, b, p).pow(2) <= distance * distance * square
    }
}

/// How often contours wind around a place that lies on no edge.
fn winding(place: Place, contours: &[Vec<IntPoint>]) -> i32 {
    let sides = contours.iter().flat_map(|it| it.iter().zip(it.iter().cycle().skip(1)));
    sides.fold(0, |sum, (&a, &b)| {
        let (a, b) = (scaled(a), scaled(b));
        let (is_up, is_down) = (a.1 <= place.1 && place.1 < b.1, b.1 <= place.1 && place.1 < a.1);
        let side = turn(a, b, place);
        sum + i32::from(is_up && side > 0) - i32::from(is_down && side < 0)
    })
}

fn points(random: &mut Random, count: i32, span: i32) -> Vec<IntPoint> {
    (0..count).map(|_| IntPoint::new(random.below(span) - span / 2, random.below(span) - span / 2)).collect()
}

fn is_inside(winding: i32, fill: FillRule) -> bool {
    match fill {
        FillRule::EvenOdd => winding % 2 != 0,
        FillRule::NonZero => winding != 0,
        FillRule::Positive => winding > 0,
        FillRule::Negative => winding < 0,
    }
}

#[test]
fn parts_are_where_the_winding_says() {
    let (mut random, mut overlay, mut tried) = (Random(5), Overlay::new().unwrap(), 0);
    let fills = [FillRule::EvenOdd, FillRule::NonZero, FillRule::Positive, FillRule::Negative];
    for round in 0..2000 {
        let span = [400, 4000, 1_000_000][round % 3];
        let count = random.below(5);
        let contours: Vec<_> = (0..count)
            .map(|_| {
                let corners = 3 + random.below(4);
                points(&mut random, corners, span)
            })
            .collect();
        let lines: Vec<_> = (0..3)
            .map(|_| {
                let corners = random.below(5);
                points(&mut random, corners, span)
            })
            .collect();
        let (fill, invert) = (fills[random.below(4) as usize], random.below(2) == 0);
        let rule = ClipRule { invert, boundary_included: random.below(2) == 0 };
        let found = overlay.clip_lines(&contours, &lines, rule, fill).unwrap();
        assert!(found.windows(2).all(|two| two[0].0 <= two[1].0));
        assert!(found.iter().all(|(_, part)| part.len() >= 2));
        for (line, points) in lines.iter().enumerate() {
            let own: Vec<_> = found.iter().filter(|(of, _)| *of == line).collect();
            for step in points.windows(2) {
                let (a, b) = (scaled(step[0]), scaled(step[1]));
                for at in 1..8 {
                    let place = (a.0 + (b.0 - a.0) / 8 * at, a.1 + (b.1 - a.1) / 8 * at);
                    let mut sides = contours.iter().flat_map(|it| it.iter().zip(it.iter().cycle().skip(1)));
                    if sides.any(|(&p, &q)| is_near(place, scaled(p), scaled(q), FAR * PARTS)) {
                        continue;
                    }
                    let wanted = is_inside(winding(place, &contours), fill) != invert;
                    let mut pieces = own.iter().flat_map(|(_, part)| part.windows(2));
                    let is_there = pieces.any(|two| is_near(place, scaled(two[0]), scaled(two[1]), 4 * PARTS));
                    let mut others = points.windows(2).filter(|it| *it != step);
                    if others.any(|it| is_near(place, scaled(it[0]), scaled(it[1]), FAR * PARTS)) {
                        continue;
                    }
                    assert_eq!(
                        is_there, wanted,
                        "round {round}, line {line}, {place:?} of {contours:?}, {lines:?}, {fill:?}, {rule:?}"
                    );
                    tried += 1;
                }
            }
        }
    }
    assert!(tried > 20_000, "only {tried}");
}

#[test]
fn parts_run_along_their_line() {
    let square = [[0, 0], [10, 0], [10, 10], [0, 10]].map(IntPoint::from);
    let line = |points: &[[i32; 2]]| points.iter().copied().map(IntPoint::from).collect::<Vec<_>>();
    let lines = [
        line(&[[20, 5], [-5, 5]]),
        line(&[[5, 20], [5, -20]]),
        line(&[[2, 2], [4, 2], [4, 2], [4, 30]]),
        line(&[[1, 1]]),
        line(&[]),
    ];
    let mut overlay = Overlay::new().unwrap();
    let mut parts = |invert| {
        let rule = ClipRule { invert, boundary_included: false };
        overlay.clip_lines(&[square], &lines, rule, FillRule::NonZero).unwrap()
    };
    assert_eq!(
        parts(false),
        [(0, line(&[[10, 5], [0, 5]])), (1, line(&[[5, 10], [5, 0]])), (2, line(&[[2, 2], [4, 2], [4, 10]]))]
    );
    let outside = [
        (0, line(&[[20, 5], [10, 5]])),
        (0, line(&[[0, 5], [-5, 5]])),
        (1, line(&[[5, 20], [5, 10]])),
        (1, line(&[[5, 0], [5, -20]])),
        (2, line(&[[4, 10], [4, 30]])),
    ];
    assert_eq!(parts(true), outside);
}

/// Lines that overlap have a part each, and no point where they cross one another alone.
#[test]
fn lines_that_meet_have_a_part_each() {
    let square = [[0, 0], [10, 0], [10, 10], [0, 10]].map(IntPoint::from);
    let line = |points: &[[i32; 2]]| points.iter().copied().map(IntPoint::from).collect::<Vec<_>>();
    let lines = [
        line(&[[-5, 5], [15, 5]]),
        line(&[[12, 5], [3, 5]]),
        line(&[[5, -5], [5, 15]]),
        line(&[[-5, 5], [15, 5]]),
        line(&[[20, 0], [20, 9]]),
    ];
    let mut overlay = Overlay::new().unwrap();
    let rule = ClipRule { invert: false, boundary_included: false };
    let wanted = [
        (0, line(&[[0, 5], [10, 5]])),
        (1, line(&[[10, 5], [3, 5]])),
        (2, line(&[[5, 0], [5, 10]])),
        (3, line(&[[0, 5], [10, 5]])),
    ];
    assert_eq!(overlay.clip_lines(&[square], &lines, rule, FillRule::NonZero).unwrap(), wanted);
}

/// The line leaves the polygons between two parts, and comes back to the point at which it left.
#[test]
fn a_part_ends_where_the_line_leaves() {
    let square = [[0, 0], [10, 0], [10, 10], [0, 10]].map(IntPoint::from);
    let line = |points: &[[i32; 2]]| points.iter().copied().map(IntPoint::from).collect::<Vec<_>>();
    let mut overlay = Overlay::new().unwrap();
    let mut parts = |points: &[[i32; 2]], invert| {
        let rule = ClipRule { invert, boundary_included: false };
        overlay.clip_lines(&[square], &[line(points)], rule, FillRule::NonZero).unwrap()
    };
    let around = [[5, 5], [12, 5], [12, 9], [12, 5], [2, 5]];
    assert_eq!(parts(&around, false), [(0, line(&[[5, 5], [10, 5]])), (0, line(&[[10, 5], [2, 5]]))]);
    assert_eq!(parts(&around, true), [(0, line(&[[10, 5], [12, 5], [12, 9], [12, 5], [10, 5]]))]);
    let back = [[5, 5], [15, 5], [5, 5]];
    assert_eq!(parts(&back, false), [(0, line(&[[5, 5], [10, 5]])), (0, line(&[[10, 5], [5, 5]]))]);
    let inward = [[15, 5], [5, 5], [15, 5]];
    assert_eq!(parts(&inward, true), [(0, line(&[[15, 5], [10, 5]])), (0, line(&[[10, 5], [15, 5]]))]);
    // within the polygons a turn is no end
    assert_eq!(parts(&[[5, 5], [8, 5], [5, 5]], false), [(0, line(&[[5, 5], [8, 5], [5, 5]]))]);
}

/// The parts of lines that run along the axes, of contours that do: each unit of a step is kept by how often contours wind on its
/// two sides, and units are joined where they follow one another along the line.
fn parts_by_units(
    contours: &[Vec<IntPoint>],
    lines: &[Vec<IntPoint>],
    rule: ClipRule,
    fill: FillRule,
) -> Vec<(usize, Vec<IntPoint>)> {
    let mut found: Vec<(usize, Vec<IntPoint>)> = Vec::new();
    for (line, points) in lines.iter().enumerate() {
        let mut is_open = false;
        for step in points.windows(2) {
            let (dx, dy) = ((step[1].x - step[0].x).signum(), (step[1].y - step[0].y).signum());
            let mut at = step[0];
            while at != step[1] {
                let next = IntPoint::new(at.x + dx, at.y + dy);
                let (x, y) = (i128::from(at.x + next.x) * PARTS / 2, i128::from(at.y + next.y) * PARTS / 2);
                let (across_x, across_y) = (i128::from(dy) * PARTS / 4, i128::from(dx) * PARTS / 4);
                let places = [(x + across_x, y + across_y), (x - across_x, y - across_y)];
                let inside = places.map(|place| is_inside(winding(place, contours), fill));
                let is_counted = if rule.boundary_included { inside[0] || inside[1] } else { inside[0] && inside[1] };
                let is_kept = is_counted != rule.invert;
                match found.last_mut() {
                    Some((_, part)) if is_kept && is_open => part.push(next),
                    _ if is_kept => found.push((line, vec![at, next])),
                    _ => {}
                }
                (at, is_open) = (next, is_kept);
            }
        }
    }
    found
}

/// A part without the points at which it goes straight on.
fn with_corners_alone(part: &[IntPoint]) -> Vec<IntPoint> {
    let mut kept: Vec<IntPoint> = Vec::new();
    for &point in part {
        if let [.., a, b] = kept[..] {
            let goes_on =
                (b.x - a.x).signum() == (point.x - b.x).signum() && (b.y - a.y).signum() == (point.y - b.y).signum();
            if goes_on {
                kept.pop();
            }
        }
        kept.push(point);
    }
    kept
}

/// A closed or an open walk along the axes.
fn walk(random: &mut Random, count: i32, is_closed: bool) -> Vec<IntPoint> {
    let mut points = vec![IntPoint::new(random.below(10), random.below(10))];
    for index in 1..count {
        let last = points[points.len() - 1];
        let value = random.below(10);
        points.push(if index % 2 == 0 { IntPoint::new(value, last.y) } else { IntPoint::new(last.x, value) });
    }
    if is_closed {
        let (first, last) = (points[0], points[points.len() - 1]);
        points.push(IntPoint::new(first.x, last.y));
    }
    points
}

#[test]
fn parts_are_those_of_units() {
    let (mut random, mut overlay, mut found_parts) = (Random(11), Overlay::new().unwrap(), 0);
    let fills = [FillRule::EvenOdd, FillRule::NonZero, FillRule::Positive, FillRule::Negative];
    for round in 0..20_000 {
        let contours: Vec<_> = (0..random.below(3))
            .map(|_| {
                let count = 3 + random.below(5);
                walk(&mut random, count, true)
            })
            .collect();
        let lines: Vec<_> = (0..2)
            .map(|_| {
                let count = random.below(7);
                walk(&mut random, count, false)
            })
            .collect();
        let fill = fills[random.below(4) as usize];
        let rule = ClipRule { invert: random.below(2) == 0, boundary_included: random.below(2) == 0 };
        let found = overlay.clip_lines(&contours, &lines, rule, fill).unwrap();
        let corners = |parts: &[(usize, Vec<IntPoint>)]| -> Vec<(usize, Vec<IntPoint>)> {
            parts.iter().map(|(line, part)| (*line, with_corners_alone(part))).collect()
        };
        let wanted = parts_by_units(&contours, &lines, rule, fill);
        assert_eq!(corners(&found), corners(&wanted), "round {round}: {contours:?}, {lines:?}, {rule:?}, {fill:?}");
        found_parts += found.len();
    }
    assert!(found_parts > 10_000, "{found_parts}");
}

/// A step through a polygon of 100,000 sides is handed the few beside it: so 2,000 steps take no minute.
#[test]
fn a_track_through_many_sides() {
    let high = |index: i32| if index % 2 == 0 { 1_000_000 } else { 900_000 };
    let mut comb: Vec<IntPoint> = (0..100_000).map(|index| IntPoint::new(100_000 - index, high(index))).collect();
    comb.extend([[0, -1_000_000], [100_001, -1_000_000]].map(IntPoint::from));
    let track: Vec<IntPoint> = (0..2000).map(|index| IntPoint::new(10 + 9 * index, index % 3)).collect();
    let mut overlay = Overlay::new().unwrap();
    let start = std::time::Instant::now();
    let found =
        overlay.clip_lines(&[comb], std::slice::from_ref(&track), ClipRule::default(), FillRule::NonZero).unwrap();
    assert_eq!(found, [(0, track)]);
    assert!(start.elapsed().as_secs() < 20, "{:?}", start.elapsed());
}

#[test]
fn points_out_of_range_are_named() {
    let (far, near) = (IntPoint::new(0, MAX_COORD + 1), IntPoint::ZERO);
    let mut overlay = Overlay::new().unwrap();
    let fault = RangeFault { axis: Axis::Y, value: MAX_COORD + 1, bound: MAX_COORD };
    let refused = overlay.clip_lines(&[[near]], &[vec![near], vec![near, far]], ClipRule::default(), FillRule::NonZero);
    assert_eq!(refused, Err(Error::Line { line: 1, point: 1, fault }));
    assert_eq!(refused.unwrap_err().to_string(), "line 1, point 1: y is 1073741824, the greatest is 1073741823");
    assert!(matches!(
        overlay.clip_lines(&[[far]], &[[near]], ClipRule::default(), FillRule::NonZero),
        Err(Error::Point { .. })
    ));
    let mut overlay = overlay.with_engine(Engine::I16);
    let wide = IntPoint::new(16_384, 0);
    assert!(matches!(
        overlay.clip_lines(&[[near]], &[[wide]], ClipRule::default(), FillRule::NonZero),
        Err(Error::Line { .. })
    ));
}
