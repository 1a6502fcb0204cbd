//! What a split and a graph are, by definition: over wide whole numbers, each segment beside each other one, and with no code of
//! the library. It is slow, and right where its few rules are.

use std::cmp::Ordering;
use std::collections::{BTreeMap, BTreeSet};

pub type Point = (i128, i128);

/// Two points, the first of them less.
pub type Pair = (Point, Point);

/// How often a pair counts, for the subject and for the clip.
pub type Count = (i64, i64);

/// The pairs of an arrangement with their counts.
pub type Arrangement = BTreeMap<Pair, Count>;

/// A sum of counts is too large.
#[derive(Clone, Copy, Debug, PartialEq, Eq)]
pub struct TooLarge;

/// How far crossings are moved to ends: in pass k within a squared distance of `2^min(start + (k -
/// 1) * step, cap)`, for `limit` passes; in later passes crossings are rounded alone.
#[derive(Clone, Copy, Debug)]
pub struct Radius {
    pub start: usize,
    pub step: usize,
    pub cap: usize,
    pub limit: u128,
}

impl Radius {
    /// The squared radius of a pass; none after the limit.
    fn of_pass(&self, pass: u128) -> Option<i128> {
        let steps = usize::try_from(pass - 1).expect("few passes");
        let exponent = self.start.saturating_add(steps.saturating_mul(self.step)).min(self.cap);
        (pass <= self.limit).then(|| 1 << exponent)
    }
}

/// What a split leaves: the arrangement, whether anything changed, and the number of passes.
#[derive(Clone, Debug, PartialEq, Eq)]
pub struct Split {
    pub arrangement: Arrangement,
    pub has_changed: bool,
    pub passes: u128,
}

/// Splits segments, which may be given from either end. None where more passes or pairs than these come of it.
pub fn split(given: &[(Point, Point, Count)], radius: &Radius, most: (u128, usize)) -> Option<Result<Split, TooLarge>> {
    let listed = given.iter().map(|&(a, b, count)| piece(a, b, count)).collect::<Vec<_>>();
    let mut list = match joined(&listed) {
        Ok(list) => list,
        Err(fault) => return Some(Err(fault)),
    };
    let distinct = listed.iter().map(|it| it.0).collect::<BTreeSet<_>>();
    let (mut has_changed, mut passes, mut is_rounded) = (distinct.len() < given.len(), 0, true);
    while list.len() >= 2 && is_rounded {
        if passes == most.0 || list.len() > most.1 {
            return None;
        }
        passes += 1;
        let marks;
        (marks, is_rounded) = marks_of(&list, radius.of_pass(passes));
        has_changed |= !marks.is_empty();
        list = match joined(&pieces(&list, &marks)) {
            Ok(list) => list,
            Err(fault) => return Some(Err(fault)),
        };
    }
    Some(Ok(Split { arrangement: list.into_iter().collect(), has_changed, passes }))
}

/// The piece between two points, in order.
fn piece(a: Point, b: Point, (subject, clip): Count) -> (Pair, Count) {
    if a < b {
        ((a, b), (subject, clip))
    } else {
        ((b, a), (-subject, -clip))
    }
}

/// Adds the counts of equal pairs, from left to right, and drops what is empty. No sum on the way may be too large.
fn joined(list: &[(Pair, Count)]) -> Result<Vec<(Pair, Count)>, TooLarge> {
    let mut sums = BTreeMap::<Pair, Count>::new();
    for &(pair, count) in list {
        let sum = sums.entry(pair).or_default();
        *sum = added(*sum, count)?;
    }
    Ok(sums.into_iter().filter(|&(_, count)| count != (0, 0)).collect())
}

/// The sum of two counts.
fn added(one: Count, other: Count) -> Result<Count, TooLarge> {
    let sum = (one.0 + other.0, one.1 + other.1);
    let most = i64::from(i32::MAX);
    if sum.0.abs() <= most && sum.1.abs() <= most {
        Ok(sum)
    } else {
        Err(TooLarge)
    }
}

fn less((ax, ay): Point, (bx, by): Point) -> Point {
    (ax - bx, ay - by)
}

fn product((ax, ay): Point, (bx, by): Point) -> i128 {
    ax * by - ay * bx
}

/// Positive where the way from `p` by `q` to `r` turns left.
fn turn(p: Point, q: Point, r: Point) -> i128 {
    product(less(q, p), less(r, p))
}

/// Whether a point lies on a pair, at none of its ends.
fn lies_inside((a, b): Pair, p: Point) -> bool {
    let is_between = |p: i128, one: i128, other: i128| one.min(other) <= p && p <= one.max(other);
    p != a && p != b && turn(a, b, p) == 0 && is_between(p.0, a.0, b.0) && is_between(p.1, a.1, b.1)
}

/// Where each pair is cut, by its place in the list, and whether some crossing was rounded.
fn marks_of(list: &[(Pair, Count)], radius: Option<i128>) -> (BTreeSet<(usize, Point)>, bool) {
    let (mut marks, mut is_rounded) = (BTreeSet::new(), false);
    for (later, &(other, _)) in list.iter().enumerate() {
        for (earlier, &(target, _)) in list[..later].iter().enumerate() {
            for end in [target.0, target.1] {
                if lies_inside(other, end) {
                    marks.insert((later, end));
                }
            }
            for end in [other.0, other.1] {
                if lies_inside(target, end) {
                    marks.insert((earlier, end));
                }
            }
            if do_cross(target, other) {
                let (on_target, on_other, rounds) = match radius {
                    Some(radius) => snapped(target, other, radius),
                    None => settled(target, other),
                };
                marks.extend(on_target.map(|point| (earlier, point)));
                marks.extend(on_other.map(|point| (later, point)));
                is_rounded |= rounds;
            }
        }
    }
    (marks, is_rounded)
}

/// Whether two pairs cross in one point that is no end of either.
fn do_cross(one: Pair, other: Pair) -> bool {
    let are_opposite = |(a, b): Pair, (p, q): Pair| turn(a, b, p).signum() * turn(a, b, q).signum() == -1;
    are_opposite(one, other) && are_opposite(other, one)
}

/// The part of the target's way at which the other one crosses it: numerator, and positive denominator.
fn part((a, b): Pair, (c, d): Pair) -> (i128, i128) {
    let (top, bottom) = (product(less(c, a), less(d, a)), product(less(b, a), less(d, c)));
    (top * bottom.signum(), bottom.abs())
}

/// Whether the point in which two pairs cross has whole coordinates.
fn is_whole(target: Pair, other: Pair) -> bool {
    let ((top, bottom), (x, y)) = (part(target, other), less(target.1, target.0));
    (x * top) % bottom == 0 && (y * top) % bottom == 0
}

/// The nearest whole number to a fraction, the one farther from 0 of two.
fn nearest(top: i128, bottom: i128) -> i128 {
    top.signum() * ((2 * top.abs() + bottom) / (2 * bottom))
}

/// Where a snapping pass cuts two pairs that cross: the target, the other, and whether the crossing was rounded.
fn snapped(target: Pair, other: Pair, radius: i128) -> (Option<Point>, Option<Point>, bool) {
    let ((top, bottom), (x, y)) = (part(target, other), less(target.1, target.0));
    let offset = match (x, y) {
        (0, _) => (0, y * top / bottom),
        (_, 0) => (x * top / bottom, 0),
        _ => (nearest(x * top, bottom), nearest(y * top, bottom)),
    };
    let point = (target.0 .0 + offset.0, target.0 .1 + offset.1);
    if is_whole(target, other) {
        return (Some(point), Some(point), false);
    }
    let distance = |end: Point| product_with_itself(less(end, point));
    let nearest_end = |(a, b): Pair| if distance(a) < distance(b) { a } else { b };
    let (own, others) = (nearest_end(target), nearest_end(other));
    if distance(own).min(distance(others)) > radius {
        (Some(point), Some(point), true)
    } else if distance(own) <= distance(others) {
        (None, Some(own), true)
    } else {
        (Some(others), None, true)
    }
}

fn product_with_itself((x, y): Point) -> i128 {
    x * x + y * y
}

/// The same for a pass after the limit: the nearest whole point, halves going up, cuts each pair
/// unless it is an end of it.
fn settled(target: Pair, other: Pair) -> (Option<Point>, Option<Point>, bool) {
    let ((top, bottom), (a, way)) = (part(target, other), (target.0, less(target.1, target.0)));
    let rounded = |from: i128, way: i128| (2 * (from * bottom + way * top) + bottom).div_euclid(2 * bottom);
    let point = (rounded(a.0, way.0), rounded(a.1, way.1));
    let cuts = |pair: Pair| (point != pair.0 && point != pair.1).then_some(point);
    (cuts(target), cuts(other), !is_whole(target, other))
}

/// The pieces of all pairs: the first piece of each in its place, and the others behind all.
fn pieces(list: &[(Pair, Count)], marks: &BTreeSet<(usize, Point)>) -> Vec<(Pair, Count)> {
    let (mut firsts, mut later) = (Vec::new(), Vec::new());
    for (place, &(pair, count)) in list.iter().enumerate() {
        let points = marks.range((place, (i128::MIN, i128::MIN))..=(place, (i128::MAX, i128::MAX)));
        let path = path_of(pair, &points.map(|mark| mark.1).collect::<Vec<_>>());
        let mut own = path.windows(2).map(|step| piece(step[0], step[1], count));
        firsts.extend(own.next());
        later.extend(own);
    }
    firsts.extend(later);
    firsts
}

/// The path of a pair through its marks, which are in order: by rising x, and those of one x upward, unless the path comes from
/// above the lowest mark of the next x, or above the end where there is none.
pub fn path_of((a, b): Pair, marks: &[Point]) -> Vec<Point> {
    let mut path = vec![a];
    let mut rest = marks;
    while let Some(&(x, _)) = rest.first() {
        let here = rest.partition_point(|mark| mark.0 == x);
        let next = rest.get(here).unwrap_or(&b).1;
        let from = path[path.len() - 1].1;
        let group = rest[..here].iter().copied();
        if from > next {
            path.extend(group.rev());
        } else {
            path.extend(group);
        }
        rest = &rest[here..];
    }
    path.push(b);
    path
}

/// The counts below and above each pair of a planar arrangement, in order of starts, and around each start from below.
pub fn windings(arrangement: &Arrangement) -> Result<BTreeMap<Pair, (Count, Count)>, TooLarge> {
    let mut found = BTreeMap::<Pair, (Count, Count)>::new();
    let mut pairs = arrangement.iter().map(|(&pair, &count)| (pair, count)).collect::<Vec<_>>();
    pairs.sort_by(|&(one, _), &(other, _)| one.0.cmp(&other.0).then_with(|| by_angle(one, other)));
    let mut before: Option<Pair> = None;
    for (pair, count) in pairs {
        let beside = before.filter(|it| it.0 == pair.0);
        let below = beside.or_else(|| directly_below(arrangement, pair.0));
        let bottom = below.map_or((0, 0), |it| found[&it].1);
        found.insert(pair, (bottom, added(bottom, count)?));
        before = Some(pair);
    }
    Ok(found)
}

/// Two pairs from one start, from below.
fn by_angle(one: Pair, other: Pair) -> Ordering {
    0.cmp(&product(less(one.1, one.0), less(other.1, other.0)))
}

/// The pair directly below a point, the last by angle of those that meet there.
fn directly_below(arrangement: &Arrangement, point: Point) -> Option<Pair> {
    let runs_below = |&(a, b): &Pair| a.0 <= point.0 && point.0 < b.0 && turn(a, b, point) > 0;
    let spans = arrangement.keys().copied().filter(runs_below);
    spans.max_by(|&one, &other| by_height(one, other, point.0).then_with(|| by_angle(one, other)))
}

/// Two pairs that span an x, by their heights there.
fn by_height(one: Pair, other: Pair, x: i128) -> Ordering {
    let height = |(a, b): Pair| (a.1 * (b.0 - a.0) + (x - a.0) * (b.1 - a.1), b.0 - a.0);
    let ((top, bottom), (other_top, other_bottom)) = (height(one), height(other));
    (top * other_bottom).cmp(&(other_top * bottom))
}

/// The sum of the counts of all pairs that run below a pair, in the column to the right of its start. For a vertical pair, of those
/// at or below its lower end.
pub fn counted_below(arrangement: &Arrangement, (a, b): Pair) -> Count {
    let spans = |c: Point, d: Point| c.0 <= a.0 && a.0 < d.0;
    let is_below = |pair: Pair| {
        let sides = [turn(pair.0, pair.1, a), if a.0 < b.0 { height_after(pair, (a, b)) } else { 0 }];
        sides.iter().all(|&side| side >= 0) && (a.0 == b.0 || sides.iter().any(|&side| side > 0))
    };
    let below = arrangement.iter().filter(|&(&(c, d), _)| spans(c, d) && is_below((c, d)));
    below.fold((0, 0), |sum, (_, count)| (sum.0 + count.0, sum.1 + count.1))
}

/// Positive where at the right border of the column of its start a pair runs above another one.
fn height_after(other: Pair, own: Pair) -> i128 {
    match by_height(own, other, own.0 .0 + 1) {
        Ordering::Less => -1,
        Ordering::Equal => 0,
        Ordering::Greater => 1,
    }
}

/// Whether at each point as much ends as starts.
pub fn is_balanced(given: &[(Point, Point, Count)]) -> bool {
    let mut sums = BTreeMap::<Point, Count>::new();
    for &(a, b, (subject, clip)) in given {
        for (point, sign) in [(a, 1), (b, -1)] {
            let sum = sums.entry(point).or_default();
            *sum = (sum.0 + sign * subject, sum.1 + sign * clip);
        }
    }
    sums.values().all(|&sum| sum == (0, 0))
}
