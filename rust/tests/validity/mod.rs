//! Whether shapes are valid, by whole arithmetic of its own: nothing here is taken from the engine.

use fadrinzo::{IntContour, IntPoint, IntShape};
use std::collections::{BTreeSet, HashMap};

/// A place of the plane: a point whose coordinates are divided by a number.
#[derive(Clone, Copy)]
pub struct Place {
    pub x: i128,
    pub y: i128,
    pub bottom: i128,
}

/// What is wrong with shapes.
#[derive(Clone, Copy, Debug, PartialEq, Eq, PartialOrd, Ord)]
pub enum Wrong {
    /// A contour comes to a point twice, or has fewer than three.
    PointTwice,
    /// Two edges share more than an end.
    EdgesMeet,
    /// The first contour of a shape has not its least point.
    NotLed,
    /// The first contour of a shape runs clockwise.
    FirstIsHole,
    /// A shape has no outer boundary, or several.
    NotOneBoundary,
    /// A hole does not lie inside its outer boundary.
    HoleOutside,
    /// A hole lies inside another one of its shape.
    HoleInHole,
    /// The interior of a shape falls into parts.
    InParts,
    /// A shape winds around a place neither once nor not at all, or two shapes wind around it.
    Overlap,
    /// Around a place the shapes wind otherwise than the contours do.
    OtherRegion,
}

type Edge = (IntPoint, IntPoint);

/// The edges of contours, as they run.
fn edges(contours: &[IntContour]) -> Vec<Edge> {
    let steps = contours.iter().flat_map(|points| points.iter().zip(points.iter().cycle().skip(1)));
    steps.map(|(&a, &b)| (a, b)).collect()
}

/// Twice the area to the left of a contour.
fn doubled_area(contour: &IntContour) -> i128 {
    let edges = edges(std::slice::from_ref(contour));
    edges.iter().map(|(a, b)| i128::from(a.x) * i128::from(b.y) - i128::from(a.y) * i128::from(b.x)).sum()
}

/// Twice the area to the left of the way from `a` over `b` to `c`.
fn turn(a: IntPoint, b: IntPoint, c: IntPoint) -> i128 {
    let difference = |to: i32, from: i32| i128::from(to) - i128::from(from);
    difference(b.x, a.x) * difference(c.y, a.y) - difference(b.y, a.y) * difference(c.x, a.x)
}

/// Whether a point on the line of an edge lies within the range of its ends.
fn is_between(point: IntPoint, (a, b): Edge) -> bool {
    let is_within = |at: i32, one: i32, other: i32| one.min(other) <= at && at <= one.max(other);
    is_within(point.x, a.x, b.x) && is_within(point.y, a.y, b.y)
}

/// Whether two edges have a point in common that is not an end of both.
fn share_more_than_an_end(first: Edge, second: Edge) -> bool {
    let ((a, b), (c, d)) = (first, second);
    if (a, b) == (c, d) || (a, b) == (d, c) {
        return true;
    }
    let turns = [turn(a, b, c), turn(a, b, d), turn(c, d, a), turn(c, d, b)].map(i128::signum);
    // an end of one that is no end of the other, and lies on it
    let touches = (turns[0] == 0 && c != a && c != b && is_between(c, first))
        || (turns[1] == 0 && d != a && d != b && is_between(d, first))
        || (turns[2] == 0 && a != c && a != d && is_between(a, second))
        || (turns[3] == 0 && b != c && b != d && is_between(b, second));
    touches || (turns[0] * turns[1] < 0 && turns[2] * turns[3] < 0)
}

/// The sign of `a * b - c * d`, where `a` and `c` are differences of coordinates. The products may have more than 128 bits, so
/// `b` and `d` are taken in two parts.
fn sign_of_difference(a: i128, b: i128, c: i128, d: i128) -> i128 {
    let low_bits = i128::from(u64::MAX);
    let low = a * (b & low_bits) - c * (d & low_bits);
    let high = a * (b >> 64) - c * (d >> 64) + (low >> 64);
    if high == 0 {
        (low & low_bits).signum()
    } else {
        high.signum()
    }
}

/// How often edges wind around a place that is on none of them, counterclockwise.
fn winding(edges: &[Edge], place: Place) -> i32 {
    let Place { x, y, bottom } = place;
    let mut count = 0;
    for &(a, b) in edges {
        let [ax, ay, bx, by] = [a.x, a.y, b.x, b.y].map(i128::from);
        let (starts_below, ends_below) = (ay * bottom <= y, by * bottom <= y);
        if starts_below == ends_below {
            continue;
        }
        let side = sign_of_difference(bx - ax, y - ay * bottom, by - ay, x - ax * bottom);
        if starts_below && side > 0 {
            count += 1;
        } else if ends_below && side < 0 {
            count -= 1;
        }
    }
    count
}

/// How often contours wind around a place.
#[allow(dead_code, reason = "not each file of tests that has this module uses it")]
pub fn winding_number(contours: &[IntContour], place: Place) -> i32 {
    winding(&edges(contours), place)
}

/// The places beside the middle of an edge, to its left and to its right, nearer to it than any edge comes that it shares
/// no more than an end with. `longest` is the square of the length of the longest edge.
///
/// The middle has coordinates in halves. So it is half a unit or more from an end of another edge, and from its line by
/// the length of that or more, divided into a half; the places are at most a quarter of that away.
fn beside((a, b): Edge, longest: i128) -> [Place; 2] {
    let bottom = 8 * longest;
    let [ax, ay, bx, by] = [a.x, a.y, b.x, b.y].map(i128::from);
    let (x, y) = (4 * longest * (ax + bx), 4 * longest * (ay + by));
    [1, -1].map(|side| Place { x: x - side * (by - ay), y: y + side * (bx - ax), bottom })
}

fn longest_squared(edges: &[Edge]) -> i128 {
    let squares = edges.iter().map(|(a, b)| {
        let (dx, dy) = (i128::from(b.x) - i128::from(a.x), i128::from(b.y) - i128::from(a.y));
        dx * dx + dy * dy
    });
    squares.max().unwrap_or(1)
}

/// What is wrong with the shapes of an overlay, whose contours these are. Any edges of both have to be apart, so that each
/// part of the plane that they bound has a place beside the middle of one of them.
pub fn wrongs(shapes: &[IntShape], contours: &[IntContour]) -> BTreeSet<Wrong> {
    let mut found = BTreeSet::new();
    for contour in shapes.iter().flatten() {
        let distinct: BTreeSet<IntPoint> = contour.iter().copied().collect();
        if distinct.len() < contour.len() || contour.len() < 3 {
            found.insert(Wrong::PointTwice);
        }
    }
    let all: Vec<Edge> = shapes.iter().flat_map(|shape| edges(shape)).collect();
    for (index, &edge) in all.iter().enumerate() {
        if all[..index].iter().any(|&other| share_more_than_an_end(edge, other)) {
            found.insert(Wrong::EdgesMeet);
        }
    }
    if found.is_empty() {
        for shape in shapes {
            find_wrong_contours(shape, longest_squared(&all), &mut found);
        }
        find_wrong_regions(shapes, contours, &mut found);
    }
    found
}

/// Tests the contours of a shape, whose edges are apart.
fn find_wrong_contours(shape: &IntShape, longest: i128, found: &mut BTreeSet<Wrong>) {
    if shape.first().is_none_or(|first| first.iter().min() != shape.iter().flatten().min()) {
        found.insert(Wrong::NotLed);
    }
    let areas: Vec<i128> = shape.iter().map(doubled_area).collect();
    if areas.first().is_none_or(|&area| area <= 0) {
        found.insert(Wrong::FirstIsHole);
    }
    let boundaries: Vec<usize> = (0..shape.len()).filter(|&index| areas[index] > 0).collect();
    let &[boundary] = boundaries.as_slice() else {
        found.insert(Wrong::NotOneBoundary);
        return;
    };
    let parts: Vec<Vec<Edge>> = shape.iter().map(|contour| edges(std::slice::from_ref(contour))).collect();
    for hole in (0..shape.len()).filter(|&index| index != boundary) {
        // a hole runs clockwise, so what it encloses is on its right
        let inside = beside(parts[hole][0], longest)[1];
        if winding(&parts[boundary], inside) != 1 {
            found.insert(Wrong::HoleOutside);
        }
        let others = (0..shape.len()).filter(|&other| other != hole && other != boundary);
        if others.into_iter().any(|other| winding(&parts[other], inside) != 0) {
            found.insert(Wrong::HoleInHole);
        }
    }
    if !is_connected(shape) {
        found.insert(Wrong::InParts);
    }
}

/// Whether the interior of a simple polygon without the simple holes in it is connected, where edges share at most ends. So
/// it is exactly where the contours and the points at which they touch make up a forest: each contour that touches
/// others at points of one and the same part of it cuts a part off.
fn is_connected(shape: &IntShape) -> bool {
    let mut numbers: HashMap<IntPoint, usize> = HashMap::new();
    let mut parents: Vec<usize> = (0..shape.len()).collect();
    let find = |parents: &[usize], mut at: usize| {
        while parents[at] != at {
            at = parents[at];
        }
        at
    };
    for (index, contour) in shape.iter().enumerate() {
        for &point in contour {
            let next = parents.len();
            let number = *numbers.entry(point).or_insert(next);
            if number == next {
                parents.push(next);
            }
            let (one, other) = (find(&parents, index), find(&parents, number));
            if one == other {
                return false;
            }
            parents[other] = one;
        }
    }
    true
}

/// Compares how often shapes and contours wind, in each part of the plane.
fn find_wrong_regions(shapes: &[IntShape], contours: &[IntContour], found: &mut BTreeSet<Wrong>) {
    let each: Vec<Vec<Edge>> = shapes.iter().map(|shape| edges(shape)).collect();
    let whole = edges(contours);
    let all: Vec<Edge> = each.iter().flatten().chain(&whole).copied().collect();
    let longest = longest_squared(&all);
    for place in all.iter().flat_map(|&edge| beside(edge, longest)) {
        let windings: Vec<i32> = each.iter().map(|edges| winding(edges, place)).collect();
        let count: i32 = windings.iter().sum();
        if windings.iter().any(|number| ![0, 1].contains(number)) || count > 1 {
            found.insert(Wrong::Overlap);
        }
        if count != winding(&whole, place) {
            found.insert(Wrong::OtherRegion);
        }
    }
}
