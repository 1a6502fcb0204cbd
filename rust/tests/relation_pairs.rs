//! Relations of a million random pairs of shapes, against their definition in exact fractions.
//!
//! The plane is cut into slabs at each end and each crossing of two edges. Within a slab no two edges meet, so each cell between
//! two neighbors is inside or outside of a shape as a whole, and each rational point on no edge lies in a cell or between two alike.

mod common;

use common::Random;
use fadrinzo::{bounding_box, Error, FillRule, IntPoint, Overlay, Part, Regions, ShapeType};
use std::cmp::Ordering;

type Contours = Vec<Vec<IntPoint>>;

const RELATIONS: [fn(&mut Overlay, FillRule) -> Result<bool, Error>; 6] = [
    Overlay::interiors_meet,
    Overlay::covers,
    Overlay::is_within,
    Overlay::same_region,
    Overlay::touches,
    Overlay::is_disjoint,
];

/// The same of regions that are prepared.
const OF_REGIONS: [fn(&mut Regions, usize, usize) -> Result<bool, Error>; 6] = [
    Regions::interiors_meet,
    Regions::covers,
    Regions::is_within,
    Regions::same_region,
    Regions::touches,
    Regions::is_disjoint,
];

/// How many regions are kept before they are dropped.
const MOST_REGIONS: usize = 100;

const PARTS: [Part; 3] = [Part::Interior, Part::Boundary, Part::Exterior];

const FILLS: [FillRule; 4] = [FillRule::EvenOdd, FillRule::NonZero, FillRule::Positive, FillRule::Negative];

/// A fraction with a bottom above 0.
#[derive(Clone, Copy)]
struct Fraction {
    top: i128,
    bottom: i128,
}

impl Fraction {
    fn new(top: i128, bottom: i128) -> Fraction {
        Fraction { top: top * bottom.signum(), bottom: bottom.abs() }
    }

    fn whole(number: i32) -> Fraction {
        Fraction { top: number.into(), bottom: 1 }
    }

    fn middle(self, other: Fraction) -> Fraction {
        Fraction::new(self.top * other.bottom + other.top * self.bottom, 2 * self.bottom * other.bottom)
    }

    fn order(&self, other: &Fraction) -> Ordering {
        (self.top * other.bottom).cmp(&(other.top * self.bottom))
    }
}

/// A step that is not upright, from left to right, and how often it counts for each shape.
struct Edge {
    a: IntPoint,
    b: IntPoint,
    counts: [i32; 2],
}

impl Edge {
    /// The height of its line at a place, times the product of its width and the bottom of the place.
    fn height(&self, x: Fraction) -> Fraction {
        let (width, rise) = (difference(self.b.x, self.a.x), difference(self.b.y, self.a.y));
        let run = x.top - i128::from(self.a.x) * x.bottom;
        Fraction::new(i128::from(self.a.y) * width * x.bottom + rise * run, width * x.bottom)
    }

    fn spans(&self, x: Fraction) -> bool {
        Fraction::whole(self.a.x).order(&x).is_lt() && x.order(&Fraction::whole(self.b.x)).is_lt()
    }
}

fn difference(p: i32, q: i32) -> i128 {
    i128::from(p) - i128::from(q)
}

fn steps(contours: &Contours) -> Vec<[IntPoint; 2]> {
    let steps = contours.iter().flat_map(|it| it.iter().zip(it.iter().cycle().skip(1)));
    steps.map(|(&p, &q)| [p, q]).filter(|[p, q]| p != q).collect()
}

/// The abscissas of all ends, and of the points at which two steps cross, in order.
fn slabs(steps: &[[IntPoint; 2]]) -> Vec<Fraction> {
    let mut found: Vec<Fraction> = steps.iter().flatten().map(|point| Fraction::whole(point.x)).collect();
    for (index, [a, b]) in steps.iter().enumerate() {
        for [c, d] in &steps[..index] {
            let (ux, uy) = (difference(b.x, a.x), difference(b.y, a.y));
            let (vx, vy) = (difference(d.x, c.x), difference(d.y, c.y));
            let (wx, wy) = (difference(c.x, a.x), difference(c.y, a.y));
            let cross = ux * vy - uy * vx;
            let (along, other) = ((wx * vy - wy * vx) * cross.signum(), (wx * uy - wy * ux) * cross.signum());
            if cross != 0 && (0..=cross.abs()).contains(&along) && (0..=cross.abs()).contains(&other) {
                found.push(Fraction::new(i128::from(a.x) * cross.abs() + ux * along, cross.abs()));
            }
        }
    }
    found.sort_unstable_by(Fraction::order);
    found.dedup_by(|x, y| x.order(y).is_eq());
    found
}

fn is_inside(fill_rule: FillRule, winding: i32) -> bool {
    match fill_rule {
        FillRule::EvenOdd => winding % 2 != 0,
        FillRule::NonZero => winding != 0,
        FillRule::Positive => winding > 0,
        FillRule::Negative => winding < 0,
    }
}

/// A side of a slab: the heights between which cells of each shape meet it from the left and from the right, and those of its boundary.
#[derive(Clone, Default)]
struct Side {
    cells: [[Vec<[Fraction; 2]>; 2]; 2],
    boundaries: [Vec<[Fraction; 2]>; 2],
}

/// Which parts of two shapes meet, by the cells of slabs, the lines between cells, and the sides of slabs.
struct Matrix {
    meet: [[bool; 3]; 3],
    sides: Vec<Side>,
}

/// The part in which points lie that have the inside or the outside of a shape on each of two sides.
fn part_between(one: bool, other: bool) -> Part {
    match (one, other) {
        (true, true) => Part::Interior,
        (false, false) => Part::Exterior,
        _ => Part::Boundary,
    }
}

impl Matrix {
    fn add(&mut self, [of_subject, of_clip]: [Part; 2]) {
        self.meet[of_subject as usize][of_clip as usize] = true;
    }

    /// Adds a cell between two edges, in the slab at an index.
    fn add_cell(&mut self, slabs: &[Fraction], index: usize, edges: [&Edge; 2], inside: [bool; 2]) {
        self.add(inside.map(|inside| part_between(inside, inside)));
        for shape in (0..2).filter(|&shape| inside[shape]) {
            for (from, side) in [(1, index), (0, index + 1)] {
                self.sides[side].cells[from][shape].push(edges.map(|edge| edge.height(slabs[side])));
            }
        }
    }

    /// Adds an edge between what lies below and above it, in the slab at an index.
    fn add_edge(&mut self, slabs: &[Fraction], index: usize, edge: &Edge, below: [bool; 2], above: [bool; 2]) {
        let parts = [0, 1].map(|shape| part_between(below[shape], above[shape]));
        self.add(parts);
        for shape in (0..2).filter(|&shape| parts[shape] == Part::Boundary) {
            for side in [index, index + 1] {
                let height = edge.height(slabs[side]);
                self.sides[side].boundaries[shape].push([height, height]);
            }
        }
    }

    /// Adds the pieces of a side of a slab, and whether both boundaries have a point of it.
    fn add_side(&mut self, side: usize) {
        let Side { cells, mut boundaries } = std::mem::take(&mut self.sides[side]);
        let mut heights: Vec<Fraction> = cells.iter().flatten().flatten().flatten().copied().collect();
        heights.sort_unstable_by(Fraction::order);
        heights.dedup_by(|x, y| x.order(y).is_eq());
        for pair in heights.windows(2) {
            let middle = pair[0].middle(pair[1]);
            let has = |cells: &[[Fraction; 2]]| {
                cells.iter().any(|[low, high]| low.order(&middle).is_lt() && middle.order(high).is_lt())
            };
            let parts = [0, 1].map(|shape| part_between(has(&cells[0][shape]), has(&cells[1][shape])));
            self.add(parts);
            for shape in (0..2).filter(|&shape| parts[shape] == Part::Boundary) {
                boundaries[shape].push([pair[0], pair[1]]);
            }
        }
        let meet = |[a, b]: &[Fraction; 2], [c, d]: &[Fraction; 2]| a.order(d).is_le() && c.order(b).is_le();
        if boundaries[0].iter().any(|one| boundaries[1].iter().any(|other| meet(one, other))) {
            self.add([Part::Boundary; 2]);
        }
    }

    fn meets(&self, of_subject: Part, of_clip: Part) -> bool {
        self.meet[of_subject as usize][of_clip as usize]
    }

    /// Whether interiors meet, the subject covers the clip, it is within it, both are one region, touch, and are disjoint.
    fn relations(&self) -> [bool; 6] {
        let in_both = self.meets(Part::Interior, Part::Interior);
        let covers = !self.meets(Part::Exterior, Part::Interior);
        let is_within = !self.meets(Part::Interior, Part::Exterior);
        let closed = [Part::Interior, Part::Boundary];
        let share = closed.iter().any(|&of_subject| closed.iter().any(|&of_clip| self.meets(of_subject, of_clip)));
        [in_both, covers, is_within, covers && is_within, share && !in_both, !share]
    }
}

/// Which parts of two shapes meet.
fn matrix(shapes: [&Contours; 2], fill_rule: FillRule) -> Matrix {
    let all = shapes.map(steps);
    let mut edges = Vec::new();
    for (shape, steps) in all.iter().enumerate() {
        for &[p, q] in steps.iter().filter(|[p, q]| p.x != q.x) {
            let mut counts = [0; 2];
            counts[shape] = if p.x < q.x { 1 } else { -1 };
            let (a, b) = if p.x < q.x { (p, q) } else { (q, p) };
            edges.push(Edge { a, b, counts });
        }
    }
    let slabs = slabs(&all.concat());
    let mut matrix = Matrix { meet: [[false; 3]; 3], sides: vec![Side::default(); slabs.len()] };
    matrix.add([Part::Exterior; 2]);
    for (index, pair) in slabs.windows(2).enumerate() {
        let x = pair[0].middle(pair[1]);
        let mut row: Vec<_> = edges.iter().filter(|edge| edge.spans(x)).map(|edge| (edge.height(x), edge)).collect();
        row.sort_by(|one, other| one.0.order(&other.0));
        let (mut winding, mut below) = ([0; 2], [false; 2]);
        for (at, (height, edge)) in row.iter().enumerate() {
            winding = [winding[0] + edge.counts[0], winding[1] + edge.counts[1]];
            // edges at one height are on one line: nothing lies between them
            let next = row.get(at + 1);
            if next.is_none_or(|(higher, _)| height.order(higher).is_lt()) {
                let above = winding.map(|winding| is_inside(fill_rule, winding));
                matrix.add_edge(&slabs, index, edge, below, above);
                if let Some((_, next)) = next {
                    matrix.add_cell(&slabs, index, [edge, next], above);
                }
                below = above;
            }
        }
    }
    (0..slabs.len()).for_each(|side| matrix.add_side(side));
    matrix
}

fn point(random: &mut Random, size: i32) -> IntPoint {
    IntPoint::new(random.below(size + 1), random.below(size + 1))
}

/// A square of steps along the axes and diagonals, so that many crossings have integer coordinates.
fn steps_along_axes(random: &mut Random, size: i32) -> Vec<IntPoint> {
    const WAYS: [(i32, i32); 8] = [(1, 0), (1, 1), (0, 1), (-1, 1), (-1, 0), (-1, -1), (0, -1), (1, -1)];
    let mut at = point(random, size);
    let mut contour = vec![at];
    for _ in 0..2 + random.below(4) {
        let (length, (x, y)) = (2 + 2 * random.below(size / 2), WAYS[random.below(8) as usize]);
        at = IntPoint::new(at.x + length * x, at.y + length * y);
        contour.push(at);
    }
    contour
}

fn contour(random: &mut Random, kind: i32, size: i32) -> Vec<IntPoint> {
    match kind {
        0 => (0..3 + random.below(4)).map(|_| point(random, size)).collect(),
        1 => {
            let (p, q) = (point(random, size), point(random, size));
            let mut corners = vec![p, IntPoint::new(q.x, p.y), q, IntPoint::new(p.x, q.y)];
            if random.below(2) == 0 {
                corners.reverse();
            }
            corners
        }
        2 => {
            // long and thin, near a line
            let (long, mut near) =
                (20 * size, |x: i32| IntPoint::new(x + random.below(5) - 2, x / 2 + random.below(5) - 2));
            vec![near(0), near(long), near(long / 2)]
        }
        3 => steps_along_axes(random, size),
        _ => (0..3).map(|_| point(random, size)).collect(),
    }
}

fn shape(random: &mut Random, kind: i32, size: i32) -> Contours {
    let count = 1 + random.below(3).min(random.below(3));
    (0..count).map(|_| contour(random, kind, size)).collect()
}

/// The second one is new, or made of the first.
fn pair(random: &mut Random) -> [Contours; 2] {
    let (size, kind) = (3 + random.below(10), random.below(5));
    let first = shape(random, kind, size);
    let second = match random.below(6) {
        0 => {
            let (x, y) = (random.below(3) - 1, random.below(3) - 1);
            first.iter().map(|it| it.iter().map(|p| IntPoint::new(p.x + x, p.y + y)).collect()).collect()
        }
        1 => {
            let mut all = first.clone();
            let index = random.below(all.len() as i32) as usize;
            let at = random.below(all[index].len() as i32) as usize;
            all[index][at] = point(random, size);
            all
        }
        2 => {
            let it = &first[random.below(first.len() as i32) as usize];
            let at = random.below(it.len() as i32) as usize;
            let mut corners = vec![it[at], it[(at + 1) % it.len()], point(random, size)];
            if random.below(2) == 0 {
                corners.reverse();
            }
            vec![corners]
        }
        3 => Vec::new(),
        _ => {
            let kind = random.below(5);
            shape(random, kind, size)
        }
    };
    if random.below(2) == 0 {
        [first, second]
    } else {
        [second, first]
    }
}

/// Whether the boxes of two shapes share a point.
fn do_boxes_meet(first: &[Vec<IntPoint>], second: &[Vec<IntPoint>]) -> bool {
    let boxes = [first, second].map(|shape| bounding_box(shape.iter().flatten()));
    let [Some([low, high]), Some([other_low, other_high])] = boxes else {
        return false;
    };
    low.x <= other_high.x && other_low.x <= high.x && low.y <= other_high.y && other_low.y <= high.y
}

/// Compares so many pairs. Returns of how many no relation was refused, and how often each held.
fn compare(seed: u64, pairs: usize) -> (usize, [usize; 6]) {
    let mut random = Random(seed.wrapping_mul(0x9e37_79b9_7f4a_7c15));
    let mut overlay = Overlay::new().unwrap();
    let mut regions = Regions::new().unwrap();
    let (mut decided, mut held) = (0, [0; 6]);
    for _ in 0..pairs {
        let [subject, clip] = pair(&mut random);
        let fill_rule = FILLS[random.below(4) as usize];
        overlay.clear();
        for (contours, shape_type) in [(&subject, ShapeType::Subject), (&clip, ShapeType::Clip)] {
            for contour in contours {
                overlay.add_contour(contour, shape_type).unwrap();
            }
        }
        let found = RELATIONS.map(|relation| relation(&mut overlay, fill_rule));
        if let Err(error) = found[0] {
            assert!(matches!(error, Error::NotExact(_)), "{error}");
            let mut wanted = [Err(error); 6];
            if !do_boxes_meet(&subject, &clip) {
                // they touch nowhere, and are apart, however they cross themselves
                wanted[4..].copy_from_slice(&[Ok(false), Ok(true)]);
            }
            assert_eq!(found, wanted, "{subject:?} {clip:?} {fill_rule}");
            continue;
        }
        let by_definition = matrix([&subject, &clip], fill_rule);
        let wanted = by_definition.relations();
        assert_eq!(found, wanted.map(Ok), "{subject:?} {clip:?} {fill_rule}");
        let relation = overlay.relate(fill_rule).unwrap();
        let met = PARTS.map(|of_subject| PARTS.map(|of_clip| relation.meets(of_subject, of_clip)));
        assert_eq!(met, by_definition.meet, "{subject:?} {clip:?} {fill_rule}");
        if regions.len() > MOST_REGIONS {
            regions = Regions::new().unwrap();
        }
        let [first, second] = [&subject, &clip].map(|contours| regions.push(contours, fill_rule).unwrap());
        let of_regions = OF_REGIONS.map(|relation| relation(&mut regions, first, second));
        assert_eq!(of_regions, wanted.map(Ok), "{subject:?} {clip:?} {fill_rule}");
        assert_eq!(regions.relate(first, second), Ok(relation), "{subject:?} {clip:?} {fill_rule}");
        decided += 1;
        held = [0, 1, 2, 3, 4, 5].map(|relation| held[relation] + usize::from(wanted[relation]));
    }
    (decided, held)
}

#[test]
fn a_million_pairs() {
    let threads = 8;
    let found: Vec<_> = std::thread::scope(|scope| {
        let all: Vec<_> =
            (0..threads).map(|seed| scope.spawn(move || compare(seed, 1_000_000 / threads as usize))).collect();
        all.into_iter().map(|it| it.join().unwrap()).collect()
    });
    let decided: usize = found.iter().map(|(decided, _)| decided).sum();
    assert!(decided > 400_000, "{decided}");
    for relation in 0..6 {
        let held: usize = found.iter().map(|(_, held)| held[relation]).sum();
        assert!(held > 10_000 && held < decided - 10_000, "{relation}: {held} of {decided}");
    }
}
