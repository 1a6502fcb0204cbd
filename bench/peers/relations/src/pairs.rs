//! Random pairs of polygons, most of which are valid.

use fadrinzo::{IntContour, IntPoint};

/// A pair of shapes: an outer boundary each, and at most one hole.
pub type Pair = [Vec<IntContour>; 2];

/// Random numbers by SplitMix64.
pub struct Random(pub u64);

impl Random {
    fn next(&mut self) -> u64 {
        self.0 = self.0.wrapping_add(0x9E37_79B9_7F4A_7C15);
        let mut mixed = self.0;
        mixed = (mixed ^ (mixed >> 30)).wrapping_mul(0xBF58_476D_1CE4_E5B9);
        mixed = (mixed ^ (mixed >> 27)).wrapping_mul(0x94D0_49BB_1331_11EB);
        mixed ^ (mixed >> 31)
    }

    pub fn below(&mut self, count: i32) -> i32 {
        (self.next() % count as u64) as i32
    }

    /// A number from 0 to 1.
    pub fn unit(&mut self) -> f64 {
        (self.next() >> 11) as f64 / (1_u64 << 53) as f64
    }

    fn point(&mut self, size: i32) -> IntPoint {
        IntPoint::new(self.below(size + 1), self.below(size + 1))
    }
}

fn rectangle(low: IntPoint, high: IntPoint) -> IntContour {
    vec![low, IntPoint::new(high.x, low.y), high, IntPoint::new(low.x, high.y)]
}

/// A long thin triangle near to a line.
fn sliver(random: &mut Random, size: i32) -> IntContour {
    let long = size * 20;
    let mut near = |x, y, off| IntPoint::new(x + random.below(2 * off + 1) - off, y + random.below(2 * off + 1) - off);
    vec![near(1, 1, 1), near(long, long / 2, 2), near(long / 2, long / 4, 2)]
}

/// Steps along the axes and diagonals, so that edges of two such contours often overlap or cross at whole points.
fn steps(random: &mut Random, size: i32) -> IntContour {
    const WAYS: [(i32, i32); 8] = [(1, 0), (1, 1), (0, 1), (-1, 1), (-1, 0), (-1, -1), (0, -1), (1, -1)];
    let mut contour = vec![random.point(size)];
    for _ in 0..2 + random.below(4) {
        let (far, (x, y)) = (2 + 2 * random.below(size / 2), WAYS[random.below(8) as usize]);
        let last = contour[contour.len() - 1];
        contour.push(IntPoint::new(last.x + far * x, last.y + far * y));
    }
    contour
}

fn any(random: &mut Random, size: i32, corners: i32) -> IntContour {
    (0..corners).map(|_| random.point(size)).collect()
}

fn shape(random: &mut Random, size: i32) -> Vec<IntContour> {
    let low = random.point(size);
    let far = IntPoint::new(3 + random.below(size), 3 + random.below(size));
    let high = IntPoint::new(low.x + far.x, low.y + far.y);
    let corners = 3 + random.below(4);
    match random.below(6) {
        0 => vec![rectangle(low, high)],
        // with a hole that may touch it
        1 => {
            let mut within = || IntPoint::new(low.x + random.below(far.x + 1), low.y + random.below(far.y + 1));
            vec![rectangle(low, high), vec![within(), within(), within()]]
        }
        2 => vec![steps(random, size)],
        3 => vec![sliver(random, size)],
        4 => vec![any(random, size, corners)],
        _ => vec![any(random, size, 3)],
    }
}

/// Two shapes on a small lattice. The second is new, or the first one moved, changed in a point, or on one of its edges.
pub fn small(random: &mut Random) -> Pair {
    let size = 3 + random.below(10);
    let first = shape(random, size);
    let mut second = first.clone();
    match random.below(5) {
        0 => {
            let (x, y) = (random.below(3) - 1, random.below(3) - 1);
            for point in second.iter_mut().flatten() {
                *point = IntPoint::new(point.x + x, point.y + y);
            }
        }
        1 => {
            let contour = random.below(second.len() as i32) as usize;
            let point = random.below(second[contour].len() as i32) as usize;
            second[contour][point] = random.point(size);
        }
        2 => {
            let from = random.below(first[0].len() as i32) as usize;
            second = vec![vec![first[0][from], first[0][(from + 1) % first[0].len()], random.point(size)]];
        }
        _ => second = shape(random, size),
    }
    [first, second]
}

/// Two triangles of up to 26 bits. Corners of the second are corners of the first, or the nearest whole points to points of its
/// edges, so that edges nearly lie on one another, touch, or just fail to.
pub fn large(random: &mut Random) -> Pair {
    let size = 1 << (6 + random.below(20));
    let far = |random: &mut Random| IntPoint::new(random.below(2 * size) - size, random.below(2 * size) - size);
    let (p, q) = (far(random), far(random));
    let middle = IntPoint::new((p.x + q.x) / 2 + random.below(5) - 2, (p.y + q.y) / 2 + random.below(5) - 2);
    let first = vec![p, q, if random.below(2) == 0 { far(random) } else { middle }];
    let along = |random: &mut Random, from: IntPoint, to: IntPoint, off: i32| {
        let part = i64::from(random.below(4096));
        let mut at = |a: i32, b: i32| {
            let moved = (i64::from(b) - i64::from(a)) * part + 2048;
            a + (moved.div_euclid(4096)) as i32 + random.below(2 * off + 1) - off
        };
        IntPoint::new(at(from.x, to.x), at(from.y, to.y))
    };
    let mut corner = || match random.below(5) {
        0 => first[random.below(3) as usize],
        1 | 2 => along(random, first[0], first[1], 0),
        3 => along(random, first[1], first[2], 1),
        _ => far(random),
    };
    let second = vec![corner(), corner(), corner()];
    [vec![first], vec![second]]
}
