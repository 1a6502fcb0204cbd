//! Overlays in shapes, at random: each is tested by whole arithmetic (`validity`) to be valid, and to be the region that the
//! overlay of the same contours has. Of 160,000 overlays more than 100,000 are of rules that hold of no place outside.

mod common;
mod validity;

use common::Random;
use fadrinzo::{FillRule, IntContour, IntPoint, IntShape, Overlay, OverlayRule, RuleTable, ShapeType};
use std::collections::{BTreeMap, HashMap};
use validity::{winding_number, wrongs, Place, Wrong};

const FILL_RULES: [FillRule; 4] = [FillRule::EvenOdd, FillRule::NonZero, FillRule::Positive, FillRule::Negative];

const NAMED: [OverlayRule; 7] = [
    OverlayRule::Subject,
    OverlayRule::Clip,
    OverlayRule::Intersect,
    OverlayRule::Union,
    OverlayRule::Difference,
    OverlayRule::InverseDifference,
    OverlayRule::Xor,
];

/// A rule: one of seven with names, or one of sixteen tables.
fn overlay_rule(number: i32) -> OverlayRule {
    match NAMED.get(number as usize) {
        Some(&rule) => rule,
        None => OverlayRule::Table(RuleTable::new(number as u8 - 7).expect("16 tables")),
    }
}

/// What a rule says of a place that is inside the subject or not, and inside the clip or not.
fn holds(rule: OverlayRule, subject: bool, clip: bool) -> bool {
    match rule {
        OverlayRule::Subject => subject,
        OverlayRule::Clip => clip,
        OverlayRule::Intersect => subject && clip,
        OverlayRule::Union => subject || clip,
        OverlayRule::Difference => subject && !clip,
        OverlayRule::InverseDifference => clip && !subject,
        OverlayRule::Xor => subject != clip,
        OverlayRule::Table(table) => table.bits() >> (u8::from(subject) + 2 * u8::from(clip)) & 1 == 1,
    }
}

/// Contours of a subject and of a clip, with rules.
struct Input {
    contours: [Vec<IntContour>; 2],
    rule: OverlayRule,
    fill_rule: FillRule,
}

impl Input {
    fn random(random: &mut Random, contours: [Vec<IntContour>; 2]) -> Input {
        let rule = overlay_rule(random.below(23));
        Input { contours, rule, fill_rule: FILL_RULES[random.below(4) as usize] }
    }

    fn holds_outside(&self) -> bool {
        holds(self.rule, false, false)
    }

    /// The contours as a program reads them, and the rules.
    fn text(&self) -> String {
        let line = |letter: &str, contour: &IntContour| {
            let numbers = contour.iter().map(|point| format!(" {} {}", point.x, point.y));
            format!("{letter}{}\n", numbers.collect::<String>())
        };
        let [subject, clip] = &self.contours;
        let subject = subject.iter().map(|contour| line("S", contour));
        let lines: String = subject.chain(clip.iter().map(|contour| line("C", contour))).collect();
        format!("{:?} {:?}\n{lines}", self.rule, self.fill_rule)
    }

    /// The overlay in shapes and as contours. Those of a rule that holds outside run the other way, so they are turned.
    fn overlaid(&self, overlay: &mut Overlay) -> (Vec<IntShape>, Vec<IntContour>) {
        overlay.clear();
        for (contours, shape_type) in self.contours.iter().zip([ShapeType::Subject, ShapeType::Clip]) {
            for contour in contours {
                overlay.add_contour(contour, shape_type).unwrap();
            }
        }
        let mut contours = overlay.overlay(self.rule, self.fill_rule).unwrap();
        let report = (overlay.passes(), overlay.reach());
        let mut shapes = overlay.overlay_shapes(self.rule, self.fill_rule).unwrap();
        assert_eq!(report, (overlay.passes(), overlay.reach()), "{}", self.text());
        if self.holds_outside() {
            contours.iter_mut().chain(shapes.iter_mut().flatten()).for_each(|contour| contour.reverse());
        }
        (shapes, contours)
    }
}

/// How often each thing was wrong, and the first input of each.
#[derive(Default)]
struct Faults {
    tried: usize,
    found: BTreeMap<Wrong, (usize, String)>,
}

impl Faults {
    /// Tries an overlay, and returns its shapes. Those of a rule that holds outside are shapes of
    /// its complement, with fewer promises: parts that touch in points may be in one shape, which
    /// has several outer boundaries then, and its first contour may be a hole that has the least
    /// point too.
    fn test(&mut self, overlay: &mut Overlay, input: &Input) -> Vec<IntShape> {
        let (shapes, contours) = input.overlaid(overlay);
        self.tried += 1;
        let mut found = wrongs(&shapes, &contours);
        if input.holds_outside() {
            found.retain(|wrong| ![Wrong::InParts, Wrong::FirstIsHole, Wrong::NotOneBoundary].contains(wrong));
        }
        for wrong in found {
            self.found.entry(wrong).or_insert_with(|| (0, input.text())).0 += 1;
        }
        shapes
    }

    fn assert_none(&self) {
        let lines = self.found.iter().map(|(wrong, (count, first))| format!("{wrong:?}: {count}, first of\n{first}"));
        assert!(self.found.is_empty(), "of {} overlays\n{}", self.tried, lines.collect::<String>());
    }
}

/// Contours over a small grid: for each side one to four, of three to eight points. With an apex they all begin in one
/// point, and the others are to its right.
fn over_grid(random: &mut Random, size: i32, has_apex: bool) -> Input {
    let apex = IntPoint::new(0, random.below(size));
    let mut contour = || {
        let count = 3 + random.below(6);
        let mut points: IntContour =
            (0..count).map(|_| IntPoint::new(random.below(size), random.below(size))).collect();
        if has_apex {
            points.iter_mut().for_each(|point| point.x += 1);
            points[0] = apex;
        }
        points
    };
    let mut side = |count| (0..count).map(|_| contour()).collect();
    let contours = [side(4), side(4)];
    let counts = [1 + random.below(4), 1 + random.below(4)].map(|count| count as usize);
    let [mut subject, mut clip]: [Vec<IntContour>; 2] = contours;
    subject.truncate(counts[0]);
    clip.truncate(counts[1]);
    Input::random(random, [subject, clip])
}

fn test_grids(seed: u64, count: usize, size: i32, has_apex: bool) {
    let mut random = Random(seed);
    let mut overlay = Overlay::new().unwrap();
    let mut faults = Faults::default();
    for _ in 0..count {
        faults.test(&mut overlay, &over_grid(&mut random, size, has_apex));
    }
    faults.assert_none();
}

#[test]
fn contours_over_a_grid() {
    test_grids(1, 40_000, 12, false);
}

#[test]
fn contours_over_a_smaller_grid() {
    test_grids(2, 40_000, 6, false);
}

#[test]
fn contours_that_begin_in_one_point() {
    test_grids(3, 16_000, 12, true);
    test_grids(4, 16_000, 6, true);
}

/// A board: cells side by side, and which share a side.
struct Board {
    cells: Vec<IntContour>,
    neighbors: Vec<Vec<usize>>,
}

impl Board {
    fn new(cells: Vec<IntContour>) -> Board {
        let mut neighbors = vec![Vec::new(); cells.len()];
        let mut sides: HashMap<(IntPoint, IntPoint), usize> = HashMap::new();
        for (index, corners) in cells.iter().enumerate() {
            for (&a, &b) in corners.iter().zip(corners.iter().cycle().skip(1)) {
                if let Some(other) = sides.insert((a.min(b), a.max(b)), index) {
                    neighbors[index].push(other);
                    neighbors[other].push(index);
                }
            }
        }
        Board { cells, neighbors }
    }

    /// Squares with a side of one unit.
    fn of_squares(size: i32) -> Board {
        let cells = (0..size * size).map(|index| square_at(index % size, index / size, 1));
        Board::new(cells.map(Vec::from).collect())
    }

    /// The quarters of squares: triangles with a side of the square, and a corner in its middle.
    fn of_triangles(size: i32) -> Board {
        let squares = (0..size * size).map(|index| square_at(2 * (index % size), 2 * (index / size), 2));
        let quarters = squares.flat_map(|corners| {
            let middle = IntPoint::new(corners[0].x + 1, corners[0].y + 1);
            (0..4).map(move |side| vec![corners[side], corners[(side + 1) % 4], middle])
        });
        Board::new(quarters.collect())
    }

    /// The middle of a cell.
    fn middle(&self, cell: usize) -> Place {
        let corners = &self.cells[cell];
        let sum = |coordinate: fn(&IntPoint) -> i32| corners.iter().map(|corner| i128::from(coordinate(corner))).sum();
        Place { x: sum(|corner| corner.x), y: sum(|corner| corner.y), bottom: corners.len() as i128 }
    }

    /// The number of the part of some cells in which each one is, where a part is linked by sides; and how many there are.
    fn parts(&self, is_kept: &[bool]) -> (Vec<Option<usize>>, usize) {
        let mut parts = vec![None; self.cells.len()];
        let mut count = 0;
        for start in 0..self.cells.len() {
            if !is_kept[start] || parts[start].is_some() {
                continue;
            }
            let mut reached = vec![start];
            parts[start] = Some(count);
            while let Some(cell) = reached.pop() {
                for &next in &self.neighbors[cell] {
                    if is_kept[next] && parts[next].is_none() {
                        parts[next] = Some(count);
                        reached.push(next);
                    }
                }
            }
            count += 1;
        }
        (parts, count)
    }

    /// Overlays the cells of a subject and of a clip. The shapes have to be the parts of the cells
    /// where the rule holds, each part one shape. Where it holds outside, those where it does not,
    /// and a shape may have several parts.
    fn test(&self, random: &mut Random, overlay: &mut Overlay, faults: &mut Faults, sides: [&[bool]; 2]) {
        let contours = sides.map(|side| {
            let kept = self.cells.iter().zip(side).filter(|(_, &is_kept)| is_kept);
            kept.map(|(cell, _)| cell.clone()).collect::<Vec<IntContour>>()
        });
        let mut input = Input::random(random, contours);
        if input.fill_rule == FillRule::Negative {
            input.contours.iter_mut().flatten().for_each(|contour| contour.reverse());
        }
        let shapes = faults.test(overlay, &input);
        let outside = input.holds_outside();
        let is_kept: Vec<bool> =
            (0..self.cells.len()).map(|cell| holds(input.rule, sides[0][cell], sides[1][cell]) != outside).collect();
        let (parts, count) = self.parts(&is_kept);
        assert!(outside || shapes.len() == count, "{}", input.text());
        let mut shape_of = vec![None; count];
        for (cell, part) in parts.into_iter().enumerate() {
            let place = self.middle(cell);
            let around: Vec<usize> =
                (0..shapes.len()).filter(|&shape| winding_number(&shapes[shape], place) == 1).collect();
            match part {
                Some(part) => {
                    assert_eq!(around.len(), 1, "{}", input.text());
                    assert_eq!(*shape_of[part].get_or_insert(around[0]), around[0], "{}", input.text());
                }
                None => assert!(around.is_empty(), "{}", input.text()),
            }
        }
    }
}

/// The corners of a square, counterclockwise.
fn square_at(x: i32, y: i32, side: i32) -> [IntPoint; 4] {
    [(x, y), (x + side, y), (x + side, y + side), (x, y + side)].map(|(x, y)| IntPoint::new(x, y))
}

/// Whether a cell belongs to a pattern on a board with that many cells in a row.
fn is_in_pattern(pattern: i32, x: i32, y: i32, size: i32) -> bool {
    let last = size - 1;
    let depth = x.min(y).min(last - x).min(last - y);
    match pattern {
        // a checkerboard
        0 => (x + y) % 2 == 0,
        // rings in rings
        1 => depth % 2 == 0,
        // a C that closes on itself in a point
        2 => depth == 0 && (x, y) != (last, last),
        // two pieces that touch in two points
        3 => depth == 0 && (x, y) != (last, 0) && (x, y) != (0, last),
        // rings in rings that touch along a diagonal
        4 => depth % 2 == 0 || x == y,
        // all
        _ => true,
    }
}

/// The cells of a pattern, but for some that are turned over, or cells at random. A square has `quarters` cells.
fn random_cells(random: &mut Random, size: i32, quarters: i32) -> Vec<bool> {
    let pattern = random.below(9);
    let (of, rare) = ([2, 3, 4][random.below(3) as usize], [0, 8, 16][random.below(3) as usize]);
    let cells = (0..size * size * quarters).map(|index| {
        let (x, y) = (index / quarters % size, index / quarters / size);
        match pattern {
            0..6 => is_in_pattern(pattern, x, y, size) != (rare > 0 && random.below(rare) == 0),
            _ => random.below(of) > 0,
        }
    });
    cells.collect()
}

fn test_boards(seed: u64, count: usize, quarters: i32, board: fn(i32) -> Board) {
    let mut random = Random(seed);
    let mut overlay = Overlay::new().unwrap();
    let mut faults = Faults::default();
    let boards: Vec<Board> = (0..=6).map(board).collect();
    for _ in 0..count {
        let size = 2 + random.below(if quarters == 1 { 5 } else { 3 });
        let subject = random_cells(&mut random, size, quarters);
        let clip = match random.below(2) {
            0 => vec![false; subject.len()],
            _ => random_cells(&mut random, size, quarters),
        };
        boards[size as usize].test(&mut random, &mut overlay, &mut faults, [&subject, &clip]);
    }
    faults.assert_none();
}

#[test]
fn boards_of_squares() {
    test_boards(5, 24_000, 1, Board::of_squares);
}

#[test]
fn boards_of_triangles() {
    test_boards(6, 24_000, 4, Board::of_triangles);
}

/// The contour of these coordinates, x and y by turns.
fn contour(numbers: &[i32]) -> IntContour {
    numbers.chunks(2).map(|pair| IntPoint::new(pair[0], pair[1])).collect()
}

#[test]
fn contours_that_touch_in_the_least_point() {
    let tangle = [
        vec![contour(&[3, 4, 3, 2, 3, 1, 1, 0, 3, 0, 0, 4]), contour(&[2, 5, 5, 5, 5, 1, 2, 1])],
        [
            &[2, 4, 3, 4, 3, 2, 2, 2] as &[i32],
            &[0, 4, 2, 4, 2, 5, 0, 5],
            &[3, 2, 7, 2, 7, 5, 3, 5],
            &[3, 0, 0, 1, 2, 4, 1, 4, 0, 1, 4, 4, 1, 0],
        ]
        .map(contour)
        .to_vec(),
    ];
    let holes =
        [vec![contour(&[0, 0, 8, -4, 8, 4])], vec![contour(&[0, 0, 4, -1, 4, 0]), contour(&[0, 0, 5, 1, 4, 2])]];
    let mut overlay = Overlay::new().unwrap();
    let mut faults = Faults::default();
    for contours in [tangle, holes] {
        for number in 0..23 {
            for fill_rule in FILL_RULES {
                let rule = overlay_rule(number);
                faults.test(&mut overlay, &Input { contours: contours.clone(), rule, fill_rule });
            }
        }
    }
    faults.assert_none();
}

/// The test of validity finds each thing that can be wrong, near and far.
#[test]
fn each_fault_is_found() {
    for (first, unit) in [(0, 1), (-1_050_000_000, 100_000_000)] {
        find_each_fault(|numbers| contour(&numbers.iter().map(|number| first + number * unit).collect::<Vec<i32>>()));
    }
}

fn find_each_fault(contour: impl Fn(&[i32]) -> IntContour) {
    let boundary = contour(&[0, 0, 9, 0, 9, 9, 0, 9]);
    let hole = contour(&[3, 3, 3, 6, 6, 6, 6, 3]);
    let found = |shapes: &[IntShape]| wrongs(shapes, &shapes.concat()).into_iter().collect::<Vec<Wrong>>();
    let of_one = |second: &[i32]| found(&[vec![boundary.clone(), contour(second)]]);
    assert_eq!(found(&[vec![boundary.clone(), hole.clone()]]), []);
    assert_eq!(of_one(&[3, 3, 3, 6, 5, 5, 6, 6, 6, 3, 5, 5]), [Wrong::PointTwice]);
    assert_eq!(of_one(&[3, 3, 6, 6, 6, 3, 3, 6]), [Wrong::EdgesMeet]);
    assert_eq!(of_one(&[3, 3, 3, 6, 9, 5]), [Wrong::EdgesMeet]);
    assert_eq!(of_one(&[0, 0, 0, 9, 5, 5]), [Wrong::EdgesMeet]);
    assert_eq!(found(&[vec![hole.clone(), boundary.clone()]]), [Wrong::NotLed, Wrong::FirstIsHole]);
    assert_eq!(found(&[vec![contour(&[0, 0, 4, 5, 5, 4]), boundary.clone()]]), [Wrong::FirstIsHole]);
    assert_eq!(of_one(&[20, 0, 21, 0, 20, 1]), [Wrong::NotOneBoundary]);
    assert_eq!(of_one(&[20, 0, 20, 1, 21, 0]), [Wrong::HoleOutside, Wrong::Overlap]);
    let nested = [boundary.clone(), hole.clone(), contour(&[4, 4, 4, 5, 5, 5])];
    assert_eq!(found(&[nested.to_vec()]), [Wrong::HoleInHole, Wrong::Overlap]);
    assert_eq!(of_one(&[0, 0, 4, 5, 5, 4]), []);
    assert_eq!(of_one(&[0, 0, 2, 7, 9, 9, 7, 2]), [Wrong::InParts]);
    let ring = [&[2, 2, 2, 4, 4, 4] as &[i32], &[4, 4, 5, 6, 6, 4], &[2, 2, 6, 4, 5, 2]].map(&contour);
    let ringed = |count: usize| found(&[[std::slice::from_ref(&boundary), &ring[..count]].concat()]);
    assert_eq!(ringed(2), []);
    assert_eq!(ringed(3), [Wrong::InParts]);
    let inner: IntContour = hole.iter().rev().copied().collect();
    assert_eq!(found(&[vec![boundary.clone()], vec![inner]]), [Wrong::Overlap]);
    assert_eq!(wrongs(&[], &[hole]).into_iter().collect::<Vec<_>>(), [Wrong::OtherRegion]);
    assert_eq!(wrongs(&[vec![boundary]], &[]).into_iter().collect::<Vec<_>>(), [Wrong::OtherRegion]);
}
