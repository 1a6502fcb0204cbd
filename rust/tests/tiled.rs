//! Overlays by tiles against their theorem, in whole numbers of this test's own: how the result winds around points that are
//! farther than a whole unit from the given edges that run along no axis, borders and corners of tiles among them.

mod common;
mod validity;

use common::Random;
use fadrinzo::{clip_to_tile, square, Error, Fault, FillRule, IntContour, IntPoint, IntShape, Overlay, OverlayRule};
use fadrinzo::{RuleTable, ShapeType, Tile, TileProgress, TiledError, TiledOverlay, MAX_COORD, MIN_COORD};
use std::collections::{BTreeSet, HashSet};
use std::sync::Mutex;
use validity::wrongs;

const RULES: [OverlayRule; 7] = [
    OverlayRule::Subject,
    OverlayRule::Clip,
    OverlayRule::Intersect,
    OverlayRule::Union,
    OverlayRule::Difference,
    OverlayRule::InverseDifference,
    OverlayRule::Xor,
];

const FILLS: [FillRule; 4] = [FillRule::EvenOdd, FillRule::NonZero, FillRule::Positive, FillRule::Negative];

/// A point whose coordinates are divided by a number.
#[derive(Clone, Copy, Debug)]
struct Place {
    x: i64,
    y: i64,
    bottom: i64,
}

type Step = [IntPoint; 2];

fn steps(contours: &[IntContour]) -> Vec<Step> {
    let steps = contours.iter().flat_map(|it| it.iter().zip(it.iter().cycle().skip(1)));
    steps.map(|(&a, &b)| [a, b]).collect()
}

/// Above 0 where a place lies to the left of the line of a step, below 0 to its right.
fn side(&[a, b]: &Step, place: Place) -> i128 {
    let Place { x, y, bottom } = place;
    let (dx, dy) = (i128::from(b.x) - i128::from(a.x), i128::from(b.y) - i128::from(a.y));
    let (px, py) = (x - i64::from(a.x) * bottom, y - i64::from(a.y) * bottom);
    dx * i128::from(py) - dy * i128::from(px)
}

/// How often steps wind around a place, counterclockwise: those that run to the right strictly below it, less those that run to
/// the left. A step spans its left end and not its right one.
fn winding(steps: &[Step], place: Place) -> i32 {
    let spans = |left: IntPoint, right: IntPoint| {
        i64::from(left.x) * place.bottom <= place.x && place.x < i64::from(right.x) * place.bottom
    };
    let counts = steps.iter().map(|step| {
        let is_right = spans(step[0], step[1]) && side(step, place) > 0;
        let is_left = spans(step[1], step[0]) && side(step, place) < 0;
        i32::from(is_right) - i32::from(is_left)
    });
    counts.sum()
}

/// Whether a step that runs along no axis has a point at most a whole unit from a place, in `x` and in `y`.
fn is_near(step: &Step, place: Place) -> bool {
    let [a, b] = step;
    let Place { x, y, bottom } = place;
    let is_apart = |at: i64, one: i32, other: i32| {
        at + bottom < i64::from(one.min(other)) * bottom || i64::from(one.max(other)) * bottom < at - bottom
    };
    if a.x == b.x || a.y == b.y || is_apart(x, a.x, b.x) || is_apart(y, a.y, b.y) {
        return false;
    }
    let corners = [(-bottom, -bottom), (bottom, -bottom), (bottom, bottom), (-bottom, bottom)];
    let sides = corners.map(|(dx, dy)| side(step, Place { x: x + dx, y: y + dy, bottom }).signum());
    sides != [1; 4] && sides != [-1; 4]
}

fn is_inside(fill_rule: FillRule, winding: i32) -> bool {
    match fill_rule {
        FillRule::EvenOdd => winding % 2 != 0,
        FillRule::NonZero => winding != 0,
        FillRule::Positive => winding > 0,
        FillRule::Negative => winding < 0,
    }
}

fn holds(rule: OverlayRule, subject: bool, clip: bool) -> bool {
    match rule {
        OverlayRule::Subject => subject,
        OverlayRule::Clip => clip,
        OverlayRule::Intersect => subject && clip,
        OverlayRule::Union => subject || clip,
        OverlayRule::Difference => subject && !clip,
        OverlayRule::InverseDifference => clip && !subject,
        OverlayRule::Xor => subject != clip,
        OverlayRule::Table(table) => table.bits() >> (u8::from(subject) + 2 * u8::from(clip)) & 1 == 1,
    }
}

impl Random {
    /// A number from the least to the greatest.
    fn between(&mut self, least: i32, greatest: i32) -> i32 {
        least + self.below(greatest - least + 1)
    }

    fn one_of<T: Copy>(&mut self, choices: &[T]) -> T {
        choices[self.below(choices.len() as i32) as usize]
    }

    fn point(&mut self, range: i32) -> IntPoint {
        IntPoint::new(self.between(-range, range), self.between(-range, range))
    }

    /// Any corners, or a rectangle that runs either way.
    fn contour(&mut self, range: i32, is_rectangle: bool) -> IntContour {
        if !is_rectangle {
            return (0..self.between(3, 8)).map(|_| self.point(range)).collect();
        }
        let (low, high) = (self.point(range), self.point(range));
        [(low.x, low.y), (high.x, low.y), (high.x, high.y), (low.x, high.y)].map(IntPoint::from).to_vec()
    }

    fn lines(&mut self, range: i32) -> Vec<i32> {
        (0..self.below(4)).map(|_| self.between(-range, range)).collect()
    }

    /// A place anywhere, on the border of a tile, in the corner of one, or beside a given point.
    fn place(&mut self, range: i32, tiles: &[Tile], steps: &[Step]) -> Place {
        let bottom = self.between(1, 4);
        let mut any = || self.between(-(range + 2) * bottom, (range + 2) * bottom);
        let (mut x, mut y) = (any(), any());
        let tile = (!tiles.is_empty()).then(|| self.one_of(tiles));
        match (self.below(6), tile) {
            (0 | 1, Some(tile)) => x = bottom * self.one_of(&[tile.low().x, tile.high().x]),
            (2 | 3, Some(tile)) => y = bottom * self.one_of(&[tile.low().y, tile.high().y]),
            (4, Some(tile)) => {
                x = bottom * self.one_of(&[tile.low().x, tile.high().x]);
                y = bottom * self.one_of(&[tile.low().y, tile.high().y]);
            }
            _ => {
                let at = self.one_of(steps)[0];
                x = bottom * at.x + self.between(-3 * bottom, 3 * bottom);
                y = bottom * at.y + self.between(-3 * bottom, 3 * bottom);
            }
        }
        Place { x: x.into(), y: y.into(), bottom: bottom.into() }
    }
}

/// Contours of a subject and of a clip, and where they are cut.
struct Case {
    range: i32,
    shapes: [Vec<IntContour>; 2],
    lines: Option<[Vec<i32>; 2]>,
    count: usize,
    rule: OverlayRule,
    fill_rule: FillRule,
}

impl Case {
    fn new(random: &mut Random) -> Case {
        let range = random.one_of(&[4, 12, 40, 200, 1000]);
        let are_rectangles = random.below(4) == 0;
        let mut shapes = [Vec::new(), Vec::new()];
        for _ in 0..random.between(1, 4) {
            let contour = random.contour(range, are_rectangles);
            shapes[random.below(2) as usize].push(contour);
        }
        let lines = (random.below(2) == 0).then(|| [random.lines(range), random.lines(range)]);
        let table = OverlayRule::Table(RuleTable::new(random.below(16) as u8).unwrap());
        let rule = if random.below(8) == 0 { table } else { random.one_of(&RULES) };
        Case { range, shapes, lines, count: random.between(2, 9) as usize, rule, fill_rule: random.one_of(&FILLS) }
    }

    fn overlay(&self, threads: usize) -> TiledOverlay<'_> {
        let overlay = TiledOverlay::new(&self.shapes[0], &self.shapes[1]).unwrap().with_threads(threads);
        match &self.lines {
            Some([columns, rows]) => overlay.with_lines(columns, rows),
            None => overlay.with_tiles(self.count),
        }
    }
}

/// How many places of each kind were looked at.
#[derive(Default)]
struct Seen {
    far: usize,
    on_lines: usize,
    inside: usize,
    tiles: usize,
}

/// Compares the shapes with what the rule says of places that are far from the given edges.
fn compare(case: &Case, shapes: &[IntShape], tiles: &[Tile], random: &mut Random, seen: &mut Seen) {
    let given = case.shapes.each_ref().map(|contours| steps(contours));
    let all = given.concat();
    let found = steps(&shapes.concat());
    for _ in 0..8 {
        let place = random.place(case.range, tiles, &all);
        if all.iter().any(|step| is_near(step, place)) {
            continue;
        }
        let [subject, clip] = given.each_ref().map(|steps| is_inside(case.fill_rule, winding(steps, place)));
        let wanted = i32::from(holds(case.rule, subject, clip)) - i32::from(holds(case.rule, false, false));
        assert_eq!(winding(&found, place), wanted, "{place:?}: {:?}, {:?}, {tiles:?}", case.shapes, case.rule);
        let is_at = |at: i64, line: i32| at == i64::from(line) * place.bottom;
        let is_on_line = |tile: &Tile| {
            let (low, high) = (tile.low(), tile.high());
            is_at(place.x, low.x) || is_at(place.x, high.x) || is_at(place.y, low.y) || is_at(place.y, high.y)
        };
        seen.far += 1;
        seen.on_lines += usize::from(tiles.iter().any(is_on_line));
        seen.inside += usize::from(wanted != 0);
    }
}

/// What the parts of tiles make up by one more overlay, which is proved; or the overlay without tiles, where there is one.
fn joined_by_an_overlay(case: &Case, tiles: &[Tile]) -> Vec<IntShape> {
    if tiles.len() == 1 {
        let mut overlay = Overlay::with_contours(&case.shapes[0], &case.shapes[1]).unwrap();
        return overlay.overlay_shapes(case.rule, case.fill_rule).unwrap();
    }
    let mut parts = Vec::new();
    for tile in tiles {
        let mut overlay = Overlay::new().unwrap();
        for (contours, shape_type) in case.shapes.iter().zip([ShapeType::Subject, ShapeType::Clip]) {
            contours.iter().for_each(|contour| overlay.add_contour_in_tile(contour, shape_type, tile).unwrap());
        }
        parts.extend(overlay.overlay(case.rule, case.fill_rule).unwrap());
    }
    let mut overlay = Overlay::with_contours(&parts, &[]).unwrap();
    // under a rule that holds outside parts wind around what is not in the overlay
    let not_subject = OverlayRule::Table(RuleTable::new(0b0101).unwrap());
    let rule = if holds(case.rule, false, false) { not_subject } else { OverlayRule::Subject };
    let shapes = overlay.overlay_shapes(rule, FillRule::NonZero).unwrap();
    assert_eq!(overlay.reach(), 0);
    shapes
}

/// The shapes in an order of their own: each contour from its least point on.
fn in_order(shapes: &[IntShape]) -> BTreeSet<BTreeSet<IntContour>> {
    let from_least = |contour: &IntContour| {
        let least = (0..contour.len()).min_by_key(|&index| contour[index]).unwrap();
        [&contour[least..], &contour[..least]].concat()
    };
    shapes.iter().map(|shape| shape.iter().map(from_least).collect()).collect()
}

fn sorted_steps(shapes: &[IntShape]) -> Vec<Step> {
    let mut steps = steps(&shapes.concat());
    steps.sort_unstable();
    steps
}

/// 100,000 overlays: each winds as the rule says and is valid, and the edges and shapes are those of parts that are joined by an
/// overlay.
#[test]
fn random_overlays() {
    let mut random = Random(89);
    let mut seen = Seen::default();
    for number in 0..100_000 {
        let case = Case::new(&mut random);
        let overlay = case.overlay(1);
        let shapes = overlay.overlay_shapes(case.rule, case.fill_rule).unwrap();
        let tiles = overlay.tiles().unwrap();
        seen.tiles += tiles.len();
        compare(&case, &shapes, &tiles, &mut random, &mut seen);
        let wanted = joined_by_an_overlay(&case, &tiles);
        assert_eq!(sorted_steps(&shapes), sorted_steps(&wanted), "{number}: {:?}, {tiles:?}", case.shapes);
        if !holds(case.rule, false, false) {
            assert_eq!(in_order(&shapes), in_order(&wanted), "{number}: {:?}, {tiles:?}", case.shapes);
            assert_eq!(wrongs(&shapes, &shapes.concat()), BTreeSet::new(), "{number}: {:?}, {tiles:?}", case.shapes);
        }
    }
    let Seen { far, on_lines, inside, tiles } = seen;
    assert!(far > 600_000 && on_lines > 500_000, "{far}, {on_lines}");
    assert!(inside > 35_000 && tiles > 450_000, "{inside}, {tiles}");
}

/// Triangles of a few hundred units in a square of 20,000, and a contour of 5,000 points around it.
fn triangles_and_a_ring() -> [Vec<IntContour>; 2] {
    let mut random = Random(7);
    let triangles = (0..3_000).map(|_| {
        let at = random.point(10_000);
        (0..3).map(|_| IntPoint::new(at.x + random.between(-300, 300), at.y + random.between(-300, 300))).collect()
    });
    let triangles = triangles.collect();
    let ring = (0..5_000).map(|index| {
        let angle = f64::from(index) * std::f64::consts::TAU / 5_000.0;
        let radius = 9_000.0 + f64::from(random.below(400));
        IntPoint::new((radius * angle.cos()) as i32, (radius * angle.sin()) as i32)
    });
    [triangles, vec![ring.collect()]]
}

/// The result is the same on any number of threads, and each tile is reported once.
#[test]
fn threads_return_what_one_returns() {
    let [subject, clip] = triangles_and_a_ring();
    for rule in [OverlayRule::Union, OverlayRule::Difference, OverlayRule::Xor] {
        let told = Mutex::new(Vec::new());
        let note = |progress: TileProgress| told.lock().unwrap().push(progress);
        let overlay = TiledOverlay::new(&subject, &clip).unwrap().with_tiles(24);
        let wanted = overlay.with_threads(1).overlay_shapes(rule, FillRule::EvenOdd).unwrap();
        for threads in 2..=4 {
            let overlay = TiledOverlay::new(&subject, &clip).unwrap().with_tiles(24).with_progress(&note);
            let overlay = overlay.with_threads(threads);
            assert_eq!(overlay.overlay_shapes(rule, FillRule::EvenOdd).unwrap(), wanted, "{threads}");
            let mut told = std::mem::take(&mut *told.lock().unwrap());
            told.sort_unstable_by_key(|progress| progress.done);
            let tiles = overlay.tiles().unwrap();
            assert!(told.iter().zip(1..).all(|(it, done)| (it.done, it.tiles) == (done, tiles.len())), "{told:?}");
            assert_eq!(told.iter().map(|it| it.tile).collect::<HashSet<_>>(), tiles.into_iter().collect());
        }
    }
}

/// What a tile needs of a long contour is a part of it, which winds as the whole: so the result is that of whole contours.
#[test]
fn long_contours() {
    let [_, ring] = triangles_and_a_ring();
    let clip = [square(-2_000, 2_000).to_vec()];
    let case = Case {
        range: 10_000,
        shapes: [ring, clip.to_vec()],
        lines: Some([vec![-8_900, 0, 3_000], vec![-9_100, 8_950]]),
        count: 0,
        rule: OverlayRule::Difference,
        fill_rule: FillRule::NonZero,
    };
    let overlay = case.overlay(1);
    let (tiles, shapes) = (overlay.tiles().unwrap(), overlay.overlay_shapes(case.rule, case.fill_rule).unwrap());
    assert_eq!(tiles.len(), 12);
    assert_eq!(in_order(&shapes), in_order(&joined_by_an_overlay(&case, &tiles)));
    let mut seen = Seen::default();
    (0..20).for_each(|_| compare(&case, &shapes, &tiles, &mut Random(3), &mut seen));
    assert!(seen.far > 100, "{}", seen.far);
}

/// A run of points beside a tile counts there by its first point and its last one, in their order.
#[test]
fn a_run_beside_a_tile() {
    let left = (0..511).map(|step| IntPoint::new(-1_000, 3 * step - 1_000)).chain([IntPoint::new(-500, 600)]);
    let right = (0..512).map(|step| IntPoint::new(1_000, 500 - 3 * step));
    let case = Case {
        range: 1_100,
        shapes: [vec![left.chain(right).collect()], Vec::new()],
        lines: Some([vec![0], Vec::new()]),
        count: 0,
        rule: OverlayRule::Subject,
        fill_rule: FillRule::NonZero,
    };
    let overlay = case.overlay(1);
    let (tiles, shapes) = (overlay.tiles().unwrap(), overlay.overlay_shapes(case.rule, case.fill_rule).unwrap());
    assert_eq!(tiles.len(), 2);
    assert_eq!(in_order(&shapes), in_order(&joined_by_an_overlay(&case, &tiles)));
}

/// Contours without an area have no tiles and no overlay; those of one tile are overlaid as they are.
#[test]
fn few_tiles() {
    let (line, whole) = ([[(0, 0), (0, 9), (0, 4)].map(IntPoint::from)], [square(0, 4), square(2, 6)]);
    let flat = TiledOverlay::new(&line, &[]).unwrap();
    assert_eq!(flat.tiles().unwrap(), []);
    assert_eq!(flat.overlay(OverlayRule::Union, FillRule::NonZero).unwrap(), Vec::<IntContour>::new());
    let one = TiledOverlay::new(&whole, &[]).unwrap();
    assert_eq!(one.tiles().unwrap(), [Tile::new(IntPoint::ZERO, IntPoint::new(6, 6)).unwrap()]);
    let wanted = Overlay::with_contours(&whole, &[]).unwrap().overlay_shapes(OverlayRule::Subject, FillRule::NonZero);
    assert_eq!(one.overlay_shapes(OverlayRule::Subject, FillRule::NonZero).unwrap(), wanted.unwrap());
    let lines = one.with_lines(&[4, 6, 0, 2, 4], &[-1, 7]);
    let widths = [(0, 2), (2, 4), (4, 6)].map(|(low, high)| Tile::new(IntPoint::new(low, 0), IntPoint::new(high, 6)));
    assert_eq!(lines.tiles().unwrap(), widths.map(Option::unwrap));
}

/// A point out of range is named among the contours that were given, and what is no tile is none.
#[test]
fn what_is_refused() {
    let far = [square(0, 4), [(0, 0), (4, 0), (MAX_COORD + 1, 4), (0, 4)].map(IntPoint::from)];
    let refused = TiledOverlay::new(&[], &far).unwrap_err();
    let text = "contour 1 of the clip, point 2: x is 1073741824, the greatest is 1073741823";
    assert_eq!((refused.tile, refused.to_string().as_str()), (None, text));
    let tile = Tile::new(IntPoint::ZERO, IntPoint::new(2, 2)).unwrap();
    let refused = clip_to_tile(&far, &tile).unwrap_err();
    assert_eq!(refused.to_string(), text.replace("clip", "subject"));
    let error = TiledError { tile: Some(tile), error: Error::Fault(Fault::CountOutOfRange) };
    assert!(error.to_string().starts_with("tile from (0, 0) to (2, 2): a sum of winding counts"), "{error}");
    for (low, high) in [((0, 0), (0, 4)), ((0, 0), (4, 0)), ((4, 0), (0, 4)), ((MIN_COORD - 1, 0), (4, 4))] {
        assert_eq!(Tile::new(low.into(), high.into()), None, "{low:?} {high:?}");
    }
    assert_eq!(Tile::new((0, 0).into(), (4, MAX_COORD + 1).into()), None);
}
