//! Relations of two shapes against their definitions.

mod common;

use common::Random;
use fadrinzo::{square, Error, FillRule, FloatError, FloatOverlay, IntPoint, Overlay, OverlayRule, Part, ShapeType};

const PARTS: [Part; 3] = [Part::Interior, Part::Boundary, Part::Exterior];

const CALLS: [fn(&mut Overlay, FillRule) -> Result<bool, Error>; 6] = [
    Overlay::interiors_meet,
    Overlay::covers,
    Overlay::is_within,
    Overlay::same_region,
    Overlay::touches,
    Overlay::is_disjoint,
];

/// Whether interiors meet, the subject covers the clip, it is within the clip, both are the same region, touch, and are disjoint.
fn relations(overlay: &mut Overlay, fill_rule: FillRule) -> Result<[bool; 6], Error> {
    Ok([
        overlay.interiors_meet(fill_rule)?,
        overlay.covers(fill_rule)?,
        overlay.is_within(fill_rule)?,
        overlay.same_region(fill_rule)?,
        overlay.touches(fill_rule)?,
        overlay.is_disjoint(fill_rule)?,
    ])
}

/// How often contours with sides along the axes wind around the middle of a unit square.
fn winding(contours: &[Vec<IntPoint>], x: i32, y: i32) -> i32 {
    let steps = contours.iter().flat_map(|points| points.iter().zip(points.iter().cycle().skip(1)));
    let passes = steps.filter(|(a, b)| a.x == b.x && a.x > x);
    passes.map(|(a, b)| i32::from(a.y <= y && y < b.y) - i32::from(b.y <= y && y < a.y)).sum()
}

fn is_inside(fill_rule: FillRule, winding: i32) -> bool {
    match fill_rule {
        FillRule::EvenOdd => winding % 2 != 0,
        FillRule::NonZero => winding != 0,
        FillRule::Positive => winding > 0,
        FillRule::Negative => winding < 0,
    }
}

/// Rectangles on a small grid, some of them clockwise: each unit square is inside a shape or outside as a whole.
#[test]
fn relations_of_rectangles() {
    let mut random = Random(86);
    let mut seen = [[0; 2]; 6];
    for _ in 0..2000 {
        let mut shapes = [Vec::new(), Vec::new()];
        for contours in &mut shapes {
            for _ in 0..1 + random.below(2) {
                let (x, y) = (random.below(3), random.below(3));
                let (right, top) = (x + 1 + random.below(3), y + 1 + random.below(3));
                let mut corners = [(x, y), (right, y), (right, top), (x, top)].map(IntPoint::from).to_vec();
                if random.below(4) == 0 {
                    corners.reverse();
                }
                contours.push(corners);
            }
        }
        let [subject, clip] = &shapes;
        let mut overlay = Overlay::with_contours(subject, clip).unwrap();
        for fill_rule in [FillRule::EvenOdd, FillRule::NonZero, FillRule::Positive, FillRule::Negative] {
            let inside = |contours: &[Vec<IntPoint>], x, y| is_inside(fill_rule, winding(contours, x, y));
            let squares = (0..8).flat_map(|x| (0..8).map(move |y| (x, y)));
            let kinds: Vec<_> = squares.map(|(x, y)| (inside(subject, x, y), inside(clip, x, y))).collect();
            // a shape has the corners of its unit squares
            let has = |contours: &[Vec<IntPoint>], x, y| {
                [(0, 0), (1, 0), (0, 1), (1, 1)].iter().any(|(dx, dy)| inside(contours, x - dx, y - dy))
            };
            let share = (0..9).any(|x| (0..9).any(|y| has(subject, x, y) && has(clip, x, y)));
            let meet = kinds.contains(&(true, true));
            let wanted = [
                meet,
                !kinds.contains(&(false, true)),
                !kinds.contains(&(true, false)),
                kinds.iter().all(|(s, c)| s == c),
                share && !meet,
                !share,
            ];
            assert_eq!(relations(&mut overlay, fill_rule), Ok(wanted), "{shapes:?} {fill_rule}");
            // a point at halves of a unit has one, two or four unit squares around it
            let part = |contours: &[Vec<IntPoint>], x: i32, y: i32| {
                let around = ((x + 1) / 2 - 1..=x / 2).flat_map(|at| ((y + 1) / 2 - 1..=y / 2).map(move |of| (at, of)));
                match around.map(|(x, y)| inside(contours, x, y)).fold((false, false), |(i, o), it| (i || it, o || !it))
                {
                    (true, true) => Part::Boundary,
                    (is_inside, _) if is_inside => Part::Interior,
                    _ => Part::Exterior,
                }
            };
            let halves = (0..18).flat_map(|x| (0..18).map(move |y| (x, y)));
            let meeting: Vec<_> = halves.map(|(x, y)| (part(subject, x, y), part(clip, x, y))).collect();
            let relation = overlay.relate(fill_rule).unwrap();
            let letters = PARTS.iter().flat_map(|one| PARTS.iter().map(move |other| (*one, *other)));
            let letters: String = letters.map(|pair| if meeting.contains(&pair) { 'T' } else { 'F' }).collect();
            assert_eq!(relation.to_string(), letters, "{shapes:?} {fill_rule}");
            assert_eq!(relation.matches(&letters), Some(true));
            for (counts, holds) in seen.iter_mut().zip(wanted) {
                counts[usize::from(holds)] += 1;
            }
        }
    }
    assert!(seen.iter().flatten().all(|&count| count > 100), "{seen:?}");
}

/// What they have in common is less than a tenth of a unit wide, or they are as near without having anything in common.
#[test]
fn nothing_is_rounded() {
    let below = [(0, 0), (10, 0), (10, 1)].map(IntPoint::from);
    for (corner, meet, touch) in [(11, true, false), (10, false, true), (9, false, true)] {
        let above = [(0, 0), (corner, 1), (0, 1)].map(IntPoint::from);
        let mut overlay = Overlay::with_contours(&[below], &[above]).unwrap();
        assert_eq!(
            relations(&mut overlay, FillRule::NonZero),
            Ok([meet, false, false, false, touch, false]),
            "{corner}"
        );
        // the overlay of both by `Intersect` rounds what they have in common away
        assert!(overlay.overlay(OverlayRule::Intersect, FillRule::NonZero).unwrap().is_empty());
    }
}

/// A shape whose edges cross at a point without integer coordinates is named, the subject first, and its overlay is taken.
#[test]
fn shapes_that_cross_themselves_are_named() {
    let bow = [(0, 0), (1, 1), (1, 0), (0, 1)].map(IntPoint::from);
    for (subject, clip, shape_type) in
        [(bow, square(0, 4), ShapeType::Subject), (square(0, 4), bow, ShapeType::Clip), (bow, bow, ShapeType::Subject)]
    {
        let mut overlay = Overlay::with_contours(&[subject], &[clip]).unwrap();
        for call in CALLS {
            let refused = call(&mut overlay, FillRule::EvenOdd).unwrap_err();
            assert_eq!(refused, Error::NotExact(shape_type));
            assert_eq!(overlay.relate(FillRule::EvenOdd), Err(Error::NotExact(shape_type)));
            assert!(refused.to_string().contains(&format!("two edges of the {shape_type} cross")));
        }
        let alone = overlay.overlay(OverlayRule::Union, FillRule::EvenOdd).unwrap();
        let mut overlay = Overlay::with_contours(&alone, &alone).unwrap();
        assert!(overlay.same_region(FillRule::NonZero).unwrap());
    }
    let bow = [[0.0, 0.0], [1.0, 1.0], [1.0, 0.0], [0.0, 1.0]];
    let adapter = fadrinzo::FloatPointAdapter::with_scale([0.0; 2], [1.0; 2], 1.0).unwrap();
    let mut overlay = FloatOverlay::with_adapter(adapter).unwrap();
    overlay.add_contour(&[[0.0, 0.0], [1.0, 0.0], [1.0, 1.0], [0.0, 1.0]], ShapeType::Subject).unwrap();
    overlay.add_contour(&bow, ShapeType::Clip).unwrap();
    let refused = Err(FloatError::Overlay(Error::NotExact(ShapeType::Clip)));
    assert_eq!(overlay.interiors_meet(FillRule::EvenOdd), refused);
    assert_eq!(overlay.covers(FillRule::EvenOdd), refused);
    assert_eq!(overlay.is_within(FillRule::EvenOdd), refused);
    assert_eq!(overlay.same_region(FillRule::EvenOdd), refused);
    assert_eq!(overlay.touches(FillRule::EvenOdd), refused);
    assert_eq!(overlay.is_disjoint(FillRule::EvenOdd), refused);
    assert_eq!(overlay.relate(FillRule::EvenOdd).map(|_| false), refused);
}
