//! Overlays of small contours, worked by hand.

use fadrinzo::{
    Axis, Error, FillRule, IntContour, Overlay, OverlayRule, RangeFault, Rounding, ShapeType, MAX_COORD, MIN_COORD,
};

/// A contour as the tables write it.
type Corners = &'static [(i32, i32)];

const SQUARE: Corners = &[(0, 0), (4, 0), (4, 4), (0, 4)];

const OTHER_SQUARE: Corners = &[(2, 2), (6, 2), (6, 6), (2, 6)];

const WIDE_SQUARE: Corners = &[(0, 0), (8, 0), (8, 8), (0, 8)];

const BOW_TIE: Corners = &[(0, 0), (4, 4), (4, 0), (0, 4)];

/// What a call is given, and what it returns.
struct Case {
    name: &'static str,
    subject: &'static [Corners],
    clip: &'static [Corners],
    fill_rule: FillRule,
    rule: OverlayRule,
    answer: Result<&'static [Corners], Error>,
}

const CASES: [Case; 15] = [
    Case {
        name: "what two squares share",
        subject: &[SQUARE],
        clip: &[OTHER_SQUARE],
        fill_rule: FillRule::NonZero,
        rule: OverlayRule::Intersect,
        answer: Ok(&[&[(2, 4), (2, 2), (4, 2), (4, 4)]]),
    },
    Case {
        name: "two squares together",
        subject: &[SQUARE],
        clip: &[OTHER_SQUARE],
        fill_rule: FillRule::NonZero,
        rule: OverlayRule::Union,
        answer: Ok(&[&[(0, 4), (0, 0), (4, 0), (4, 2), (6, 2), (6, 6), (2, 6), (2, 4)]]),
    },
    Case {
        name: "a square alone",
        subject: &[SQUARE],
        clip: &[],
        fill_rule: FillRule::EvenOdd,
        rule: OverlayRule::Subject,
        answer: Ok(&[&[(0, 4), (0, 0), (4, 0), (4, 4)]]),
    },
    Case {
        name: "a square given twice, by even-odd",
        subject: &[SQUARE, SQUARE],
        clip: &[],
        fill_rule: FillRule::EvenOdd,
        rule: OverlayRule::Subject,
        answer: Ok(&[]),
    },
    Case {
        name: "a square given twice, by nonzero",
        subject: &[SQUARE, SQUARE],
        clip: &[],
        fill_rule: FillRule::NonZero,
        rule: OverlayRule::Subject,
        answer: Ok(&[&[(0, 4), (0, 0), (4, 0), (4, 4)]]),
    },
    Case {
        name: "the left half of a bow tie runs counterclockwise",
        subject: &[BOW_TIE],
        clip: &[],
        fill_rule: FillRule::Positive,
        rule: OverlayRule::Subject,
        answer: Ok(&[&[(0, 4), (0, 0), (2, 2)]]),
    },
    Case {
        name: "the right one does not",
        subject: &[BOW_TIE],
        clip: &[],
        fill_rule: FillRule::Negative,
        rule: OverlayRule::Subject,
        answer: Ok(&[&[(2, 2), (4, 0), (4, 4)]]),
    },
    Case {
        name: "points that are repeated, and contours of few points",
        subject: &[&[(0, 0), (0, 0), (4, 0), (4, 4), (4, 4)], &[(9, 9)], &[], &[(7, 7), (8, 8)]],
        clip: &[],
        fill_rule: FillRule::NonZero,
        rule: OverlayRule::Subject,
        answer: Ok(&[&[(0, 0), (4, 0), (4, 4)]]),
    },
    Case {
        name: "an outer boundary runs counterclockwise, and its hole clockwise",
        subject: &[WIDE_SQUARE],
        clip: &[OTHER_SQUARE],
        fill_rule: FillRule::NonZero,
        rule: OverlayRule::Difference,
        answer: Ok(&[&[(0, 8), (0, 0), (8, 0), (8, 8)], &[(2, 2), (2, 6), (6, 6), (6, 2)]]),
    },
    Case {
        name: "however the hole and its boundary are given, by even-odd",
        subject: &[&[(0, 0), (0, 8), (8, 8), (8, 0)], OTHER_SQUARE],
        clip: &[],
        fill_rule: FillRule::EvenOdd,
        rule: OverlayRule::Subject,
        answer: Ok(&[&[(0, 8), (0, 0), (8, 0), (8, 8)], &[(2, 2), (2, 6), (6, 6), (6, 2)]]),
    },
    Case {
        name: "one of two squares, in one contour that comes to its crossings twice",
        subject: &[SQUARE],
        clip: &[OTHER_SQUARE],
        fill_rule: FillRule::NonZero,
        rule: OverlayRule::Xor,
        answer: Ok(&[&[
            (0, 4),
            (0, 0),
            (4, 0),
            (4, 2),
            (6, 2),
            (6, 6),
            (2, 6),
            (2, 4),
            (4, 4),
            (4, 2),
            (2, 2),
            (2, 4),
        ]]),
    },
    Case {
        name: "nothing",
        subject: &[],
        clip: &[],
        fill_rule: FillRule::NonZero,
        rule: OverlayRule::Xor,
        answer: Ok(&[]),
    },
    Case {
        name: "a point of the subject out of range",
        subject: &[SQUARE, &[(0, 0), (1_073_741_824, 0), (0, i32::MIN)]],
        clip: &[&[(0, i32::MIN)]],
        fill_rule: FillRule::NonZero,
        rule: OverlayRule::Union,
        answer: Err(Error::Point {
            shape_type: ShapeType::Subject,
            contour: 1,
            point: 1,
            fault: RangeFault { axis: Axis::X, value: 1_073_741_824, bound: MAX_COORD },
        }),
    },
    Case {
        name: "a point of the clip out of range",
        subject: &[SQUARE],
        clip: &[&[], &[(0, 0)], &[(0, 0), (4, 0), (-1_073_741_824, -1_073_741_825)]],
        fill_rule: FillRule::NonZero,
        rule: OverlayRule::Union,
        answer: Err(Error::Point {
            shape_type: ShapeType::Clip,
            contour: 2,
            point: 2,
            fault: RangeFault { axis: Axis::Y, value: -1_073_741_825, bound: MIN_COORD },
        }),
    },
    Case {
        name: "the corners of the range",
        subject: &[&[
            (-1_073_741_824, -1_073_741_824),
            (1_073_741_823, -1_073_741_824),
            (1_073_741_823, 1_073_741_823),
        ]],
        clip: &[],
        fill_rule: FillRule::NonZero,
        rule: OverlayRule::Subject,
        answer: Ok(&[&[
            (-1_073_741_824, -1_073_741_824),
            (1_073_741_823, -1_073_741_824),
            (1_073_741_823, 1_073_741_823),
        ]]),
    },
];

fn contours(lists: &[Corners]) -> Vec<IntContour> {
    lists.iter().map(|corners| corners.iter().map(|&corner| corner.into()).collect()).collect()
}

#[test]
fn small_contours() {
    for Case { name, subject, clip, fill_rule, rule, answer } in CASES {
        let overlay = Overlay::with_contours(&contours(subject), &contours(clip));
        let found = overlay.and_then(|mut overlay| overlay.overlay(rule, fill_rule));
        assert_eq!(found, answer.map(contours), "{name}");
    }
}

/// An overlay returns a second time what one of the same contours returns at first.
#[test]
fn one_overlay_answers_twice() {
    let anew = || Overlay::with_contours(&contours(&[WIDE_SQUARE]), &contours(&[OTHER_SQUARE])).unwrap();
    let mut kept = anew();
    for rule in [OverlayRule::Union, OverlayRule::Difference] {
        assert_eq!(kept.overlay(rule, FillRule::NonZero), anew().overlay(rule, FillRule::NonZero), "{rule:?}");
    }
}

#[test]
fn an_overlay_tells_its_reach() {
    let mut overlay = Overlay::new().unwrap();
    assert_eq!((overlay.passes(), overlay.reach()), (0, 0));
    load(&mut overlay, &contours(&[WIDE_SQUARE]), OTHER_SQUARE);
    overlay.overlay(OverlayRule::Union, FillRule::NonZero).unwrap();
    assert_eq!((overlay.passes(), overlay.reach()), (1, 0));
}

/// Two triangles whose edges cross at (2.5, 2.5). Snap rounding takes one pass, and moves edges by one half at most. The first
/// pass over pairs snaps the crossing within a squared radius of 1, and so moves it by at most 2 + 2 halves.
#[test]
fn rounding_is_chosen() {
    let report = |mut overlay: Overlay| {
        load(&mut overlay, &contours(&[&[(0, 0), (5, 5), (0, 5)]]), &[(0, 5), (5, 0), (5, 5)]);
        overlay.overlay(OverlayRule::Union, FillRule::NonZero).unwrap();
        (overlay.passes(), overlay.reach())
    };
    let new = || Overlay::new().unwrap();
    assert_eq!(report(new()), (1, 1));
    assert_eq!(report(new().with_rounding(Rounding::HotPixels)), (1, 1));
    assert_eq!(report(new().with_rounding(Rounding::Pairwise)), (2, 4));
}

/// Gives an overlay contours of the subject, and one of the clip, in place of those that it had.
fn load(overlay: &mut Overlay, subject: &[IntContour], clip: Corners) {
    overlay.clear();
    for contour in subject {
        overlay.add_contour(contour, ShapeType::Subject).unwrap();
    }
    for contour in contours(&[clip]) {
        overlay.add_contour(&contour, ShapeType::Clip).unwrap();
    }
}

/// The squares from (0, 0) to (4, 4) and from (2, 2) to (6, 6).
const BOTH: Corners = &[(0, 4), (0, 0), (4, 0), (4, 2), (6, 2), (6, 6), (2, 6), (2, 4)];

/// The same less the square from (3, 3) to (7, 7).
const LESS: Corners = &[(0, 4), (0, 0), (4, 0), (4, 2), (6, 2), (6, 3), (3, 3), (3, 6), (2, 6), (2, 4)];

/// What that shares with the square from (1, 1) to (5, 5).
const SHARED: Corners = &[(1, 4), (1, 1), (4, 1), (4, 2), (5, 2), (5, 3), (3, 3), (3, 5), (2, 5), (2, 4)];

#[test]
fn three_overlays_one_after_another() {
    let steps: [(Corners, OverlayRule, Corners); 3] = [
        (OTHER_SQUARE, OverlayRule::Union, BOTH),
        (&[(3, 3), (7, 3), (7, 7), (3, 7)], OverlayRule::Difference, LESS),
        (&[(1, 1), (5, 1), (5, 5), (1, 5)], OverlayRule::Intersect, SHARED),
    ];
    let mut overlay = Overlay::new().unwrap();
    let mut subject = contours(&[SQUARE]);
    for (clip, rule, wanted) in steps {
        load(&mut overlay, &subject, clip);
        subject = overlay.overlay(rule, FillRule::NonZero).unwrap();
        assert_eq!(subject, contours(&[wanted]), "{rule:?}");
    }
}
