//! Overlays in shapes, worked by hand: which hole belongs to which outer boundary, and what touches in points.

use fadrinzo::{FillRule, IntContour, IntShape, Overlay, OverlayRule};

/// A contour as the tables write it.
type Corners = &'static [(i32, i32)];

/// A shape as the tables write it: its outer boundary, then its holes.
type Rings = &'static [Corners];

// Squares around (10, 10), one inside the other.

const WIDEST: Corners = &[(0, 0), (20, 0), (20, 20), (0, 20)];

const WIDE: Corners = &[(2, 2), (18, 2), (18, 18), (2, 18)];

const MIDDLE: Corners = &[(4, 4), (16, 4), (16, 16), (4, 16)];

const NARROW: Corners = &[(6, 6), (14, 6), (14, 14), (6, 14)];

const INNERMOST: Corners = &[(8, 8), (12, 8), (12, 12), (8, 12)];

/// What a call is given as a subject, by even-odd, and the shapes that it returns.
struct Case {
    name: &'static str,
    subject: &'static [Corners],
    shapes: &'static [Rings],
}

const CASES: [Case; 13] = [
    Case { name: "no contours", subject: &[], shapes: &[] },
    Case {
        name: "a ring",
        subject: &[WIDEST, WIDE],
        shapes: &[&[&[(0, 20), (0, 0), (20, 0), (20, 20)], &[(2, 2), (2, 18), (18, 18), (18, 2)]]],
    },
    Case {
        name: "a ring with an island in its hole",
        subject: &[WIDEST, WIDE, MIDDLE],
        shapes: &[
            &[&[(0, 20), (0, 0), (20, 0), (20, 20)], &[(2, 2), (2, 18), (18, 18), (18, 2)]],
            &[&[(4, 16), (4, 4), (16, 4), (16, 16)]],
        ],
    },
    Case {
        name: "rings in rings, five deep",
        subject: &[WIDEST, WIDE, MIDDLE, NARROW, INNERMOST],
        shapes: &[
            &[&[(0, 20), (0, 0), (20, 0), (20, 20)], &[(2, 2), (2, 18), (18, 18), (18, 2)]],
            &[&[(4, 16), (4, 4), (16, 4), (16, 16)], &[(6, 6), (6, 14), (14, 14), (14, 6)]],
            &[&[(8, 12), (8, 8), (12, 8), (12, 12)]],
        ],
    },
    Case {
        name: "two holes side by side, given before the boundary around them",
        subject: &[
            &[(6, 2), (8, 2), (8, 4), (6, 4)],
            &[(2, 2), (4, 2), (4, 4), (2, 4)],
            &[(0, 0), (10, 0), (10, 6), (0, 6)],
        ],
        shapes: &[&[
            &[(0, 6), (0, 0), (10, 0), (10, 6)],
            &[(2, 2), (2, 4), (4, 4), (4, 2)],
            &[(6, 2), (6, 4), (8, 4), (8, 2)],
        ]],
    },
    Case {
        name: "two squares that touch at a corner are two shapes",
        subject: &[&[(0, 0), (4, 0), (4, 4), (0, 4)], &[(4, 4), (8, 4), (8, 8), (4, 8)]],
        shapes: &[&[&[(0, 4), (0, 0), (4, 0), (4, 4)]], &[&[(4, 8), (4, 4), (8, 4), (8, 8)]]],
    },
    Case {
        name: "a C whose ends meet along a line has a hole",
        subject: &[&[(0, 0), (6, 0), (6, 3), (4, 3), (4, 2), (2, 2), (2, 4), (4, 4), (4, 3), (6, 3), (6, 6), (0, 6)]],
        shapes: &[&[&[(0, 6), (0, 0), (6, 0), (6, 3), (6, 6)], &[(2, 2), (2, 4), (4, 4), (4, 3), (4, 2)]]],
    },
    Case {
        name: "a hole that touches its boundary in a point",
        subject: &[&[(0, 0), (6, 0), (6, 6), (0, 6)], &[(6, 3), (2, 5), (2, 1)]],
        shapes: &[&[&[(0, 6), (0, 0), (6, 0), (6, 3), (6, 6)], &[(6, 3), (2, 1), (2, 5)]]],
    },
    Case {
        name: "a C that closes on itself in a point, as one contour that comes there twice",
        subject: &[&[(0, 0), (6, 0), (6, 3), (2, 1), (2, 5), (6, 3), (6, 6), (0, 6)]],
        shapes: &[&[&[(0, 6), (0, 0), (6, 0), (6, 3), (6, 6)], &[(6, 3), (2, 1), (2, 5)]]],
    },
    Case {
        name: "two pieces that touch in two points",
        subject: &[&[(0, 0), (6, 0), (6, 2), (2, 2), (2, 6), (0, 6)], &[(6, 2), (6, 6), (2, 6), (4, 4)]],
        shapes: &[&[&[(0, 6), (0, 0), (6, 0), (6, 2), (2, 2), (2, 6)]], &[&[(2, 6), (4, 4), (6, 2), (6, 6)]]],
    },
    Case {
        name: "a checkerboard",
        subject: &[
            &[(0, 0), (2, 0), (2, 6), (0, 6)],
            &[(4, 0), (6, 0), (6, 6), (4, 6)],
            &[(0, 2), (6, 2), (6, 4), (0, 4)],
        ],
        shapes: &[
            &[&[(0, 2), (0, 0), (2, 0), (2, 2)]],
            &[&[(0, 6), (0, 4), (2, 4), (2, 6)]],
            &[&[(2, 4), (2, 2), (4, 2), (4, 4)]],
            &[&[(4, 2), (4, 0), (6, 0), (6, 2)]],
            &[&[(4, 6), (4, 4), (6, 4), (6, 6)]],
        ],
    },
    Case {
        name: "two pieces that touch in two points around a hole",
        subject: &[&[(0, 4), (4, 0), (2, 4), (4, 8)], &[(8, 4), (4, 8), (6, 4), (4, 0)]],
        shapes: &[&[&[(0, 4), (4, 0), (2, 4), (4, 8)]], &[&[(6, 4), (4, 0), (8, 4), (4, 8)]]],
    },
    Case {
        name: "two holes that touch at a corner",
        subject: &[
            &[(0, 0), (12, 0), (12, 12), (0, 12)],
            &[(2, 2), (6, 2), (6, 6), (2, 6)],
            &[(6, 6), (10, 6), (10, 10), (6, 10)],
        ],
        shapes: &[&[
            &[(0, 12), (0, 0), (12, 0), (12, 12)],
            &[(6, 6), (6, 10), (10, 10), (10, 6)],
            &[(2, 2), (2, 6), (6, 6), (6, 2)],
        ]],
    },
];

fn contours(lists: &[Corners]) -> Vec<IntContour> {
    lists.iter().map(|corners| corners.iter().map(|&corner| corner.into()).collect()).collect()
}

fn shapes(lists: &[Rings]) -> Vec<IntShape> {
    lists.iter().map(|rings| contours(rings)).collect()
}

#[test]
fn small_shapes() {
    for Case { name, subject, shapes: wanted } in CASES {
        let mut overlay = Overlay::with_contours(&contours(subject), &[]).unwrap();
        assert_eq!(overlay.overlay_shapes(OverlayRule::Subject, FillRule::EvenOdd), Ok(shapes(wanted)), "{name}");
    }
}

/// An overlay returns a second time what one of the same contours returns at first.
#[test]
fn one_overlay_answers_in_shapes_twice() {
    let anew = || Overlay::with_contours(&contours(&[WIDEST, MIDDLE]), &contours(&[WIDE])).unwrap();
    let mut kept = anew();
    for rule in [OverlayRule::Union, OverlayRule::Difference] {
        assert_eq!(
            kept.overlay_shapes(rule, FillRule::NonZero),
            anew().overlay_shapes(rule, FillRule::NonZero),
            "{rule:?}"
        );
    }
}
