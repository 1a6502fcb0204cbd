//! Areas and boxes.

mod common;

use common::Random;
use fadrinzo::{
    bounding_box, doubled_area, doubled_area_of_shape, square, FillRule, IntContour, IntPoint, Overlay, OverlayRule,
};

fn random_contour(random: &mut Random, size: i32) -> IntContour {
    (0..random.below(9)).map(|_| IntPoint::new(random.below(size), random.below(size))).collect()
}

/// Twice the area between a contour and the axis of `x`: that of the trapezoid above or below each edge.
fn trapezoids(contour: &[IntPoint]) -> i64 {
    let edges = contour.iter().zip(contour.iter().cycle().skip(1));
    edges.map(|(a, b)| (i64::from(a.x) - i64::from(b.x)) * (i64::from(a.y) + i64::from(b.y))).sum()
}

#[test]
fn areas_are_exact() {
    let mut random = Random(2);
    for _ in 0..2_000 {
        let mut contour = random_contour(&mut random, 1_000);
        let area = doubled_area(&contour);
        assert_eq!(area, trapezoids(&contour).into());
        contour.reverse();
        assert_eq!(doubled_area(&contour), -area);
        if !contour.is_empty() {
            contour.rotate_left(1);
        }
        assert_eq!(doubled_area(&contour), -area);
    }
    let widest = square(i32::MIN, i32::MAX);
    let thrice = [widest; 3].concat();
    assert_eq!(doubled_area(&thrice), 6 * i128::from(u32::MAX).pow(2));
    assert_eq!(doubled_area(&[IntPoint::new(i32::MIN, i32::MAX); 2]), 0);
    let sliver = [(i32::MIN, i32::MIN), (i32::MAX, i32::MAX), (i32::MAX - 1, i32::MAX)].map(IntPoint::from);
    assert_eq!(doubled_area(&sliver), i128::from(u32::MAX));
}

/// Twice an area is the same by contours and by shapes, and no shape has an area of 0 or less.
#[test]
fn areas_of_shapes() {
    let mut random = Random(4);
    for _ in 0..500 {
        let contours = [0; 4].map(|_| random_contour(&mut random, 12));
        let mut overlay = Overlay::with_contours(&contours[..2], &contours[2..]).unwrap();
        let area = doubled_area_of_shape(&overlay.overlay(OverlayRule::Xor, FillRule::EvenOdd).unwrap());
        let shapes = overlay.overlay_shapes(OverlayRule::Xor, FillRule::EvenOdd).unwrap();
        let areas = shapes.iter().map(|shape| doubled_area_of_shape(shape));
        assert!(areas.clone().all(|area| area > 0));
        assert_eq!(areas.sum::<i128>(), area);
        // the box of a shape is that of its outer boundary
        assert!(shapes.iter().all(|shape| bounding_box(&shape[0]) == bounding_box(shape.iter().flatten())));
    }
    assert_eq!(doubled_area_of_shape::<IntContour>(&[]), 0);
}

#[test]
fn boxes() {
    let mut random = Random(6);
    for _ in 0..500 {
        let contour = random_contour(&mut random, 20);
        let Some([low, high]) = bounding_box(&contour) else {
            assert!(contour.is_empty());
            continue;
        };
        assert!(contour.iter().all(|at| (low.x..=high.x).contains(&at.x) && (low.y..=high.y).contains(&at.y)));
        let has = |is_on: &dyn Fn(&IntPoint) -> bool| contour.iter().any(is_on);
        assert!(has(&|at| at.x == low.x) && has(&|at| at.y == low.y));
        assert!(has(&|at| at.x == high.x) && has(&|at| at.y == high.y));
    }
    assert_eq!(bounding_box(&square(i32::MIN, i32::MAX)), Some([i32::MIN, i32::MAX].map(|at| IntPoint::new(at, at))));
}
