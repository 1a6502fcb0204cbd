//! Floating coordinates: no overlap of small triangles is lost, areas are as those of other arithmetic, and bad points are named.

mod common;

use common::Random;
use fadrinzo::{
    area, Axis, ClipRule, FillRule, FloatError, FloatOverlay, FloatPoint, FloatPointAdapter, FloatPointCompatible,
    IntPoint, Overlay, OverlayRule, ShapeType,
};

/// Twice the area of a contour.
fn doubled_area(contour: &[FloatPoint]) -> f64 {
    let next = contour.iter().cycle().skip(1);
    contour.iter().zip(next).map(|(a, b)| a[0] * b[1] - a[1] * b[0]).sum()
}

/// What a convex counterclockwise contour has in common with another one: cut by each of its sides in turn.
fn common_part(subject: &[FloatPoint], clip: &[FloatPoint]) -> Vec<FloatPoint> {
    let mut part = subject.to_vec();
    for (index, a) in clip.iter().enumerate() {
        let b = clip[(index + 1) % clip.len()];
        let side = |p: &FloatPoint| (b[0] - a[0]) * (p[1] - a[1]) - (b[1] - a[1]) * (p[0] - a[0]);
        let mut kept = Vec::new();
        for (index, p) in part.iter().enumerate() {
            let q = &part[(index + 1) % part.len()];
            let (before, after) = (side(p), side(q));
            if before >= 0.0 {
                kept.push(*p);
            }
            if before * after < 0.0 {
                let at = before / (before - after);
                kept.push([p[0] + at * (q[0] - p[0]), p[1] + at * (q[1] - p[1])]);
            }
        }
        part = kept;
    }
    part
}

/// A counterclockwise triangle on a grid of nine by nine points.
fn triangle(random: &mut Random) -> [FloatPoint; 3] {
    loop {
        let mut corners = [[0.0; 2]; 3];
        for corner in corners.iter_mut().flatten() {
            *corner = f64::from(random.below(9));
        }
        let area = doubled_area(&corners);
        if area < 0.0 {
            corners.swap(0, 1);
        }
        if area != 0.0 {
            return corners;
        }
    }
}

/// Of 5,000 pairs of triangles each two that overlap have a part in common, with the area that the cut has.
#[test]
fn no_overlap_is_lost_on_a_coarse_grid() {
    let (mut random, mut overlapping) = (Random(3), 0);
    for _ in 0..5000 {
        let (subject, clip) = (triangle(&mut random), triangle(&mut random));
        let wanted = doubled_area(&common_part(&subject, &clip));
        let mut overlay = FloatOverlay::with_contours(&[subject], &[clip]).unwrap();
        let contours = overlay.overlay(OverlayRule::Intersect, FillRule::NonZero).unwrap();
        let area: f64 = contours.iter().map(|contour| doubled_area(contour)).sum();
        assert!((area - wanted).abs() < 1e-6, "{subject:?} {clip:?}: {area} in place of {wanted}");
        assert_eq!(wanted > 1e-9, !contours.is_empty(), "{subject:?} {clip:?}");
        overlapping += usize::from(wanted > 1e-9);
    }
    assert!(overlapping > 2500, "{overlapping}");
}

#[test]
fn points_come_back_as_they_were() {
    let adapter = FloatPointAdapter::new([0.0, -8.0], [8.0, 8.0]).unwrap();
    for x in 0..=32 {
        let point = [f64::from(x) / 4.0, -f64::from(x) / 4.0];
        assert_eq!(adapter.to_float(adapter.to_int(point).unwrap()), point);
    }
    // the ends of the bounds fit, and moving them by the scale's last unit is seen
    for bounds in [[0.1, 0.3], [-5e8, 7e8], [1e-300, 3e-300], [-1e300, 1e300], [0.0, 0.0], [5e6, 5e6 + 1e-3]] {
        let adapter = FloatPointAdapter::new([bounds[0]; 2], [bounds[1]; 2]).unwrap();
        for value in bounds {
            let back = adapter.to_float(adapter.to_int([value; 2]).unwrap())[0];
            assert!((back - value).abs() <= 0.5 / adapter.scale() + value.abs() * 1e-15, "{bounds:?}: {value} {back}");
        }
    }
}

#[test]
fn bad_points_are_named() {
    let bad = |point: FloatPoint| FloatOverlay::with_contours(&[[[0.0, 0.0], [1.0, 0.0], point]], &[]).unwrap_err();
    let named = |axis, value| FloatError::Point { shape_type: ShapeType::Subject, contour: 0, point: 2, axis, value };
    assert_eq!(bad([f64::INFINITY, f64::NAN]), named(Axis::X, f64::INFINITY));
    assert_eq!(bad([0.0, f64::NEG_INFINITY]), named(Axis::Y, f64::NEG_INFINITY));
    let mut overlay = FloatOverlay::with_adapter(FloatPointAdapter::new([0.0; 2], [10.0; 2]).unwrap()).unwrap();
    overlay.add_contour(&[[0.0, 0.0], [10.0, 0.0], [0.0, 10.0]], ShapeType::Clip).unwrap();
    let refused = overlay.add_contour(&[[0.0, 0.0], [1.0, 1e6]], ShapeType::Clip).unwrap_err();
    assert_eq!(refused.to_string(), "contour 1 of the clip, point 1: y is 1000000, which is outside of the bounds");
    let hole = vec![[1.0, 1.0], [2.0, 1.0], [f64::NAN, 2.0]];
    let refused = overlay.add_polygon(&vec![[0.0; 2], [9.0, 0.0], [0.0, 9.0]], &[hole], ShapeType::Clip).unwrap_err();
    assert_eq!(refused.to_string(), "contour 2 of the clip, point 2: x is NaN, which is no finite number");
    assert_eq!(overlay.overlay(OverlayRule::Clip, FillRule::NonZero).unwrap().len(), 1);
    assert_eq!(FloatPointAdapter::new([0.0; 2], [f64::NAN, 1.0]), Err(FloatError::Bounds));
    assert_eq!(FloatPointAdapter::new([0.0, 2.0], [1.0, 1.0]), Err(FloatError::Bounds));
    for scale in [0.0, -1.0, f64::NAN, f64::INFINITY] {
        let refused = FloatPointAdapter::with_scale([0.0; 2], [1.0; 2], scale).unwrap_err();
        assert!(matches!(refused, FloatError::Scale { .. }), "{scale}");
    }
}

#[test]
fn bounds_that_are_not_finite_are_refused() {
    for (least, greatest) in
        [([0.0, f64::INFINITY], [1.0, f64::INFINITY]), ([f64::NEG_INFINITY, 0.0], [f64::INFINITY, 1.0])]
    {
        assert_eq!(FloatPointAdapter::new(least, greatest), Err(FloatError::Bounds));
        assert_eq!(FloatPointAdapter::with_scale(least, greatest, 1.0), Err(FloatError::Bounds));
    }
}

#[test]
fn the_greatest_coordinates_stay_finite() {
    let most = f64::MAX;
    let square = [[-most, -most], [most, -most], [most, most], [-most, most]];
    let contours = FloatOverlay::with_contours(&[square], &[]).unwrap();
    let found = { contours }.overlay(OverlayRule::Subject, FillRule::NonZero).unwrap();
    assert_eq!(found[0].len(), 4);
    assert!(found[0].iter().flatten().all(|value| value.is_finite() && value.abs() > 0.99 * most), "{found:?}");
    for value in [1e300, -1e300, most, 5e-324, 0.0] {
        let adapter = FloatPointAdapter::with_iter([[value, 1.0]]);
        let back = adapter.to_float(adapter.to_int([value, 1.0]).unwrap());
        assert!((back[0] - value).abs() <= value.abs() * 1e-15 + 1e-300, "{value}: {back:?}");
    }
}

/// How many points a contour comes to more than once.
fn repeats(contour: &[FloatPoint]) -> usize {
    let mut bits: Vec<_> = contour.iter().map(|point| point.map(f64::to_bits)).collect();
    bits.sort_unstable();
    bits.windows(2).filter(|two| two[0] == two[1]).count()
}

/// In a box that is small beside its coordinates a whole unit is no less than their last bit, so points stay apart.
#[test]
fn points_far_from_zero_stay_apart() {
    let mut random = Random(9);
    let last_bit = 4e6 * f64::EPSILON / 2.0;
    for round in 0..3000 {
        let mut triangle = || [(); 3].map(|()| [1e6, 4e6].map(|low| low + f64::from(random.below(1000)) * 2e-9));
        let mut overlay = FloatOverlay::with_contours(&[triangle(), triangle()], &[triangle()]).unwrap();
        for shape in overlay.overlay_shapes(OverlayRule::Xor, FillRule::EvenOdd).unwrap() {
            assert!(shape.iter().all(|contour| repeats(contour) == 0), "round {round}: {shape:?}");
        }
        assert!(overlay.reach() >= last_bit && overlay.adapter().scale() * last_bit <= 1.0);
    }
    let adapter = FloatPointAdapter::new([2e7, 6e6], [2e7 + 1e-7, 6e6 + 1e-7]).unwrap();
    let mut overlay = FloatOverlay::with_adapter(adapter).unwrap();
    overlay.add_contour(&[[2e7, 6e6], [2e7 + 1e-7, 6e6], [2e7, 6e6 + 1e-7]], ShapeType::Subject).unwrap();
    overlay.overlay(OverlayRule::Subject, FillRule::NonZero).unwrap();
    assert!(overlay.reach() >= 3.7e-9, "{}", overlay.reach());
}

#[test]
fn points_outside_of_the_bounds_are_refused() {
    let adapter = FloatPointAdapter::new([0.0; 2], [1.0; 2]).unwrap();
    assert_eq!(adapter.to_int([2.9, -0.9]), None);
    let mut overlay = FloatOverlay::with_adapter(adapter).unwrap();
    let refused = overlay.add_contour(&[[0.0, 0.0], [0.5, -0.9]], ShapeType::Subject).unwrap_err();
    assert_eq!(refused.to_string(), "contour 0 of the subject, point 1: y is -0.9, which is outside of the bounds");
    // a point of a result can be given again, though it was rounded
    let mut random = Random(4);
    for _ in 0..1000 {
        let mut point = || [random.below(1000), random.below(1000)].map(|value| f64::from(value) / 997.0 - 0.3);
        let points = [point(), point(), point()];
        let adapter = FloatPointAdapter::with_scale([-1.0, -1.0], [1.0, 1.0], 100.0).unwrap();
        let narrow = FloatPointAdapter::with_iter(points);
        for adapter in [adapter, narrow] {
            for at in points {
                let whole = adapter.to_int(at).unwrap();
                assert_eq!(adapter.to_int(adapter.to_float(whole)), Some(whole));
            }
        }
    }
}

#[test]
fn the_chosen_scale_is_the_greatest_that_may_be() {
    let adapter = FloatPointAdapter::new([0.0; 2], [3.0; 2]).unwrap();
    assert_eq!(adapter.scale(), f64::powi(2.0, 29));
    assert!(FloatPointAdapter::with_scale([0.0; 2], [3.0; 2], f64::powi(2.0, 29)).is_ok());
    let refused = FloatPointAdapter::with_scale([0.0; 2], [3.0; 2], f64::powi(2.0, 30));
    assert_eq!(refused, Err(FloatError::Scale { most: f64::powi(2.0, 29) }));
    assert_eq!(FloatPointAdapter::new([0.5; 2], [0.500001; 2]).unwrap().scale(), f64::powi(2.0, 50));
    assert_eq!(FloatPointAdapter::new([-500.0; 2], [500.0; 2]).unwrap().scale(), f64::powi(2.0, 21));
    // a square of side 1e-10 keeps its corners
    let (low, high) = (0.25, 0.25 + 1e-10);
    let tiny = [[low, low], [high, low], [high, high], [low, high]];
    let shapes =
        FloatOverlay::with_contours(&[tiny], &[]).unwrap().overlay_shapes(OverlayRule::Subject, FillRule::NonZero);
    assert_eq!(shapes.unwrap()[0][0].len(), 4);
    // a scale that the digits of the bounds do not hold
    assert!(matches!(FloatPointAdapter::with_scale([1e9; 2], [1e9 + 1e-3; 2], 1e9), Err(FloatError::Scale { .. })));
}

/// The contours that an overlay of points of a type returns, as arrays of `f64`.
fn xor_of<P: FloatPointCompatible>(triangles: [[FloatPoint; 3]; 2]) -> Vec<Vec<FloatPoint>> {
    let [subject, clip] = triangles.map(|triangle| triangle.map(|[x, y]| P::from_xy(x, y)));
    let mut overlay = FloatOverlay::with_contours(&[subject], &[clip]).unwrap();
    let contours = overlay.overlay(OverlayRule::Xor, FillRule::NonZero).unwrap();
    contours.iter().map(|contour| contour.iter().map(|point| [point.x(), point.y()]).collect()).collect()
}

/// Arrays and pairs of both widths give the same overlay: corners with few bits are the same numbers in each, and crossings of
/// `f32` are the nearest of that width.
#[test]
fn points_of_each_type_give_the_same_overlay() {
    let mut random = Random(11);
    for _ in 0..500 {
        let triangles = [triangle(&mut random), triangle(&mut random)];
        let wanted = xor_of::<[f64; 2]>(triangles);
        assert_eq!(xor_of::<(f64, f64)>(triangles), wanted);
        let narrow: Vec<Vec<FloatPoint>> =
            wanted.iter().map(|it| it.iter().map(|at| at.map(|value| f64::from(value as f32))).collect()).collect();
        assert_eq!(xor_of::<[f32; 2]>(triangles), narrow);
        assert_eq!(xor_of::<(f32, f32)>(triangles), narrow);
    }
}

/// An arrangement returns for each rule what an overlay by it returns.
#[test]
fn an_arrangement_has_the_overlay_of_each_rule() {
    let mut random = Random(12);
    for _ in 0..300 {
        let mut overlay = FloatOverlay::with_contours(&[triangle(&mut random)], &[triangle(&mut random)]).unwrap();
        for rule in [OverlayRule::Union, OverlayRule::Intersect, OverlayRule::Difference, OverlayRule::Xor] {
            let contours = overlay.overlay(rule, FillRule::NonZero).unwrap();
            let shapes = overlay.overlay_shapes(rule, FillRule::NonZero).unwrap();
            let reach = overlay.reach();
            let mut arrangement = overlay.arrange(FillRule::NonZero).unwrap();
            assert_eq!(arrangement.contours(rule).unwrap(), contours);
            assert_eq!(arrangement.shapes(rule).unwrap(), shapes);
            assert_eq!((arrangement.passes(), arrangement.reach()), (1, reach));
            let corners = arrangement.contours_without_collinear(rule).unwrap();
            let total = |contours: &[Vec<FloatPoint>]| contours.iter().map(|it| area(it)).sum::<f64>();
            assert!((total(&corners) - total(&contours)).abs() < 1e-6, "{corners:?} {contours:?}");
        }
    }
}

/// Lines of floats are cut as the whole points of the adapter are.
#[test]
fn lines_are_cut_as_their_whole_points_are() {
    let mut random = Random(13);
    let adapter = FloatPointAdapter::with_scale([0.0; 2], [8.0; 2], 1e6).unwrap();
    let mut parts = 0;
    for _ in 0..500 {
        let (polygon, line) = (triangle(&mut random), triangle(&mut random));
        let (whole_polygon, whole_line) =
            (adapter.contour_to_int(&polygon).unwrap(), adapter.contour_to_int(&line).unwrap());
        let clip_rule = ClipRule { invert: random.below(2) == 1, boundary_included: random.below(2) == 1 };
        let mut overlay = FloatOverlay::with_adapter(adapter).unwrap();
        let found = overlay.clip_lines(&[polygon], &[line], clip_rule, FillRule::NonZero).unwrap();
        let whole =
            Overlay::new().unwrap().clip_lines(&[whole_polygon], &[whole_line], clip_rule, FillRule::NonZero).unwrap();
        let wanted: Vec<(usize, Vec<FloatPoint>)> =
            whole.iter().map(|(line, part)| (*line, adapter.contour_to_float(part).unwrap())).collect();
        assert_eq!(found, wanted);
        parts += found.len();
    }
    assert!(parts > 300, "{parts}");
    let mut overlay = FloatOverlay::with_adapter(adapter).unwrap();
    let refused = overlay.clip_lines(
        &[[(0.0, 0.0), (1.0, f64::NAN)]],
        &[[(0.0, 0.0); 2]],
        ClipRule::default(),
        FillRule::NonZero,
    );
    assert_eq!(
        refused.unwrap_err().to_string(),
        "contour 0 of the subject, point 1: y is NaN, which is no finite number"
    );
}

/// A grid of decimal digits returns what is written with these digits, and refuses digits for which the bounds have no room.
#[test]
fn digits_are_a_grid() {
    let adapter = FloatPointAdapter::with_digits([-1.0; 2], [1.0; 2], 7).unwrap();
    for number in [-9_999_999, -1_234_567, 1, 7, 7_654_321] {
        let value = f64::from(number) / 1e7;
        assert_eq!(adapter.to_int([value, 0.0]), Some(IntPoint::new(number, 0)));
        assert_eq!(adapter.to_float(IntPoint::new(number, 0)), [value, 0.0]);
    }
    assert_eq!(FloatPointAdapter::with_digits([-1.0; 2], [1.0; 2], 0).unwrap().scale(), 1.0);
    for digits in [10, 22, 23, 255] {
        let refused = FloatPointAdapter::with_digits([-1.0; 2], [1.0; 2], digits).unwrap_err();
        assert!(matches!(refused, FloatError::Scale { .. }), "{digits}");
    }
}
