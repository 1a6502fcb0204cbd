//! All 300 segments between points of the square from (-2, -2) to (2, 2), two by two: no mark is an end of the segment that it
//! marks.

use fadrinzo::{cross, CrossType, IntPoint, Segment, ShapeCountBoolean};

/// The segments between the points of the square, each from its smaller end.
fn small_segments() -> Vec<Segment> {
    let points: Vec<IntPoint> = (-2..=2).flat_map(|x| (-2..=2).map(move |y| IntPoint::new(x, y))).collect();
    let pairs = points.iter().flat_map(|&a| points.iter().map(move |&b| (a, b)));
    pairs.filter(|(a, b)| a < b).map(|(a, b)| Segment { a, b, count: ShapeCountBoolean::SUBJ_DIRECT }).collect()
}

fn is_end(point: IntPoint, segment: &Segment) -> bool {
    point == segment.a || point == segment.b
}

/// Whether some mark of a meeting is an end of the segment that it marks.
fn marks_an_end(target: &Segment, other: &Segment, radius_squared: i64) -> bool {
    let Some(met) = cross(target, other, radius_squared).unwrap() else { return false };
    match met.cross_type {
        CrossType::Pure => is_end(met.point, target) || is_end(met.point, other),
        CrossType::TargetEnd => is_end(met.point, other),
        CrossType::OtherEnd => is_end(met.point, target),
        CrossType::Overlay => {
            let mask = met.mask;
            (mask.is_target_a && is_end(target.a, other))
                || (mask.is_target_b && is_end(target.b, other))
                || (mask.is_other_a && is_end(other.a, target))
                || (mask.is_other_b && is_end(other.b, target))
        }
    }
}

#[test]
fn no_mark_is_an_end_of_its_segment() {
    let segments = small_segments();
    assert_eq!(segments.len(), 300);
    for radius_squared in [1, 2, 4, 16] {
        for target in &segments {
            for other in segments.iter().filter(|&other| other != target) {
                assert!(!marks_an_end(target, other, radius_squared), "{target:?} {other:?} {radius_squared}");
            }
        }
    }
}
