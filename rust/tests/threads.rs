//! Overlays that move from thread to thread.

use fadrinzo::{square, FillRule, IntContour, IntPoint, Overlay, OverlayRule, ShapeType, Solver};
use std::thread;

const fn may_move<T: Send>() {}

const _: () = may_move::<Overlay>();

/// The area to the left of contours.
fn area(contours: &[IntContour]) -> i64 {
    let steps = contours.iter().flat_map(|points| points.iter().zip(points.iter().cycle().skip(1)));
    steps.map(|(p, q)| i64::from(p.x) * i64::from(q.y) - i64::from(p.y) * i64::from(q.x)).sum::<i64>() / 2
}

/// Contours that were added on one thread, and an arrangement that was made there, are those of the other.
#[test]
fn there_and_back() {
    let mut overlay = Overlay::with_contours(&[square(0, 4).to_vec()], &[]).unwrap();
    let worker = thread::spawn(move || {
        overlay.add_contour(&square(2, 6), ShapeType::Clip).unwrap();
        let union = overlay.overlay(OverlayRule::Union, FillRule::NonZero).unwrap();
        let mut sides = Vec::new();
        ShapeType::Subject.push_contour(&square(0, 4), &mut sides).unwrap();
        ShapeType::Clip.push_contour(&square(2, 6), &mut sides).unwrap();
        let change = overlay.split(&sides, Solver::AUTO).unwrap();
        (area(&union), change.has_changed, overlay)
    });
    let (union, has_changed, mut overlay) = worker.join().unwrap();
    assert_eq!((union, has_changed), (4 * 4 + 4 * 4 - 2 * 2, true));
    assert_eq!(overlay.segments().unwrap().len(), 12);
    let shared = overlay.overlay(OverlayRule::Intersect, FillRule::NonZero).unwrap();
    let mut corners = shared.concat();
    corners.sort_unstable();
    assert_eq!(corners, [(2, 2), (2, 4), (4, 2), (4, 4)].map(|(x, y)| IntPoint::new(x, y)));
}

/// Overlays that were made on one thread run side by side on others, and are dropped there.
#[test]
fn side_by_side() {
    let overlays: Vec<Overlay> = (1..=8)
        .map(|n| Overlay::with_contours(&[square(0, 2 * n).to_vec()], &[square(n, 3 * n).to_vec()]).unwrap())
        .collect();
    let areas = |mut overlay: Overlay| {
        let mut area = |rule| area(&overlay.overlay(rule, FillRule::NonZero).unwrap());
        let rules = [OverlayRule::Intersect, OverlayRule::Union, OverlayRule::Difference];
        (0..100).map(|_| rules.map(&mut area)).collect::<Vec<_>>()
    };
    let workers: Vec<_> = overlays.into_iter().map(|overlay| thread::spawn(move || areas(overlay))).collect();
    for (n, worker) in (1..).zip(workers) {
        assert!(worker.join().unwrap().iter().all(|&found| found == [n * n, 7 * n * n, 3 * n * n]));
    }
}
