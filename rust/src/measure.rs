//! Where a point lies, and areas and boxes. The latter call no export of the archive: plain Rust, tested and not proved.

use crate::IntPoint;

/// Where a point lies with respect to contours: what [`crate::Overlay::locate_point`] returns.
#[derive(Clone, Copy, Debug, PartialEq, Eq, Hash)]
pub enum PointLocation {
    /// On no step of a contour, and inside by the fill rule.
    Inside,
    /// On a step of a contour, ends included.
    OnBoundary,
    /// On no step of a contour, and outside by the fill rule.
    Outside,
}

/// Twice the area on the left of a contour, exactly: above 0 where it runs counterclockwise, and below 0 where it runs
/// clockwise.
///
/// A part around which the contour winds several times counts as often. Any points will do. This function is tested, not
/// proved.
///
/// ```
/// use fadrinzo::{doubled_area, square, IntPoint};
///
/// let mut contour = square(0, 4).to_vec();
/// assert_eq!(doubled_area(&contour), 32);
/// contour.reverse();
/// assert_eq!(doubled_area(&contour), -32);
/// assert_eq!(doubled_area(&square(i32::MIN, i32::MAX)), 2 * i128::from(u32::MAX).pow(2));
/// ```
pub fn doubled_area(contour: &[IntPoint]) -> i128 {
    let next = contour.iter().cycle().skip(1);
    contour.iter().zip(next).map(|(a, b)| product(a.x, b.y) - product(a.y, b.x)).sum()
}

/// Twice the area of a shape, exactly: that of its outer boundary, less those of its holes.
///
/// It is the sum over its contours, so it may also be that of all contours of an overlay. This function is tested, not
/// proved.
///
/// ```
/// use fadrinzo::{doubled_area_of_shape, square, FillRule, Overlay, OverlayRule};
///
/// let mut overlay = Overlay::with_contours(&[square(0, 9)], &[square(3, 6)])?;
/// let shapes = overlay.overlay_shapes(OverlayRule::Difference, FillRule::NonZero)?;
/// assert_eq!(doubled_area_of_shape(&shapes[0]), 2 * (81 - 9));
/// # Ok::<(), fadrinzo::Error>(())
/// ```
pub fn doubled_area_of_shape<C: AsRef<[IntPoint]>>(shape: &[C]) -> i128 {
    shape.iter().map(|contour| doubled_area(contour.as_ref())).sum()
}

/// The least box around points, as its lower left and its upper right corner. `None` where there are no points.
///
/// The box of a shape is that of its outer boundary, which is its first contour. This function is tested, not proved.
///
/// ```
/// use fadrinzo::{bounding_box, IntPoint};
///
/// let points = [(2, 9), (7, 1), (4, 4)].map(IntPoint::from);
/// assert_eq!(bounding_box(&points), Some([(2, 1), (7, 9)].map(IntPoint::from)));
/// assert_eq!(bounding_box(&[]), None);
/// ```
pub fn bounding_box<'a>(points: impl IntoIterator<Item = &'a IntPoint>) -> Option<[IntPoint; 2]> {
    let boxes = points.into_iter().map(|&point| [point; 2]);
    boxes.reduce(|[low, high], [point, _]| {
        [IntPoint::new(low.x.min(point.x), low.y.min(point.y)), IntPoint::new(high.x.max(point.x), high.y.max(point.y))]
    })
}

fn product(a: i32, b: i32) -> i128 {
    i128::from(a) * i128::from(b)
}
