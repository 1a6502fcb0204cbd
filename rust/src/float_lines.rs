//! Lines with floating coordinates that polygons cut.

use crate::float::{bad_coordinate, push_whole};
use crate::memory::{collect_all, push};
use crate::{
    ClipRule, FillRule, FloatContour, FloatError, FloatOverlay, FloatPoint, FloatPointAdapter, FloatPointCompatible,
    IntContour, ShapeType,
};

/// The whole points of contours or of lines, with the error of the first point that the adapter does not take.
fn all_whole<P: FloatPointCompatible, C: AsRef<[P]>>(
    adapter: &FloatPointAdapter,
    contours: &[C],
    bad: impl Fn(usize, usize, FloatPoint) -> FloatError,
) -> Result<Vec<IntContour>, FloatError> {
    let mut all = Vec::new();
    for (index, points) in contours.iter().enumerate() {
        let mut whole = Vec::new();
        push_whole(adapter, points.as_ref(), &mut whole, |point, at| bad(index, point, at))?;
        push(&mut all, whole)?;
    }
    Ok(all)
}

impl<P: FloatPointCompatible> FloatOverlay<P> {
    /// The parts of lines that a clip rule keeps, inside polygons or outside of them, as [`Overlay::clip_lines`] returns them:
    /// each with the index of its line, in the direction of the line, and in order along it.
    ///
    /// Polygons and lines have to lie in the bounds of the adapter. Points of parts lie within a whole unit of the steps of
    /// their lines, in `x` and in `y`. Contours that were added count for nothing here, and stay.
    ///
    /// Returns `FloatError::Point` or `FloatError::Line` where a point is not finite or outside of the bounds.
    ///
    /// ```
    /// use fadrinzo::{ClipRule, FillRule, FloatOverlay, FloatPointAdapter};
    ///
    /// let square = [[0.0, 0.0], [0.5, 0.0], [0.5, 0.5], [0.0, 0.5]];
    /// let line = [[-1.0, 0.25], [0.25, 0.25], [0.25, 1.0]];
    /// let mut overlay = FloatOverlay::with_adapter(FloatPointAdapter::new([-1.0; 2], [1.0; 2])?)?;
    /// let inside = overlay.clip_lines(&[square], &[line], ClipRule::default(), FillRule::NonZero)?;
    /// assert_eq!(inside, [(0, vec![[0.0, 0.25], [0.25, 0.25], [0.25, 0.5]])]);
    /// let refused = overlay.clip_lines(&[square], &[[[0.0, 0.0], [0.0, 2.0]]], ClipRule::default(), FillRule::NonZero);
    /// assert_eq!(refused.unwrap_err().to_string(), "line 0, point 1: y is 2, which is outside of the bounds");
    /// # Ok::<(), fadrinzo::FloatError>(())
    /// ```
    ///
    /// [`Overlay::clip_lines`]: crate::Overlay::clip_lines
    pub fn clip_lines<C: AsRef<[P]>, L: AsRef<[P]>>(
        &mut self,
        polygons: &[C],
        lines: &[L],
        clip_rule: ClipRule,
        fill_rule: FillRule,
    ) -> Result<Vec<(usize, FloatContour<P>)>, FloatError> {
        let adapter = &self.adapter;
        let polygons = all_whole(adapter, polygons, |contour, point, at| {
            let (axis, value) = bad_coordinate(adapter, at);
            FloatError::Point { shape_type: ShapeType::Subject, contour, point, axis, value }
        })?;
        let lines = all_whole(adapter, lines, |line, point, at| {
            let (axis, value) = bad_coordinate(adapter, at);
            FloatError::Line { line, point, axis, value }
        })?;
        let parts = self.overlay.clip_lines(&polygons, &lines, clip_rule, fill_rule)?;
        let points = parts.iter().map(|(line, points)| Ok((*line, self.adapter.points_of(points)?)));
        collect_all(points)
    }
}
