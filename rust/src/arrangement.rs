//! The arrangement of an overlay's contours, from which overlays by any rules come.

use crate::error::{fault_of, outcome};
use crate::{ffi, Engine, Error, FillRule, IntContour, IntShape, Overlay, OverlayRule, Segment, Solver};

/// The contours of an overlay, split and swept once under a fill rule: overlays by any rules come from it without
/// another split. [`Overlay::arrange`] makes it.
#[derive(Debug)]
pub struct Arrangement<'a> {
    overlay: &'a mut Overlay,
    passes: u128,
    reach: u128,
}

/// The error of a status, where it is none of a done call.
fn done(status: u8) -> Result<(), Error> {
    outcome(status, &[], |segment: &Segment| fault_of(segment, Engine::I32))
}

impl Overlay {
    /// The arrangement of the contours that were added, by the solver `AUTO`, under a fill rule. The contours stay, and so
    /// does what [`Overlay::passes`] and [`Overlay::reach`] return.
    ///
    /// ```
    /// use fadrinzo::{square, FillRule, Overlay, OverlayRule};
    ///
    /// let mut overlay = Overlay::with_contours(&[square(0, 4)], &[square(2, 6)])?;
    /// let mut arrangement = overlay.arrange(FillRule::NonZero)?;
    /// assert_eq!(arrangement.contours(OverlayRule::Union)?[0].len(), 8);
    /// assert_eq!(arrangement.shapes(OverlayRule::Xor)?.len(), 2);
    /// # Ok::<(), fadrinzo::Error>(())
    /// ```
    pub fn arrange(&mut self, fill_rule: FillRule) -> Result<Arrangement<'_>, Error> {
        done(self.engine.arrange(&self.settings(Solver::AUTO, fill_rule)))?;
        let ffi::Report { passes, reach } = self.engine.arranged_report();
        Ok(Arrangement { overlay: self, passes: passes.number(), reach: reach.number() })
    }
}

impl Arrangement<'_> {
    /// The overlay by a rule, as [`Overlay::overlay`] returns it.
    ///
    /// ```
    /// use fadrinzo::{square, FillRule, Overlay, OverlayRule};
    ///
    /// let mut overlay = Overlay::with_contours(&[square(0, 4)], &[square(2, 6)])?;
    /// let shared = overlay.arrange(FillRule::NonZero)?.contours(OverlayRule::Intersect)?;
    /// assert_eq!(shared, overlay.overlay(OverlayRule::Intersect, FillRule::NonZero)?);
    /// # Ok::<(), fadrinzo::Error>(())
    /// ```
    pub fn contours(&mut self, overlay_rule: OverlayRule) -> Result<Vec<IntContour>, Error> {
        self.made_contours(overlay_rule, false)
    }

    /// The overlay by a rule without the points at which a contour goes straight on. It winds around every point as
    /// [`Arrangement::contours`] does.
    ///
    /// ```
    /// use fadrinzo::{square, FillRule, IntPoint, Overlay, OverlayRule};
    ///
    /// // two terraced squares share a side
    /// let beside = square(0, 4).map(|corner| IntPoint::new(corner.x + 4, corner.y));
    /// let mut overlay = Overlay::with_contours(&[square(0, 4)], &[beside])?;
    /// let mut arrangement = overlay.arrange(FillRule::NonZero)?;
    /// assert_eq!(arrangement.contours(OverlayRule::Union)?[0].len(), 6);
    /// assert_eq!(arrangement.contours_without_collinear(OverlayRule::Union)?[0].len(), 4);
    /// # Ok::<(), fadrinzo::Error>(())
    /// ```
    pub fn contours_without_collinear(&mut self, overlay_rule: OverlayRule) -> Result<Vec<IntContour>, Error> {
        self.made_contours(overlay_rule, true)
    }

    /// The overlay by a rule in shapes, as [`Overlay::overlay_shapes`] returns it.
    ///
    /// ```
    /// use fadrinzo::{square, FillRule, Overlay, OverlayRule};
    ///
    /// let mut overlay = Overlay::with_contours(&[square(0, 9)], &[square(3, 6)])?;
    /// let shapes = overlay.arrange(FillRule::NonZero)?.shapes(OverlayRule::Difference)?;
    /// assert_eq!(shapes.iter().map(Vec::len).collect::<Vec<_>>(), [2]);
    /// # Ok::<(), fadrinzo::Error>(())
    /// ```
    pub fn shapes(&mut self, overlay_rule: OverlayRule) -> Result<Vec<IntShape>, Error> {
        self.made_shapes(overlay_rule, false)
    }

    /// The overlay by a rule in shapes, without the points at which a contour goes straight on. Each contour stays a
    /// simple polygon.
    ///
    /// ```
    /// use fadrinzo::{square, FillRule, IntPoint, Overlay, OverlayRule};
    ///
    /// let beside = square(0, 4).map(|corner| IntPoint::new(corner.x + 4, corner.y));
    /// let mut overlay = Overlay::with_contours(&[square(0, 4)], &[beside])?;
    /// let mut arrangement = overlay.arrange(FillRule::NonZero)?;
    /// assert_eq!(arrangement.shapes(OverlayRule::Union)?[0][0].len(), 6);
    /// assert_eq!(arrangement.shapes_without_collinear(OverlayRule::Union)?[0][0].len(), 4);
    /// # Ok::<(), fadrinzo::Error>(())
    /// ```
    pub fn shapes_without_collinear(&mut self, overlay_rule: OverlayRule) -> Result<Vec<IntShape>, Error> {
        self.made_shapes(overlay_rule, true)
    }

    /// How many passes the split of the contours made; snap rounding makes one.
    ///
    /// ```
    /// use fadrinzo::{square, FillRule, Overlay};
    ///
    /// let mut overlay = Overlay::with_contours(&[square(0, 4)], &[square(2, 6)])?;
    /// assert_eq!(overlay.arrange(FillRule::NonZero)?.passes(), 1);
    /// # Ok::<(), fadrinzo::Error>(())
    /// ```
    pub fn passes(&self) -> u128 {
        self.passes
    }

    /// How far the split of the contours moved edges at most, in `x` and in `y`, in halves of a unit. Snap rounding moves
    /// them by at most one half.
    ///
    /// The overlay by any rule is exact at every point that is farther than this, in `x` or in `y`, from all edges of the
    /// contours, in the sense of [`Overlay::reach`]. It is 0 where no two of these edges cross at a point without whole
    /// coordinates.
    ///
    /// ```
    /// use fadrinzo::{square, FillRule, IntPoint, Overlay, Rounding};
    ///
    /// let mut overlay = Overlay::with_contours(&[square(0, 4)], &[square(2, 6)])?;
    /// assert_eq!(overlay.arrange(FillRule::NonZero)?.reach(), 0);
    /// // two triangles whose edges cross at (2.5, 2.5)
    /// let [left, right] = [[(0, 0), (5, 5), (0, 5)], [(0, 5), (5, 0), (5, 5)]]
    ///     .map(|corners| corners.map(|(x, y)| IntPoint::new(x, y)));
    /// let mut overlay = Overlay::with_contours(&[left], &[right])?;
    /// assert_eq!(overlay.arrange(FillRule::NonZero)?.reach(), 1);
    /// let mut overlay = overlay.with_rounding(Rounding::Pairwise);
    /// let arrangement = overlay.arrange(FillRule::NonZero)?;
    /// assert_eq!((arrangement.passes(), arrangement.reach()), (2, 4));
    /// # Ok::<(), fadrinzo::Error>(())
    /// ```
    pub fn reach(&self) -> u128 {
        self.reach
    }

    fn made_contours(&mut self, overlay_rule: OverlayRule, corners: bool) -> Result<Vec<IntContour>, Error> {
        done(self.overlay.engine.arranged_contours(overlay_rule.code(), corners))?;
        Ok(self.overlay.engine.contours()?)
    }

    fn made_shapes(&mut self, overlay_rule: OverlayRule, corners: bool) -> Result<Vec<IntShape>, Error> {
        done(self.overlay.engine.arranged_shapes(overlay_rule.code(), corners))?;
        Ok(self.overlay.engine.shapes()?)
    }
}
