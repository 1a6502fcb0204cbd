//! The arrangement of contours with floating coordinates.

use crate::{
    Arrangement, FloatContour, FloatError, FloatPoint, FloatPointAdapter, FloatPointCompatible, FloatShape, OverlayRule,
};
use std::marker::PhantomData;

/// The contours of an overlay with floating coordinates, split and swept once under a fill rule: overlays by any rules come from
/// it without another split. [`FloatOverlay::arrange`](crate::FloatOverlay::arrange) makes it.
#[derive(Debug)]
pub struct FloatArrangement<'a, P = FloatPoint> {
    pub(crate) arrangement: Arrangement<'a>,
    pub(crate) adapter: &'a FloatPointAdapter,
    pub(crate) points: PhantomData<fn() -> P>,
}

impl<P: FloatPointCompatible> FloatArrangement<'_, P> {
    /// The overlay by a rule, as contours.
    pub fn contours(&mut self, overlay_rule: OverlayRule) -> Result<Vec<FloatContour<P>>, FloatError> {
        Ok(self.adapter.contours_of(&self.arrangement.contours(overlay_rule)?)?)
    }

    /// The overlay by a rule, as contours without the points at which they go straight on.
    ///
    /// ```
    /// use fadrinzo::{FillRule, FloatOverlay, OverlayRule};
    ///
    /// let square = |left: f64| [[left, 0.0], [left + 0.5, 0.0], [left + 0.5, 0.5], [left, 0.5]];
    /// let mut overlay = FloatOverlay::with_contours(&[square(0.0)], &[square(0.5)])?;
    /// let mut arrangement = overlay.arrange(FillRule::NonZero)?;
    /// assert_eq!(arrangement.contours(OverlayRule::Union)?[0].len(), 6);
    /// assert_eq!(arrangement.contours_without_collinear(OverlayRule::Union)?[0].len(), 4);
    /// # Ok::<(), fadrinzo::FloatError>(())
    /// ```
    pub fn contours_without_collinear(
        &mut self,
        overlay_rule: OverlayRule,
    ) -> Result<Vec<FloatContour<P>>, FloatError> {
        Ok(self.adapter.contours_of(&self.arrangement.contours_without_collinear(overlay_rule)?)?)
    }

    /// The overlay by a rule, as shapes.
    pub fn shapes(&mut self, overlay_rule: OverlayRule) -> Result<Vec<FloatShape<P>>, FloatError> {
        Ok(self.adapter.shapes_of(&self.arrangement.shapes(overlay_rule)?)?)
    }

    /// The overlay by a rule, as shapes without the points at which contours go straight on.
    pub fn shapes_without_collinear(&mut self, overlay_rule: OverlayRule) -> Result<Vec<FloatShape<P>>, FloatError> {
        Ok(self.adapter.shapes_of(&self.arrangement.shapes_without_collinear(overlay_rule)?)?)
    }

    /// How many passes the split of the contours made; snap rounding makes one.
    pub fn passes(&self) -> u128 {
        self.arrangement.passes()
    }

    /// How far the split moved edges at most, in `x` and in `y`, as [`FloatOverlay::reach`](crate::FloatOverlay::reach) returns
    /// it.
    ///
    /// ```
    /// use fadrinzo::{FillRule, FloatOverlay};
    ///
    /// let square = |low: f64, high: f64| [[low, low], [high, low], [high, high], [low, high]];
    /// let mut overlay = FloatOverlay::with_contours(&[square(0.0, 0.5)], &[square(0.25, 0.75)])?;
    /// let arrangement = overlay.arrange(FillRule::NonZero)?;
    /// assert_eq!(arrangement.passes(), 1);
    /// assert!(arrangement.reach() < 1e-8);
    /// # Ok::<(), fadrinzo::FloatError>(())
    /// ```
    pub fn reach(&self) -> f64 {
        self.adapter.reach_of(self.arrangement.reach())
    }
}
