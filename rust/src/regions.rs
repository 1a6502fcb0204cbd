//! Regions that are prepared once, and their relations.

use crate::relations::{error_of, Code};
use crate::{Error, FillRule, IntPoint, Overlay, Relation, ShapeType, Solver};
use std::fmt;

/// Regions that are prepared once for relations to one another, each with a number. Nothing is rounded, and each result is proved.
///
/// A relation of two of them costs one arrangement of both boundaries at most. Where an edge of the one is found to cross an edge of
/// the other it costs none, and where boxes share no point most cost nothing. The relations are those of [`Overlay`], of the
/// first number's region as the subject and the second's as the clip; each region may have a fill rule of its own.
///
/// Each call panics where there is no region with a number.
///
/// ```
/// use fadrinzo::{square, FillRule, Regions};
///
/// let mut regions = Regions::new()?;
/// let parcel = regions.push(&[square(0, 9)], FillRule::NonZero)?;
/// let house = regions.push(&[square(3, 6)], FillRule::NonZero)?;
/// let road = regions.push(&[square(9, 12)], FillRule::NonZero)?;
/// assert!(regions.covers(parcel, house)? && regions.is_within(house, parcel)?);
/// assert!(regions.touches(parcel, road)? && regions.is_disjoint(house, road)?);
/// assert_eq!(regions.relate(parcel, house)?.to_string(), "TTTFFTFFT");
/// # Ok::<(), fadrinzo::Error>(())
/// ```
pub struct Regions {
    overlay: Overlay,
    len: usize,
}

impl fmt::Debug for Regions {
    fn fmt(&self, f: &mut fmt::Formatter<'_>) -> fmt::Result {
        f.debug_struct("Regions").field("len", &self.len).finish_non_exhaustive()
    }
}

impl Regions {
    /// No regions.
    pub fn new() -> Result<Regions, Error> {
        Ok(Regions { overlay: Overlay::new()?, len: 0 })
    }

    /// How many regions there are.
    pub fn len(&self) -> usize {
        self.len
    }

    /// Whether there is no region.
    pub fn is_empty(&self) -> bool {
        self.len == 0
    }

    /// Adds the region of contours under a fill rule. Returns its number: how many regions there were before.
    ///
    /// Where it is refused the regions stay as they were. Errors are those of [`Overlay::add_contour`] and
    /// [`Overlay::interiors_meet`], with the contours as the subject's.
    pub fn push<C: AsRef<[IntPoint]>>(&mut self, contours: &[C], fill_rule: FillRule) -> Result<usize, Error> {
        self.overlay.clear();
        for contour in contours {
            self.overlay.add_contour(contour, ShapeType::Subject)?;
        }
        let settings = self.overlay.settings(Solver::AUTO, fill_rule);
        match self.overlay.engine.add_region(&settings) {
            0 => self.len += 1,
            status => return Err(error_of(status)),
        }
        Ok(self.len - 1)
    }

    /// Whether some point is inside both regions, as [`Overlay::interiors_meet`] returns it.
    pub fn interiors_meet(&mut self, first: usize, second: usize) -> Result<bool, Error> {
        self.holds(Code::InteriorsMeet, first, second)
    }

    /// Whether each point inside the second region is inside the first, as [`Overlay::covers`] returns it.
    pub fn covers(&mut self, first: usize, second: usize) -> Result<bool, Error> {
        self.holds(Code::Covers, first, second)
    }

    /// Whether each point inside the first region is inside the second, as [`Overlay::is_within`] returns it.
    pub fn is_within(&mut self, first: usize, second: usize) -> Result<bool, Error> {
        self.holds(Code::IsWithin, first, second)
    }

    /// Whether each point is inside both regions, or inside neither, as [`Overlay::same_region`] returns it.
    pub fn same_region(&mut self, first: usize, second: usize) -> Result<bool, Error> {
        self.holds(Code::SameRegion, first, second)
    }

    /// Whether the regions share a point, and no point is inside both, as [`Overlay::touches`] returns it.
    pub fn touches(&mut self, first: usize, second: usize) -> Result<bool, Error> {
        self.holds(Code::Touch, first, second)
    }

    /// Whether the regions share no point, as [`Overlay::is_disjoint`] returns it.
    pub fn is_disjoint(&mut self, first: usize, second: usize) -> Result<bool, Error> {
        self.holds(Code::Disjoint, first, second)
    }

    /// Which parts of the regions meet, as [`Overlay::relate`] returns it.
    pub fn relate(&mut self, first: usize, second: usize) -> Result<Relation, Error> {
        let settings = self.overlay.settings(Solver::AUTO, FillRule::NonZero);
        self.overlay.engine.region_relate(&settings, [first, second]).map(Relation::from).map_err(error_of)
    }

    /// Whether a relation holds.
    fn holds(&mut self, code: Code, first: usize, second: usize) -> Result<bool, Error> {
        let settings = self.overlay.settings(Solver::AUTO, FillRule::NonZero);
        self.overlay.engine.region_relation(&settings, [first, second], code as u8).map_err(error_of)
    }
}
