//! Relations of the subject and the clip, exactly.

use crate::{ffi, Error, Fault, FillRule, FloatError, FloatOverlay, FloatPointCompatible, Overlay, ShapeType, Solver};
use std::fmt;

/// The codes of relations in the archive.
#[repr(u8)]
pub(crate) enum Code {
    InteriorsMeet = 0,
    Covers = 1,
    IsWithin = 2,
    SameRegion = 3,
    Touch = 4,
    Disjoint = 5,
}

/// A part of the plane that a shape makes.
#[derive(Clone, Copy, Debug, PartialEq, Eq, Hash)]
pub enum Part {
    /// The points inside the shape, without its boundary.
    Interior = 0,
    /// The points that have points inside and points outside near them, however near.
    Boundary = 1,
    /// The points outside the shape, without its boundary.
    Exterior = 2,
}

/// Which parts of the subject meet which parts of the clip, as [`Overlay::relate`] returns it: OGC's matrix of nine entries,
/// without the dimensions of points and lines.
///
/// It is written as nine letters, `T` where parts meet and `F` where they do not: row by row, the interior, the boundary and the
/// exterior of the subject.
#[derive(Clone, Copy, Debug, PartialEq, Eq, Hash)]
pub struct Relation {
    entries: [bool; 9],
}

impl Relation {
    /// Whether some point of the plane is in this part of the subject and in this part of the clip.
    pub fn meets(&self, of_subject: Part, of_clip: Part) -> bool {
        self.entries[3 * of_subject as usize + of_clip as usize]
    }

    /// Whether the entries are those of a pattern of nine letters, as `T*F**FFF*`: `T` where parts have to meet, `F` where they
    /// may not, and `*` where both will do. `None` where the pattern has other letters, or not nine of them. Digits are refused,
    /// since the dimension of an entry is not known.
    ///
    /// ```
    /// use fadrinzo::{square, FillRule, Overlay, Part};
    ///
    /// let mut overlay = Overlay::with_contours(&[square(0, 4)], &[square(4, 6)])?;
    /// let corner = overlay.relate(FillRule::NonZero)?;
    /// assert_eq!(corner.to_string(), "FFTFTTTTT");
    /// assert!(corner.meets(Part::Boundary, Part::Boundary));
    /// assert_eq!(corner.matches("F***T****"), Some(true));
    /// assert_eq!(corner.matches("T********"), Some(false));
    /// assert_eq!(corner.matches("0********"), None);
    /// # Ok::<(), fadrinzo::Error>(())
    /// ```
    pub fn matches(&self, pattern: &str) -> Option<bool> {
        if pattern.len() != self.entries.len() || !pattern.bytes().all(|letter| b"TF*".contains(&letter)) {
            return None;
        }
        let fits = |(letter, meet): (u8, &bool)| letter == b'*' || (letter == b'T') == *meet;
        Some(pattern.bytes().zip(&self.entries).all(fits))
    }
}

impl fmt::Display for Relation {
    fn fmt(&self, f: &mut fmt::Formatter<'_>) -> fmt::Result {
        self.entries.iter().try_for_each(|&meet| f.write_str(if meet { "T" } else { "F" }))
    }
}

impl From<ffi::Matrix> for Relation {
    fn from(matrix: ffi::Matrix) -> Relation {
        let ffi::Matrix {
            interior_interior,
            interior_boundary,
            interior_exterior,
            boundary_interior,
            boundary_boundary,
            boundary_exterior,
            exterior_interior,
            exterior_boundary,
            exterior_exterior,
        } = matrix;
        let interior = [interior_interior, interior_boundary, interior_exterior];
        let boundary = [boundary_interior, boundary_boundary, boundary_exterior];
        let exterior = [exterior_interior, exterior_boundary, exterior_exterior];
        let mut entries = [false; 9];
        for (entry, meet) in entries.iter_mut().zip([interior, boundary, exterior].iter().flatten()) {
            *entry = *meet;
        }
        Relation { entries }
    }
}

/// Relations of the subject and the clip that were added. Nothing is rounded, and each result is proved.
///
/// Points have any rational coordinates. Which are inside a shape follows from how often its contours wind around them, by the
/// fill rule. The contours may cross and touch, and run either way. Points on edges count for [`Overlay::touches`] and
/// [`Overlay::is_disjoint`] alone: shapes that share parts of their boundaries do not meet.
///
/// Two edges of one shape may not cross at a point without integer coordinates. Edges of valid polygons never do, nor those
/// of what an overlay returns. Else the call returns [`Error::NotExact`], which names the shape, the subject where both have
/// such edges. The overlay of that shape by [`OverlayRule::Subject`](crate::OverlayRule::Subject) is the same region but for
/// rounding, and has no such crossing. The other errors are those of [`Overlay::overlay`].
impl Overlay {
    /// Whether some point is inside both shapes.
    ///
    /// ```
    /// use fadrinzo::{square, Error, FillRule, IntPoint, Overlay, ShapeType};
    ///
    /// let mut overlay = Overlay::with_contours(&[square(0, 4)], &[square(3, 6)])?;
    /// assert!(overlay.interiors_meet(FillRule::NonZero)?);
    ///
    /// // a common corner is no common point inside
    /// let mut corner = Overlay::with_contours(&[square(0, 4)], &[square(4, 6)])?;
    /// assert!(!corner.interiors_meet(FillRule::NonZero)?);
    ///
    /// // a bow tie crosses itself in the middle of a unit
    /// let bow = [(0, 0), (1, 1), (1, 0), (0, 1)].map(IntPoint::from);
    /// let mut refused = Overlay::with_contours(&[square(0, 4)], &[bow])?;
    /// assert_eq!(refused.interiors_meet(FillRule::EvenOdd), Err(Error::NotExact(ShapeType::Clip)));
    /// # Ok::<(), fadrinzo::Error>(())
    /// ```
    pub fn interiors_meet(&mut self, fill_rule: FillRule) -> Result<bool, Error> {
        self.holds(Code::InteriorsMeet, fill_rule)
    }

    /// Whether each point inside the clip is inside the subject. Every shape covers one with nothing inside.
    ///
    /// ```
    /// use fadrinzo::{square, FillRule, Overlay};
    ///
    /// let mut overlay = Overlay::with_contours(&[square(0, 4)], &[square(0, 3)])?;
    /// assert!(overlay.covers(FillRule::NonZero)?);
    /// assert!(!overlay.is_within(FillRule::NonZero)?);
    /// # Ok::<(), fadrinzo::Error>(())
    /// ```
    pub fn covers(&mut self, fill_rule: FillRule) -> Result<bool, Error> {
        self.holds(Code::Covers, fill_rule)
    }

    /// Whether each point inside the subject is inside the clip.
    ///
    /// ```
    /// use fadrinzo::{square, FillRule, Overlay};
    ///
    /// let mut overlay = Overlay::with_contours(&[square(1, 3)], &[square(0, 3)])?;
    /// assert!(overlay.is_within(FillRule::NonZero)?);
    /// assert!(!overlay.covers(FillRule::NonZero)?);
    /// # Ok::<(), fadrinzo::Error>(())
    /// ```
    pub fn is_within(&mut self, fill_rule: FillRule) -> Result<bool, Error> {
        self.holds(Code::IsWithin, fill_rule)
    }

    /// Whether each point is inside both shapes, or inside neither.
    ///
    /// It does not matter where contours begin, which way they run under [`FillRule::NonZero`], or which points they have
    /// along a straight part of the boundary.
    ///
    /// ```
    /// use fadrinzo::{square, FillRule, IntPoint, Overlay};
    ///
    /// let clockwise = [(4, 4), (4, 0), (0, 0), (0, 3), (0, 4)].map(IntPoint::from);
    /// let mut overlay = Overlay::with_contours(&[&square(0, 4)[..]], &[&clockwise[..]])?;
    /// assert!(overlay.same_region(FillRule::NonZero)?);
    /// # Ok::<(), fadrinzo::Error>(())
    /// ```
    pub fn same_region(&mut self, fill_rule: FillRule) -> Result<bool, Error> {
        self.holds(Code::SameRegion, fill_rule)
    }

    /// Whether the shapes share a point, inside or on their boundaries, and no point is inside both.
    ///
    /// A point is on the boundary of a shape if there are points inside and outside of it, however near to it.
    /// Shapes whose bounding boxes share no point are not refused.
    ///
    /// ```
    /// use fadrinzo::{square, FillRule, Overlay};
    ///
    /// let mut corner = Overlay::with_contours(&[square(0, 4)], &[square(4, 6)])?;
    /// assert!(corner.touches(FillRule::NonZero)?);
    /// let mut overlay = Overlay::with_contours(&[square(0, 4)], &[square(3, 6)])?;
    /// assert!(!overlay.touches(FillRule::NonZero)?);
    /// # Ok::<(), fadrinzo::Error>(())
    /// ```
    pub fn touches(&mut self, fill_rule: FillRule) -> Result<bool, Error> {
        self.holds(Code::Touch, fill_rule)
    }

    /// Whether the shapes share no point, neither inside nor on their boundaries. Shapes whose bounding boxes share no point are
    /// not refused.
    ///
    /// ```
    /// use fadrinzo::{square, FillRule, Overlay};
    ///
    /// let mut overlay = Overlay::with_contours(&[square(0, 4)], &[square(5, 6)])?;
    /// assert!(overlay.is_disjoint(FillRule::NonZero)?);
    /// let mut corner = Overlay::with_contours(&[square(0, 4)], &[square(4, 6)])?;
    /// assert!(!corner.is_disjoint(FillRule::NonZero)?);
    /// # Ok::<(), fadrinzo::Error>(())
    /// ```
    pub fn is_disjoint(&mut self, fill_rule: FillRule) -> Result<bool, Error> {
        self.holds(Code::Disjoint, fill_rule)
    }

    /// Which parts of the subject meet which parts of the clip: the interior, the boundary and the exterior of each. An empty shape
    /// has its exterior alone.
    ///
    /// ```
    /// use fadrinzo::{square, FillRule, Overlay};
    ///
    /// let mut overlay = Overlay::with_contours(&[square(0, 4)], &[square(0, 4)])?;
    /// assert_eq!(overlay.relate(FillRule::NonZero)?.to_string(), "TFFFTFFFT");
    /// # Ok::<(), fadrinzo::Error>(())
    /// ```
    pub fn relate(&mut self, fill_rule: FillRule) -> Result<Relation, Error> {
        let settings = self.settings(Solver::AUTO, fill_rule);
        self.engine.relate(&settings).map(Relation::from).map_err(error_of)
    }

    /// Whether a relation holds.
    fn holds(&mut self, code: Code, fill_rule: FillRule) -> Result<bool, Error> {
        let settings = self.settings(Solver::AUTO, fill_rule);
        self.engine.relation(&settings, code as u8).map_err(error_of)
    }
}

/// The error of a status.
pub(crate) fn error_of(status: u8) -> Error {
    match status {
        1 => Error::Fault(Fault::Memory),
        6 => Error::NotExact(ShapeType::Subject),
        7 => Error::NotExact(ShapeType::Clip),
        _ => Error::Fault(Fault::CountOutOfRange),
    }
}

/// Relations of the points as the adapter rounded them: each is that of the whole points, exactly. Rounding moves each point by
/// up to half a whole unit, so shapes that touch may meet or come apart by it. Where it makes two edges of one shape cross, the
/// call returns [`Error::NotExact`] as [`FloatError::Overlay`].
impl<P: FloatPointCompatible> FloatOverlay<P> {
    /// Whether some point is inside both shapes, as [`Overlay::interiors_meet`] returns it.
    ///
    /// ```
    /// use fadrinzo::{FillRule, FloatOverlay};
    ///
    /// let square = |low: f64, high: f64| [[low, low], [high, low], [high, high], [low, high]];
    /// let mut overlay = FloatOverlay::with_contours(&[square(0.0, 0.5)], &[square(0.25, 0.5)])?;
    /// assert!(overlay.interiors_meet(FillRule::NonZero)?);
    /// assert!(overlay.covers(FillRule::NonZero)?);
    /// assert!(!overlay.is_within(FillRule::NonZero)?);
    /// assert!(!overlay.same_region(FillRule::NonZero)?);
    /// assert!(!overlay.touches(FillRule::NonZero)?);
    /// assert!(!overlay.is_disjoint(FillRule::NonZero)?);
    /// # Ok::<(), fadrinzo::FloatError>(())
    /// ```
    pub fn interiors_meet(&mut self, fill_rule: FillRule) -> Result<bool, FloatError> {
        Ok(self.overlay.interiors_meet(fill_rule)?)
    }

    /// Whether each point inside the clip is inside the subject.
    pub fn covers(&mut self, fill_rule: FillRule) -> Result<bool, FloatError> {
        Ok(self.overlay.covers(fill_rule)?)
    }

    /// Whether each point inside the subject is inside the clip.
    pub fn is_within(&mut self, fill_rule: FillRule) -> Result<bool, FloatError> {
        Ok(self.overlay.is_within(fill_rule)?)
    }

    /// Whether each point is inside both shapes, or inside neither.
    pub fn same_region(&mut self, fill_rule: FillRule) -> Result<bool, FloatError> {
        Ok(self.overlay.same_region(fill_rule)?)
    }

    /// Whether the shapes share a point, inside or on their boundaries, and no point is inside both.
    pub fn touches(&mut self, fill_rule: FillRule) -> Result<bool, FloatError> {
        Ok(self.overlay.touches(fill_rule)?)
    }

    /// Whether the shapes share no point, neither inside nor on their boundaries.
    pub fn is_disjoint(&mut self, fill_rule: FillRule) -> Result<bool, FloatError> {
        Ok(self.overlay.is_disjoint(fill_rule)?)
    }

    /// Which parts of the subject meet which parts of the clip, as [`Overlay::relate`] returns it.
    pub fn relate(&mut self, fill_rule: FillRule) -> Result<Relation, FloatError> {
        Ok(self.overlay.relate(fill_rule)?)
    }
}
