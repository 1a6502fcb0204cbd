//! Which points count as inside, and which part is kept.

/// When a point counts as inside, by how often the contours wind around it counterclockwise.
///
/// It is written and read as the programs of the repository read it.
///
/// ```
/// use fadrinzo::FillRule;
///
/// assert_eq!(FillRule::EvenOdd.to_string(), "evenodd");
/// assert_eq!("nonzero".parse(), Ok(FillRule::NonZero));
/// ```
#[repr(u8)]
#[derive(Clone, Copy, Debug, Default, PartialEq, Eq, Hash)]
pub enum FillRule {
    /// Where the winding number is odd.
    EvenOdd = 0,
    /// Where it is not 0.
    #[default]
    NonZero = 1,
    /// Where it is above 0.
    Positive = 2,
    /// Where it is below 0.
    Negative = 3,
}

/// Which part of the subject and the clip is returned.
///
/// It is written and read as the programs of the repository read it.
///
/// ```
/// use fadrinzo::{OverlayRule, RuleTable};
///
/// assert_eq!(OverlayRule::InverseDifference.to_string(), "inverse-difference");
/// assert_eq!("table:6".parse(), Ok(OverlayRule::Table(RuleTable::new(6).expect("a number below 16"))));
/// ```
#[derive(Clone, Copy, Debug, PartialEq, Eq, Hash)]
pub enum OverlayRule {
    /// The subject.
    Subject,
    /// The clip.
    Clip,
    /// What both have.
    Intersect,
    /// What one of them has, or both.
    Union,
    /// The subject without the clip.
    Difference,
    /// The clip without the subject.
    InverseDifference,
    /// What just one of them has.
    Xor,
    /// What the table says.
    Table(RuleTable),
}

impl OverlayRule {
    /// The code of the rule in the archive: a number for a name, or 16 and the number of a table.
    pub(crate) const fn code(self) -> u8 {
        match self {
            OverlayRule::Subject => 0,
            OverlayRule::Clip => 1,
            OverlayRule::Intersect => 2,
            OverlayRule::Union => 3,
            OverlayRule::Difference => 4,
            OverlayRule::InverseDifference => 5,
            OverlayRule::Xor => 6,
            OverlayRule::Table(table) => 16 + table.bits,
        }
    }
}

/// Any truth function of "inside the subject" and "inside the clip", as the four bits of a number from 0 to 15: bit 0
/// is its value outside of both, bit 1 inside the subject alone, bit 2 inside the clip alone, and bit 3 inside both.
///
/// A table keeps the segments of whose two sides it says different things. Contours of a table that holds outside of
/// both wind once less everywhere, since the outside has no boundary of its own: around what it says no of they wind
/// clockwise.
#[derive(Clone, Copy, Debug, PartialEq, Eq, Hash)]
pub struct RuleTable {
    bits: u8,
}

impl RuleTable {
    /// The table of these bits. `None` for a number above 15.
    ///
    /// ```
    /// use fadrinzo::{square, FillRule, Overlay, OverlayRule, RuleTable};
    ///
    /// let mut overlay = Overlay::with_contours(&[square(0, 4)], &[square(2, 6)])?;
    /// let shared = overlay.overlay(OverlayRule::Intersect, FillRule::NonZero)?;
    /// let both = RuleTable::new(0b1000).expect("a number below 16");
    /// assert_eq!(overlay.overlay(OverlayRule::Table(both), FillRule::NonZero)?, shared);
    /// assert_eq!(RuleTable::new(16), None);
    /// # Ok::<(), fadrinzo::Error>(())
    /// ```
    pub const fn new(bits: u8) -> Option<RuleTable> {
        if bits < 16 {
            Some(RuleTable { bits })
        } else {
            None
        }
    }

    /// The bits of the table: a number from 0 to 15.
    ///
    /// ```
    /// use fadrinzo::RuleTable;
    ///
    /// assert_eq!(RuleTable::new(6).map(RuleTable::bits), Some(6));
    /// ```
    pub const fn bits(self) -> u8 {
        self.bits
    }
}

/// Which parts of lines are kept that polygons cut.
#[derive(Clone, Copy, Debug, Default, PartialEq, Eq, Hash)]
pub struct ClipRule {
    /// The parts outside of the polygons are kept, and not those inside.
    pub invert: bool,
    /// A part along the boundary, with the polygons on one side alone, counts as inside.
    pub boundary_included: bool,
}
