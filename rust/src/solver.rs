//! How a split goes about it.

/// How the segments that meet are found. The result does not depend on it.
///
/// It is written and read as the programs of the repository read it.
///
/// ```
/// use fadrinzo::Strategy;
///
/// assert_eq!(Strategy::Frag.to_string(), "frag");
/// assert_eq!("auto".parse(), Ok(Strategy::default()));
/// ```
#[repr(u8)]
#[derive(Clone, Copy, Debug, Default, PartialEq, Eq, Hash)]
pub enum Strategy {
    /// Compares all pairs of segments whose ranges in `x` meet.
    List = 0,
    /// Looks pairs up in an interval tree.
    Tree = 1,
    /// Compares pairs in the columns of a grid, where there are enough segments for one.
    Frag = 2,
    /// Picks one of these by the number of segments.
    #[default]
    Auto = 3,
}

/// How far a crossing may be moved to an end: in pass k within a squared distance of
/// `2^(start + (k-1) * progression)`. The default is [`Precision::HIGH`].
///
/// It is written and read as the programs of the repository read it, which take at most 9 digits of a number.
///
/// ```
/// use fadrinzo::Precision;
///
/// assert_eq!(Precision::default().to_string(), "high");
/// assert_eq!("3,1".parse(), Ok(Precision { start: 3, progression: 1 }));
/// ```
#[derive(Clone, Copy, Debug, PartialEq, Eq, Hash)]
pub struct Precision {
    /// The exponent in the first pass.
    pub start: usize,
    /// What each pass adds to it.
    pub progression: usize,
}

impl Precision {
    /// A squared radius of 1 in every pass.
    pub const ABSOLUTE: Precision = Precision { start: 0, progression: 0 };
    /// Doubles each pass, from 1.
    pub const HIGH: Precision = Precision { start: 0, progression: 1 };
    /// Doubles each pass, from 2.
    pub const MEDIUM_HIGH: Precision = Precision { start: 1, progression: 1 };
    /// Four times as much each pass, from 1.
    pub const MEDIUM: Precision = Precision { start: 0, progression: 2 };
    /// Four times as much each pass, from 4.
    pub const MEDIUM_LOW: Precision = Precision { start: 2, progression: 2 };
    /// Eight times as much each pass, from 4.
    pub const LOW: Precision = Precision { start: 2, progression: 3 };
}

/// Where crossings without integer coordinates go, of contours, of segments and of lines.
///
/// ```
/// use fadrinzo::Rounding;
///
/// assert_eq!("pairwise".parse(), Ok(Rounding::Pairwise));
/// assert_eq!(Rounding::default().to_string(), "hot-pixels");
/// ```
#[repr(u8)]
#[derive(Clone, Copy, Debug, Default, PartialEq, Eq, Hash)]
pub enum Rounding {
    /// By snap rounding, in one pass: a crossing goes to the whole point whose pixel it lies in, and the edges that meet
    /// the pixel of such a point go through that point. No edge moves by more than half a unit, in `x` and in `y`, and few
    /// nearly parallel edges leave few points. It takes no [`Precision`].
    #[default]
    HotPixels = 0,
    /// As upstream does: pass after pass, each crossing by itself, within the radius of a [`Precision`]. How far edges
    /// move, and how many points are left, depends on all of them: six nearly parallel edges can leave hundreds of
    /// thousands of points.
    Pairwise = 1,
}

impl Default for Precision {
    fn default() -> Precision {
        Precision::HIGH
    }
}

/// A strategy and a precision.
///
/// ```
/// use fadrinzo::{Precision, Solver, Strategy};
///
/// assert_eq!(Solver::default(), Solver { strategy: Strategy::default(), precision: Precision::default() });
/// assert_eq!(Solver::default(), Solver::AUTO);
/// ```
#[derive(Clone, Copy, Debug, PartialEq, Eq, Hash)]
pub struct Solver {
    /// How the segments that meet are found.
    pub strategy: Strategy,
    /// How far a crossing may be moved to an end.
    pub precision: Precision,
}

impl Solver {
    /// All pairs, under the precision `HIGH`.
    pub const LIST: Solver = Solver { strategy: Strategy::List, precision: Precision::HIGH };
    /// A tree, under the precision `HIGH`.
    pub const TREE: Solver = Solver { strategy: Strategy::Tree, precision: Precision::HIGH };
    /// A grid, under the precision `HIGH`.
    pub const FRAG: Solver = Solver { strategy: Strategy::Frag, precision: Precision::HIGH };
    /// By the number of segments, under the precision `HIGH`.
    pub const AUTO: Solver = Solver { strategy: Strategy::Auto, precision: Precision::HIGH };
}

impl Default for Solver {
    fn default() -> Solver {
        Solver::AUTO
    }
}
