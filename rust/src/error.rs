//! Why a call is refused.

use crate::{DataSegment, Engine, IntPoint, LineSegment, Segment, ShapeCountBoolean, ShapeType};
use std::fmt;

/// Why the engine refused.
#[derive(Clone, Copy, Debug, PartialEq, Eq)]
pub enum Fault {
    /// A growth was refused by the allocator: of the engine, or of a list of this package.
    Memory,
    /// A sum of winding counts left the range `-i32::MAX..=i32::MAX`.
    CountOutOfRange,
}

/// A coordinate of a point.
#[derive(Clone, Copy, Debug, PartialEq, Eq, PartialOrd, Ord, Hash)]
pub enum Axis {
    /// The first one.
    X,
    /// The second one.
    Y,
}

/// A coordinate out of range.
///
/// ```
/// use fadrinzo::{Axis, RangeFault, MAX_COORD};
///
/// let fault = RangeFault { axis: Axis::Y, value: 2_000_000_000, bound: MAX_COORD };
/// assert_eq!(fault.to_string(), "y is 2000000000, the greatest is 1073741823");
/// ```
#[derive(Clone, Copy, Debug, PartialEq, Eq)]
pub struct RangeFault {
    /// Which coordinate it is.
    pub axis: Axis,
    /// Its value.
    pub value: i32,
    /// The end of the range beyond which it lies.
    pub bound: i32,
}

/// What is wrong with a given segment.
#[derive(Clone, Copy, Debug, PartialEq, Eq)]
pub enum SegmentFault {
    /// A coordinate lies outside of the range of the engine, as `Engine::range` returns it. It is the first such one.
    Range(RangeFault),
    /// Both ends are one point.
    EqualEnds,
    /// The count is 0 for both shapes, or a number of it is `i32::MIN`. Of a line, the mask may also be above 3.
    Count,
}

/// Why a call was refused. Its text says what is wrong with which point or segment.
///
/// ```
/// use fadrinzo::{Error, FillRule, IntPoint, Overlay, OverlayRule, Segment, SegmentFault, ShapeType, MAX_COORD};
///
/// let far = [IntPoint::ZERO, IntPoint::new(MAX_COORD + 1, 0)];
/// let refused = Overlay::with_contours(&[far], &[]).unwrap_err();
/// assert!(matches!(refused, Error::Point { shape_type: ShapeType::Subject, contour: 0, point: 1, .. }));
/// assert_eq!(refused.to_string(), "contour 0 of the subject, point 1: x is 1073741824, the greatest is 1073741823");
///
/// let at = IntPoint::new(7, 7);
/// let bad = Segment { a: at, b: at, count: ShapeType::Subject.direct_count() };
/// let refused = Overlay::new()?.build_graph(&[bad], OverlayRule::Union, FillRule::NonZero).unwrap_err();
/// assert_eq!(refused, Error::Segment { index: 0, fault: SegmentFault::EqualEnds });
/// assert_eq!(refused.to_string(), "segment 0: both ends are one point; leave it out");
/// # Ok::<(), Error>(())
/// ```
#[derive(Clone, Copy, Debug, PartialEq, Eq)]
#[non_exhaustive]
pub enum Error {
    /// The engine refused.
    Fault(Fault),
    /// A point of a contour lies outside of `MIN_COORD..=MAX_COORD`. It is the first such one.
    Point {
        /// The shape of the contour.
        shape_type: ShapeType,
        /// The index of the contour among those of its shape.
        contour: usize,
        /// The index of the point in the contour.
        point: usize,
        /// Its first coordinate out of range.
        fault: RangeFault,
    },
    /// A point of a line lies out of range. It is the first such one.
    Line {
        /// The index of the line.
        line: usize,
        /// The index of the point in the line.
        point: usize,
        /// Its first coordinate out of range.
        fault: RangeFault,
    },
    /// Two edges of this shape cross at a point without integer coordinates, so that its relations are refused.
    NotExact(ShapeType),
    /// The segment at this index may not be split. It is the first such one.
    Segment {
        /// Its index in the given list.
        index: usize,
        /// What is wrong with it.
        fault: SegmentFault,
    },
}

impl fmt::Display for Fault {
    fn fmt(&self, f: &mut fmt::Formatter<'_>) -> fmt::Result {
        f.write_str(match self {
            Fault::Memory => "out of memory; the overlay can be used again",
            Fault::CountOutOfRange => "a sum of winding counts leaves -2147483647..=2147483647; give smaller counts",
        })
    }
}

impl fmt::Display for Axis {
    fn fmt(&self, f: &mut fmt::Formatter<'_>) -> fmt::Result {
        f.pad(match self {
            Axis::X => "x",
            Axis::Y => "y",
        })
    }
}

impl fmt::Display for RangeFault {
    fn fmt(&self, f: &mut fmt::Formatter<'_>) -> fmt::Result {
        let RangeFault { axis, value, bound } = self;
        let end = if value > bound { "greatest" } else { "least" };
        write!(f, "{axis} is {value}, the {end} is {bound}")
    }
}

impl fmt::Display for SegmentFault {
    fn fmt(&self, f: &mut fmt::Formatter<'_>) -> fmt::Result {
        match self {
            SegmentFault::Range(fault) => fault.fmt(f),
            SegmentFault::EqualEnds => f.write_str("both ends are one point; leave it out"),
            SegmentFault::Count => f.write_str(
                "its counts have to be from -2147483647 to 2147483647, one of them not 0 (of a line: a mask from 1 to 3)",
            ),
        }
    }
}

impl fmt::Display for Error {
    fn fmt(&self, f: &mut fmt::Formatter<'_>) -> fmt::Result {
        match self {
            Error::Fault(fault) => fault.fmt(f),
            Error::Point { shape_type, contour, point, fault } => {
                write!(f, "contour {contour} of the {shape_type}, point {point}: {fault}")
            }
            Error::Line { line, point, fault } => write!(f, "line {line}, point {point}: {fault}"),
            Error::NotExact(shape_type) => write!(
                f,
                "two edges of the {shape_type} cross at a point without integer coordinates; take its overlay by itself"
            ),
            Error::Segment { index, fault } => write!(f, "segment {index}: {fault}"),
        }
    }
}

impl std::error::Error for Fault {}

impl From<Fault> for Error {
    fn from(fault: Fault) -> Error {
        Error::Fault(fault)
    }
}

impl std::error::Error for RangeFault {}

impl std::error::Error for SegmentFault {}

impl std::error::Error for Error {}

/// The error of the first point of a contour that is out of range, if one is.
pub(crate) fn point_error(points: &[IntPoint], shape_type: ShapeType, contour: usize) -> Option<Error> {
    range_error(points, Engine::I32).map(|(point, fault)| Error::Point { shape_type, contour, point, fault })
}

/// The index of the first point that is out of range, and what is wrong with it, if one is.
pub(crate) fn range_error(points: &[IntPoint], engine: Engine) -> Option<(usize, RangeFault)> {
    points.iter().enumerate().find_map(|(point, &at)| Some((point, range_fault(at, engine)?)))
}

/// The first coordinate of a point that is out of range, if one is.
fn range_fault(point: IntPoint, engine: Engine) -> Option<RangeFault> {
    let (least, greatest) = engine.range().into_inner();
    let fault_of = |axis, value: i32| {
        let bound = value.clamp(least, greatest);
        (bound != value).then_some(RangeFault { axis, value, bound })
    };
    fault_of(Axis::X, point.x).or_else(|| fault_of(Axis::Y, point.y))
}

/// What is wrong with the segment between two points, if anything is.
pub(crate) fn segment_fault(a: IntPoint, b: IntPoint, is_counted: bool, engine: Engine) -> Option<SegmentFault> {
    if let Some(fault) = range_fault(a, engine).or_else(|| range_fault(b, engine)) {
        Some(SegmentFault::Range(fault))
    } else if a == b {
        Some(SegmentFault::EqualEnds)
    } else if !is_counted {
        Some(SegmentFault::Count)
    } else {
        None
    }
}

/// What is wrong with a segment, if anything is.
pub(crate) fn fault_of(segment: &Segment, engine: Engine) -> Option<SegmentFault> {
    let ShapeCountBoolean { subj, clip } = segment.count;
    let is_counted = subj != i32::MIN && clip != i32::MIN && (subj != 0 || clip != 0);
    segment_fault(segment.a, segment.b, is_counted, engine)
}

/// The same of a segment with a number, which may be any.
pub(crate) fn fault_of_data(segment: &DataSegment, engine: Engine) -> Option<SegmentFault> {
    fault_of(&segment.segment, engine)
}

/// The same of a side of a polygon or a step of a line.
pub(crate) fn fault_of_line(segment: &LineSegment, engine: Engine) -> Option<SegmentFault> {
    let LineSegment { a, b, subj, mask } = *segment;
    let is_counted = subj != i32::MIN && mask < 4 && (subj != 0 || mask != 0);
    segment_fault(a, b, is_counted, engine)
}

/// What a status says. Where segments may not be split there has to be one with a fault.
pub(crate) fn outcome<S>(status: u8, given: &[S], fault_of: impl Fn(&S) -> Option<SegmentFault>) -> Result<(), Error> {
    match status {
        0 => Ok(()),
        1 => Err(Error::Fault(Fault::Memory)),
        2 => Err(Error::Fault(Fault::CountOutOfRange)),
        _ => {
            let found = given.iter().map(fault_of).enumerate();
            let mut faults = found.filter_map(|(index, fault)| fault.map(|fault| Error::Segment { index, fault }));
            Err(faults.next().expect("the engine refuses segments where one may not be split"))
        }
    }
}
