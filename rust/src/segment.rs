//! What is given: segments with their counts, and lines.

use crate::memory::reserve;
use crate::{Error, IntPoint};

/// How often a segment winds for the subject and for the clip.
#[repr(C)]
#[derive(Clone, Copy, Debug, Default, PartialEq, Eq, Hash)]
pub struct ShapeCountBoolean {
    /// For the subject: above 0 from `a` to `b`, below 0 from `b` to `a`.
    pub subj: i32,
    /// For the clip.
    pub clip: i32,
}

impl ShapeCountBoolean {
    /// One contour of the subject, run forward.
    pub const SUBJ_DIRECT: ShapeCountBoolean = ShapeCountBoolean { subj: 1, clip: 0 };
    /// One contour of the clip, run forward.
    pub const CLIP_DIRECT: ShapeCountBoolean = ShapeCountBoolean { subj: 0, clip: 1 };
}

/// Whether a shape is a subject or a clip.
///
/// It is written in a word, and read by that or by the letter with which a line of a program begins.
///
/// ```
/// use fadrinzo::ShapeType;
///
/// assert_eq!(ShapeType::Clip.to_string(), "clip");
/// assert_eq!(["subject", "S"].map(str::parse), [Ok(ShapeType::Subject), Ok(ShapeType::Subject)]);
/// ```
#[repr(u8)]
#[derive(Clone, Copy, Debug, PartialEq, Eq, Hash)]
pub enum ShapeType {
    /// The shape that a difference keeps.
    Subject = 0,
    /// The shape that a difference takes away.
    Clip = 1,
}

impl ShapeType {
    /// The count of one contour, run forward.
    ///
    /// ```
    /// use fadrinzo::{ShapeCountBoolean, ShapeType};
    ///
    /// assert_eq!(ShapeType::Subject.direct_count(), ShapeCountBoolean::SUBJ_DIRECT);
    /// ```
    pub const fn direct_count(self) -> ShapeCountBoolean {
        match self {
            ShapeType::Subject => ShapeCountBoolean::SUBJ_DIRECT,
            ShapeType::Clip => ShapeCountBoolean::CLIP_DIRECT,
        }
    }

    /// Adds the steps of a closed contour, from each point to the next and from the last to the first. Steps from a
    /// point to itself are left out. Where memory is refused nothing is added.
    ///
    /// ```
    /// use fadrinzo::{square, ShapeType};
    ///
    /// let mut segments = Vec::new();
    /// ShapeType::Clip.push_contour(&square(0, 4), &mut segments)?;
    /// assert_eq!(segments.len(), 4);
    /// assert!(segments.iter().all(|side| side.count == ShapeType::Clip.direct_count()));
    /// # Ok::<(), fadrinzo::Error>(())
    /// ```
    pub fn push_contour(self, contour: &[IntPoint], segments: &mut Vec<Segment>) -> Result<(), Error> {
        let Some(mut a) = contour.last().copied() else { return Ok(()) };
        reserve(segments, contour.len())?;
        for &b in contour {
            if a != b {
                segments.push(Segment { a, b, count: self.direct_count() });
            }
            a = b;
        }
        Ok(())
    }
}

/// A segment from `a` to `b`, with its count. A given one may run either way; in an arrangement `a` is before `b`.
#[repr(C)]
#[derive(Clone, Copy, Debug, Default, PartialEq, Eq, Hash)]
pub struct Segment {
    /// Where it starts.
    pub a: IntPoint,
    /// Where it ends.
    pub b: IntPoint,
    /// How often it winds, run from `a` to `b`.
    pub count: ShapeCountBoolean,
}

/// A segment, with a number that is handed through to the links that come from it.
///
/// Parts of a segment have its number. Where several segments run between the same two points, in the given list or after
/// a split, the first one's number stays.
///
/// ```
/// use fadrinzo::{square, DataSegment, ShapeType};
///
/// let mut sides = Vec::new();
/// ShapeType::Subject.push_contour(&square(0, 4), &mut sides)?;
/// let numbered: Vec<DataSegment> = sides.iter().zip(0..).map(|(&segment, data)| DataSegment { segment, data }).collect();
/// assert_eq!(numbered[3].data, 3);
/// # Ok::<(), fadrinzo::Error>(())
/// ```
#[repr(C)]
#[derive(Clone, Copy, Debug, Default, PartialEq, Eq, Hash)]
pub struct DataSegment {
    /// The segment.
    pub segment: Segment,
    /// Its number, which the caller chooses.
    pub data: u64,
}

/// A side of a polygon, which winds for the subject, or a step of a line, which has a mask. It may run either way.
#[repr(C)]
#[derive(Clone, Copy, Debug, Default, PartialEq, Eq, Hash)]
pub struct LineSegment {
    /// Where it starts.
    pub a: IntPoint,
    /// Where it ends.
    pub b: IntPoint,
    /// How often it winds for the polygons.
    pub subj: i32,
    /// 2 for a line from `a` to `b`, 1 for one that runs back, 3 for both, 0 for none.
    pub mask: u8,
}

impl LineSegment {
    /// A side of a polygon.
    ///
    /// ```
    /// use fadrinzo::{IntPoint, LineSegment};
    ///
    /// let side = LineSegment::side(IntPoint::ZERO, IntPoint::new(4, 0));
    /// assert_eq!((side.subj, side.mask), (1, 0));
    /// ```
    pub const fn side(a: IntPoint, b: IntPoint) -> LineSegment {
        LineSegment { a, b, subj: 1, mask: 0 }
    }

    /// A step of a line.
    ///
    /// ```
    /// use fadrinzo::{IntPoint, LineSegment};
    ///
    /// let step = LineSegment::line(IntPoint::ZERO, IntPoint::new(4, 0));
    /// assert_eq!((step.subj, step.mask), (0, 2));
    /// ```
    pub const fn line(a: IntPoint, b: IntPoint) -> LineSegment {
        LineSegment { a, b, subj: 0, mask: 2 }
    }
}
