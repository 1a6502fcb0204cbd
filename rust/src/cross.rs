//! Where two segments meet.

use crate::error::segment_fault;
use crate::{ffi, Engine, Error, IntPoint, Segment};

/// What the point of a meeting is.
#[derive(Clone, Copy, Debug, PartialEq, Eq)]
pub enum CrossType {
    /// An end of neither.
    Pure,
    /// An end of the target.
    TargetEnd,
    /// An end of the other.
    OtherEnd,
    /// Nothing: the four ends lie on one line.
    Overlay,
}

/// Which ends of two segments on one line lie strictly inside the other segment.
#[derive(Clone, Copy, Debug, Default, PartialEq, Eq)]
pub struct CollinearMask {
    /// The target's first end.
    pub is_target_a: bool,
    /// The target's second end.
    pub is_target_b: bool,
    /// The other's first end.
    pub is_other_a: bool,
    /// The other's second end.
    pub is_other_b: bool,
}

impl CollinearMask {
    /// The ends of a sum of 1, 2, 4 and 8.
    const fn of(number: u8) -> CollinearMask {
        CollinearMask {
            is_target_a: number & 1 != 0,
            is_target_b: number & 2 != 0,
            is_other_a: number & 4 != 0,
            is_other_b: number & 8 != 0,
        }
    }
}

/// Where two segments meet.
#[derive(Clone, Copy, Debug, PartialEq, Eq)]
pub struct CrossResult {
    /// Where; of no meaning where all four ends lie on one line.
    pub point: IntPoint,
    /// What that point is of the two.
    pub cross_type: CrossType,
    /// Whether the point is not the exact crossing point.
    pub is_round: bool,
    /// Which ends lie strictly inside the other segment, where all four lie on one line; else none.
    pub mask: CollinearMask,
}

/// Where a target and another segment meet. A crossing without whole coordinates is moved to an end within the squared
/// radius, which counts as 1 where it is less, or rounded. Counts do not matter.
///
/// The error's index is 0 for the target and 1 for the other.
///
/// ```
/// use fadrinzo::{cross, CrossType, IntPoint, Segment, ShapeCountBoolean};
///
/// let step = |ax, ay, bx, by| Segment {
///     a: IntPoint::new(ax, ay),
///     b: IntPoint::new(bx, by),
///     count: ShapeCountBoolean::SUBJ_DIRECT,
/// };
/// let found = cross(&step(0, 0, 10, 10), &step(0, 10, 10, 0), 1)?.expect("they cross");
/// assert_eq!((found.point, found.cross_type), (IntPoint::new(5, 5), CrossType::Pure));
/// let along = cross(&step(0, 0, 4, 0), &step(2, 0, 6, 0), 1)?.expect("they lie on one line");
/// assert!(along.mask.is_target_b && along.mask.is_other_a);
/// # Ok::<(), fadrinzo::Error>(())
/// ```
pub fn cross(target: &Segment, other: &Segment, radius_squared: i64) -> Result<Option<CrossResult>, Error> {
    for (index, segment) in [target, other].into_iter().enumerate() {
        if let Some(fault) = segment_fault(segment.a, segment.b, true, Engine::I32) {
            return Err(Error::Segment { index, fault });
        }
    }
    let found = ffi::cross(target, other, radius_squared);
    let cross_type = match found.kind {
        0 => return Ok(None),
        1 => CrossType::Pure,
        2 => CrossType::TargetEnd,
        3 => CrossType::OtherEnd,
        _ => CrossType::Overlay,
    };
    Ok(Some(CrossResult {
        point: found.point,
        cross_type,
        is_round: found.is_rounded,
        mask: CollinearMask::of(found.mask),
    }))
}
