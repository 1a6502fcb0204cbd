//! Points and contours.

use std::ops::RangeInclusive;

/// A point. Points are ordered by `x`, then by `y`.
///
/// It is made of a pair or an array, and into one.
///
/// ```
/// use fadrinzo::IntPoint;
///
/// let corners = [[0, 0], [4, 0], [4, 4]].map(IntPoint::from);
/// assert_eq!(corners[1], IntPoint::from((4, 0)));
/// assert_eq!(corners.map(<[i32; 2]>::from), [[0, 0], [4, 0], [4, 4]]);
/// let (x, y) = corners[2].into();
/// assert_eq!((x, y), (4, 4));
/// ```
#[repr(C)]
#[derive(Clone, Copy, Debug, Default, PartialEq, Eq, PartialOrd, Ord, Hash)]
pub struct IntPoint {
    /// From [`MIN_COORD`] to [`MAX_COORD`] where a call takes it.
    pub x: i32,
    /// Likewise.
    pub y: i32,
}

impl IntPoint {
    /// The origin.
    pub const ZERO: IntPoint = IntPoint { x: 0, y: 0 };

    /// The point with these coordinates.
    ///
    /// ```
    /// use fadrinzo::IntPoint;
    ///
    /// assert!(IntPoint::new(1, 9) < IntPoint::new(2, 0));
    /// assert_eq!(IntPoint::new(0, 0), IntPoint::ZERO);
    /// ```
    pub const fn new(x: i32, y: i32) -> IntPoint {
        IntPoint { x, y }
    }
}

impl From<[i32; 2]> for IntPoint {
    fn from([x, y]: [i32; 2]) -> IntPoint {
        IntPoint { x, y }
    }
}

impl From<(i32, i32)> for IntPoint {
    fn from((x, y): (i32, i32)) -> IntPoint {
        IntPoint { x, y }
    }
}

impl From<IntPoint> for [i32; 2] {
    fn from(point: IntPoint) -> [i32; 2] {
        [point.x, point.y]
    }
}

impl From<IntPoint> for (i32, i32) {
    fn from(point: IntPoint) -> (i32, i32) {
        (point.x, point.y)
    }
}

/// The least coordinate that a call takes, -2^30. With `Engine::I16` it takes less, as [`Engine::range`] says.
pub const MIN_COORD: i32 = -1_073_741_824;

/// The greatest coordinate that a call takes, 2^30 - 1. With `Engine::I16` it takes less.
pub const MAX_COORD: i32 = 1_073_741_823;

/// The width of the coordinates that segments are split with: upstream's engines of `i32` and of `i16`.
///
/// Where crossings have whole coordinates both return the same. Else the radius within which a crossing is moved to an end
/// grows less far with 16 bits.
///
/// ```
/// use fadrinzo::Engine;
///
/// assert_eq!("i16".parse(), Ok(Engine::I16));
/// assert_eq!(Engine::default().to_string(), "i32");
/// ```
#[repr(u8)]
#[derive(Clone, Copy, Debug, Default, PartialEq, Eq, Hash)]
pub enum Engine {
    /// Coordinates from -2^30 to 2^30 - 1.
    #[default]
    I32 = 0,
    /// Coordinates from -2^14 to 2^14 - 1.
    I16 = 1,
}

impl Engine {
    /// The least and the greatest coordinate.
    ///
    /// ```
    /// use fadrinzo::{Engine, MAX_COORD};
    ///
    /// assert_eq!(Engine::I16.range(), -16_384..=16_383);
    /// assert_eq!(*Engine::I32.range().end(), MAX_COORD);
    /// ```
    pub const fn range(self) -> RangeInclusive<i32> {
        match self {
            Engine::I32 => MIN_COORD..=MAX_COORD,
            Engine::I16 => -16_384..=16_383,
        }
    }
}

/// A contour: each point is joined to the next one, and the last to the first.
pub type IntContour = Vec<IntPoint>;

/// A shape: its outer boundary, and then its holes.
pub type IntShape = Vec<IntContour>;

/// The corners of the square from `(low, low)` to `(high, high)`, counterclockwise.
///
/// ```
/// use fadrinzo::{square, IntPoint};
///
/// assert_eq!(square(0, 4)[1], IntPoint::new(4, 0));
/// ```
pub fn square(low: i32, high: i32) -> [IntPoint; 4] {
    [IntPoint::new(low, low), IntPoint::new(high, low), IntPoint::new(high, high), IntPoint::new(low, high)]
}
