//! Tiles: rectangles of the plane, and what they have of contours.

use crate::{Axis, Error, IntContour, IntPoint, Overlay, ShapeType, MAX_COORD, MIN_COORD};

/// A rectangle with whole corners that is wider and higher than 0. Its left and its upper border belong to it, and the other two do
/// not. So each point belongs to at most one tile of a grid.
///
/// ```
/// use fadrinzo::{IntPoint, Tile};
///
/// let tile = Tile::new(IntPoint::new(0, 0), IntPoint::new(4, 2)).expect("it is wider and higher than 0");
/// assert_eq!(tile.high(), IntPoint::new(4, 2));
/// assert_eq!(Tile::new(IntPoint::new(0, 0), IntPoint::new(4, 0)), None);
/// ```
#[repr(C)]
#[derive(Clone, Copy, Debug, PartialEq, Eq, Hash)]
pub struct Tile {
    min_x: i32,
    min_y: i32,
    max_x: i32,
    max_y: i32,
}

impl Tile {
    /// The tile from its lower left to its upper right corner. `None` where a corner is out of range, or where the second does not
    /// lie to the right of the first and above it.
    pub const fn new(low: IntPoint, high: IntPoint) -> Option<Tile> {
        let is_tile = low.x < high.x && low.y < high.y;
        if is_tile && MIN_COORD <= low.x && MIN_COORD <= low.y && high.x <= MAX_COORD && high.y <= MAX_COORD {
            Some(Tile { min_x: low.x, min_y: low.y, max_x: high.x, max_y: high.y })
        } else {
            None
        }
    }

    /// Its lower left corner.
    pub const fn low(&self) -> IntPoint {
        IntPoint::new(self.min_x, self.min_y)
    }

    /// Its upper right corner.
    pub const fn high(&self) -> IntPoint {
        IntPoint::new(self.max_x, self.max_y)
    }

    /// Its two borders across an axis, as coordinates of that axis.
    pub(crate) fn borders(&self, axis: Axis) -> (i32, i32) {
        match axis {
            Axis::X => (self.min_x, self.max_x),
            Axis::Y => (self.min_y, self.max_y),
        }
    }

    /// Its two parts below and above a coordinate, which has to lie strictly between its borders.
    pub(crate) fn cut_at(&self, axis: Axis, line: i32) -> [Tile; 2] {
        match axis {
            Axis::X => [Tile { max_x: line, ..*self }, Tile { min_x: line, ..*self }],
            Axis::Y => [Tile { max_y: line, ..*self }, Tile { min_y: line, ..*self }],
        }
    }

    /// Whether a box lies in the tile and comes to none of its borders.
    pub(crate) fn has_inside(&self, [low, high]: &[IntPoint; 2]) -> bool {
        self.min_x < low.x && high.x < self.max_x && self.min_y < low.y && high.y < self.max_y
    }

    /// Whether a box lies on one side of the tile, the line of that border included.
    pub(crate) fn is_beside(&self, [low, high]: &[IntPoint; 2]) -> bool {
        high.x <= self.min_x || self.max_x <= low.x || high.y <= self.min_y || self.max_y <= low.y
    }
}

/// What a tile has of contours: each one, cut and clamped to the tile, without those that lie beside it.
///
/// They wind as the given ones around each point of the tile that is farther than half a unit from every given edge that runs
/// along no axis. Edges may run along the borders, some of them back and forth. So they are what another process, or another machine,
/// needs for the overlay of the tile.
///
/// ```
/// use fadrinzo::{clip_to_tile, square, IntPoint, Tile};
///
/// let tile = Tile::new(IntPoint::new(0, 0), IntPoint::new(3, 10)).expect("it is wider and higher than 0");
/// let found = clip_to_tile(&[square(1, 5), square(4, 8)], &tile)?;
/// assert_eq!(found, [[(1, 1), (3, 1), (3, 5), (1, 5)].map(IntPoint::from)]);
/// # Ok::<(), fadrinzo::Error>(())
/// ```
pub fn clip_to_tile<C: AsRef<[IntPoint]>>(contours: &[C], tile: &Tile) -> Result<Vec<IntContour>, Error> {
    let mut overlay = Overlay::new()?;
    for contour in contours {
        overlay.add_contour_in_tile(contour.as_ref(), ShapeType::Subject, tile)?;
    }
    overlay.given_contours(ShapeType::Subject)
}
