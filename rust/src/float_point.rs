//! Points of other types, as pairs of floating coordinates.

/// A type of points that overlays with floating coordinates take and return.
///
/// It is implemented for arrays and pairs of `f64` and of `f32`. For a type of another crate, as `geo_types::Coord`, wrap the
/// point in a type of your own, and write these three functions. Coordinates are computed in `f64`; a point of `f32` returns
/// each rounded to the nearest `f32`.
///
/// ```
/// use fadrinzo::{FillRule, FloatOverlay, FloatPointCompatible, OverlayRule};
///
/// #[derive(Clone, Copy, Debug, PartialEq)]
/// struct Coord { x: f64, y: f64 }
///
/// impl FloatPointCompatible for Coord {
///     fn from_xy(x: f64, y: f64) -> Coord { Coord { x, y } }
///     fn x(&self) -> f64 { self.x }
///     fn y(&self) -> f64 { self.y }
/// }
///
/// let corner = |x, y| Coord { x, y };
/// let triangle = [corner(0.0, 0.0), corner(0.5, 0.0), corner(0.0, 0.5)];
/// let mut overlay = FloatOverlay::with_contours(&[triangle], &[])?;
/// let contours = overlay.overlay(OverlayRule::Subject, FillRule::NonZero)?;
/// assert!(contours[0].contains(&corner(0.5, 0.0)));
/// # Ok::<(), fadrinzo::FloatError>(())
/// ```
pub trait FloatPointCompatible: Copy {
    /// The point of two coordinates.
    fn from_xy(x: f64, y: f64) -> Self;

    /// The first coordinate.
    fn x(&self) -> f64;

    /// The second coordinate.
    fn y(&self) -> f64;
}

impl FloatPointCompatible for [f64; 2] {
    fn from_xy(x: f64, y: f64) -> [f64; 2] {
        [x, y]
    }

    fn x(&self) -> f64 {
        self[0]
    }

    fn y(&self) -> f64 {
        self[1]
    }
}

impl FloatPointCompatible for (f64, f64) {
    fn from_xy(x: f64, y: f64) -> (f64, f64) {
        (x, y)
    }

    fn x(&self) -> f64 {
        self.0
    }

    fn y(&self) -> f64 {
        self.1
    }
}

impl FloatPointCompatible for [f32; 2] {
    fn from_xy(x: f64, y: f64) -> [f32; 2] {
        [x as f32, y as f32]
    }

    fn x(&self) -> f64 {
        self[0].into()
    }

    fn y(&self) -> f64 {
        self[1].into()
    }
}

impl FloatPointCompatible for (f32, f32) {
    fn from_xy(x: f64, y: f64) -> (f32, f32) {
        (x as f32, y as f32)
    }

    fn x(&self) -> f64 {
        self.0.into()
    }

    fn y(&self) -> f64 {
        self.1.into()
    }
}
