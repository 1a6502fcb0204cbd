//! Floating coordinates, over whole ones. Plain Rust, tested and not proved.

use crate::memory::{collect, collect_all, push, reserve};
use crate::{
    Axis, Error, Fault, FillRule, FloatArrangement, FloatPointCompatible, IntContour, IntPoint, IntShape, Overlay,
    OverlayRule, PointLocation, Rounding, ShapeType, MAX_COORD, MIN_COORD,
};
use std::fmt;
use std::marker::PhantomData;

/// A point with floating coordinates.
pub type FloatPoint = [f64; 2];

/// A contour of such points: each is joined to the next, and the last to the first.
pub type FloatContour<P = FloatPoint> = Vec<P>;

/// A shape of such points: its outer boundary and its holes.
pub type FloatShape<P = FloatPoint> = Vec<FloatContour<P>>;

/// Why a call with floating coordinates was refused. Its text says what is wrong with which point.
#[derive(Clone, Copy, Debug, PartialEq)]
#[non_exhaustive]
pub enum FloatError {
    /// A coordinate of a point is no finite number, or is outside of the bounds of the adapter by more than half a whole unit.
    Point {
        /// The shape of the contour.
        shape_type: ShapeType,
        /// The index of the contour among those of its shape.
        contour: usize,
        /// The index of the point in the contour.
        point: usize,
        /// Its first such coordinate.
        axis: Axis,
        /// The value of that.
        value: f64,
    },
    /// The same of a point of a line.
    Line {
        /// The index of the line.
        line: usize,
        /// The index of the point in the line.
        point: usize,
        /// Its first such coordinate.
        axis: Axis,
        /// The value of that.
        value: f64,
    },
    /// Bounds are not finite, or the least is above the greatest.
    Bounds,
    /// A scale is not finite, or not above 0, or so great that the bounds do not fit, or that a whole unit is less than the last
    /// bit of the bounds. The greatest power of two that is not so great is `most`.
    Scale {
        /// The greatest power of two that may be chosen.
        most: f64,
    },
    /// The overlay of the whole points was refused.
    Overlay(Error),
}

impl fmt::Display for FloatError {
    fn fmt(&self, f: &mut fmt::Formatter<'_>) -> fmt::Result {
        match self {
            FloatError::Point { shape_type, contour, point, axis, value } => {
                let wrong = wrong_with(*value);
                write!(f, "contour {contour} of the {shape_type}, point {point}: {axis} is {value}, which {wrong}")
            }
            FloatError::Line { line, point, axis, value } => {
                write!(f, "line {line}, point {point}: {axis} is {value}, which {}", wrong_with(*value))
            }
            FloatError::Bounds => f.write_str("the bounds are not finite, or the least is above the greatest"),
            FloatError::Scale { most } => {
                write!(f, "the scale has to be above 0 and at most {most}, where the bounds and their digits fit")
            }
            FloatError::Overlay(error) => error.fmt(f),
        }
    }
}

/// What is wrong with the coordinate of a refused point.
fn wrong_with(value: f64) -> &'static str {
    if value.is_finite() {
        "is outside of the bounds"
    } else {
        "is no finite number"
    }
}

impl std::error::Error for FloatError {}

impl From<Fault> for FloatError {
    fn from(fault: Fault) -> FloatError {
        FloatError::Overlay(fault.into())
    }
}

impl From<Error> for FloatError {
    fn from(error: Error) -> FloatError {
        FloatError::Overlay(error)
    }
}

/// Turns points with floating coordinates into whole points, and back: by a center, and by a scale, which is how many whole
/// units there are in one unit.
///
/// Each coordinate is rounded to the nearest whole one, so a point moves by at most half a whole unit in `x` and in `y`, and
/// crossings by half a unit more. A chosen scale is the greatest power of two at which the bounds fit and a whole unit is no
/// less than the last bit of the bounds: a box of 1,000 units has 2^21 whole units for each. So even a coarse grid has room
/// below its unit, and small overlaps stay.
///
/// Written with fewer digits, points of a result may fall together: give the scale of the digits that you write, as 1e7 for
/// seven of them.
///
/// ```
/// use fadrinzo::FloatPointAdapter;
///
/// let adapter = FloatPointAdapter::new([-1.0, 0.0], [3.0, 2.0])?;
/// assert_eq!(adapter.scale(), f64::powi(2.0, 28));
/// let whole = adapter.to_int([0.5, 0.25]).unwrap();
/// assert_eq!(adapter.to_float(whole), [0.5, 0.25]);
/// assert_eq!(adapter.to_int([f64::NAN, 0.0]), None);
/// assert_eq!(adapter.to_int([3.5, 0.0]), None);
/// # Ok::<(), fadrinzo::FloatError>(())
/// ```
#[derive(Clone, Copy, Debug, PartialEq)]
pub struct FloatPointAdapter {
    center: FloatPoint,
    scale: f64,
    /// The whole points of the least and of the greatest point of the bounds.
    whole: [IntPoint; 2],
    /// The last bit of the greatest coordinate of the bounds.
    last_bit: f64,
}

impl FloatPointAdapter {
    /// The adapter of bounds, with the greatest power of two as its scale at which they fit and no whole unit is less than their
    /// last bit.
    pub fn new(least: FloatPoint, greatest: FloatPoint) -> Result<FloatPointAdapter, FloatError> {
        check_bounds(least, greatest)?;
        Ok(FloatPointAdapter::of_bounds(least, greatest))
    }

    /// The adapter of bounds with a given scale, as 1000.0 for millimeters where a unit is a meter.
    ///
    /// ```
    /// use fadrinzo::{FloatError, FloatPointAdapter};
    ///
    /// let millimeters = FloatPointAdapter::with_scale([0.0, 0.0], [2e6, 2e6], 1000.0)?;
    /// assert_eq!(millimeters.to_float(millimeters.to_int([12.3456, 0.0]).unwrap()), [12.346, 0.0]);
    /// let refused = FloatPointAdapter::with_scale([0.0, 0.0], [3e6, 3e6], 1000.0);
    /// assert_eq!(refused, Err(FloatError::Scale { most: 512.0 }));
    /// # Ok::<(), FloatError>(())
    /// ```
    pub fn with_scale(least: FloatPoint, greatest: FloatPoint, scale: f64) -> Result<FloatPointAdapter, FloatError> {
        check_bounds(least, greatest)?;
        let center = center(least, greatest, 1.0);
        let last_bit = last_bit(least, greatest);
        let is_fine = scale.is_finite() && scale > 0.0 && scale * last_bit <= 1.0;
        match whole_bounds(center, scale, least, greatest) {
            Some(whole) if is_fine => Ok(FloatPointAdapter { center, scale, whole, last_bit }),
            _ => Err(FloatError::Scale { most: greatest_scale(center, least, greatest).0 }),
        }
    }

    /// The adapter of bounds with so many decimal digits, from 0 to 22: a scale of a power of ten. What is written with these
    /// digits is then what was computed.
    ///
    /// ```
    /// use fadrinzo::FloatPointAdapter;
    ///
    /// let degrees = FloatPointAdapter::with_digits([11.0, 48.0], [12.0, 49.0], 7)?;
    /// assert_eq!(degrees.scale(), 1e7);
    /// assert_eq!(degrees.to_float(degrees.to_int([11.5712345, 48.1]).unwrap()), [11.5712345, 48.1]);
    /// # Ok::<(), fadrinzo::FloatError>(())
    /// ```
    pub fn with_digits(least: FloatPoint, greatest: FloatPoint, digits: u8) -> Result<FloatPointAdapter, FloatError> {
        // up to 22 digits a power of ten is a number of this type; a greater scale is refused
        let scale = if digits <= 22 { f64::powi(10.0, digits.into()) } else { f64::INFINITY };
        FloatPointAdapter::with_scale(least, greatest, scale)
    }

    /// The adapter of the bounds of points. Points that are not finite are passed over; an overlay names them.
    pub fn with_iter<P: FloatPointCompatible>(points: impl IntoIterator<Item = P>) -> FloatPointAdapter {
        let (mut least, mut greatest) = ([f64::MAX; 2], [f64::MIN; 2]);
        let points = points.into_iter().map(|point| [point.x(), point.y()]);
        for point in points.filter(|point| point.iter().all(|value| value.is_finite())) {
            for axis in 0..2 {
                least[axis] = least[axis].min(point[axis]);
                greatest[axis] = greatest[axis].max(point[axis]);
            }
        }
        if least[0] > greatest[0] {
            (least, greatest) = ([0.0; 2], [0.0; 2]);
        }
        FloatPointAdapter::of_bounds(least, greatest)
    }

    /// The adapter of finite bounds in order.
    fn of_bounds(least: FloatPoint, greatest: FloatPoint) -> FloatPointAdapter {
        // the center is a multiple of a power of two that is no more than the half width, so it is a whole number of units
        let half = (0..2).map(|axis| greatest[axis] / 2.0 - least[axis] / 2.0).fold(0.0, f64::max);
        let grain = power_below(half.max(last_bit(least, greatest))).min(1.0);
        let center = center(least, greatest, grain);
        let (scale, whole) = greatest_scale(center, least, greatest);
        FloatPointAdapter { center, scale, whole, last_bit: last_bit(least, greatest) }
    }

    /// How many whole units there are in one unit.
    pub fn scale(&self) -> f64 {
        self.scale
    }

    /// The nearest whole point. `None` where a coordinate is not finite, or outside of the bounds by more than half a whole unit.
    pub fn to_int<P: FloatPointCompatible>(&self, point: P) -> Option<IntPoint> {
        let [low, high] = self.whole;
        let whole = whole_point(self.center, self.scale, [point.x(), point.y()])?;
        let is_within = low.x <= whole.x && whole.x <= high.x && low.y <= whole.y && whole.y <= high.y;
        is_within.then_some(whole)
    }

    /// The point of a whole point.
    pub fn to_float(&self, point: IntPoint) -> FloatPoint {
        [(point.x, 0), (point.y, 1)].map(|(value, axis)| {
            // in one division, so that a decimal scale returns the nearest number to a decimal
            let units = f64::from(value) + self.center[axis] * self.scale;
            (units / self.scale).clamp(f64::MIN, f64::MAX)
        })
    }

    /// The points of a whole contour, as [`FloatPointAdapter::to_float`] returns each. Returns `Fault::Memory` where there is none.
    ///
    /// ```
    /// use fadrinzo::FloatPointAdapter;
    ///
    /// let adapter = FloatPointAdapter::with_scale([0.0; 2], [8.0; 2], 10.0)?;
    /// let corner = adapter.to_int([0.0, 0.0]).unwrap();
    /// assert_eq!(adapter.contour_to_float(&[corner, adapter.to_int([8.0, 0.26]).unwrap()])?, [[0.0, 0.0], [8.0, 0.3]]);
    /// # Ok::<(), fadrinzo::FloatError>(())
    /// ```
    pub fn contour_to_float(&self, contour: &[IntPoint]) -> Result<FloatContour, Fault> {
        collect(contour.iter().map(|&point| self.to_float(point)))
    }

    /// The nearest whole points of a contour. Returns `FloatError::Point`, as of contour 0 of the subject, where one is not
    /// finite, or outside of the bounds by more than half a whole unit, and `Fault::Memory` where there is none.
    ///
    /// ```
    /// use fadrinzo::{FloatPointAdapter, IntPoint};
    ///
    /// let adapter = FloatPointAdapter::with_scale([0.0; 2], [8.0; 2], 10.0)?;
    /// let corners = adapter.contour_to_int(&[[0.0, 0.0], [8.0, 0.26]])?;
    /// assert_eq!(adapter.contour_to_float(&corners)?, [[0.0, 0.0], [8.0, 0.3]]);
    /// assert!(adapter.contour_to_int(&[(0.0, 9.0)]).is_err());
    /// # Ok::<(), fadrinzo::FloatError>(())
    /// ```
    pub fn contour_to_int<P: FloatPointCompatible>(&self, contour: &[P]) -> Result<IntContour, FloatError> {
        let mut whole = Vec::new();
        push_whole(self, contour, &mut whole, |point, at| bad_point(self, ShapeType::Subject, 0, point, at))?;
        Ok(whole)
    }

    /// The point of a whole point, of another type.
    fn point_of<P: FloatPointCompatible>(&self, point: IntPoint) -> P {
        let [x, y] = self.to_float(point);
        P::from_xy(x, y)
    }

    /// The points of a whole contour, of another type.
    pub(crate) fn points_of<P: FloatPointCompatible>(&self, points: &[IntPoint]) -> Result<Vec<P>, Fault> {
        collect(points.iter().map(|&point| self.point_of(point)))
    }

    /// The points of whole contours, where there is memory for them.
    pub(crate) fn contours_of<P: FloatPointCompatible>(
        &self,
        contours: &[IntContour],
    ) -> Result<Vec<FloatContour<P>>, Fault> {
        collect_all(contours.iter().map(|contour| self.points_of(contour)))
    }

    /// The points of whole shapes, where there is memory for them.
    pub(crate) fn shapes_of<P: FloatPointCompatible>(&self, shapes: &[IntShape]) -> Result<Vec<FloatShape<P>>, Fault> {
        collect_all(shapes.iter().map(|shape| self.contours_of(shape)))
    }

    /// How far points moved at most that were rounded, and then overlaid with so many halves of a whole unit as reach.
    pub(crate) fn reach_of(&self, halves: u128) -> f64 {
        (0.5 + 0.5 * halves as f64) / self.scale + self.last_bit
    }
}

/// The error of bounds that are not finite, or not in order.
fn check_bounds(least: FloatPoint, greatest: FloatPoint) -> Result<(), FloatError> {
    let are_bounds =
        |axis: usize| least[axis].is_finite() && greatest[axis].is_finite() && least[axis] <= greatest[axis];
    (are_bounds(0) && are_bounds(1)).then_some(()).ok_or(FloatError::Bounds)
}

/// The middle of bounds, to a multiple of a power of two.
fn center(least: FloatPoint, greatest: FloatPoint, grain: f64) -> FloatPoint {
    [0, 1].map(|axis| {
        let middle = least[axis] / 2.0 + greatest[axis] / 2.0;
        let grains = (middle / grain).round();
        if grains.is_finite() {
            grains * grain
        } else {
            middle
        }
    })
}

/// The greatest power of two that is no more than a number above 0, or the least normal one.
fn power_below(number: f64) -> f64 {
    const EXPONENT: u64 = 0x7ff0_0000_0000_0000;
    f64::from_bits(number.to_bits() & EXPONENT).max(f64::MIN_POSITIVE)
}

/// The last bit of the greatest coordinate of bounds, or that of the least number whose last bit is normal.
fn last_bit(least: FloatPoint, greatest: FloatPoint) -> f64 {
    let farthest = least.iter().chain(&greatest).fold(0.0, |most: f64, value| most.max(value.abs()));
    (power_below(farthest) * f64::EPSILON).max(f64::MIN_POSITIVE)
}

/// The nearest whole point by a center and a scale. `None` where it is out of range.
fn whole_point(center: FloatPoint, scale: f64, point: FloatPoint) -> Option<IntPoint> {
    let whole = |axis: usize| {
        let scaled = ((point[axis] - center[axis]) * scale).round();
        (f64::from(MIN_COORD) <= scaled && scaled <= f64::from(MAX_COORD)).then_some(scaled as i32)
    };
    Some(IntPoint::new(whole(0)?, whole(1)?))
}

/// The whole points of bounds, where both are in range.
fn whole_bounds(center: FloatPoint, scale: f64, least: FloatPoint, greatest: FloatPoint) -> Option<[IntPoint; 2]> {
    Some([whole_point(center, scale, least)?, whole_point(center, scale, greatest)?])
}

/// The greatest power of two at which bounds fit and a whole unit is no less than their last bit, and the whole bounds.
fn greatest_scale(center: FloatPoint, least: FloatPoint, greatest: FloatPoint) -> (f64, [IntPoint; 2]) {
    let mut scale = (1.0 / last_bit(least, greatest)).min(f64::powi(2.0, 1000));
    loop {
        if let Some(whole) = whole_bounds(center, scale, least, greatest) {
            return (scale, whole);
        }
        scale /= 2.0;
    }
}

/// An overlay of contours with floating coordinates: they are turned into whole points by one adapter, and the results back.
/// Points are of any type that is [`FloatPointCompatible`].
///
/// ```
/// use fadrinzo::{FillRule, FloatOverlay, OverlayRule};
///
/// let square = |low: f64, high: f64| [[low, low], [high, low], [high, high], [low, high]];
/// let mut overlay = FloatOverlay::with_contours(&[square(0.0, 0.5)], &[square(0.25, 0.75)])?;
/// let shapes = overlay.overlay_shapes(OverlayRule::Intersect, FillRule::NonZero)?;
/// assert_eq!(shapes, [[[[0.25, 0.5], [0.25, 0.25], [0.5, 0.25], [0.5, 0.5]]]]);
/// # Ok::<(), fadrinzo::FloatError>(())
/// ```
#[derive(Debug)]
pub struct FloatOverlay<P = FloatPoint> {
    pub(crate) overlay: Overlay,
    pub(crate) adapter: FloatPointAdapter,
    contour: IntContour,
    contour_counts: [usize; 2],
    points: PhantomData<fn() -> P>,
}

impl<P: FloatPointCompatible> FloatOverlay<P> {
    /// An overlay of no contours by an adapter.
    pub fn with_adapter(adapter: FloatPointAdapter) -> Result<FloatOverlay<P>, FloatError> {
        let overlay = Overlay::new()?;
        Ok(FloatOverlay { overlay, adapter, contour: Vec::new(), contour_counts: [0; 2], points: PhantomData })
    }

    /// An overlay of contours, by the adapter of their bounds. Under [`FillRule::NonZero`] two contours that overlap and run in
    /// opposite directions cancel. Under [`FillRule::EvenOdd`] the direction of a contour changes the region by no more than
    /// half a whole unit, but it may change points.
    ///
    /// ```
    /// use fadrinzo::FloatOverlay;
    ///
    /// let refused = FloatOverlay::with_contours(&[[[0.0, 0.0], [1.0, 0.0], [0.5, f64::NAN]]], &[]).unwrap_err();
    /// assert_eq!(refused.to_string(), "contour 0 of the subject, point 2: y is NaN, which is no finite number");
    /// ```
    pub fn with_contours<C: AsRef<[P]>>(subject: &[C], clip: &[C]) -> Result<FloatOverlay<P>, FloatError> {
        let points = subject.iter().chain(clip).flat_map(|contour| contour.as_ref().iter().copied());
        let mut overlay = FloatOverlay::with_adapter(FloatPointAdapter::with_iter(points))?;
        for (contours, shape_type) in [(subject, ShapeType::Subject), (clip, ShapeType::Clip)] {
            for contour in contours {
                overlay.add_contour(contour.as_ref(), shape_type)?;
            }
        }
        Ok(overlay)
    }

    /// Adds a contour behind the others of its shape. Where a point is not finite or outside of the bounds nothing is added.
    pub fn add_contour(&mut self, contour: &[P], shape_type: ShapeType) -> Result<(), FloatError> {
        let count = &mut self.contour_counts[shape_type as usize];
        self.contour.clear();
        let bad = |point, at| bad_point(&self.adapter, shape_type, *count, point, at);
        push_whole(&self.adapter, contour, &mut self.contour, bad)?;
        self.overlay.add_contour(&self.contour, shape_type)?;
        *count += 1;
        Ok(())
    }

    /// Adds a polygon, whichever way its rings run: they are turned as [`Overlay::add_polygon`] turns them. Where a point is
    /// not finite or outside of the bounds nothing is added.
    ///
    /// ```
    /// use fadrinzo::{area_of_shape, FillRule, FloatOverlay, FloatPointAdapter, OverlayRule, ShapeType};
    ///
    /// let square = |low: f64, high: f64| [[low, low], [high, low], [high, high], [low, high]];
    /// let mut overlay = FloatOverlay::with_adapter(FloatPointAdapter::new([0.0; 2], [1.0; 2])?)?;
    /// overlay.add_polygon(&square(0.0, 1.0), &[square(0.25, 0.75)], ShapeType::Subject)?;
    /// let shapes = overlay.overlay_shapes(OverlayRule::Subject, FillRule::NonZero)?;
    /// assert_eq!((shapes.len(), area_of_shape(&shapes[0])), (1, 0.75));
    /// # Ok::<(), fadrinzo::FloatError>(())
    /// ```
    pub fn add_polygon<C: AsRef<[P]>>(
        &mut self,
        outer: &C,
        holes: &[C],
        shape_type: ShapeType,
    ) -> Result<(), FloatError> {
        let first = self.contour_counts[shape_type as usize];
        let mut rings = Vec::new();
        reserve(&mut rings, 1 + holes.len())?;
        for (contour, ring) in (first..).zip(std::iter::once(outer).chain(holes)) {
            let mut whole = Vec::new();
            let bad = |point, at| bad_point(&self.adapter, shape_type, contour, point, at);
            push_whole(&self.adapter, ring.as_ref(), &mut whole, bad)?;
            push(&mut rings, whole)?;
        }
        self.overlay.add_polygon(&rings[0], &rings[1..], shape_type)?;
        self.contour_counts[shape_type as usize] += rings.len();
        Ok(())
    }

    /// Adds a shape, as `overlay_shapes` returns one: its first contour is the outer boundary, and the others are its holes, which
    /// may run either way. A shape of no contours adds nothing.
    ///
    /// ```
    /// use fadrinzo::{FillRule, FloatOverlay, FloatPointAdapter, OverlayRule, ShapeType};
    ///
    /// let square = |low: f64, high: f64| vec![[low, low], [high, low], [high, high], [low, high]];
    /// let mut overlay = FloatOverlay::with_adapter(FloatPointAdapter::new([0.0; 2], [1.0; 2])?)?;
    /// overlay.add_shape(&[square(0.0, 1.0), square(0.25, 0.75)], ShapeType::Subject)?;
    /// assert_eq!(overlay.overlay_shapes(OverlayRule::Subject, FillRule::NonZero)?[0].len(), 2);
    /// # Ok::<(), fadrinzo::FloatError>(())
    /// ```
    pub fn add_shape<C: AsRef<[P]>>(&mut self, shape: &[C], shape_type: ShapeType) -> Result<(), FloatError> {
        match shape.split_first() {
            Some((outer, holes)) => self.add_polygon(outer, holes, shape_type),
            None => Ok(()),
        }
    }

    /// The adapter.
    pub fn adapter(&self) -> &FloatPointAdapter {
        &self.adapter
    }

    /// The same overlay, with a rounding for the contours that it overlays from now on.
    pub fn with_rounding(mut self, rounding: Rounding) -> FloatOverlay<P> {
        self.overlay = self.overlay.with_rounding(rounding);
        self
    }

    /// Drops the contours that were added. The adapter stays.
    pub fn clear(&mut self) {
        self.overlay.clear();
        self.contour_counts = [0; 2];
    }

    /// The overlay as contours: outer boundaries run counterclockwise, and holes clockwise.
    pub fn overlay(
        &mut self,
        overlay_rule: OverlayRule,
        fill_rule: FillRule,
    ) -> Result<Vec<FloatContour<P>>, FloatError> {
        let contours = self.overlay.overlay(overlay_rule, fill_rule)?;
        Ok(self.adapter.contours_of(&contours)?)
    }

    /// The overlay as shapes: each an outer boundary, followed by its holes.
    pub fn overlay_shapes(
        &mut self,
        overlay_rule: OverlayRule,
        fill_rule: FillRule,
    ) -> Result<Vec<FloatShape<P>>, FloatError> {
        let shapes = self.overlay.overlay_shapes(overlay_rule, fill_rule)?;
        Ok(self.adapter.shapes_of(&shapes)?)
    }

    /// The overlays by several rules, each as `overlay` returns it, in the order of the rules. The contours are split once.
    ///
    /// ```
    /// use fadrinzo::{area, FillRule, FloatOverlay, OverlayRule};
    ///
    /// let square = |low: f64, high: f64| [[low, low], [high, low], [high, high], [low, high]];
    /// let mut overlay = FloatOverlay::with_contours(&[square(0.0, 0.5)], &[square(0.25, 0.75)])?;
    /// let found = overlay.overlay_by_rules(&[OverlayRule::Union, OverlayRule::Intersect], FillRule::NonZero)?;
    /// assert_eq!(found.iter().map(|contours| area(&contours[0])).collect::<Vec<_>>(), [0.4375, 0.0625]);
    /// # Ok::<(), fadrinzo::FloatError>(())
    /// ```
    pub fn overlay_by_rules(
        &mut self,
        overlay_rules: &[OverlayRule],
        fill_rule: FillRule,
    ) -> Result<Vec<Vec<FloatContour<P>>>, FloatError> {
        let overlays = self.overlay.overlay_by_rules(overlay_rules, fill_rule)?;
        Ok(self.adapter.shapes_of(&overlays)?)
    }

    /// The overlay as shapes without the points at which a contour goes straight on.
    ///
    /// ```
    /// use fadrinzo::{FillRule, FloatOverlay, OverlayRule};
    ///
    /// let square = |left: f64| [[left, 0.0], [left + 0.5, 0.0], [left + 0.5, 0.5], [left, 0.5]];
    /// let mut overlay = FloatOverlay::with_contours(&[square(0.0)], &[square(0.5)])?;
    /// assert_eq!(overlay.overlay_shapes(OverlayRule::Union, FillRule::NonZero)?[0][0].len(), 6);
    /// assert_eq!(overlay.shapes_without_collinear(OverlayRule::Union, FillRule::NonZero)?[0][0].len(), 4);
    /// # Ok::<(), fadrinzo::FloatError>(())
    /// ```
    pub fn shapes_without_collinear(
        &mut self,
        overlay_rule: OverlayRule,
        fill_rule: FillRule,
    ) -> Result<Vec<FloatShape<P>>, FloatError> {
        self.arrange(fill_rule)?.shapes_without_collinear(overlay_rule)
    }

    /// The arrangement of the contours that were added, under a fill rule: overlays by any rules come from it without another
    /// split, as from [`Overlay::arrange`].
    ///
    /// ```
    /// use fadrinzo::{FillRule, FloatOverlay, OverlayRule};
    ///
    /// let square = |low: f64, high: f64| [[low, low], [high, low], [high, high], [low, high]];
    /// let mut overlay = FloatOverlay::with_contours(&[square(0.0, 0.5)], &[square(0.25, 0.75)])?;
    /// let mut arrangement = overlay.arrange(FillRule::NonZero)?;
    /// assert_eq!(arrangement.contours(OverlayRule::Union)?[0].len(), 8);
    /// assert_eq!(arrangement.shapes(OverlayRule::Xor)?.len(), 2);
    /// # Ok::<(), fadrinzo::FloatError>(())
    /// ```
    pub fn arrange(&mut self, fill_rule: FillRule) -> Result<FloatArrangement<'_, P>, FloatError> {
        let arrangement = self.overlay.arrange(fill_rule)?;
        Ok(FloatArrangement { arrangement, adapter: &self.adapter, points: PhantomData })
    }

    /// Where a point lies with respect to the contours of a shape that were added, as [`Overlay::locate_point`] returns it: the
    /// point and the contours are those that the adapter rounded. A point outside of the bounds lies outside.
    ///
    /// ```
    /// use fadrinzo::{FillRule, FloatOverlay, PointLocation, ShapeType};
    ///
    /// let mut overlay = FloatOverlay::with_contours(&[[[0.0, 0.0], [0.5, 0.0], [0.5, 0.5], [0.0, 0.5]]], &[])?;
    /// let mut locate = |x, y| overlay.locate_point(ShapeType::Subject, FillRule::NonZero, [x, y]);
    /// assert_eq!(locate(0.25, 0.25), PointLocation::Inside);
    /// assert_eq!(locate(0.5, 0.25), PointLocation::OnBoundary);
    /// assert_eq!(locate(f64::INFINITY, 0.25), PointLocation::Outside);
    /// # Ok::<(), fadrinzo::FloatError>(())
    /// ```
    pub fn locate_point(&mut self, shape_type: ShapeType, fill_rule: FillRule, point: P) -> PointLocation {
        match self.adapter.to_int(point) {
            Some(point) => self.overlay.locate_point(shape_type, fill_rule, point),
            None => PointLocation::Outside,
        }
    }

    /// How many passes the last overlay made that was not refused; 0 at first.
    pub fn passes(&self) -> u128 {
        self.overlay.passes()
    }

    /// How far the last overlay moved edges at most, in `x` and in `y`: what the rounding of given points moved them, what the
    /// rounding of crossings did, and the last bit of the bounds.
    pub fn reach(&self) -> f64 {
        self.adapter.reach_of(self.overlay.reach())
    }
}

/// Pushes the whole points of a contour or of a line. The error of a point that the adapter does not take is the caller's.
pub(crate) fn push_whole<P: FloatPointCompatible>(
    adapter: &FloatPointAdapter,
    points: &[P],
    whole: &mut IntContour,
    bad: impl Fn(usize, FloatPoint) -> FloatError,
) -> Result<(), FloatError> {
    reserve(whole, points.len())?;
    for (index, point) in points.iter().enumerate() {
        whole.push(adapter.to_int(*point).ok_or_else(|| bad(index, [point.x(), point.y()]))?);
    }
    Ok(())
}

/// The first coordinate of a point that an adapter does not take, and its value.
pub(crate) fn bad_coordinate(adapter: &FloatPointAdapter, at: FloatPoint) -> (Axis, f64) {
    // the second coordinate is taken from within the bounds
    let within = adapter.to_float(adapter.whole[0]);
    let axis = if adapter.to_int([at[0], within[1]]).is_none() { Axis::X } else { Axis::Y };
    (axis, at[axis as usize])
}

/// The error of a point that an adapter does not take.
fn bad_point(
    adapter: &FloatPointAdapter,
    shape_type: ShapeType,
    contour: usize,
    point: usize,
    at: FloatPoint,
) -> FloatError {
    let (axis, value) = bad_coordinate(adapter, at);
    FloatError::Point { shape_type, contour, point, axis, value }
}

/// The area of a contour with floating coordinates: negative where it runs clockwise. It is computed from the first point, so it
/// loses no digits far from the origin.
///
/// ```
/// use fadrinzo::area;
///
/// let square = [[1e6, 1e6], [1e6 + 2.0, 1e6], [1e6 + 2.0, 1e6 + 2.0], [1e6, 1e6 + 2.0]];
/// assert_eq!(area(&square), 4.0);
/// assert_eq!(area::<[f64; 2]>(&[]), 0.0);
/// ```
pub fn area<P: FloatPointCompatible>(contour: &[P]) -> f64 {
    let Some(first) = contour.first() else { return 0.0 };
    let from_first = |point: &P| (point.x() - first.x(), point.y() - first.y());
    let side = |pair: &[P]| {
        let ((px, py), (qx, qy)) = (from_first(&pair[0]), from_first(&pair[1]));
        px * qy - py * qx
    };
    contour.windows(2).map(side).sum::<f64>() / 2.0
}

/// The area of a shape with floating coordinates: that of its outer boundary less those of its holes.
///
/// ```
/// use fadrinzo::area_of_shape;
///
/// let outer = [[0.0, 0.0], [4.0, 0.0], [4.0, 4.0], [0.0, 4.0]];
/// let hole = [[1.0, 1.0], [1.0, 2.0], [2.0, 2.0], [2.0, 1.0]];
/// assert_eq!(area_of_shape(&[outer, hole]), 15.0);
/// ```
pub fn area_of_shape<P: FloatPointCompatible, C: AsRef<[P]>>(shape: &[C]) -> f64 {
    shape.iter().map(|contour| area(contour.as_ref())).sum()
}
