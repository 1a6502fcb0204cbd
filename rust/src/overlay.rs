//! The engine: splits, graphs and contours, one after another.

use crate::error::{fault_of, fault_of_data, fault_of_line, outcome, point_error};
use crate::memory::{collect, collect_all, push};
use crate::{
    doubled_area, ffi, ClipRule, DataSegment, Engine, Error, Fault, FillRule, IntContour, IntPoint, IntShape,
    LineSegment, OverlayGraph, OverlayLink, OverlayRule, PointLocation, Rounding, Segment, ShapeType, Solver, Tile,
};
use std::borrow::Cow;
use std::fmt;

/// What a split or a join did.
#[derive(Clone, Copy, Debug, PartialEq, Eq)]
pub struct Change {
    /// Whether equal segments were joined or one was split.
    pub has_changed: bool,
    /// How many passes the engine's last split made, up to `u64::MAX`: 1 by snap rounding.
    pub passes: u64,
}

/// Overlays contours, splits segments and builds graphs, one after another, and keeps its buffers.
///
/// After an error it can be used again. It may move to another thread (`Send`), and is used by one at a time: it is not
/// `Sync`.
///
/// ```
/// use fadrinzo::{square, FillRule, Overlay, OverlayRule};
///
/// let mut overlay = Overlay::with_contours(&[square(0, 4)], &[square(2, 6)])?;
/// let worker = std::thread::spawn(move || overlay.overlay(OverlayRule::Union, FillRule::NonZero));
/// assert_eq!(worker.join().unwrap()?[0].len(), 8);
/// # Ok::<(), fadrinzo::Error>(())
/// ```
pub struct Overlay {
    pub(crate) engine: ffi::Engine,
    /// What segments are split with.
    pub(crate) width: Engine,
    /// How crossings are rounded, of contours, segments and lines.
    rounding: Rounding,
    /// How many contours of the subject and of the clip were added.
    contour_counts: [usize; 2],
    /// What the last overlay of contours that was not refused reports.
    passes: u128,
    reach: u128,
    segments: Vec<Segment>,
    lines: Vec<LineSegment>,
    links: Vec<OverlayLink>,
    /// The number of each link, where the last graph was built with numbers.
    link_data: Vec<u64>,
    /// Where the indexes of each node begin, and where the last ones end.
    starts: Vec<usize>,
    node_links: Vec<usize>,
    walk_starts: Vec<usize>,
    walk_links: Vec<usize>,
}

impl Overlay {
    /// An overlay of no contours, by snap rounding. Where it is set to `Rounding::Pairwise`, it snaps in the first 256 passes
    /// of a split.
    ///
    /// ```
    /// use fadrinzo::Overlay;
    ///
    /// assert!(Overlay::new()?.segments()?.is_empty());
    /// # Ok::<(), fadrinzo::Error>(())
    /// ```
    pub fn new() -> Result<Overlay, Error> {
        Overlay::with_snap_limit(256)
    }

    /// An overlay that, under `Rounding::Pairwise`, snaps in that many passes of a split of segments, and settles after them.
    /// Overlays of contours then snap in 256, whatever this limit is. Snap rounding makes one pass.
    ///
    /// ```
    /// use fadrinzo::{square, Overlay, ShapeType, Solver};
    ///
    /// let mut segments = Vec::new();
    /// ShapeType::Subject.push_contour(&square(0, 4), &mut segments)?;
    /// assert!(!Overlay::with_snap_limit(8)?.split(&segments, Solver::AUTO)?.has_changed);
    /// # Ok::<(), fadrinzo::Error>(())
    /// ```
    pub fn with_snap_limit(snap_limit: u32) -> Result<Overlay, Error> {
        Ok(Overlay {
            engine: ffi::Engine::new(snap_limit).ok_or(Error::Fault(Fault::Memory))?,
            width: Engine::I32,
            rounding: Rounding::HotPixels,
            contour_counts: [0; 2],
            passes: 0,
            reach: 0,
            segments: Vec::new(),
            lines: Vec::new(),
            links: Vec::new(),
            link_data: Vec::new(),
            starts: Vec::new(),
            node_links: Vec::new(),
            walk_starts: Vec::new(),
            walk_links: Vec::new(),
        })
    }

    /// The same overlay, with an engine for the segments and lines that it is given from now on. Contours are overlaid with
    /// `Engine::I32`, whatever this engine is. Each engine keeps its own arrangements: after a call, `segments` and `lines`
    /// are those that the engine of that call keeps.
    ///
    /// ```
    /// use fadrinzo::{square, Engine, FillRule, Overlay, OverlayRule, ShapeType};
    ///
    /// let mut segments = Vec::new();
    /// ShapeType::Subject.push_contour(&square(0, 16_383), &mut segments)?;
    /// let mut overlay = Overlay::new()?.with_engine(Engine::I16);
    /// assert_eq!(overlay.build_graph(&segments, OverlayRule::Subject, FillRule::NonZero)?.links().len(), 4);
    /// segments[1].b.x += 1;
    /// let refused = overlay.build_graph(&segments, OverlayRule::Subject, FillRule::NonZero).unwrap_err();
    /// assert_eq!(refused.to_string(), "segment 1: x is 16384, the greatest is 16383");
    /// # Ok::<(), fadrinzo::Error>(())
    /// ```
    pub fn with_engine(mut self, engine: Engine) -> Overlay {
        self.width = engine;
        self
    }

    /// The same overlay, with a rounding for the contours that it overlays, and the segments and lines that it splits, from
    /// now on. Under `Rounding::Pairwise` segments and lines are split as upstream splits them.
    ///
    /// ```
    /// use fadrinzo::{FillRule, IntPoint, Overlay, OverlayRule, Rounding};
    ///
    /// // two triangles whose edges cross at (2.5, 2.5)
    /// let [left, right] = [[(0, 0), (5, 5), (0, 5)], [(0, 5), (5, 0), (5, 5)]]
    ///     .map(|corners| corners.map(|(x, y)| IntPoint::new(x, y)).to_vec());
    /// let mut overlay = Overlay::with_contours(&[left], &[right])?;
    /// overlay.overlay(OverlayRule::Union, FillRule::NonZero)?;
    /// assert_eq!((overlay.passes(), overlay.reach()), (1, 1));
    /// let mut overlay = overlay.with_rounding(Rounding::Pairwise);
    /// overlay.overlay(OverlayRule::Union, FillRule::NonZero)?;
    /// assert_eq!((overlay.passes(), overlay.reach()), (2, 4));
    /// # Ok::<(), fadrinzo::Error>(())
    /// ```
    pub fn with_rounding(mut self, rounding: Rounding) -> Overlay {
        self.rounding = rounding;
        self
    }

    /// An overlay of these contours of a subject and of a clip. Any contours will do: they may cross and touch themselves
    /// and one another, and have no or few points.
    ///
    /// Their type is one and the same, so that either list may be empty: vectors, arrays of one length, or slices.
    ///
    /// The direction of a contour counts under [`FillRule::NonZero`]: a hole has to run against its outer boundary.
    /// [`Overlay::add_polygon`] turns rings so.
    ///
    /// ```
    /// use fadrinzo::{square, FillRule, Overlay, OverlayRule};
    ///
    /// let [outer, inner] = [square(0, 9), square(3, 6)];
    /// let mut overlay = Overlay::with_contours(&[outer, inner], &[])?;
    /// assert_eq!(overlay.overlay(OverlayRule::Subject, FillRule::NonZero)?.len(), 1);
    /// let mut hole = inner;
    /// hole.reverse();
    /// let mut overlay = Overlay::with_contours(&[outer, hole], &[])?;
    /// assert_eq!(overlay.overlay(OverlayRule::Subject, FillRule::NonZero)?.len(), 2);
    /// # Ok::<(), fadrinzo::Error>(())
    /// ```
    pub fn with_contours<C: AsRef<[IntPoint]>>(subject: &[C], clip: &[C]) -> Result<Overlay, Error> {
        let mut overlay = Overlay::new()?;
        for (contours, shape_type) in [(subject, ShapeType::Subject), (clip, ShapeType::Clip)] {
            for contour in contours {
                overlay.add_contour(contour, shape_type)?;
            }
        }
        Ok(overlay)
    }

    /// Copies a contour behind the others of its shape. Where it is refused nothing is added.
    ///
    /// ```
    /// use fadrinzo::{square, FillRule, Overlay, OverlayRule, ShapeType};
    ///
    /// let mut overlay = Overlay::new()?;
    /// overlay.add_contour(&square(0, 9), ShapeType::Subject)?;
    /// overlay.add_contour(&square(3, 6)[..3], ShapeType::Clip)?;
    /// let ring = overlay.overlay(OverlayRule::Difference, FillRule::NonZero)?;
    /// assert_eq!(ring.len(), 2);
    /// # Ok::<(), fadrinzo::Error>(())
    /// ```
    pub fn add_contour<C: AsRef<[IntPoint]> + ?Sized>(
        &mut self,
        contour: &C,
        shape_type: ShapeType,
    ) -> Result<(), Error> {
        let contour = contour.as_ref();
        let status = self.engine.add_contour(contour, shape_type as u8);
        self.keep_count(status, contour, shape_type)
    }

    /// Copies what a tile has of a contour behind the others of its shape: the contour, cut and clamped to the tile, or
    /// nothing where it lies beside it. Where it is refused nothing is added.
    ///
    /// So the overlays that follow return the part of the overlay that belongs to the tile: all its points lie in the tile,
    /// and it is right at each of the tile's points that is farther than a whole unit from every given edge that runs along no
    /// axis. Edges of a part may run along the borders. [`TiledOverlay`](crate::TiledOverlay) joins the parts of many tiles.
    ///
    /// ```
    /// use fadrinzo::{square, FillRule, IntPoint, Overlay, OverlayRule, ShapeType, Tile};
    ///
    /// let tile = Tile::new(IntPoint::new(0, 0), IntPoint::new(3, 10)).expect("it is wider and higher than 0");
    /// let mut overlay = Overlay::new()?;
    /// overlay.add_contour_in_tile(&square(1, 5), ShapeType::Subject, &tile)?;
    /// overlay.add_contour_in_tile(&square(4, 8), ShapeType::Subject, &tile)?;
    /// let part = overlay.overlay(OverlayRule::Subject, FillRule::NonZero)?;
    /// assert_eq!(part, [[(1, 5), (1, 1), (3, 1), (3, 5)].map(IntPoint::from)]);
    /// # Ok::<(), fadrinzo::Error>(())
    /// ```
    pub fn add_contour_in_tile<C: AsRef<[IntPoint]> + ?Sized>(
        &mut self,
        contour: &C,
        shape_type: ShapeType,
        tile: &Tile,
    ) -> Result<(), Error> {
        let contour = contour.as_ref();
        let status = self.engine.add_contour_in_tile(contour, shape_type as u8, tile);
        self.keep_count(status, contour, shape_type)
    }

    /// The contours of a shape that were added, in that order, as far as tiles have them.
    ///
    /// ```
    /// use fadrinzo::{square, Overlay, ShapeType};
    ///
    /// let mut overlay = Overlay::with_contours(&[square(0, 9)], &[square(3, 6)])?;
    /// assert_eq!(overlay.given_contours(ShapeType::Clip)?, [square(3, 6)]);
    /// # Ok::<(), fadrinzo::Error>(())
    /// ```
    pub fn given_contours(&mut self, shape_type: ShapeType) -> Result<Vec<IntContour>, Error> {
        let status = self.engine.given(shape_type as u8);
        outcome(status, &[], |segment| fault_of(segment, Engine::I32))?;
        Ok(self.engine.contours()?)
    }

    /// Adds a polygon, whichever way its rings run: its outer boundary is turned counterclockwise and each hole
    /// clockwise, by the sign of the exact area. A last point that repeats the first one is dropped.
    ///
    /// So a polygon whose holes lie apart in its outer boundary is that without them, under each fill rule but
    /// [`FillRule::Negative`]. It is added in contours, the outer boundary first. Where a point is out of range nothing
    /// is added. Where memory is refused the rings before it are added.
    ///
    /// ```
    /// use fadrinzo::{doubled_area_of_shape, square, FillRule, Overlay, OverlayRule, ShapeType};
    ///
    /// // both rings run counterclockwise, and end where they begin
    /// let closed = |low, high| [square(low, high).as_slice(), &square(low, high)[..1]].concat();
    /// let mut overlay = Overlay::new()?;
    /// overlay.add_polygon(&closed(0, 9), &[closed(3, 6)], ShapeType::Subject)?;
    /// overlay.add_polygon(&square(10, 12), &[], ShapeType::Subject)?;
    /// let shapes = overlay.overlay_shapes(OverlayRule::Subject, FillRule::NonZero)?;
    /// let areas: Vec<i128> = shapes.iter().map(|shape| doubled_area_of_shape(shape) / 2).collect();
    /// assert_eq!(areas, [81 - 9, 4]);
    /// # Ok::<(), fadrinzo::Error>(())
    /// ```
    pub fn add_polygon<C: AsRef<[IntPoint]>>(
        &mut self,
        outer: &C,
        holes: &[C],
        shape_type: ShapeType,
    ) -> Result<(), Error> {
        let rings = || std::iter::once(outer).chain(holes).map(AsRef::as_ref);
        let first = self.contour_counts[shape_type as usize];
        for (contour, ring) in (first..).zip(rings()) {
            if let Some(error) = point_error(ring, shape_type, contour) {
                return Err(error);
            }
        }
        for (index, ring) in rings().enumerate() {
            self.add_contour(&directed_ring(ring, index == 0)?, shape_type)?;
        }
        Ok(())
    }

    /// Adds a shape, as `overlay_shapes` returns one or an array of rings: its first contour is the outer boundary, and the
    /// others are its holes, which may run either way, as for [`Overlay::add_polygon`]. A shape of no contours adds nothing.
    ///
    /// ```
    /// use fadrinzo::{square, FillRule, Overlay, OverlayRule, ShapeType};
    ///
    /// let mut ring = Overlay::with_contours(&[square(0, 9)], &[square(3, 6)])?;
    /// let mut overlay = Overlay::new()?;
    /// for shape in ring.overlay_shapes(OverlayRule::Difference, FillRule::NonZero)? {
    ///     overlay.add_shape(&shape, ShapeType::Subject)?;
    /// }
    /// overlay.add_shape(&[square(3, 6)], ShapeType::Clip)?;
    /// let whole = overlay.overlay_shapes(OverlayRule::Union, FillRule::NonZero)?;
    /// assert_eq!((whole.len(), whole[0].len(), whole[0][0].len()), (1, 1, 4));
    /// # Ok::<(), fadrinzo::Error>(())
    /// ```
    pub fn add_shape<C: AsRef<[IntPoint]>>(&mut self, shape: &[C], shape_type: ShapeType) -> Result<(), Error> {
        match shape.split_first() {
            Some((outer, holes)) => self.add_polygon(outer, holes, shape_type),
            None => Ok(()),
        }
    }

    /// An overlay of these shapes of a subject and of a clip, each added as `add_shape` adds it.
    ///
    /// ```
    /// use fadrinzo::{square, FillRule, Overlay, OverlayRule};
    ///
    /// let mut cut = Overlay::with_contours(&[square(0, 9)], &[square(3, 6)])?;
    /// let ring = cut.overlay_shapes(OverlayRule::Difference, FillRule::NonZero)?;
    /// let inner = cut.overlay_shapes(OverlayRule::Intersect, FillRule::NonZero)?;
    /// let mut overlay = Overlay::with_shapes(&ring, &inner)?;
    /// assert!(!overlay.interiors_meet(FillRule::NonZero)?);
    /// # Ok::<(), fadrinzo::Error>(())
    /// ```
    pub fn with_shapes<S: AsRef<[C]>, C: AsRef<[IntPoint]>>(subject: &[S], clip: &[S]) -> Result<Overlay, Error> {
        let mut overlay = Overlay::new()?;
        for (shapes, shape_type) in [(subject, ShapeType::Subject), (clip, ShapeType::Clip)] {
            for shape in shapes {
                overlay.add_shape(shape.as_ref(), shape_type)?;
            }
        }
        Ok(overlay)
    }

    /// The overlay of the contours that were added, as contours that have it on their left, by the
    /// solver `AUTO`: outer boundaries run counterclockwise, and holes clockwise. So they wind once
    /// around each point where the rule holds, and not at all around the others, but for points
    /// nearer to the given edges than half a unit in `x` and in `y`, or than the passes move
    /// crossings under `Rounding::Pairwise`. The contours that were added stay.
    ///
    /// ```
    /// use fadrinzo::{square, FillRule, Overlay, OverlayRule};
    ///
    /// let mut overlay = Overlay::with_contours(&[square(0, 4)], &[square(2, 6)])?;
    /// let union = overlay.overlay(OverlayRule::Union, FillRule::NonZero)?;
    /// assert_eq!((union.len(), union[0].len()), (1, 8));
    /// assert_eq!(overlay.overlay(OverlayRule::Subject, FillRule::NonZero)?[0].len(), 6);
    /// # Ok::<(), fadrinzo::Error>(())
    /// ```
    pub fn overlay(&mut self, overlay_rule: OverlayRule, fill_rule: FillRule) -> Result<Vec<IntContour>, Error> {
        self.overlay_with_solver(overlay_rule, fill_rule, Solver::AUTO)
    }

    /// The contours that `overlay` returns, by a solver. The solver's strategy does not change them.
    ///
    /// ```
    /// use fadrinzo::{square, FillRule, Overlay, OverlayRule, Solver};
    ///
    /// let mut overlay = Overlay::with_contours(&[square(0, 4)], &[square(2, 6)])?;
    /// let found = overlay.overlay_with_solver(OverlayRule::Xor, FillRule::EvenOdd, Solver::LIST)?;
    /// assert_eq!(found, overlay.overlay(OverlayRule::Xor, FillRule::EvenOdd)?);
    /// # Ok::<(), fadrinzo::Error>(())
    /// ```
    pub fn overlay_with_solver(
        &mut self,
        overlay_rule: OverlayRule,
        fill_rule: FillRule,
        solver: Solver,
    ) -> Result<Vec<IntContour>, Error> {
        let status = self.engine.polygons(&self.settings(solver, fill_rule), overlay_rule.code());
        self.keep_report(status)?;
        Ok(self.engine.contours()?)
    }

    /// The overlays of the contours that were added by several rules, each as `overlay` returns it, in the order of the
    /// rules. The contours are split and swept once.
    ///
    /// ```
    /// use fadrinzo::{square, FillRule, Overlay, OverlayRule};
    ///
    /// let mut overlay = Overlay::with_contours(&[square(0, 4)], &[square(2, 6)])?;
    /// let rules = [OverlayRule::Union, OverlayRule::Intersect];
    /// let found = overlay.overlay_by_rules(&rules, FillRule::NonZero)?;
    /// assert_eq!(found.iter().map(|contours| contours[0].len()).collect::<Vec<_>>(), [8, 4]);
    /// assert_eq!(found[1], overlay.overlay(OverlayRule::Intersect, FillRule::NonZero)?);
    /// # Ok::<(), fadrinzo::Error>(())
    /// ```
    pub fn overlay_by_rules(
        &mut self,
        overlay_rules: &[OverlayRule],
        fill_rule: FillRule,
    ) -> Result<Vec<Vec<IntContour>>, Error> {
        let codes = collect(overlay_rules.iter().map(|rule| rule.code()))?;
        let status = self.engine.polygons_by_rules(&self.settings(Solver::AUTO, fill_rule), &codes);
        self.keep_report(status)?;
        Ok(self.engine.shapes()?)
    }

    /// Where a point lies with respect to the contours of a shape that were added, exactly: on the boundary if it lies on
    /// a step of one of them, ends included; else inside or outside, by how often they wind around it and the fill rule.
    ///
    /// A step along which both sides are inside is a step too. A point with a coordinate out of range lies outside.
    ///
    /// ```
    /// use fadrinzo::{square, FillRule, IntPoint, Overlay, PointLocation, ShapeType};
    ///
    /// let mut overlay = Overlay::with_contours(&[square(0, 4)], &[])?;
    /// let mut locate = |x, y| overlay.locate_point(ShapeType::Subject, FillRule::NonZero, IntPoint::new(x, y));
    /// assert_eq!(locate(1, 2), PointLocation::Inside);
    /// assert_eq!(locate(4, 2), PointLocation::OnBoundary);
    /// assert_eq!(locate(5, 2), PointLocation::Outside);
    /// assert_eq!(locate(i32::MAX, 2), PointLocation::Outside);
    /// # Ok::<(), fadrinzo::Error>(())
    /// ```
    pub fn locate_point(&mut self, shape_type: ShapeType, fill_rule: FillRule, point: IntPoint) -> PointLocation {
        match self.engine.locate(point, shape_type as u8, fill_rule as u8) {
            0 => PointLocation::Inside,
            1 => PointLocation::OnBoundary,
            _ => PointLocation::Outside,
        }
    }

    /// The overlay of the contours that were added, in shapes, by the solver `AUTO`: each an outer boundary, which runs
    /// counterclockwise, followed by its holes, which run clockwise. No contour comes to a point twice, so each is a
    /// simple polygon, and around every point of the plane at most one shape winds.
    ///
    /// The interior of each shape is connected: pieces that only touch in points are shapes of their own.
    ///
    /// Under a table that holds outside, the shapes are those of its complement, and run the other way. Pieces of it that
    /// touch in points may be in one shape, and the first contour may be a hole that has the least point of the shape too.
    ///
    /// ```
    /// use fadrinzo::{square, FillRule, Overlay, OverlayRule, ShapeType};
    ///
    /// let mut overlay = Overlay::with_contours(&[square(0, 9)], &[square(3, 6)])?;
    /// overlay.add_contour(&square(20, 22), ShapeType::Subject)?;
    /// let shapes = overlay.overlay_shapes(OverlayRule::Difference, FillRule::NonZero)?;
    /// assert_eq!(shapes.iter().map(Vec::len).collect::<Vec<_>>(), [2, 1]);
    /// assert_eq!(shapes[1][0].len(), 4);
    /// # Ok::<(), fadrinzo::Error>(())
    /// ```
    pub fn overlay_shapes(&mut self, overlay_rule: OverlayRule, fill_rule: FillRule) -> Result<Vec<IntShape>, Error> {
        self.overlay_shapes_with_solver(overlay_rule, fill_rule, Solver::AUTO)
    }

    /// The shapes that `overlay_shapes` returns, by a solver. The solver's strategy does not change them.
    ///
    /// ```
    /// use fadrinzo::{square, FillRule, Overlay, OverlayRule, Solver};
    ///
    /// let mut overlay = Overlay::with_contours(&[square(0, 4)], &[square(2, 6)])?;
    /// let found = overlay.overlay_shapes_with_solver(OverlayRule::Xor, FillRule::EvenOdd, Solver::LIST)?;
    /// assert_eq!(found, overlay.overlay_shapes(OverlayRule::Xor, FillRule::EvenOdd)?);
    /// # Ok::<(), fadrinzo::Error>(())
    /// ```
    pub fn overlay_shapes_with_solver(
        &mut self,
        overlay_rule: OverlayRule,
        fill_rule: FillRule,
        solver: Solver,
    ) -> Result<Vec<IntShape>, Error> {
        let status = self.engine.shapes_of_polygons(&self.settings(solver, fill_rule), overlay_rule.code());
        self.keep_report(status)?;
        Ok(self.engine.shapes()?)
    }

    /// How many passes the last overlay of contours made that was not refused, in shapes or not; 0 at first.
    ///
    /// ```
    /// use fadrinzo::{square, FillRule, Overlay, OverlayRule};
    ///
    /// let mut overlay = Overlay::with_contours(&[square(0, 4)], &[square(2, 6)])?;
    /// assert_eq!(overlay.passes(), 0);
    /// overlay.overlay(OverlayRule::Union, FillRule::NonZero)?;
    /// assert_eq!(overlay.passes(), 1);
    /// # Ok::<(), fadrinzo::Error>(())
    /// ```
    pub fn passes(&self) -> u128 {
        self.passes
    }

    /// How far the last overlay of contours that was not refused moved edges at most, in `x` and in `y`, in halves of a
    /// unit; 0 at first. Snap rounding moves them by at most one half.
    ///
    /// What the overlay returned is exact at every point that is farther than this, in `x` or in `y`, from all edges of
    /// the contours that it was given: one shape, or all contours together, wind once around such a point where the rule
    /// holds, and not at all elsewhere. It is 0 where no two of these edges cross at a point without whole coordinates.
    ///
    /// ```
    /// use fadrinzo::{square, FillRule, IntPoint, Overlay, OverlayRule, ShapeType};
    ///
    /// let mut overlay = Overlay::with_contours(&[square(0, 4)], &[square(2, 6)])?;
    /// overlay.overlay_shapes(OverlayRule::Union, FillRule::NonZero)?;
    /// assert_eq!(overlay.reach(), 0);
    /// // the upper side crosses the right one of the first square at a height of 2 and two thirds
    /// let corners = [(2, 2), (5, 2), (5, 3)].map(|(x, y)| IntPoint::new(x, y));
    /// overlay.add_contour(&corners, ShapeType::Clip)?;
    /// overlay.overlay_shapes(OverlayRule::Union, FillRule::NonZero)?;
    /// assert!(overlay.reach() > 0);
    /// # Ok::<(), fadrinzo::Error>(())
    /// ```
    pub fn reach(&self) -> u128 {
        self.reach
    }

    /// Drops the contours that were added. Buffers stay.
    ///
    /// ```
    /// use fadrinzo::{square, FillRule, Overlay, OverlayRule};
    ///
    /// let mut overlay = Overlay::with_contours(&[square(0, 4)], &[])?;
    /// overlay.clear();
    /// assert!(overlay.overlay(OverlayRule::Union, FillRule::NonZero)?.is_empty());
    /// # Ok::<(), fadrinzo::Error>(())
    /// ```
    pub fn clear(&mut self) {
        self.engine.clear();
        self.contour_counts = [0; 2];
    }

    /// The graph of the segments that a rule keeps, by the solver `AUTO`.
    ///
    /// ```
    /// use fadrinzo::{square, FillRule, Overlay, OverlayRule, ShapeType};
    ///
    /// let mut segments = Vec::new();
    /// ShapeType::Subject.push_contour(&square(0, 4), &mut segments)?;
    /// ShapeType::Clip.push_contour(&square(2, 6), &mut segments)?;
    /// let mut overlay = Overlay::new()?;
    /// let graph = overlay.build_graph(&segments, OverlayRule::Intersect, FillRule::NonZero)?;
    /// assert_eq!((graph.links().len(), graph.node_count()), (4, 4));
    /// # Ok::<(), fadrinzo::Error>(())
    /// ```
    pub fn build_graph(
        &mut self,
        segments: &[Segment],
        overlay_rule: OverlayRule,
        fill_rule: FillRule,
    ) -> Result<OverlayGraph<'_>, Error> {
        self.build_graph_with_solver(segments, overlay_rule, fill_rule, Solver::AUTO)
    }

    /// The graph of the segments that a rule keeps. The solver's strategy does not change it.
    ///
    /// ```
    /// use fadrinzo::{square, FillRule, Overlay, OverlayRule, ShapeType, Solver};
    ///
    /// let mut segments = Vec::new();
    /// ShapeType::Subject.push_contour(&square(0, 4), &mut segments)?;
    /// let mut overlay = Overlay::new()?;
    /// let (rule, fill) = (OverlayRule::Subject, FillRule::NonZero);
    /// let graph = overlay.build_graph_with_solver(&segments, rule, fill, Solver::TREE)?;
    /// assert_eq!(graph.links().len(), 4);
    /// # Ok::<(), fadrinzo::Error>(())
    /// ```
    pub fn build_graph_with_solver(
        &mut self,
        segments: &[Segment],
        overlay_rule: OverlayRule,
        fill_rule: FillRule,
        solver: Solver,
    ) -> Result<OverlayGraph<'_>, Error> {
        self.run(segments, overlay_rule, fill_rule, solver, false)?;
        self.graph()
    }

    /// The graph of the segments that a rule keeps, with a number for each link: that of the given segment from which it
    /// comes. Parts of a segment have its number, and of segments between the same two points the first one's stays.
    ///
    /// Where each number is that of one segment, a link lies on the segment that has its number, or no farther from it than
    /// half a unit, in `x` and in `y`; under `Rounding::Pairwise`, than the passes move crossings.
    ///
    /// ```
    /// use fadrinzo::{square, DataSegment, FillRule, Overlay, OverlayRule, ShapeType, Solver};
    ///
    /// let mut sides = Vec::new();
    /// ShapeType::Subject.push_contour(&square(0, 4), &mut sides)?;
    /// ShapeType::Clip.push_contour(&square(2, 6), &mut sides)?;
    /// // from 0 to 3 the sides of the subject, from the left one counterclockwise; from 4 to 7 those of the clip
    /// let numbered: Vec<DataSegment> = sides.iter().zip(0..).map(|(&segment, data)| DataSegment { segment, data }).collect();
    /// let mut overlay = Overlay::new()?;
    /// let (rule, fill) = (OverlayRule::Intersect, FillRule::NonZero);
    /// let graph = overlay.build_graph_with_data(&numbered, rule, fill, Solver::AUTO)?;
    /// // the left and the lower side of the clip, and the upper and the right one of the subject
    /// assert_eq!(graph.data(), [4, 5, 3, 2]);
    /// # Ok::<(), fadrinzo::Error>(())
    /// ```
    pub fn build_graph_with_data(
        &mut self,
        segments: &[DataSegment],
        overlay_rule: OverlayRule,
        fill_rule: FillRule,
        solver: Solver,
    ) -> Result<OverlayGraph<'_>, Error> {
        let status = self.engine.overlay_with_data(segments, &self.settings(solver, fill_rule), overlay_rule.code());
        outcome(status, segments, |segment| fault_of_data(segment, self.width))?;
        self.copy_graph()?;
        self.engine.copy_link_data(&mut self.link_data)?;
        Ok(self.kept_graph())
    }

    /// Closed contours around the part that a rule keeps: walks over the links of the graph, which pass each link just
    /// once. `None` where an odd number of links meets at some node, as it can where the counts of the given segments
    /// do not balance.
    ///
    /// ```
    /// use fadrinzo::{square, FillRule, Overlay, OverlayRule, ShapeType, Solver};
    ///
    /// let mut segments = Vec::new();
    /// ShapeType::Subject.push_contour(&square(0, 4), &mut segments)?;
    /// let (rule, fill) = (OverlayRule::Subject, FillRule::NonZero);
    /// let contours = Overlay::new()?.build_contours(&segments, rule, fill, Solver::AUTO)?;
    /// assert_eq!(contours.map(|found| found.len()), Some(1));
    /// # Ok::<(), fadrinzo::Error>(())
    /// ```
    pub fn build_contours(
        &mut self,
        segments: &[Segment],
        overlay_rule: OverlayRule,
        fill_rule: FillRule,
        solver: Solver,
    ) -> Result<Option<Vec<IntContour>>, Error> {
        self.run(segments, overlay_rule, fill_rule, solver, true)?;
        let ffi::Sizes { has_walks, .. } = self.engine.sizes();
        if !has_walks {
            return Ok(None);
        }
        self.copy_graph()?;
        self.engine.copy_walks(&mut self.walk_starts, &mut self.walk_links)?;
        sum_up(&mut self.walk_starts)?;
        let walks = self.walk_starts.windows(2).map(|ends| &self.walk_links[ends[0]..ends[1]]);
        Ok(Some(collect_all(walks.map(|walk| contour(&self.links, walk)))?))
    }

    /// The arrangement of the last call that was given segments, or the joined segments. After a call that was refused,
    /// nothing, or the arrangement where its graph alone was refused.
    ///
    /// ```
    /// use fadrinzo::{square, Overlay, ShapeType, Solver};
    ///
    /// let mut segments = Vec::new();
    /// ShapeType::Subject.push_contour(&square(0, 4), &mut segments)?;
    /// ShapeType::Clip.push_contour(&square(2, 6), &mut segments)?;
    /// let mut overlay = Overlay::new()?;
    /// overlay.split(&segments, Solver::AUTO)?;
    /// assert_eq!(overlay.segments()?.len(), 12);
    /// # Ok::<(), fadrinzo::Error>(())
    /// ```
    pub fn segments(&mut self) -> Result<&[Segment], Error> {
        self.engine.copy_segments(&mut self.segments)?;
        Ok(&self.segments)
    }

    /// The arrangement of the last `build_clip`, of polygons and lines. After a call that was refused, nothing, or the
    /// arrangement where its graph alone was refused.
    ///
    /// ```
    /// use fadrinzo::{ClipRule, FillRule, IntPoint, LineSegment, Overlay, Solver};
    ///
    /// let line = |ax, ay, bx, by| LineSegment::line(IntPoint::new(ax, ay), IntPoint::new(bx, by));
    /// let crossed = [line(0, 0, 4, 4), line(0, 4, 4, 0)];
    /// let mut overlay = Overlay::new()?;
    /// overlay.build_clip(&crossed, ClipRule::default(), FillRule::NonZero, Solver::AUTO)?;
    /// assert_eq!(overlay.lines()?.len(), 4);
    /// # Ok::<(), fadrinzo::Error>(())
    /// ```
    pub fn lines(&mut self) -> Result<&[LineSegment], Error> {
        self.engine.copy_lines(&mut self.lines)?;
        Ok(&self.lines)
    }

    /// The graph of all of the arrangement, with its fills.
    ///
    /// ```
    /// use fadrinzo::{square, FillRule, Overlay, ShapeType, Solver};
    ///
    /// let mut segments = Vec::new();
    /// ShapeType::Subject.push_contour(&square(0, 4), &mut segments)?;
    /// ShapeType::Clip.push_contour(&square(2, 6), &mut segments)?;
    /// let mut overlay = Overlay::new()?;
    /// let all = overlay.build_all(&segments, FillRule::NonZero, Solver::AUTO)?;
    /// assert_eq!((all.links().len(), all.node_count()), (12, 10));
    /// # Ok::<(), fadrinzo::Error>(())
    /// ```
    pub fn build_all(
        &mut self,
        segments: &[Segment],
        fill_rule: FillRule,
        solver: Solver,
    ) -> Result<OverlayGraph<'_>, Error> {
        let settings = self.settings(solver, fill_rule);
        let status = self.engine.all(segments, &settings, &mut self.links);
        outcome(status, segments, |segment| fault_of(segment, self.width))?;
        self.copy_nodes()?;
        self.link_data.clear();
        Ok(self.kept_graph())
    }

    /// Splits the segments, with no graph: `segments` is the arrangement then.
    ///
    /// By snap rounding no segment moves by more than half a unit, in `x` and in `y`, and the solver changes nothing of the
    /// result; under `Rounding::Pairwise` its precision does.
    ///
    /// ```
    /// use fadrinzo::{square, Overlay, ShapeType, Solver};
    ///
    /// let mut segments = Vec::new();
    /// ShapeType::Subject.push_contour(&square(0, 4), &mut segments)?;
    /// ShapeType::Clip.push_contour(&square(2, 6), &mut segments)?;
    /// let change = Overlay::new()?.split(&segments, Solver::AUTO)?;
    /// assert_eq!((change.has_changed, change.passes), (true, 1));
    /// # Ok::<(), fadrinzo::Error>(())
    /// ```
    pub fn split(&mut self, segments: &[Segment], solver: Solver) -> Result<Change, Error> {
        let status = self.engine.split(segments, &self.settings(solver, FillRule::NonZero));
        outcome(status, segments, |segment| fault_of(segment, self.width))?;
        Ok(self.change())
    }

    /// Joins the segments on each pair of ends: `segments` has them then.
    ///
    /// ```
    /// use fadrinzo::{square, Overlay, ShapeType};
    ///
    /// let mut segments = Vec::new();
    /// ShapeType::Subject.push_contour(&square(0, 4), &mut segments)?;
    /// ShapeType::Clip.push_contour(&square(0, 4), &mut segments)?;
    /// let mut overlay = Overlay::new()?;
    /// assert!(overlay.join(&segments)?.has_changed);
    /// assert_eq!(overlay.segments()?.len(), 4);
    /// # Ok::<(), fadrinzo::Error>(())
    /// ```
    pub fn join(&mut self, segments: &[Segment]) -> Result<Change, Error> {
        let status = self.engine.join(segments, self.width as u8);
        outcome(status, segments, |segment| fault_of(segment, self.width))?;
        Ok(self.change())
    }

    /// The graph of the parts of lines that a clip rule keeps.
    ///
    /// ```
    /// use fadrinzo::{square, ClipRule, FillRule, IntPoint, LineSegment, Overlay, Solver};
    ///
    /// let corners = square(0, 10);
    /// let sides = (0..4).map(|index| LineSegment::side(corners[index], corners[(index + 1) % 4]));
    /// let line = LineSegment::line(IntPoint::new(-5, 5), IntPoint::new(15, 5));
    /// let segments: Vec<LineSegment> = sides.chain([line]).collect();
    /// let mut overlay = Overlay::new()?;
    /// let inside = overlay.build_clip(&segments, ClipRule::default(), FillRule::NonZero, Solver::AUTO)?;
    /// assert_eq!(inside.links().len(), 1);
    /// # Ok::<(), fadrinzo::Error>(())
    /// ```
    pub fn build_clip(
        &mut self,
        segments: &[LineSegment],
        clip_rule: ClipRule,
        fill_rule: FillRule,
        solver: Solver,
    ) -> Result<OverlayGraph<'_>, Error> {
        let ClipRule { invert, boundary_included } = clip_rule;
        let status = self.engine.clip(segments, &self.settings(solver, fill_rule), invert, boundary_included);
        outcome(status, segments, |segment| fault_of_line(segment, self.width))?;
        self.graph()
    }

    /// Counts a contour that was given, where its status says that it was taken.
    fn keep_count(&mut self, status: u8, contour: &[IntPoint], shape_type: ShapeType) -> Result<(), Error> {
        let count = &mut self.contour_counts[shape_type as usize];
        match status {
            0 => *count += 1,
            1 => return Err(Error::Fault(Fault::Memory)),
            _ => {
                let error = point_error(contour, shape_type, *count);
                return Err(error.expect("the engine refuses contours where a point is out of range"));
            }
        }
        Ok(())
    }

    /// Takes over what an overlay of contours reports, where its status says that it was done.
    fn keep_report(&mut self, status: u8) -> Result<(), Error> {
        outcome(status, &[], |segment| fault_of(segment, Engine::I32))?;
        let ffi::Report { passes, reach } = self.engine.report();
        self.passes = passes.number();
        self.reach = reach.number();
        Ok(())
    }

    /// The engine's run.
    fn run(
        &mut self,
        segments: &[Segment],
        overlay_rule: OverlayRule,
        fill_rule: FillRule,
        solver: Solver,
        walks: bool,
    ) -> Result<(), Error> {
        let status = self.engine.overlay(segments, &self.settings(solver, fill_rule), overlay_rule.code(), walks);
        outcome(status, segments, |segment| fault_of(segment, self.width))
    }

    /// What the last split or join did.
    fn change(&mut self) -> Change {
        let ffi::Sizes { has_changed, passes, .. } = self.engine.sizes();
        Change { has_changed, passes }
    }

    /// Copies the graph of the last run out.
    fn copy_graph(&mut self) -> Result<(), Error> {
        self.engine.copy_links(&mut self.links)?;
        self.copy_nodes()
    }

    /// Copies the nodes of the last run out.
    fn copy_nodes(&mut self) -> Result<(), Error> {
        self.engine.copy_nodes(&mut self.starts, &mut self.node_links)?;
        Ok(sum_up(&mut self.starts)?)
    }

    /// The graph of the last run, which had no numbers.
    fn graph(&mut self) -> Result<OverlayGraph<'_>, Error> {
        self.copy_graph()?;
        self.link_data.clear();
        Ok(self.kept_graph())
    }

    /// The graph that was copied out.
    fn kept_graph(&self) -> OverlayGraph<'_> {
        OverlayGraph { links: &self.links, data: &self.link_data, starts: &self.starts, node_links: &self.node_links }
    }
}

impl Overlay {
    /// What a call is set to.
    pub(crate) fn settings(&self, solver: Solver, fill_rule: FillRule) -> ffi::Settings {
        ffi::Settings {
            start: solver.precision.start,
            progression: solver.precision.progression,
            strategy: solver.strategy as u8,
            fill_rule: fill_rule as u8,
            engine: self.width as u8,
            rounding: self.rounding as u8,
        }
    }
}

impl fmt::Debug for Overlay {
    fn fmt(&self, f: &mut fmt::Formatter<'_>) -> fmt::Result {
        f.debug_struct("Overlay")
            .field("engine", &self.width)
            .field("rounding", &self.rounding)
            .field("contour_counts", &self.contour_counts)
            .field("passes", &self.passes)
            .field("reach", &self.reach)
            .finish_non_exhaustive()
    }
}

/// A ring that runs counterclockwise, or clockwise, and does not repeat its first point at the end.
fn directed_ring(ring: &[IntPoint], is_counterclockwise: bool) -> Result<Cow<'_, [IntPoint]>, Fault> {
    let ring = match ring {
        [first, rest @ .., last] if first == last => &ring[..=rest.len()],
        _ => ring,
    };
    let area = doubled_area(ring);
    if area == 0 || (area > 0) == is_counterclockwise {
        Ok(Cow::Borrowed(ring))
    } else {
        collect(ring.iter().rev().copied()).map(Cow::Owned)
    }
}

/// Turns the lengths of lists that follow one another into the indexes where they begin, and where the last one ends.
fn sum_up(lengths: &mut Vec<usize>) -> Result<(), Fault> {
    let mut total = 0;
    for length in lengths.iter_mut() {
        total += std::mem::replace(length, total);
    }
    push(lengths, total)
}

/// The points along a walk, from the node where it begins.
fn contour(links: &[OverlayLink], walk: &[usize]) -> Result<IntContour, Fault> {
    let first = &links[walk[0]];
    let leads_on = |id: usize| walk[1..].first().is_none_or(|&next| links[next].a.id == id || links[next].b.id == id);
    let mut at = if leads_on(first.b.id) { first.a } else { first.b };
    collect(walk.iter().map(|&index| {
        let link = &links[index];
        let left = at;
        at = if link.a.id == at.id { link.b } else { link.a };
        left.point
    }))
}
