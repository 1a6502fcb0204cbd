//! Overlays by tiles, on several threads. What a tile has of contours and its overlay are proved calls. Which points a tile is given, how
//! parts are joined, and the threads are plain Rust, tested and not proved.

use crate::joining::{joined, Reaching, Seams};
use crate::memory::{collect_all, extend, push};
use crate::tiling::{add_given, cut_at_lines, halved, tile_around, Given};
use crate::{Error, Fault, FillRule, IntContour, IntPoint, IntShape, Overlay, OverlayRule, ShapeType, Tile};
use std::fmt;
use std::sync::atomic::{AtomicBool, AtomicUsize, Ordering};
use std::sync::{Mutex, PoisonError};
use std::thread;

/// How many points a tile has at most, about, where the number of tiles is not chosen.
const MOST_POINTS: usize = 1 << 15;

/// How many points a tile has at least, about, where tiles are made for threads alone.
const LEAST_POINTS: usize = 1 << 10;

/// Why an overlay by tiles was refused.
#[derive(Clone, Copy, Debug, PartialEq, Eq)]
pub struct TiledError {
    /// The tile whose overlay was refused; `None` where it was before or after those of tiles.
    pub tile: Option<Tile>,
    /// Why it was.
    pub error: Error,
}

impl From<Error> for TiledError {
    fn from(error: Error) -> TiledError {
        TiledError { tile: None, error }
    }
}

impl From<Fault> for TiledError {
    fn from(fault: Fault) -> TiledError {
        Error::Fault(fault).into()
    }
}

impl fmt::Display for TiledError {
    fn fmt(&self, f: &mut fmt::Formatter<'_>) -> fmt::Result {
        if let Some(tile) = self.tile {
            let (low, high) = (tile.low(), tile.high());
            write!(f, "tile from ({}, {}) to ({}, {}): ", low.x, low.y, high.x, high.y)?;
        }
        self.error.fmt(f)
    }
}

impl std::error::Error for TiledError {
    fn source(&self) -> Option<&(dyn std::error::Error + 'static)> {
        Some(&self.error)
    }
}

/// How far an overlay by tiles is.
#[derive(Clone, Copy, Debug, PartialEq, Eq)]
pub struct TileProgress {
    /// The tile that was done last.
    pub tile: Tile,
    /// How many are done.
    pub done: usize,
    /// How many there are.
    pub tiles: usize,
}

/// What is called after each tile.
type Listener<'a> = &'a (dyn Fn(TileProgress) + Sync);

/// Which tiles are made.
enum Tiling<'a> {
    /// As many as suit the points and the threads.
    Auto,
    /// About so many.
    Count(usize),
    /// Those between lines, given by `x` and by `y`.
    Lines(&'a [i32], &'a [i32]),
}

/// An overlay that is made tile by tile, on several threads, of contours that are given by reference.
///
/// The tiles make up the bounding box of the contours. What lies in each is overlaid for itself, and what reaches a line between tiles is
/// joined there, which rounds nothing. So the result is right around each point that is farther than a whole unit, in `x` or in `y`, from
/// every given edge that runs along no axis: half a unit for the cuts, and half a unit for the crossings. It is valid, as that of an
/// overlay without tiles, and has points on lines between tiles. It does not depend on the number of threads, and on tiles only near edges.
///
/// ```
/// use fadrinzo::{square, FillRule, OverlayRule, TiledOverlay};
///
/// let squares: Vec<_> = (0..200).map(|n| square(10 * n, 10 * n + 15)).collect();
/// let overlay = TiledOverlay::new(&squares, &[])?.with_threads(2).with_tiles(8);
/// let shapes = overlay.overlay_shapes(OverlayRule::Subject, FillRule::NonZero)?;
/// assert_eq!(shapes.len(), 1);
/// # Ok::<(), fadrinzo::TiledError>(())
/// ```
pub struct TiledOverlay<'a> {
    given: Vec<Given<'a>>,
    /// The tile around all contours, which is none where they have no area.
    whole: Option<Tile>,
    /// How many threads run; where it is not chosen, as many as the machine runs at a time.
    threads: Option<usize>,
    tiling: Tiling<'a>,
    listener: Option<Listener<'a>>,
}

impl<'a> TiledOverlay<'a> {
    /// An overlay by tiles of the contours of a subject and of a clip, which stay where they are. Any contours will do, as for
    /// [`Overlay::with_contours`]. It takes as many threads as the machine runs at a time.
    ///
    /// Returns the error of the first point that is out of range.
    pub fn new<C: AsRef<[IntPoint]>>(subject: &'a [C], clip: &'a [C]) -> Result<TiledOverlay<'a>, TiledError> {
        let mut given = Vec::new();
        add_given(subject, ShapeType::Subject, &mut given)?;
        add_given(clip, ShapeType::Clip, &mut given)?;
        let whole = tile_around(&given);
        Ok(TiledOverlay { given, whole, threads: None, tiling: Tiling::Auto, listener: None })
    }

    /// The same overlay on so many threads, the calling one among them. Where the system refuses a thread it does with fewer.
    ///
    /// On one thread each growth of memory that is refused is an error. What the standard library takes to begin a thread, or to
    /// find how many the machine runs, is some hundred bytes whose refusal aborts the process.
    pub fn with_threads(mut self, threads: usize) -> TiledOverlay<'a> {
        self.threads = Some(threads.max(1));
        self
    }

    /// The same overlay with about so many tiles of about as many points each: of one, it is that without tiles.
    pub fn with_tiles(mut self, count: usize) -> TiledOverlay<'a> {
        self.tiling = Tiling::Count(count);
        self
    }

    /// The same overlay with the tiles between lines, given by `x` and by `y`.
    pub fn with_lines(mut self, columns: &'a [i32], rows: &'a [i32]) -> TiledOverlay<'a> {
        self.tiling = Tiling::Lines(columns, rows);
        self
    }

    /// The same overlay, with a function that is called after each tile, on the thread that made it.
    pub fn with_progress(mut self, listener: &'a (dyn Fn(TileProgress) + Sync)) -> TiledOverlay<'a> {
        self.listener = Some(listener);
        self
    }

    /// The tiles; each two are apart by a line. There are none where the contours have no area.
    pub fn tiles(&self) -> Result<Vec<Tile>, TiledError> {
        let Some(whole) = self.whole else {
            return Ok(Vec::new());
        };
        Ok(match self.tiling {
            Tiling::Auto => halved(whole, &self.given, self.fitting_count()),
            Tiling::Count(count) => halved(whole, &self.given, count),
            Tiling::Lines(columns, rows) => cut_at_lines(whole, columns, rows),
        }?)
    }

    fn thread_count(&self) -> usize {
        self.threads.unwrap_or_else(|| thread::available_parallelism().map_or(1, usize::from))
    }

    /// How many tiles suit the points and the threads.
    fn fitting_count(&self) -> usize {
        let points: usize = self.given.iter().map(|each| each.points.len()).sum();
        let threads = self.thread_count();
        let for_threads = if threads > 1 { 4 * threads } else { 1 };
        points.div_ceil(MOST_POINTS).max(for_threads.min(points / LEAST_POINTS)).max(1)
    }

    /// The overlay as contours that have it on their left: those of the shapes, one after another.
    pub fn overlay(&self, overlay_rule: OverlayRule, fill_rule: FillRule) -> Result<Vec<IntContour>, TiledError> {
        let mut contours = Vec::new();
        for shape in self.overlay_shapes(overlay_rule, fill_rule)? {
            extend(&mut contours, shape)?;
        }
        Ok(contours)
    }

    /// The overlay in shapes, as [`Overlay::overlay_shapes`] describes them.
    ///
    /// Returns the first error of a tile, after which no other tile is begun, or that of the overlay that joins the parts.
    pub fn overlay_shapes(&self, overlay_rule: OverlayRule, fill_rule: FillRule) -> Result<Vec<IntShape>, TiledError> {
        let Some(whole) = self.whole else {
            return Ok(Vec::new());
        };
        let tiles = self.tiles()?;
        let (next, stopped) = (AtomicUsize::new(0), AtomicBool::new(false));
        let run = Run { of: self, whole, tiles: &tiles, overlay_rule, fill_rule, next, stopped };
        let mut shapes = Vec::new();
        let mut reaching = Vec::new();
        for part in run.parts()? {
            extend(&mut shapes, part.shapes)?;
            extend(&mut reaching, part.reaching)?;
        }
        extend(&mut shapes, joined(reaching)?)?;
        Ok(shapes)
    }
}

impl fmt::Debug for TiledOverlay<'_> {
    fn fmt(&self, f: &mut fmt::Formatter<'_>) -> fmt::Result {
        f.debug_struct("TiledOverlay")
            .field("contours", &self.given.len())
            .field("threads", &self.threads)
            .finish_non_exhaustive()
    }
}

/// What one tile returns: shapes that reach no other tile, and those that do.
#[derive(Debug, Default)]
struct Part {
    shapes: Vec<IntShape>,
    reaching: Option<Reaching>,
}

/// The tiles of an overlay, from which each thread takes the next one.
struct Run<'a> {
    of: &'a TiledOverlay<'a>,
    whole: Tile,
    tiles: &'a [Tile],
    overlay_rule: OverlayRule,
    fill_rule: FillRule,
    next: AtomicUsize,
    stopped: AtomicBool,
}

impl Run<'_> {
    /// The parts of all tiles, in their order, or the first error of one.
    fn parts(&self) -> Result<Vec<Part>, TiledError> {
        let mut parts = Vec::new();
        for _ in self.tiles {
            push(&mut parts, Mutex::new(Ok(Part::default())))?;
        }
        let done = AtomicUsize::new(0);
        match self.of.thread_count().min(self.tiles.len()) {
            ..=1 => self.take_tiles(&parts, &done),
            threads => thread::scope(|scope| {
                for _ in 1..threads {
                    // a thread that is refused is done without
                    let _ = thread::Builder::new().spawn_scoped(scope, || self.take_tiles(&parts, &done));
                }
                self.take_tiles(&parts, &done);
            }),
        }
        collect_all(parts.into_iter().map(|part| part.into_inner().unwrap_or_else(PoisonError::into_inner)))
    }

    /// Makes one tile after another, until there is none left or one was refused.
    fn take_tiles(&self, parts: &[Mutex<Result<Part, TiledError>>], done: &AtomicUsize) {
        let mut worker = None;
        while !self.stopped.load(Ordering::Relaxed) {
            let index = self.next.fetch_add(1, Ordering::Relaxed);
            let Some(tile) = self.tiles.get(index) else { break };
            let part = self.part_of(tile, &mut worker);
            if part.is_err() {
                self.stopped.store(true, Ordering::Relaxed);
            }
            let is_done = part.is_ok();
            *parts[index].lock().unwrap_or_else(PoisonError::into_inner) = part;
            let done = done.fetch_add(usize::from(is_done), Ordering::Relaxed) + 1;
            if let (true, Some(listener)) = (is_done, self.of.listener) {
                listener(TileProgress { tile: *tile, done, tiles: self.tiles.len() });
            }
        }
    }

    /// The part that belongs to a tile, by the overlay of a thread, which is made for its first tile.
    fn part_of(&self, tile: &Tile, worker: &mut Option<Overlay>) -> Result<Part, TiledError> {
        let named = |error: Error| TiledError { tile: Some(*tile), error };
        let overlay = match worker {
            Some(overlay) => overlay,
            None => worker.insert(Overlay::new().map_err(named)?),
        };
        overlay.clear();
        self.add_to(overlay, tile).map_err(named)?;
        let shapes = overlay.overlay_shapes(self.overlay_rule, self.fill_rule).map_err(named)?;
        self.sorted(shapes, tile).map_err(|fault| named(fault.into()))
    }

    /// Adds what a tile has of the contours; those that come to no border as they are, and so all where there is only one tile.
    fn add_to(&self, overlay: &mut Overlay, tile: &Tile) -> Result<(), Error> {
        let mut buffer = Vec::new();
        for each in &self.of.given {
            if self.tiles.len() == 1 || tile.has_inside(each.bounds()) {
                overlay.add_contour(each.points, each.shape_type)?;
            } else if let Some(points) = each.points_for(tile, &mut buffer)? {
                overlay.add_contour_in_tile(points, each.shape_type, tile)?;
            }
        }
        Ok(())
    }

    /// The shapes of a tile, by whether they reach another one.
    fn sorted(&self, shapes: Vec<IntShape>, tile: &Tile) -> Result<Part, Fault> {
        let seams = Seams::new(tile, &self.whole);
        let mut part = Part::default();
        let mut reaching = Vec::new();
        for shape in shapes {
            let reaches = shape.iter().flatten().any(|point| seams.have(point));
            push(if reaches { &mut reaching } else { &mut part.shapes }, shape)?;
        }
        part.reaching = Some(Reaching::new(seams, reaching)?);
        Ok(part)
    }
}
