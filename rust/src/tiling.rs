//! Which tiles an overlay is cut into, and what each of them is given of long contours.

use crate::memory::{collect, copy, extend, push};
use crate::{bounding_box, Axis, Error, Fault, IntPoint, ShapeType, Tile};

/// The least and the greatest corner of a box.
type Bounds = [IntPoint; 2];

/// How many points of a contour have a box of their own.
const RUN: usize = 512;

/// How many points are looked at, about, to find lines between tiles.
const SAMPLES: usize = 1 << 12;

/// A contour that is given, with its box, and the boxes of its runs of points where it has several.
#[derive(Debug)]
pub(crate) struct Given<'a> {
    pub points: &'a [IntPoint],
    pub shape_type: ShapeType,
    bounds: Bounds,
    runs: Vec<Bounds>,
}

impl<'a> Given<'a> {
    /// The contour with its boxes; `None` where it has no points.
    pub fn new(points: &'a [IntPoint], shape_type: ShapeType) -> Result<Option<Given<'a>>, Fault> {
        let Some(bounds) = bounding_box(points) else {
            return Ok(None);
        };
        let mut runs = Vec::new();
        if points.len() > RUN {
            runs = collect(points.chunks(RUN).filter_map(bounding_box))?;
        }
        Ok(Some(Given { points, shape_type, bounds, runs }))
    }

    /// Its box.
    pub fn bounds(&self) -> &Bounds {
        &self.bounds
    }

    /// The points that a tile needs. Of a run of points on one side of the tile these are the first and the last one: what lies
    /// between them is clamped to the same border, on which no path counts but by its ends. `None` where all lie on one side.
    pub fn points_for<'b>(
        &'b self,
        tile: &Tile,
        buffer: &'b mut Vec<IntPoint>,
    ) -> Result<Option<&'b [IntPoint]>, Fault> {
        if tile.is_beside(&self.bounds) {
            return Ok(None);
        }
        if self.runs.is_empty() {
            return Ok(Some(self.points));
        }
        buffer.clear();
        for (run, bounds) in self.points.chunks(RUN).zip(&self.runs) {
            match run {
                [first, .., last] if tile.is_beside(bounds) => extend(buffer, [*first, *last])?,
                _ => extend(buffer, run.iter().copied())?,
            }
        }
        Ok(Some(buffer))
    }
}

/// The tile around all contours, without which no point is wound around. `None` where they have no area, which is so if it would not be
/// wider or higher than 0.
pub(crate) fn tile_around(given: &[Given]) -> Option<Tile> {
    let [low, high] = bounding_box(given.iter().flat_map(Given::bounds))?;
    Tile::new(low, high)
}

/// About so many tiles that make up a tile, with about as many given points each: halves of halves, across the longer side.
pub(crate) fn halved(whole: Tile, given: &[Given], count: usize) -> Result<Vec<Tile>, Fault> {
    let total: usize = given.iter().map(|each| each.points.len()).sum();
    let points = given.iter().flat_map(|each| each.points);
    let mut samples = collect(points.step_by(total / SAMPLES + 1).copied())?;
    let mut tiles = Vec::new();
    halve(whole, &mut samples, count, &mut tiles)?;
    Ok(tiles)
}

/// Appends about so many tiles that make up a tile, by the points that are sampled in it.
fn halve(tile: Tile, samples: &mut [IntPoint], count: usize, tiles: &mut Vec<Tile>) -> Result<(), Fault> {
    let Some((axis, line)) = line_between(&tile, samples, count) else {
        return push(tiles, tile);
    };
    samples.sort_unstable_by_key(|point| along(axis, point));
    let (below, above) = samples.split_at_mut(samples.partition_point(|point| along(axis, point) < line));
    let [low, high] = tile.cut_at(axis, line);
    halve(low, below, count / 2, tiles)?;
    halve(high, above, count - count / 2, tiles)
}

/// The line across a tile that has as many of the points below it as the half of the tiles is of all, where more than one is wanted.
fn line_between(tile: &Tile, samples: &mut [IntPoint], count: usize) -> Option<(Axis, i32)> {
    if count < 2 || samples.is_empty() {
        return None;
    }
    let length = |axis| {
        let (least, greatest) = tile.borders(axis);
        i64::from(greatest) - i64::from(least)
    };
    let axes = if length(Axis::X) >= length(Axis::Y) { [Axis::X, Axis::Y] } else { [Axis::Y, Axis::X] };
    axes.into_iter().find_map(|axis| {
        let at = samples.len() * (count / 2) / count;
        let (_, middle, _) = samples.select_nth_unstable_by_key(at, |point| along(axis, point));
        let (line, (least, greatest)) = (along(axis, middle), tile.borders(axis));
        (least < line && line < greatest).then_some((axis, line))
    })
}

/// The tiles that make up a tile between lines, given by one coordinate each, in any order; lines beside it are left out.
pub(crate) fn cut_at_lines(whole: Tile, columns: &[i32], rows: &[i32]) -> Result<Vec<Tile>, Fault> {
    let mut tiles = Vec::new();
    for column in parts_at(whole, Axis::X, columns)? {
        extend(&mut tiles, parts_at(column, Axis::Y, rows)?)?;
    }
    Ok(tiles)
}

/// The parts of a tile between lines across an axis.
fn parts_at(tile: Tile, axis: Axis, lines: &[i32]) -> Result<Vec<Tile>, Fault> {
    let mut lines = copy(lines)?;
    lines.sort_unstable();
    let mut rest = tile;
    let mut parts = Vec::new();
    for line in lines {
        let (least, greatest) = rest.borders(axis);
        if least < line && line < greatest {
            let [part, later] = rest.cut_at(axis, line);
            push(&mut parts, part)?;
            rest = later;
        }
    }
    push(&mut parts, rest)?;
    Ok(parts)
}

fn along(axis: Axis, point: &IntPoint) -> i32 {
    match axis {
        Axis::X => point.x,
        Axis::Y => point.y,
    }
}

/// The contours of a shape with their boxes, behind others, or the first of their points that is out of range.
pub(crate) fn add_given<'a, C: AsRef<[IntPoint]>>(
    contours: &'a [C],
    shape_type: ShapeType,
    given: &mut Vec<Given<'a>>,
) -> Result<(), Error> {
    for (index, contour) in contours.iter().enumerate() {
        let points = contour.as_ref();
        if let Some(error) = crate::error::point_error(points, shape_type, index) {
            return Err(error);
        }
        extend(given, Given::new(points, shape_type)?)?;
    }
    Ok(())
}
