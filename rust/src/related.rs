//! Which regions of two lists are related. Boxes are plain Rust, tested and not proved; each pair that they leave is decided by
//! the proved calls of [`Regions`].

use crate::{bounding_box, Error, FillRule, IntPoint, Regions, ShapeType};
use std::fmt;

/// A relation of two regions, by which [`related_pairs`] chooses pairs. The last three hold of regions whose interiors meet alone.
#[derive(Clone, Copy, Debug, PartialEq, Eq, Hash)]
pub enum Predicate {
    /// They share a point, inside or on their boundaries.
    SharePoint,
    /// Some point is inside both.
    InteriorsMeet,
    /// They share a point, and no point is inside both.
    Touch,
    /// Each point inside the second is inside the first.
    Covers,
    /// Each point inside the first is inside the second.
    IsWithin,
    /// Each point is inside both, or inside neither.
    SameRegion,
}

/// Why [`related_pairs`] was refused: by which pair, and by what error of its relation. The first region is the subject.
#[derive(Clone, Copy, Debug, PartialEq, Eq)]
pub struct PairError {
    /// The number of the region among the first ones.
    pub first: usize,
    /// The number of the region among the second ones.
    pub second: usize,
    /// The error of their relation.
    pub error: Error,
}

impl fmt::Display for PairError {
    fn fmt(&self, f: &mut fmt::Formatter<'_>) -> fmt::Result {
        write!(f, "regions {} and {}: {}", self.first, self.second, self.error)
    }
}

impl std::error::Error for PairError {
    fn source(&self) -> Option<&(dyn std::error::Error + 'static)> {
        Some(&self.error)
    }
}

/// The pairs of numbers of a first and a second region that are in a relation, in order, each once.
///
/// A region is a list of contours under the fill rule. No pair that shares no point is returned, so a region without area is in
/// none, though every region covers it. Only pairs whose bounding boxes share a point are looked at. Boxes are kept in columns along x,
/// of about as many boxes as there are columns.
///
/// Returns the error of the first pair, in order, whose boxes share a point and whose relation is refused; see [`Overlay::covers`].
///
/// ```
/// use fadrinzo::{related_pairs, square, FillRule, Predicate};
///
/// let parcels = [[square(0, 4)], [square(4, 8)], [square(20, 24)]];
/// let houses = [[square(1, 3)], [square(3, 5)], [square(21, 22)]];
/// let covers = related_pairs(&parcels, &houses, Predicate::Covers, FillRule::NonZero)?;
/// assert_eq!(covers, [(0, 0), (2, 2)]);
/// let meet = related_pairs(&parcels, &houses, Predicate::InteriorsMeet, FillRule::NonZero)?;
/// assert_eq!(meet, [(0, 0), (0, 1), (1, 1), (2, 2)]);
/// let touch = related_pairs(&parcels, &parcels, Predicate::Touch, FillRule::NonZero)?;
/// assert_eq!(touch, [(0, 1), (1, 0)]);
/// # Ok::<(), fadrinzo::PairError>(())
/// ```
pub fn related_pairs<R, S, C, D>(
    first: &[R],
    second: &[S],
    predicate: Predicate,
    fill_rule: FillRule,
) -> Result<Vec<(usize, usize)>, PairError>
where
    R: AsRef<[C]>,
    S: AsRef<[D]>,
    C: AsRef<[IntPoint]>,
    D: AsRef<[IntPoint]>,
{
    let columns = columns_of(second);
    let mut pairs = Vec::new();
    let mut prepared: Option<Prepared> = None;
    for (number, region) in first.iter().enumerate() {
        let mut of_region = None;
        for other in numbers_meeting(&columns, region.as_ref()) {
            let error = |error| PairError { first: number, second: other, error };
            let prepared = match &mut prepared {
                Some(prepared) => prepared,
                None => prepared.insert(Prepared::new(second.len()).map_err(error)?),
            };
            let subject = match of_region {
                Some(subject) => subject,
                None => *of_region.insert(prepared.regions.push(region.as_ref(), fill_rule).map_err(error)?),
            };
            let clip = prepared.clip(other, second[other].as_ref(), fill_rule).map_err(error)?;
            if is_related(&mut prepared.regions, subject, clip, predicate).map_err(error)? {
                pairs.push((number, other));
            }
        }
    }
    Ok(pairs)
}

/// The regions of both lists that some pair had to be prepared for.
struct Prepared {
    regions: Regions,
    /// The number of each second region that is prepared.
    clips: Vec<Option<usize>>,
}

impl Prepared {
    fn new(seconds: usize) -> Result<Prepared, Error> {
        Ok(Prepared { regions: Regions::new()?, clips: vec![None; seconds] })
    }

    /// The number of a second region, which is prepared at first. An error names it as the clip.
    fn clip<D: AsRef<[IntPoint]>>(
        &mut self,
        other: usize,
        contours: &[D],
        fill_rule: FillRule,
    ) -> Result<usize, Error> {
        if let Some(clip) = self.clips[other] {
            return Ok(clip);
        }
        let clip = self.regions.push(contours, fill_rule).map_err(as_clip)?;
        self.clips[other] = Some(clip);
        Ok(clip)
    }
}

/// An error of a subject as that of a clip.
fn as_clip(error: Error) -> Error {
    match error {
        Error::NotExact(_) => Error::NotExact(ShapeType::Clip),
        Error::Point { contour, point, fault, .. } => {
            Error::Point { shape_type: ShapeType::Clip, contour, point, fault }
        }
        other => other,
    }
}

/// Whether two prepared regions share a point and are in a relation.
fn is_related(regions: &mut Regions, first: usize, second: usize, predicate: Predicate) -> Result<bool, Error> {
    let holds = match predicate {
        Predicate::SharePoint => return Ok(!regions.is_disjoint(first, second)?),
        Predicate::InteriorsMeet => return regions.interiors_meet(first, second),
        Predicate::Touch => return regions.touches(first, second),
        Predicate::Covers => regions.covers(first, second)?,
        Predicate::IsWithin => regions.is_within(first, second)?,
        Predicate::SameRegion => regions.same_region(first, second)?,
    };
    // without a common point inside, what is covered has no area
    Ok(holds && regions.interiors_meet(first, second)?)
}

/// The least and the greatest corner of a box.
type Bounds = [IntPoint; 2];

/// Boxes that follow one another along x, with their numbers, and the box around them.
struct Column {
    members: Vec<(usize, Bounds)>,
    bounds: Bounds,
}

fn bounds_of<C: AsRef<[IntPoint]>>(contours: &[C]) -> Option<Bounds> {
    bounding_box(contours.iter().flat_map(AsRef::as_ref))
}

/// The boxes of regions that have points, in about as many columns as there are boxes in each.
fn columns_of<S: AsRef<[D]>, D: AsRef<[IntPoint]>>(regions: &[S]) -> Vec<Column> {
    let boxes = regions.iter().map(|region| bounds_of(region.as_ref())).enumerate();
    let mut boxes: Vec<(usize, Bounds)> = boxes.filter_map(|(number, bounds)| Some((number, bounds?))).collect();
    boxes.sort_unstable_by_key(|(_, [low, _])| low.x);
    let size = (boxes.len() as f64).sqrt() as usize + 1;
    let parts = boxes.chunks(size);
    let columns = parts.filter_map(|members| {
        let bounds = bounding_box(members.iter().flat_map(|(_, bounds)| bounds))?;
        Some(Column { members: members.to_vec(), bounds })
    });
    columns.collect()
}

/// The numbers of the boxes that share a point with that of contours, in order.
fn numbers_meeting<C: AsRef<[IntPoint]>>(columns: &[Column], contours: &[C]) -> Vec<usize> {
    let Some(bounds) = bounds_of(contours) else {
        return Vec::new();
    };
    let columns = columns.iter().filter(|column| do_meet(&column.bounds, &bounds));
    let members = columns.flat_map(|column| &column.members).filter(|(_, other)| do_meet(other, &bounds));
    let mut numbers: Vec<usize> = members.map(|(number, _)| *number).collect();
    numbers.sort_unstable();
    numbers
}

fn do_meet([low, high]: &Bounds, [other_low, other_high]: &Bounds) -> bool {
    low.x <= other_high.x && other_low.x <= high.x && low.y <= other_high.y && other_low.y <= high.y
}
