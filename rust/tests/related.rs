//! Related pairs of two lists of regions, against the relation of each pair.

mod common;

use common::Random;
use fadrinzo::{related_pairs, square, Error, FillRule, IntPoint, Overlay, PairError, Predicate, ShapeType};

type Region = Vec<Vec<IntPoint>>;

const PREDICATES: [Predicate; 6] = [
    Predicate::SharePoint,
    Predicate::InteriorsMeet,
    Predicate::Touch,
    Predicate::Covers,
    Predicate::IsWithin,
    Predicate::SameRegion,
];

/// Squares on a grid, some of them twice, triangles, and regions without area or without points.
fn regions(random: &mut Random, count: usize) -> Vec<Region> {
    let mut regions = Vec::new();
    for _ in 0..count {
        let (x, y, far) = (random.below(40), random.below(40), 1 + random.below(6));
        let mut corners = [(x, y), (x + far, y), (x + far, y + far), (x, y + far)].map(IntPoint::from).to_vec();
        match random.below(8) {
            0 => corners.truncate(2),
            1 => corners.clear(),
            2 | 3 => corners.truncate(3),
            _ => {}
        }
        regions.push(vec![corners]);
    }
    regions
}

/// Whether two regions are in a relation, by calls that look at no boxes.
fn is_related(first: &Region, second: &Region, predicate: Predicate) -> Result<bool, Error> {
    let mut overlay = Overlay::with_contours(first, second)?;
    let rule = FillRule::NonZero;
    let meet = overlay.interiors_meet(rule)?;
    Ok(match predicate {
        Predicate::SharePoint => !overlay.is_disjoint(rule)?,
        Predicate::InteriorsMeet => meet,
        Predicate::Touch => overlay.touches(rule)?,
        Predicate::Covers => meet && overlay.covers(rule)?,
        Predicate::IsWithin => meet && overlay.is_within(rule)?,
        Predicate::SameRegion => meet && overlay.same_region(rule)?,
    })
}

#[test]
fn pairs_are_those_of_all_pairs() {
    let mut random = Random(88);
    let mut counts = [0; 6];
    for (first, second) in [(0, 9), (9, 0), (1, 1), (50, 3), (3, 50), (60, 60)] {
        let (first, mut second) = (regions(&mut random, first), regions(&mut random, second));
        second.extend(first.iter().take(4).cloned());
        for (predicate, count) in PREDICATES.into_iter().zip(&mut counts) {
            let mut wanted = Vec::new();
            for (i, one) in first.iter().enumerate() {
                for (j, other) in second.iter().enumerate() {
                    if is_related(one, other, predicate).unwrap() {
                        wanted.push((i, j));
                    }
                }
            }
            *count += wanted.len();
            assert_eq!(related_pairs(&first, &second, predicate, FillRule::NonZero), Ok(wanted), "{predicate:?}");
        }
    }
    assert!(counts.iter().all(|&count| count > 0), "{counts:?}");
}

/// A pair is named where its relation is refused. A region that is refused is not looked at where no box meets its own.
#[test]
fn refused_pair_is_named() {
    let bow = [(0, 0), (1, 1), (1, 0), (0, 1)].map(IntPoint::from);
    let first = [[square(10, 12)], [square(0, 4)]];
    let refused = related_pairs(&first, &[[bow]], Predicate::Touch, FillRule::EvenOdd).unwrap_err();
    assert_eq!(refused, PairError { first: 1, second: 0, error: Error::NotExact(ShapeType::Clip) });
    assert!(refused.to_string().starts_with("regions 1 and 0: two edges of the clip cross"));
    assert_eq!(related_pairs(&first[..1], &[[bow]], Predicate::Touch, FillRule::EvenOdd), Ok(Vec::new()));
}
