//! Joins of two layers of buildings, beside GEOS with its STRtree.

use crate::geos::{Geos, Polygon, Prepared};
use crate::pairs::Random;
use crate::time::least;
use fadrinzo::{related_pairs, FillRule, IntContour, IntPoint, Predicate};
use std::f64::consts::TAU;

/// The corners of buildings, counterclockwise.
const BUILDINGS: [&[(f64, f64)]; 3] = [
    &[(-5.0, -3.0), (5.0, -3.0), (5.0, 3.0), (-5.0, 3.0)],
    &[(-5.0, -4.0), (5.0, -4.0), (5.0, 0.0), (0.0, 0.0), (0.0, 4.0), (-5.0, 4.0)],
    &[(-6.0, -4.0), (6.0, -4.0), (6.0, 4.0), (2.0, 4.0), (2.0, 0.0), (-2.0, 0.0), (-2.0, 4.0), (-6.0, 4.0)],
];

/// How far apart buildings are, in units.
const PARCEL: f64 = 3000.0;

fn building(random: &mut Random, number: u32, side: u32) -> Vec<IntContour> {
    let at = |place: u32, off: f64| PARCEL * (f64::from(place) + 0.3 * off);
    let middle = [at(number % side, random.unit()), at(number / side, random.unit())];
    let (turn, scale) = (random.unit() * TAU, 70.0 + 130.0 * random.unit());
    let (cosine, sine) = (scale * turn.cos(), scale * turn.sin());
    let corners = BUILDINGS[random.below(3) as usize].iter();
    let whole = |(x, y): &(f64, f64)| {
        let (x, y) = (middle[0] + cosine * x - sine * y, middle[1] + sine * x + cosine * y);
        IntPoint::new(x.round() as i32, y.round() as i32)
    };
    vec![corners.map(whole).collect()]
}

type Joined = (&'static str, Predicate, fn(&Geos, Prepared, Polygon) -> bool);

const JOINS: [Joined; 3] = [
    ("share a point", Predicate::SharePoint, Geos::intersects),
    ("touch", Predicate::Touch, Geos::touches),
    ("cover", Predicate::Covers, Geos::covers),
];

/// Prints a table of milliseconds for two layers of as many buildings each. Returns whether all pairs are those of GEOS.
pub fn print(count: u32) -> bool {
    let geos = Geos::new();
    let mut random = Random(9);
    let side = f64::from(count).sqrt().ceil() as u32;
    let mut layer = || (0..count).map(|number| building(&mut random, number, side)).collect();
    let layers: [Vec<Vec<IntContour>>; 2] = [layer(), layer()];
    let polygons = [0, 1].map(|it: usize| -> Vec<Polygon> {
        layers[it].iter().map(|region| geos.valid_polygon(region).expect("a valid polygon")).collect()
    });
    let mut agree = true;
    println!("| {count} and {count} buildings | pairs | ours | GEOS with its STRtree |");
    println!("|---|---|---|---|");
    for (name, predicate, of_geos) in JOINS {
        let (ours, pairs) =
            least(|| related_pairs(&layers[0], &layers[1], predicate, FillRule::EvenOdd).expect("exact regions"));
        let (theirs, wanted) = least(|| geos.related_pairs(&polygons[0], &polygons[1], of_geos));
        agree &= pairs == wanted;
        println!("| {name} | {} | {ours:.1} | {theirs:.1} |", pairs.len());
    }
    agree
}
