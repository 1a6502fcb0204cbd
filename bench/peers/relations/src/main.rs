//! Relations of polygons through the Rust package, beside GEOS.
//!
//! - `check COUNT` compares the matrix and six predicates of random pairs of valid polygons, and fails where one differs.
//! - `time NUMBER ..` prints a table of milliseconds for pairs of polygons that have this many edges together.
//! - `join COUNT` finds the pairs of two layers of buildings that share a point, touch, and cover one another.

mod geos;
mod join;
mod pairs;
mod time;

use fadrinzo::{Error, FillRule, Overlay};
use geos::Geos;
use pairs::{Pair, Random};
use std::collections::BTreeMap;
use std::process::ExitCode;

/// The matrix of a pair, and whether interiors meet, the subject covers the clip, it is within the clip, both are one region,
/// touch, and are disjoint.
fn relations([subject, clip]: &Pair) -> Result<(String, [bool; 6]), Error> {
    let mut overlay = Overlay::with_contours(subject, clip)?;
    let rule = FillRule::EvenOdd;
    let predicates = [
        overlay.interiors_meet(rule)?,
        overlay.covers(rule)?,
        overlay.is_within(rule)?,
        overlay.same_region(rule)?,
        overlay.touches(rule)?,
        overlay.is_disjoint(rule)?,
    ];
    Ok((overlay.relate(rule)?.to_string(), predicates))
}

/// Compares as many pairs of valid polygons, half of them on small lattices and half of large coordinates. Returns whether all agree.
fn check(count: u32) -> bool {
    let geos = Geos::new();
    let mut random = Random(88);
    let (mut differ, mut valid) = (0, 0);
    let mut seen: BTreeMap<String, u32> = BTreeMap::new();
    while valid < count {
        let pair = if valid % 2 == 0 { pairs::small(&mut random) } else { pairs::large(&mut random) };
        let [one, other] = [geos.valid_polygon(&pair[0]), geos.valid_polygon(&pair[1])];
        if let (Some(one), Some(other)) = (one, other) {
            valid += 1;
            // ours does not say of what dimension an entry is
            let matrix = geos.relate(one, other).replace(['0', '1', '2'], "T");
            let theirs = Ok((matrix, geos.predicates(one, other)));
            let ours = relations(&pair);
            if ours != theirs {
                differ += 1;
                println!("{pair:?}: {ours:?}, GEOS {theirs:?}");
            }
            if let Ok((matrix, _)) = ours {
                *seen.entry(matrix).or_default() += 1;
            }
        }
        [one, other].into_iter().flatten().for_each(|it| geos.destroy(it));
    }
    println!(
        "{count} pairs of valid polygons, {} matrices, {differ} otherwise than GEOS {}",
        seen.len(),
        Geos::version()
    );
    differ == 0 && seen.len() >= 10
}

fn main() -> ExitCode {
    let words: Vec<String> = std::env::args().skip(1).collect();
    let numbers: Vec<u32> = words.iter().skip(1).filter_map(|it| it.parse().ok()).collect();
    let done = match (words.first().map(String::as_str), &numbers[..]) {
        (Some("check"), [count]) => check(*count),
        (Some("time"), [_, ..]) => numbers.iter().all(|&edges| time::print(edges)),
        (Some("join"), [count]) => join::print(*count),
        _ => {
            eprintln!("usage: relations check COUNT | time NUMBER .. | join COUNT");
            return ExitCode::from(2);
        }
    };
    ExitCode::from(u8::from(!done))
}
