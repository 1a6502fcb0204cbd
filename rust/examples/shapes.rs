//! Times overlays in shapes, and by four rules, beside those in contours, in this process, of the contours of standard input: lines
//! `S x y x y ..` or `C x y x y ..`, as the program `polygons` reads them. `bench/shapes.py` writes some.
//!
//! Usage: shapes [runs], with 9 runs. The three take turns, each run with a new `Overlay`. Prints the least wall times in
//! milliseconds: `contours_ms=` of `overlay` and `shapes_ms=` of `overlay_shapes`, the results copied out, of the union under
//! the fill rule `NonZero`, and `rules_ms=` of `overlay_by_rules` for union, intersection, difference and xor; and how many
//! times as long as the contours the shapes and the rules took.

mod given;

use fadrinzo::{FillRule, IntPoint, Overlay, OverlayRule, ShapeType};
use given::{collect, Stop};
use std::io::{Read, Write};
use std::time::Instant;

fn main() -> Result<(), Stop> {
    let mut out = std::io::stdout().lock();
    let runs = std::env::args().nth(1).map_or(Ok(9), |number| number.parse());
    let runs = runs.map_err(|_| Stop::Text("no number of runs"))?;
    let mut text = String::new();
    std::io::stdin().read_to_string(&mut text)?;
    let contours = collect(text.lines().map(contour))?;
    let edges: usize = contours.iter().map(|(_, points)| points.len()).sum();
    let (mut found, mut shapes) = (Vec::new(), Vec::new());
    let (mut contours_ms, mut shapes_ms, mut rules_ms) = (f64::INFINITY, f64::INFINITY, f64::INFINITY);
    let rules = [OverlayRule::Union, OverlayRule::Intersect, OverlayRule::Difference, OverlayRule::Xor];
    let (rule, fill_rule) = (OverlayRule::Union, FillRule::NonZero);
    for _ in 0..runs {
        let time = timed(&contours, |overlay| {
            found = overlay.overlay(rule, fill_rule)?;
            Ok(())
        });
        contours_ms = contours_ms.min(time?);
        let time = timed(&contours, |overlay| {
            shapes = overlay.overlay_shapes(rule, fill_rule)?;
            Ok(())
        });
        shapes_ms = shapes_ms.min(time?);
        let time = timed(&contours, |overlay| {
            assert_eq!(overlay.overlay_by_rules(&rules, fill_rule)?.len(), 4);
            Ok(())
        });
        rules_ms = rules_ms.min(time?);
    }
    let (count, parts) = (found.len(), shapes.iter().map(Vec::len).sum::<usize>());
    write!(out, "in={edges} contours={count} shapes={} of={parts} ", shapes.len())?;
    write!(out, "contours_ms={contours_ms:.3} shapes_ms={shapes_ms:.3} rules_ms={rules_ms:.3} ")?;
    writeln!(out, "times={:.3} rules_times={:.3}", shapes_ms / contours_ms, rules_ms / contours_ms)?;
    Ok(())
}

/// The wall time of a call of a new overlay of the contours, in milliseconds.
fn timed(
    contours: &[(ShapeType, Vec<IntPoint>)],
    call: impl FnOnce(&mut Overlay) -> Result<(), Stop>,
) -> Result<f64, Stop> {
    let mut overlay = Overlay::new()?;
    for (shape_type, points) in contours {
        overlay.add_contour(points, *shape_type)?;
    }
    let start = Instant::now();
    call(&mut overlay)?;
    Ok(start.elapsed().as_secs_f64() * 1e3)
}

/// The contour of a line.
fn contour(line: &str) -> Result<(ShapeType, Vec<IntPoint>), Stop> {
    let mut words = line.split_whitespace();
    let shape_type = if words.next() == Some("S") { ShapeType::Subject } else { ShapeType::Clip };
    let numbers = collect(words.map(|word| word.parse().map_err(|_| Stop::Text("a word is no number"))))?;
    let points = collect(numbers.chunks_exact(2).map(|pair| Ok(IntPoint::new(pair[0], pair[1]))))?;
    Ok((shape_type, points))
}
