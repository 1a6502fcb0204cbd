//! Times the split and the whole of a split and a build, in this process, on segments from standard input: lines
//! `S ax ay bx by` or `C ax ay bx by`, as the program `arrange` reads them, by passes over pairs, as upstream splits them.
//!
//! Usage: race [strategy] [runs], with `list`, `tree`, `frag` or `auto` (the default) and 9 runs. Each run has a new `Overlay`.
//! Prints the least wall times in milliseconds: `split_ms=` of `split`, and `all_ms=` of `build_all`, which splits, builds the
//! graph of all segments, and copies its nodes out.

mod given;

use fadrinzo::{FillRule, IntPoint, Overlay, Rounding, Segment, ShapeType, Solver};
use given::{collect, Stop};
use std::io::{Read, Write};
use std::time::Instant;

fn main() -> Result<(), Stop> {
    let mut out = std::io::stdout().lock();
    let mut words = std::env::args().skip(1);
    let solver = match words.next().as_deref() {
        Some("list") => Solver::LIST,
        Some("tree") => Solver::TREE,
        Some("frag") => Solver::FRAG,
        _ => Solver::AUTO,
    };
    let runs = words.next().map_or(Ok(9), |number| number.parse()).map_err(|_| Stop::Text("no number of runs"))?;
    let segments = read()?;
    let mut links = 0;
    let split = least(runs, |overlay| {
        overlay.split(&segments, solver)?;
        Ok(())
    })?;
    let all = least(runs, |overlay| {
        links = overlay.build_all(&segments, FillRule::NonZero, solver)?.links().len();
        Ok(())
    })?;
    writeln!(out, "in={} links={links} split_ms={split:.4} all_ms={all:.4}", segments.len())?;
    Ok(())
}

/// The segments of standard input. Its text is dropped, as the other program of a race drops it: so both time their runs over
/// the same heap.
fn read() -> Result<Vec<Segment>, Stop> {
    let mut text = String::new();
    std::io::stdin().read_to_string(&mut text)?;
    collect(text.lines().map(segment))
}

/// The least wall time of some runs, in milliseconds.
fn least(runs: usize, mut call: impl FnMut(&mut Overlay) -> Result<(), Stop>) -> Result<f64, Stop> {
    (0..runs).try_fold(f64::INFINITY, |least, _| {
        let mut overlay = Overlay::new()?.with_rounding(Rounding::Pairwise);
        let start = Instant::now();
        call(&mut overlay)?;
        Ok(least.min(start.elapsed().as_secs_f64() * 1e3))
    })
}

/// The segment of a line.
fn segment(line: &str) -> Result<Segment, Stop> {
    let mut words = line.split_whitespace();
    let shape = if words.next() == Some("S") { ShapeType::Subject } else { ShapeType::Clip };
    let mut number = || words.next().and_then(|word| word.parse().ok()).ok_or(Stop::Text("a line has no four numbers"));
    let (a, b) = (IntPoint::new(number()?, number()?), IntPoint::new(number()?, number()?));
    Ok(Segment { a, b, count: shape.direct_count() })
}
