//! Times overlays of random short segments in this process, the least of nine calls, and their parts. Given a file's
//! name, writes the segments there as the program `arrange` reads them.

mod given;

use fadrinzo::{FillRule, FloatOverlay, IntPoint, Overlay, OverlayRule, Segment, ShapeType, Solver};
use given::{collect, push, Stop};
use std::fs::File;
use std::io::{BufWriter, Write};
use std::time::{Duration, Instant};

fn least(mut call: impl FnMut() -> Result<(), Stop>) -> Result<Duration, Stop> {
    (0..9).try_fold(Duration::MAX, |least, _| {
        let start = Instant::now();
        call()?;
        Ok(least.min(start.elapsed()))
    })
}

fn main() -> Result<(), Stop> {
    let mut out = std::io::stdout().lock();
    let mut state: u64 = 1;
    let mut below = |bound: u64| {
        state = state.wrapping_mul(6_364_136_223_846_793_005).wrapping_add(1_442_695_040_888_963_407);
        ((state >> 33) % bound) as i32
    };
    let mut segments: Vec<Segment> = Vec::new();
    while segments.len() < 50_000 {
        let a = IntPoint::new(below(10_000), below(10_000));
        let b = IntPoint::new(a.x + below(201) - 100, a.y + below(201) - 100);
        let shape = if below(2) == 0 { ShapeType::Subject } else { ShapeType::Clip };
        if a != b {
            push(&mut segments, Segment { a, b, count: shape.direct_count() })?;
        }
    }
    if let Some(path) = std::env::args().nth(1) {
        write_text(&segments, &mut BufWriter::new(File::create(path)?))?;
    }
    let (fill, auto) = (FillRule::EvenOdd, Solver::AUTO);
    let mut overlay = Overlay::new()?;
    let split = least(|| {
        overlay.split(&segments, auto)?;
        Ok(())
    })?;
    let pieces = overlay.segments()?.len();
    let copied = least(|| {
        overlay.segments()?;
        Ok(())
    })?;
    let all = least(|| {
        overlay.build_all(&segments, fill, auto)?;
        Ok(())
    })?;
    writeln!(out, "{} segments, {pieces} pieces", segments.len())?;
    writeln!(out, "split {split:?}, the arrangement copied out {copied:?}")?;
    writeln!(out, "split, build of all, links and nodes copied out {all:?}")?;
    for rule in [OverlayRule::Union, OverlayRule::Xor] {
        let mut links = 0;
        let graph = least(|| {
            links = overlay.build_graph(&segments, rule, fill)?.links().len();
            Ok(())
        })?;
        let fresh = least(|| {
            let mut overlay = Overlay::new()?;
            overlay.build_graph(&segments, rule, fill)?;
            Ok(())
        })?;
        writeln!(out, "{rule:?}: {links} links, {graph:?} with kept buffers, {fresh:?} with new ones")?;
    }
    time_polygons(below, &mut out)
}

/// Times the union of 12,500 squares in whole numbers and in floats, and overlays of one half with the other by one rule and by four.
fn time_polygons(mut below: impl FnMut(u64) -> i32, out: &mut impl Write) -> Result<(), Stop> {
    let mut square = |_: u32| {
        let (x, y, side) = (below(10_000), below(10_000), 1 + below(100));
        [[x, y], [x + side, y], [x + side, y + side], [x, y + side]]
    };
    let corners = collect((0..12_500).map(|index| Ok(square(index))))?;
    let whole = collect(corners.iter().map(|square| Ok(square.map(IntPoint::from))))?;
    let floats = collect(corners.iter().map(|square| Ok(square.map(|at| at.map(f64::from)))))?;
    let (union, fill) = (OverlayRule::Union, FillRule::NonZero);
    let in_whole_numbers = least(|| {
        Overlay::with_contours(&whole, &[])?.overlay(union, fill)?;
        Ok(())
    })?;
    let in_floats = least(|| {
        FloatOverlay::with_contours(&floats, &[])?.overlay(union, fill)?;
        Ok(())
    })?;
    writeln!(out, "union of 50,000 edges {in_whole_numbers:?}, in floats {in_floats:?}")?;
    let (subject, clip) = whole.split_at(whole.len() / 2);
    let mut overlay = Overlay::with_contours(subject, clip)?;
    let rules = [OverlayRule::Union, OverlayRule::Intersect, OverlayRule::Difference, OverlayRule::Xor];
    let mut by = |count: usize| {
        least(|| {
            overlay.overlay_by_rules(&rules[..count], fill)?;
            Ok(())
        })
    };
    writeln!(out, "overlays of 50,000 edges by one rule {:?}, by four {:?}", by(1)?, by(4)?)?;
    Ok(())
}

/// Writes the segments as the program `arrange` reads them.
fn write_text(segments: &[Segment], file: &mut impl Write) -> Result<(), Stop> {
    for Segment { a, b, count } in segments {
        let letter = if count.subj == 1 { 'S' } else { 'C' };
        writeln!(file, "{letter} {} {} {} {}", a.x, a.y, b.x, b.y)?;
    }
    Ok(())
}
