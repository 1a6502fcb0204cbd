//! The part of a town that is built over: buildings in WKT, less roads in GeoJSON, within a tile, as shapes in WKT.
//!
//! `cargo run --release --example footprints FOLDER > built.wkt` reads `buildings.wkt`, `roads.geojson` and `tile.wkt` of a folder.
//! Without one the files beside this program are read, and the result is compared with that of GEOS.

mod given;

use fadrinzo::{area_of_shape, FillRule, FloatContour, FloatOverlay, FloatPointAdapter, FloatShape};
use fadrinzo::{OverlayRule, ShapeType};
use given::{collect, push, Stop};
use std::f64::consts::FRAC_PI_8;
use std::io::Write;
use std::path::{Path, PathBuf};

const NO_COORDINATES: Stop = Stop::Text("a road without coordinates");

/// What GEOS 3.11 makes of those files, in floats: how many polygons, how many holes, and how many square meters.
const OF_GEOS: (usize, usize, f64) = (280, 364, 418_018.493);

fn main() -> Result<(), Stop> {
    let mut out = std::io::stdout().lock();
    let ours = Path::new(env!("CARGO_MANIFEST_DIR")).join("examples/footprints");
    let given = std::env::args().nth(1).filter(|it| !it.starts_with('-')).map(PathBuf::from);
    let folder = given.as_ref().unwrap_or(&ours);
    let read = |name: &str| std::fs::read_to_string(folder.join(name));
    let buildings = read_wkt(&read("buildings.wkt")?)?;
    let roads = read_roads(&read("roads.geojson")?)?;
    let tile = read_wkt(&read("tile.wkt")?)?;

    // one adapter for all steps, so that a point of one step is the same point in the next; a unit is a meter
    let points = [&buildings, &roads, &tile].into_iter().flatten().flatten().flatten().copied();
    let adapter = FloatPointAdapter::with_iter(points);
    let town = overlay(adapter, &buildings, &roads, OverlayRule::Difference)?;
    let built = overlay(adapter, &town, &tile, OverlayRule::Intersect)?;
    let holes: usize = built.iter().map(|shape| shape.len() - 1).sum();
    let area: f64 = built.iter().map(|shape| area_of_shape(shape)).sum();
    eprintln!("{} polygons with {holes} holes, {area:.3} square meters", built.len());
    if given.is_some() {
        return write_wkt(&built, &mut out);
    }
    assert_eq!((built.len(), holes), (OF_GEOS.0, OF_GEOS.1));
    // 0.02 apart, and why is not known: a sum over slabs in plain floats has 418,018.472
    assert!((area - OF_GEOS.2).abs() < 0.05, "GEOS has {} square meters", OF_GEOS.2);
    Ok(())
}

/// An overlay of polygons, whichever way their rings run.
fn overlay(
    adapter: FloatPointAdapter,
    subject: &[FloatShape],
    clip: &[FloatShape],
    overlay_rule: OverlayRule,
) -> Result<Vec<FloatShape>, Stop> {
    let mut overlay = FloatOverlay::with_adapter(adapter)?;
    for (polygons, shape_type) in [(subject, ShapeType::Subject), (clip, ShapeType::Clip)] {
        for rings in polygons {
            overlay.add_polygon(&rings[0], &rings[1..], shape_type)?;
        }
    }
    Ok(overlay.overlay_shapes(overlay_rule, FillRule::NonZero)?)
}

/// The numbers of a text, two for each point.
fn read_points(text: &str) -> Result<FloatContour, Stop> {
    let words = text.split([' ', ',', '[', ']', '(', ')']).filter(|word| !word.is_empty());
    let numbers = collect(words.map(|word| word.parse().map_err(|_| Stop::Text("a word is no number"))))?;
    collect(numbers.chunks_exact(2).map(|pair| Ok([pair[0], pair[1]])))
}

/// The polygons of a text, one `POLYGON` a line.
fn read_wkt(text: &str) -> Result<Vec<FloatShape>, Stop> {
    let polygons = text.lines().filter_map(|line| line.strip_prefix("POLYGON"));
    collect(polygons.map(|line| collect(line.split("),").map(read_points))))
}

/// The areas of the roads of a text: a rectangle along each step of a road, and a circle of 16 corners around each point.
fn read_roads(text: &str) -> Result<Vec<FloatShape>, Stop> {
    let mut areas = Vec::new();
    for feature in text.split("\"width\":").skip(1) {
        let (width, rest) = feature.split_once('}').ok_or(NO_COORDINATES)?;
        let line = rest.split("\"coordinates\":").nth(1).and_then(|it| it.split('}').next());
        let half = width.trim().parse::<f64>().map_err(|_| Stop::Text("a width is no number"))? / 2.0;
        let points = read_points(line.ok_or(NO_COORDINATES)?)?;
        for pair in points.windows(2) {
            let [[ax, ay], [bx, by]] = [pair[0], pair[1]];
            let factor = half / (bx - ax).hypot(by - ay);
            let (x, y) = ((by - ay) * factor, (bx - ax) * factor);
            let corners = [[ax + x, ay - y], [bx + x, by - y], [bx - x, by + y], [ax - x, ay + y]];
            push(&mut areas, collect([collect(corners.map(Ok))])?)?;
        }
        let turns = || (0..16).map(|turn| (f64::from(turn) * FRAC_PI_8).sin_cos());
        for at in &points {
            let circle = collect(turns().map(|(sin, cos)| Ok([at[0] + half * cos, at[1] + half * sin])));
            push(&mut areas, collect([circle])?)?;
        }
    }
    Ok(areas)
}

/// Writes one `MULTIPOLYGON` of all shapes.
fn write_wkt(shapes: &[FloatShape], out: &mut impl Write) -> Result<(), Stop> {
    write!(out, "MULTIPOLYGON (")?;
    for (index, shape) in shapes.iter().enumerate() {
        write!(out, "{}(", if index == 0 { "" } else { ", " })?;
        for (index, ring) in shape.iter().enumerate() {
            write!(out, "{}(", if index == 0 { "" } else { ", " })?;
            for (index, [x, y]) in ring.iter().chain(ring.first()).enumerate() {
                write!(out, "{}{x:.6} {y:.6}", if index == 0 { "" } else { ", " })?;
            }
            write!(out, ")")?;
        }
        write!(out, ")")?;
    }
    writeln!(out, ")")?;
    Ok(())
}
