//! How long relations of two polygons take, beside GEOS.

use crate::geos::Geos;
use crate::pairs::Random;
use fadrinzo::{FillRule, IntContour, IntPoint, Overlay, Regions};
use std::f64::consts::TAU;
use std::time::Instant;

#[repr(C)]
struct Timespec {
    seconds: i64,
    nanoseconds: i64,
}

extern "C" {
    fn clock_gettime(clock: i32, time: *mut Timespec) -> i32;
}

/// The processor's milliseconds of this thread.
fn cpu() -> f64 {
    let mut time = Timespec { seconds: 0, nanoseconds: 0 };
    // SAFETY: `time` is a `struct timespec` of 64-bit Linux, and 3 is its CLOCK_THREAD_CPUTIME_ID
    unsafe { clock_gettime(3, &mut time) };
    time.seconds as f64 * 1e3 + time.nanoseconds as f64 / 1e6
}

/// The least milliseconds of at least three runs, and what the last one returned.
pub fn least<T>(mut run: impl FnMut() -> T) -> (f64, T) {
    let (mut best, mut runs) = (f64::INFINITY, 0);
    let begin = Instant::now();
    loop {
        let from = cpu();
        let result = run();
        best = best.min(cpu() - from);
        runs += 1;
        if runs >= 3 && begin.elapsed().as_secs_f64() > 0.6 || runs >= 200 {
            return (best, result);
        }
    }
}

/// A polygon of corners around a center, with a coast that is rough.
fn coast(random: &mut Random, corners: u32, center: [f64; 2], radius: f64) -> Vec<IntContour> {
    let corner = |number: u32| {
        let angle = (f64::from(number) + 0.2 * random.unit()) / f64::from(corners) * TAU;
        let far = radius * (0.95 + 0.1 * random.unit());
        IntPoint::new((center[0] + far * angle.cos()).round() as i32, (center[1] + far * angle.sin()).round() as i32)
    };
    vec![(0..corners).map(corner).collect()]
}

/// Two countries with a common border of half of their edges.
fn neighbors(random: &mut Random, corners: u32) -> [Vec<IntContour>; 2] {
    let half = corners as i32 / 2;
    let size = 1 << 28;
    let mut along = |number: i32| IntPoint::new(number * (size / half), (random.unit() * f64::from(size / 8)) as i32);
    let border: IntContour = (0..=half).map(&mut along).collect();
    let mut above = border.clone();
    above.extend((1..half).rev().map(&mut along).map(|it| IntPoint::new(it.x, it.y + size / 4)));
    let mut below: IntContour = border.iter().rev().copied().collect();
    below.extend((1..half).map(&mut along).map(|it| IntPoint::new(it.x, it.y - size / 4)));
    [vec![above], vec![below]]
}

fn cases(edges: u32) -> Vec<(&'static str, [Vec<IntContour>; 2])> {
    let mut random = Random(7);
    let half = edges / 2;
    let far = f64::from(1 << 27);
    let mut two = |other: [f64; 2], radius: f64| {
        [coast(&mut random, half, [-0.4 * far, 0.0], 0.5 * far), coast(&mut random, half, other, radius)]
    };
    let mut cases = vec![
        ("cross", two([0.0, 0.2 * far], 0.5 * far)),
        ("alike", two([-0.4 * far, 0.0], 0.5 * far)),
        ("nest", two([-0.4 * far, 0.0], 0.4 * far)),
        ("apart, boxes meet", two([0.34 * far, 0.74 * far], 0.5 * far)),
        ("apart, boxes too", two([0.8 * far, 0.0], 0.5 * far)),
    ];
    cases.insert(2, ("touch", neighbors(&mut Random(8), half)));
    cases
}

/// Prints a table of milliseconds: of the matrix of two polygons, and of relations of two that are prepared. Returns whether all
/// relations agree with those of GEOS.
pub fn print(edges: u32) -> bool {
    let geos = Geos::new();
    let rule = FillRule::EvenOdd;
    let mut agree = true;
    println!("| {edges} edges | matrix | GEOS | prepared: meet | covers | touches | matrix | prepare both | GEOS prepared: intersects | covers | touches | prepare one |");
    println!("|---|---|---|---|---|---|---|---|---|---|---|---|");
    for (name, [one, other]) in cases(edges) {
        let polygons = [&one, &other].map(|it| geos.valid_polygon(it).expect("a valid polygon"));
        let whole = || Overlay::with_contours(&one, &other).expect("points in range").relate(rule).expect("exact");
        let (relate, matrix) = least(whole);
        let (geos_relate, text) = least(|| geos.relate(polygons[0], polygons[1]));
        let (prepare, mut regions) = least(|| {
            let mut regions = Regions::new().expect("memory");
            for contours in [&one, &other] {
                regions.push(contours, rule).expect("exact");
            }
            regions
        });
        let (meet, meeting) = least(|| regions.interiors_meet(0, 1).expect("small counts"));
        let (covers, covering) = least(|| regions.covers(0, 1).expect("small counts"));
        let (touch, touching) = least(|| regions.touches(0, 1).expect("small counts"));
        let (by_regions, same_matrix) = least(|| regions.relate(0, 1).expect("small counts"));
        let (geos_prepare, prepared) = least(|| {
            let prepared = geos.prepare(polygons[0]);
            geos.intersects(prepared, polygons[1]);
            prepared
        });
        let (intersects, _) = least(|| geos.intersects(prepared, polygons[1]));
        let (geos_covers, is_covered) = least(|| geos.covers(prepared, polygons[1]));
        let (geos_touch, do_touch) = least(|| geos.touches(prepared, polygons[1]));
        agree &= matrix.to_string() == text.replace(['0', '1', '2'], "T") && matrix == same_matrix;
        agree &= meeting == !text.starts_with('F') && covering == is_covered && touching == do_touch;
        println!(
            "| {name} ({text}) | {relate:.2} | {geos_relate:.2} | {meet:.3} | {covers:.3} | {touch:.3} | {by_regions:.3} | {prepare:.2} | \
             {intersects:.3} | {geos_covers:.3} | {geos_touch:.3} | {geos_prepare:.2} |"
        );
    }
    agree
}
