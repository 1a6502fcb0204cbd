//! The race over our package: the words of a command line, and the line that it prints, are those of `../cpp/race.h`; a
//! last word `pairwise` chooses that rounding. Each run makes an `Overlay`, adds the contours, and overlays them.

mod input;

use fadrinzo::{Error, FillRule, IntContour, IntPoint, Overlay, Rounding};
use input::{cpu, most_memory, read, rule, twice_area};
use std::time::Instant;

fn length(contour: &[IntPoint]) -> f64 {
    let next = contour.iter().cycle().skip(1);
    contour
        .iter()
        .zip(next)
        .map(|(a, b)| (b.x as f64 - a.x as f64).hypot(b.y as f64 - a.y as f64))
        .sum()
}

/// The result of some runs, and the least milliseconds of one: the processor's, and those on the wall.
fn measure(
    runs: usize,
    seconds: f64,
    mut call: impl FnMut() -> Result<Vec<IntContour>, Error>,
) -> (Vec<IntContour>, f64, f64) {
    let mut found = (Vec::new(), f64::INFINITY, f64::INFINITY);
    let begin = Instant::now();
    for run in 0..runs {
        if run > 0 && begin.elapsed().as_secs_f64() > seconds {
            break;
        }
        // what the last run returned is freed before the next one begins
        drop(std::mem::take(&mut found.0));
        let (wall, used) = (Instant::now(), cpu());
        let result = call();
        found.1 = found.1.min(cpu() - used);
        found.2 = found.2.min(wall.elapsed().as_secs_f64() * 1e3);
        found.0 = result.unwrap_or_else(|fault| {
            eprintln!("{fault}");
            std::process::exit(7)
        });
    }
    found
}

fn main() {
    let words: Vec<String> = std::env::args().collect();
    let rule = rule(&words[1]);
    let [subject, clip] = read(&words[2]);
    let runs = words[3].parse().expect("a number of runs");
    let seconds = words[4].parse().expect("a number of seconds");
    let rounding = if words.len() > 5 {
        Rounding::Pairwise
    } else {
        Rounding::HotPixels
    };
    let before = most_memory();
    let (contours, cpu, wall) = measure(runs, seconds, || {
        Overlay::with_contours(&subject, &clip)?
            .with_rounding(rounding)
            .overlay(rule, FillRule::NonZero)
    });
    let after = most_memory();
    let (count, points) = (contours.len(), contours.iter().map(Vec::len).sum::<usize>());
    let area: i128 = contours.iter().map(|it| twice_area(it)).sum();
    let length: f64 = contours.iter().map(|it| length(it)).sum();
    print!("cpu={cpu:.3} wall={wall:.3} prepare=0 contours={count} points={points} area2={area} length={length:.0}");
    println!(" before={before} after={after}");
}
