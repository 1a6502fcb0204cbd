//! Races overlays by tiles with one run: contours in, shapes out.
//!
//! `tiles RULE FILE ROUNDS WAY ..` makes each way once a round, and prints the least milliseconds of each, on the wall and of all processors. A
//! way is `plain`, or the number of threads, as `4`, or with that of tiles, as `4:32`. With one way and one round `most` is the memory of that way.

#[path = "../input.rs"]
mod input;

use fadrinzo::{FillRule, IntShape, Overlay, OverlayRule, TiledOverlay};
use input::{cpu, most_memory, read, rule, twice_area, Contours};
use std::time::Instant;

fn overlay(way: &str, [subject, clip]: &[Contours; 2], rule: OverlayRule) -> Vec<IntShape> {
    let fill_rule = FillRule::NonZero;
    if way == "plain" {
        let mut overlay = Overlay::with_contours(subject, clip).expect("contours in range");
        return overlay.overlay_shapes(rule, fill_rule).expect("memory");
    }
    let (threads, tiles) = way
        .split_once(':')
        .map_or((way, None), |(threads, tiles)| (threads, Some(tiles)));
    let mut overlay = TiledOverlay::new(subject, clip).expect("contours in range");
    overlay = overlay.with_threads(threads.parse().expect("a number of threads"));
    if let Some(tiles) = tiles {
        overlay = overlay.with_tiles(tiles.parse().expect("a number of tiles"));
    }
    overlay.overlay_shapes(rule, fill_rule).expect("memory")
}

fn main() {
    let words: Vec<String> = std::env::args().collect();
    let [_, rule_word, file, rounds, ways @ ..] = words.as_slice() else {
        panic!("tiles RULE FILE ROUNDS WAY ..");
    };
    let (rule, shapes) = (rule(rule_word), read(file));
    let before = most_memory();
    let mut least = vec![([f64::INFINITY; 2], Vec::new()); ways.len()];
    for _ in 0..rounds.parse().expect("a number of rounds") {
        for (way, (least, found)) in ways.iter().zip(&mut least) {
            drop(std::mem::take(found));
            let (start, used) = (Instant::now(), cpu());
            *found = overlay(way, &shapes, rule);
            let took = [start.elapsed().as_secs_f64() * 1e3, cpu() - used];
            *least = [least[0].min(took[0]), least[1].min(took[1])];
        }
    }
    let after = most_memory();
    for (way, ([wall, cpu], found)) in ways.iter().zip(&least) {
        let contours = found.iter().map(Vec::len).sum::<usize>();
        let points = found.iter().flatten().map(Vec::len).sum::<usize>();
        let area: i128 = found.iter().flatten().map(|it| twice_area(it)).sum();
        println!("{way}: wall={wall:.1} cpu={cpu:.1} shapes={} contours={contours} points={points} area2={area}", found.len());
    }
    println!("before={before} most={after}");
}
