//! Times the split and the build in this process.

use crate::build::builder::GraphBuilder;
use crate::commands::{graph, usage};
use crate::core::integer::OverlayInt;
use crate::lines::{read, segments, Line};
use crate::passes;
use crate::split::solver::SplitSolver;
use crate::words::{settings, strategy, Settings};
use crate::Outcome;
use i_float::int::number::int::IntNumber;
use std::time::Instant;

/// The line that `bench - - STRATEGY [name=value ..]` prints: the two dashes say that lines come from standard input.
pub(crate) fn run(words: &[String]) -> Outcome<String> {
    let [number, kind, strategy_name, rest @ ..] = words else {
        return Err(usage());
    };
    let (Some(strategy), Some(mut settings)) = (strategy(strategy_name), settings(rest)) else {
        return Err(usage());
    };
    if [number, kind] != ["-", "-"] {
        return Err(usage());
    }
    settings.solver.strategy = strategy;
    let lines = read(settings.is_wide)?;
    Ok(if settings.is_wide { times::<i32>(&settings, lines) } else { times::<i16>(&settings, lines) })
}

/// The least wall times of some runs, each with a new splitter and a new builder. The lines are dropped before, and no memory
/// is kept from one run to the next: a few bytes above a run's buffers would keep their pages for the next run.
fn times<I: OverlayInt + IntNumber<Wide = i64>>(settings: &Settings, lines: Vec<Line>) -> String {
    let given = segments::<I>(&lines);
    drop(lines);
    let (mut copy, mut split, mut build) = (f64::INFINITY, f64::INFINITY, f64::INFINITY);
    let (mut pass_count, mut links, mut nodes) = (0, 0, 0);
    for _ in 0..settings.runs {
        let start = Instant::now();
        let mut segments = given.clone();
        copy = copy.min(start.elapsed().as_secs_f64());
        passes::reset();
        let start = Instant::now();
        let mut splitter = SplitSolver::new();
        splitter.split_segments(&mut segments, &settings.solver);
        split = split.min(start.elapsed().as_secs_f64());
        let start = Instant::now();
        let mut builder = GraphBuilder::new();
        let graph = graph(&mut builder, settings, &segments);
        build = build.min(start.elapsed().as_secs_f64());
        (pass_count, links, nodes) = (passes::count(), graph.links.len(), graph.nodes.len());
    }
    let facts = format!("in={} passes={pass_count} links={links} nodes={nodes}", given.len());
    format!("{facts} copy_ms={:.4} split_ms={:.4} graph_ms={:.4}\n", copy * 1e3, split * 1e3, build * 1e3)
}
