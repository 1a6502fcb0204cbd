//! The commands, and the text that they print.

use crate::bench;
use crate::build::builder::GraphBuilder;
use crate::core::graph::{OverlayGraph, OverlayNode};
use crate::core::integer::OverlayInt;
use crate::core::overlay::IntOverlayOptions;
use crate::lines::{read, segments, BooleanSegment, Line};
use crate::passes;
use crate::runs;
use crate::segm::boolean::ShapeCountBoolean;
use crate::segm::merge::ShapeSegmentsMerge;
use crate::segm::sort::ShapeSegmentsSort;
use crate::split::solver::SplitSolver;
use crate::split::{meeting, Meeting};
use crate::words::{settings, Settings};
use crate::{Outcome, Stop};
use i_float::int::number::int::IntNumber;
use std::fmt::Write;

const USAGE: &str = "usage: arrange join|cross|split|graph [name=value ..]
       arrange bench - - list|tree|frag|auto [name=value ..]
       arrange runs";

pub(crate) fn usage() -> Stop {
    Stop(2, USAGE.to_string())
}

/// What the words of a command line print.
pub(crate) fn run(words: &[String]) -> Outcome<String> {
    let (command, rest) = words.split_first().ok_or_else(usage)?;
    match command.as_str() {
        "bench" => bench::run(rest),
        "runs" if rest.is_empty() => runs::run(),
        "join" | "cross" | "split" | "graph" => {
            let settings = settings(rest).ok_or_else(usage)?;
            let lines = read(settings.is_wide)?;
            if settings.is_wide {
                text::<i32>(command, &settings, &lines)
            } else {
                text::<i16>(command, &settings, &lines)
            }
        }
        _ => Err(usage()),
    }
}

pub(crate) fn text<I>(command: &str, settings: &Settings, lines: &[Line]) -> Outcome<String>
where
    I: OverlayInt + IntNumber<Wide = i64, WideUInt = u64>,
{
    let mut segments = segments::<I>(lines);
    passes::reset();
    Ok(match command {
        "join" => {
            segments.sort_by_ab(false);
            let flag = segments.merge_if_needed_with_store(&mut ());
            segments_text(&segments, flag)
        }
        "cross" => cross_text(segments, settings.radius)?,
        "split" => {
            let flag = SplitSolver::new().split_segments(&mut segments, &settings.solver);
            segments_text(&segments, flag) + &format!("passes {}\n", passes::count())
        }
        _ => {
            SplitSolver::new().split_segments(&mut segments, &settings.solver);
            graph_text(&graph(&mut GraphBuilder::new(), settings, &segments))
        }
    })
}

/// The graph of an arrangement: of all links, or of those that the overlay rule keeps.
pub(crate) fn graph<'a, I: OverlayInt>(
    builder: &'a mut GraphBuilder<ShapeCountBoolean, OverlayNode, I>,
    settings: &Settings,
    segments: &[BooleanSegment<I>],
) -> OverlayGraph<'a, I> {
    let (fill, options, solver) = (settings.fill, IntOverlayOptions::default(), &settings.solver);
    match settings.rule {
        None => builder.build_boolean_all(fill, options, solver, segments),
        Some(rule) => builder.build_boolean_overlay(fill, rule, options, solver, segments),
    }
}

fn cross_text<I>(mut segments: Vec<BooleanSegment<I>>, radius: u64) -> Outcome<String>
where
    I: OverlayInt + IntNumber<Wide = i64, WideUInt = u64>,
{
    segments.sort_by_ab(false);
    let [target, other] = &segments[..] else {
        return Err(Stop(2, "cross needs two segments".to_string()));
    };
    Ok(match meeting(&target.x_segment, &other.x_segment, radius) {
        Meeting::None => "none\n".to_string(),
        Meeting::Overlay(mask) => format!("overlay {mask}\n"),
        Meeting::Point(kind, point, is_rounded) => {
            let word = if is_rounded { "rounded" } else { "exact" };
            format!("{kind} {:?} {:?} {word}\n", point.x, point.y)
        }
    })
}

fn segments_text<I: OverlayInt>(segments: &[BooleanSegment<I>], flag: bool) -> String {
    let mut text = String::new();
    for segment in segments {
        let (a, b, count) = (segment.x_segment.a, segment.x_segment.b, segment.count);
        let _ = writeln!(text, "seg {:?} {:?} {:?} {:?} {} {}", a.x, a.y, b.x, b.y, count.subj, count.clip);
    }
    text + &format!("flag {flag}\n")
}

fn graph_text<I: OverlayInt>(graph: &OverlayGraph<'_, I>) -> String {
    let mut text = String::new();
    for link in graph.links {
        let (a, b) = (link.a, link.b);
        let points = (a.point.x, a.point.y, b.point.x, b.point.y);
        let _ = write!(text, "link {:?} {:?} {:?} {:?}", points.0, points.1, points.2, points.3);
        let _ = writeln!(text, " {} {} {}", link.fill, a.id, b.id);
    }
    let mut is_valid = true;
    for (id, node) in graph.nodes.iter().enumerate() {
        let (kind, links): (_, &[usize]) = match node {
            OverlayNode::Bridge(links) => ("bridge", links),
            OverlayNode::Cross(links) => ("cross", links),
        };
        is_valid &= kind == "bridge" || links.len() > 1 && graph.nodes.len() <= graph.links.len();
        let first = &graph.links[links[0]];
        let point = if first.a.id == id { first.a.point } else { first.b.point };
        let _ = write!(text, "node {:?} {:?} {kind}", point.x, point.y);
        for link in links {
            let _ = write!(text, " {link}");
        }
        text.push('\n');
    }
    text + &format!("valid {is_valid}\n")
}
