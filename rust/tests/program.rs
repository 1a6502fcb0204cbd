//! The same random segments through this package and through the program `arrange`, and through upstream's files: the texts are
//! the same, byte for byte.
//!
//! `ARRANGE` names the program; `rt run` leaves it in `crates/arrange/out`. `UPSTREAM` names the program that
//! `bench/upstream/build.py` makes.

mod common;

use common::Random;
use fadrinzo::{
    Engine, FillRule, IntPoint, Overlay, OverlayNode, OverlayRule, Precision, Rounding, Segment, ShapeType, Solver,
    Strategy,
};
use std::fmt::Write as _;
use std::io::Write as _;
use std::process::{Command, Stdio};

const STRATEGIES: [(&str, Strategy); 4] =
    [("list", Strategy::List), ("tree", Strategy::Tree), ("frag", Strategy::Frag), ("auto", Strategy::Auto)];

const PRECISIONS: [(&str, Precision); 6] = [
    ("absolute", Precision::ABSOLUTE),
    ("high", Precision::HIGH),
    ("medium-high", Precision::MEDIUM_HIGH),
    ("medium", Precision::MEDIUM),
    ("medium-low", Precision::MEDIUM_LOW),
    ("low", Precision::LOW),
];

const FILLS: [(&str, FillRule); 4] = [
    ("evenodd", FillRule::EvenOdd),
    ("nonzero", FillRule::NonZero),
    ("positive", FillRule::Positive),
    ("negative", FillRule::Negative),
];

const RULES: [(&str, OverlayRule); 7] = [
    ("subject", OverlayRule::Subject),
    ("clip", OverlayRule::Clip),
    ("intersect", OverlayRule::Intersect),
    ("union", OverlayRule::Union),
    ("difference", OverlayRule::Difference),
    ("inverse-difference", OverlayRule::InverseDifference),
    ("xor", OverlayRule::Xor),
];

/// The engines, each with the width of a square around the origin that it has room for.
const ENGINES: [(&str, Engine, i32); 2] = [("i32", Engine::I32, 1 << 30), ("i16", Engine::I16, 1 << 15)];

/// What the program prints of the given lines.
fn printed(words: &[String], lines: &str) -> String {
    let program = std::env::var("ARRANGE").expect("ARRANGE names the program");
    let mut child = Command::new(program)
        .args(words)
        .stdin(Stdio::piped())
        .stdout(Stdio::piped())
        .spawn()
        .expect("the program starts");
    child.stdin.take().expect("piped").write_all(lines.as_bytes()).expect("the program reads");
    let output = child.wait_with_output().expect("the program ends");
    assert!(output.status.success(), "{words:?}: {}", output.status);
    String::from_utf8(output.stdout).expect("text")
}

/// The lines that the program reads.
fn lines_of(segments: &[Segment]) -> String {
    segments.iter().fold(String::new(), |mut text, Segment { a, b, count }| {
        let letter = if count.subj == 1 { 'S' } else { 'C' };
        writeln!(text, "{letter} {} {} {} {}", a.x, a.y, b.x, b.y).expect("text");
        text
    })
}

/// The arrangement as `split` prints it.
fn split_text(overlay: &mut Overlay, segments: &[Segment], solver: Solver) -> String {
    let change = overlay.split(segments, solver).unwrap();
    let mut text = String::new();
    for Segment { a, b, count } in overlay.segments().unwrap() {
        writeln!(text, "seg {} {} {} {} {} {}", a.x, a.y, b.x, b.y, count.subj, count.clip).expect("text");
    }
    writeln!(text, "flag {}", change.has_changed).expect("text");
    writeln!(text, "passes {}", change.passes).expect("text");
    text
}

/// The graph as `graph` prints it.
fn graph_text(
    overlay: &mut Overlay,
    segments: &[Segment],
    rule: OverlayRule,
    fill: FillRule,
    solver: Solver,
) -> String {
    let graph = overlay.build_graph_with_solver(segments, rule, fill, solver).unwrap();
    let mut text = String::new();
    let mut points = vec![IntPoint::ZERO; graph.node_count()];
    for link in graph.links() {
        let ((a, b), fill) = ((link.a, link.b), link.fill);
        let ends = format!("{} {} {} {}", a.point.x, a.point.y, b.point.x, b.point.y);
        writeln!(text, "link {ends} {fill} {} {}", a.id, b.id).expect("text");
        (points[a.id], points[b.id]) = (a.point, b.point);
    }
    let (mut crosses, mut is_valid) = (0, true);
    for (point, node) in points.iter().zip(graph.nodes()) {
        let (kind, indexes) = match &node {
            OverlayNode::Bridge(two) => ("bridge", two.as_slice()),
            OverlayNode::Cross(several) => {
                crosses += 1;
                is_valid &= several.len() >= 2;
                ("cross", *several)
            }
        };
        write!(text, "node {} {} {kind}", point.x, point.y).expect("text");
        indexes.iter().for_each(|index| write!(text, " {index}").expect("text"));
        text.push('\n');
    }
    is_valid &= crosses == 0 || graph.node_count() <= graph.links().len();
    writeln!(text, "valid {is_valid}").expect("text");
    text
}

/// One of a list, at random.
fn pick<'a, T>(random: &mut Random, from: &'a [T]) -> &'a T {
    &from[random.below(from.len() as i32) as usize]
}

/// The sides of a contour of each shape, in a square of the given width around the origin.
fn sides(random: &mut Random, width: i32) -> Vec<Segment> {
    let mut segments = Vec::new();
    for shape in [ShapeType::Subject, ShapeType::Clip] {
        let corner = |random: &mut Random| random.below(width) - width / 2;
        let size = 3 + random.below(60);
        let contour: Vec<IntPoint> = (0..size).map(|_| IntPoint::new(corner(random), corner(random))).collect();
        shape.push_contour(&contour, &mut segments).unwrap();
    }
    segments
}

#[test]
#[ignore = "needs the program `arrange`, which ARRANGE names"]
fn package_and_program_agree() {
    let mut overlay = Overlay::new().unwrap().with_rounding(Rounding::Pairwise);
    let mut random = Random(11);
    for round in 0..300 {
        let engine = *pick(&mut random, &ENGINES);
        overlay = overlay.with_engine(engine.1);
        let segments = {
            let width = *pick(&mut random, &[6, 40, 2000, engine.2]);
            sides(&mut random, width)
        };
        let (strategy, precision) = (*pick(&mut random, &STRATEGIES), *pick(&mut random, &PRECISIONS));
        let (fill, rule) = (*pick(&mut random, &FILLS), *pick(&mut random, &RULES));
        let solver = Solver { strategy: strategy.1, precision: precision.1 };
        let chosen = [
            ("engine", engine.0),
            ("strategy", strategy.0),
            ("precision", precision.0),
            ("fill", fill.0),
            ("rule", rule.0),
        ];
        let words = |command: &str| {
            let settings = chosen.iter().map(|(name, value)| format!("{name}={value}"));
            std::iter::once(command.to_string()).chain(settings).collect::<Vec<_>>()
        };
        let lines = lines_of(&segments);
        let split = split_text(&mut overlay, &segments, solver);
        assert_eq!(split, printed(&words("split"), &lines), "round {round}, {chosen:?}:\n{lines}");
        let graph = graph_text(&mut overlay, &segments, rule.1, fill.1, solver);
        assert_eq!(graph, printed(&words("graph"), &lines), "round {round}, {chosen:?}:\n{lines}");
    }
}

/// What upstream's program prints of many runs.
fn printed_by_upstream(runs: &str) -> String {
    let program = std::env::var("UPSTREAM").expect("UPSTREAM names the program");
    let mut child = Command::new(program)
        .arg("runs")
        .stdin(Stdio::piped())
        .stdout(Stdio::piped())
        .spawn()
        .expect("the program starts");
    child.stdin.take().expect("piped").write_all(runs.as_bytes()).expect("the program reads");
    let output = child.wait_with_output().expect("the program ends");
    assert!(output.status.success(), "{}: {runs}", output.status);
    String::from_utf8(output.stdout).expect("text")
}

/// 2 to 14 segments: on a small lattice, of contours, nearly parallel, or between points at the limits of an engine.
fn few_segments(random: &mut Random, width: i32) -> Vec<Segment> {
    let kind = random.below(4);
    let span = *pick(random, &[3, 6, 12, 40, 2000]);
    let far = width / 2 - 1;
    let coordinate = |random: &mut Random| match (kind, random.below(4)) {
        (3, 0) => far - random.below(3),
        (3, 1) => -far + random.below(3),
        (3, 2) => random.below(5) - 2,
        (3, _) => random.below(width - 2) - far,
        _ => random.below(span) - span / 2,
    };
    let mut segments: Vec<Segment> = Vec::new();
    for _ in 0..2 + random.below(13) {
        let a = match (kind, segments.last()) {
            (1, Some(last)) => last.b,
            (2, _) => IntPoint::new(random.below(2000) - 2000, random.below(7) - 3),
            _ => IntPoint::new(coordinate(random), coordinate(random)),
        };
        let b = match kind {
            2 => IntPoint::new(random.below(2000), random.below(7) - 3),
            _ => IntPoint::new(coordinate(random), coordinate(random)),
        };
        let shape = if random.below(2) == 0 { ShapeType::Subject } else { ShapeType::Clip };
        segments.push(Segment { a, b, count: shape.direct_count() });
    }
    segments.truncate(if kind == 2 { 4 } else { 14 });
    segments.retain(|it| it.a != it.b);
    segments
}

/// The words of a run, each with what it stands for here.
#[derive(Clone, Copy, Debug)]
struct Words {
    engine: (&'static str, Engine, i32),
    strategy: (&'static str, Strategy),
    precision: (&'static str, Precision),
    fill: (&'static str, FillRule),
    rule: (&'static str, OverlayRule),
}

impl Words {
    fn at_random(random: &mut Random) -> Words {
        Words {
            engine: *pick(random, &ENGINES),
            strategy: *pick(random, &STRATEGIES),
            precision: *pick(random, &PRECISIONS),
            fill: *pick(random, &FILLS),
            rule: *pick(random, &RULES),
        }
    }

    /// The lines of a run, as upstream's program reads it among others.
    fn lines(&self, segments: &[Segment]) -> String {
        let Words { engine, strategy, precision, fill, rule } = self;
        let words = format!(
            "engine={} strategy={} precision={} fill={} rule={}",
            engine.0, strategy.0, precision.0, fill.0, rule.0
        );
        format!("{words}\n{}\n", lines_of(segments))
    }

    /// What is wanted of upstream, or `None` where the run is left out: because it takes 256 passes, or leaves at most four
    /// segments under a tree or a grid.
    fn wanted(&self, segments: &[Segment]) -> Option<String> {
        let mut overlay = Overlay::new().unwrap().with_rounding(Rounding::Pairwise).with_engine(self.engine.1);
        let solver = Solver { strategy: self.strategy.1, precision: self.precision.1 };
        let passes = overlay.split(segments, solver).unwrap().passes;
        let is_listed = matches!(self.strategy.1, Strategy::List | Strategy::Auto);
        let left = overlay.segments().unwrap().len();
        if passes >= 256 || left >= 4000 || !(is_listed || left > 4) {
            return None;
        }
        let split = split_text(&mut overlay, segments, solver);
        Some(split + &graph_text(&mut overlay, segments, self.rule.1, self.fill.1, solver) + "end\n")
    }

    /// Whether upstream's program prints something else of the run.
    fn differs(&self, segments: &[Segment]) -> bool {
        self.wanted(segments).is_some_and(|wanted| printed_by_upstream(&self.lines(segments)) != wanted)
    }

    /// Fewer segments of a run that differs, none of which can be left out.
    fn shrunk(&self, mut segments: Vec<Segment>) -> Vec<Segment> {
        let without = |segments: &[Segment], index| {
            let mut fewer = segments.to_vec();
            fewer.remove(index);
            fewer
        };
        while let Some(fewer) =
            (0..segments.len()).map(|index| without(&segments, index)).find(|fewer| self.differs(fewer))
        {
            segments = fewer;
        }
        segments
    }
}

/// 100,000 runs, or as many as `RUNS` says, from the seed `SEED`. A run that differs is shrunk, and printed as input lines.
#[test]
#[ignore = "needs the program of bench/upstream, which UPSTREAM names"]
fn package_and_upstream_agree() {
    let number = |name: &str, default: u64| std::env::var(name).map_or(default, |text| text.parse().expect("a number"));
    let (runs, mut random) = (number("RUNS", 100_000), Random(number("SEED", 1)));
    let (mut compared, chunk) = (0, 500);
    for _ in 0..runs.div_ceil(chunk) {
        let mut given = Vec::new();
        for _ in 0..chunk {
            let words = Words::at_random(&mut random);
            let segments = few_segments(&mut random, words.engine.2);
            given.extend(words.wanted(&segments).map(|wanted| (words, segments, wanted)));
        }
        compared += given.len();
        let lines: String = given.iter().map(|(words, segments, _)| words.lines(segments)).collect();
        let printed = printed_by_upstream(&lines);
        let mut texts = printed.split_inclusive("end\n");
        for (words, segments, wanted) in given {
            if texts.next() != Some(wanted.as_str()) {
                let fewer = words.shrunk(segments);
                let (lines, wanted) = (words.lines(&fewer), words.wanted(&fewer));
                panic!("{lines}\nhere:\n{}\nupstream:\n{}", wanted.unwrap_or_default(), printed_by_upstream(&lines));
            }
        }
    }
    println!("{compared} of {runs} runs compared");
    assert!(compared as u64 >= runs * 7 / 10, "only {compared} were compared");
}
