//! Random runs of the segment layer against a definition of it (`model`): the arrangement, what is reported of it, and the graph of a
//! rule, under each engine, precision, strategy, fill rule and rule. A run that differs is made smaller, and printed.

mod common;
mod model;

use common::Random;
use fadrinzo::{
    Engine, Error, Fault, FillRule, IntPoint, Overlay, OverlayRule, Precision, Rounding, RuleTable, Segment,
    ShapeCountBoolean, Solver, Strategy,
};
use model::{Count, Point, Radius, Split, TooLarge};
use std::fmt::Write as _;

const STRATEGIES: [Strategy; 4] = [Strategy::List, Strategy::Tree, Strategy::Frag, Strategy::Auto];
const FILL_RULES: [FillRule; 4] = [FillRule::EvenOdd, FillRule::NonZero, FillRule::Positive, FillRule::Negative];
const LIMITS: [u32; 6] = [256, 0, 1, 2, 3, 5];

const PRECISIONS: [Precision; 8] = [
    Precision::HIGH,
    Precision::ABSOLUTE,
    Precision::MEDIUM_HIGH,
    Precision::MEDIUM,
    Precision::MEDIUM_LOW,
    Precision::LOW,
    Precision { start: 40, progression: 7 },
    Precision { start: 0, progression: usize::MAX },
];

/// A run that takes more passes, or leaves more segments, is left out.
const MOST: (u128, usize) = (24, 160);

/// Everything that a run is given.
#[derive(Clone, Debug)]
struct Run {
    engine: Engine,
    limit: u32,
    solver: Solver,
    fill_rule: FillRule,
    rule: RuleTable,
    segments: Vec<Segment>,
}

impl Run {
    fn radius(&self) -> Radius {
        let Precision { start, progression } = self.solver.precision;
        let cap = if self.engine == Engine::I16 { 24 } else { 56 };
        Radius { start, step: progression, cap, limit: self.limit.into() }
    }

    fn given(&self) -> Vec<(Point, Point, Count)> {
        let wide = |point: IntPoint| (point.x.into(), point.y.into());
        let count = |count: ShapeCountBoolean| (count.subj.into(), count.clip.into());
        self.segments.iter().map(|it| (wide(it.a), wide(it.b), count(it.count))).collect()
    }

    /// The definition's split. None where the run is left out.
    fn split(&self) -> Option<Result<Split, TooLarge>> {
        model::split(&self.given(), &self.radius(), MOST)
    }

    /// What differs from the definition, if anything does. `splits` are splitters for each limit.
    fn difference(&self, overlays: &mut [Overlay], wanted: &Result<Split, TooLarge>) -> Option<String> {
        let place = LIMITS.iter().position(|&limit| limit == self.limit)?;
        let overlay = &mut overlays[2 * place + usize::from(self.engine == Engine::I16)];
        let split = overlay.split(&self.segments, self.solver);
        let wanted = match (wanted, split) {
            (Err(TooLarge), Err(Error::Fault(Fault::CountOutOfRange))) => return None,
            (Ok(wanted), Ok(change)) => {
                let has = (change.has_changed, u128::from(change.passes), segments_of(overlay));
                let wants = (wanted.has_changed, wanted.passes, listed(wanted));
                if has != wants {
                    return Some(format!("split: {has:?}, wanted {wants:?}"));
                }
                wanted
            }
            (wanted, split) => return Some(format!("split: {split:?}, wanted {wanted:?}")),
        };
        self.difference_of_graphs(overlay, wanted)
    }

    /// What differs in the graph.
    fn difference_of_graphs(&self, overlay: &mut Overlay, wanted: &Split) -> Option<String> {
        let (rule, fill_rule) = (OverlayRule::Table(self.rule), self.fill_rule);
        let graph = overlay.build_graph_with_solver(&self.segments, rule, fill_rule, self.solver);
        let windings = match (model::windings(&wanted.arrangement), graph) {
            (Err(TooLarge), Err(Error::Fault(Fault::CountOutOfRange))) => return None,
            (Ok(windings), Ok(graph)) => {
                let fills = windings.iter().map(|(&pair, &(bottom, top))| (pair, self.fill(bottom, top)));
                let wants = graph_of(&fills.filter(|&(_, fill)| self.keeps(fill)).collect::<Vec<_>>());
                let has = text_of(&graph);
                if has != wants {
                    return Some(format!("graph:\n{has}wanted:\n{wants}"));
                }
                windings
            }
            (wanted, graph) => return Some(format!("graph: {graph:?}, wanted {wanted:?}")),
        };
        let is_counted = |pair| model::counted_below(&wanted.arrangement, pair) == windings[&pair].0;
        (model::is_balanced(&self.given()) && !windings.keys().all(|&pair| is_counted(pair)))
            .then(|| String::from("the definition's windings are not those that are counted"))
    }

    /// Bits 0 and 1 of the subject at the top and at the bottom, bits 2 and 3 of the clip.
    fn fill(&self, bottom: Count, top: Count) -> u8 {
        let is_inside = |count: i64| match self.fill_rule {
            FillRule::EvenOdd => count % 2 != 0,
            FillRule::NonZero => count != 0,
            FillRule::Positive => count > 0,
            FillRule::Negative => count < 0,
        };
        let bits = [top.0, bottom.0, top.1, bottom.1].map(|count| u8::from(is_inside(count)));
        bits[0] | bits[1] << 1 | bits[2] << 2 | bits[3] << 3
    }

    /// Whether the rule differs on the two sides.
    fn keeps(&self, fill: u8) -> bool {
        let holds = |subject: u8, clip: u8| self.rule.bits() >> (subject + 2 * clip) & 1;
        holds(fill & 1, fill >> 2 & 1) != holds(fill >> 1 & 1, fill >> 3 & 1)
    }

    /// The same run without a segment, while it differs still.
    fn shrunk(mut self, overlays: &mut [Overlay]) -> (Run, String) {
        let differs = |run: &Run, overlays: &mut [Overlay]| run.difference(overlays, &run.split()?);
        let mut place = 0;
        while place < self.segments.len() {
            let mut smaller = self.clone();
            smaller.segments.remove(place);
            if differs(&smaller, overlays).is_some() {
                self = smaller;
            } else {
                place += 1;
            }
        }
        let said = differs(&self, overlays).unwrap_or_default();
        (self, said)
    }
}

/// The arrangement of the last call.
fn segments_of(overlay: &mut Overlay) -> Vec<(Point, Point, Count)> {
    let wide = |point: IntPoint| (point.x.into(), point.y.into());
    let segments = overlay.segments().unwrap().iter();
    segments.map(|it| (wide(it.a), wide(it.b), (it.count.subj.into(), it.count.clip.into()))).collect()
}

/// The definition's arrangement as a list.
fn listed(split: &Split) -> Vec<(Point, Point, Count)> {
    split.arrangement.iter().map(|(&(a, b), &count)| (a, b, count)).collect()
}

/// Links with the nodes at their ends, as text.
fn text_of(graph: &fadrinzo::OverlayGraph) -> String {
    let mut text = String::new();
    for link in graph.links() {
        let (a, b) = (link.a, link.b);
        let ends = [a.point.x, a.point.y, b.point.x, b.point.y];
        writeln!(text, "{ends:?} {} {} {}", link.fill, a.id, b.id).expect("text");
    }
    for node in graph.nodes() {
        let indexes = match &node {
            fadrinzo::OverlayNode::Bridge(two) => two.as_slice(),
            fadrinzo::OverlayNode::Cross(several) => several,
        };
        writeln!(text, "{indexes:?}").expect("text");
    }
    text
}

/// The same of pairs with fills, by definition: nodes are the ends in order, each with what starts there and then what ends there.
fn graph_of(kept: &[(model::Pair, u8)]) -> String {
    let mut ends: Vec<Point> = kept.iter().flat_map(|&((a, b), _)| [a, b]).collect();
    ends.sort();
    ends.dedup();
    let mut text = String::new();
    for &((a, b), fill) in kept {
        let id = |point: Point| ends.iter().position(|&end| end == point).expect("an end");
        writeln!(text, "{:?} {fill} {} {}", [a.0, a.1, b.0, b.1], id(a), id(b)).expect("text");
    }
    for point in ends {
        let at = |is_there: &dyn Fn(model::Pair) -> bool| {
            let places = kept.iter().enumerate().filter(|&(_, &(pair, _))| is_there(pair));
            places.map(|(place, _)| place).collect::<Vec<_>>()
        };
        let indexes = [at(&|pair| pair.0 == point), at(&|pair| pair.1 == point)].concat();
        writeln!(text, "{indexes:?}").expect("text");
    }
    text
}

/// One of a list, at random.
fn pick<T: Copy>(random: &mut Random, from: &[T]) -> T {
    from[random.below(from.len() as i32) as usize]
}

/// Segments on a small lattice, with counts of both shapes.
fn on_a_lattice(random: &mut Random) -> Vec<Segment> {
    let size = 2 + random.below(12);
    let scale = 1 + random.below(3);
    let count = 2 + random.below(13);
    let corner = |random: &mut Random| IntPoint::new(scale * random.below(size), random.below(size));
    let number = |random: &mut Random| random.below(5) - 2;
    (0..count)
        .map(|_| Segment {
            a: corner(random),
            b: corner(random),
            count: ShapeCountBoolean { subj: number(random), clip: number(random) },
        })
        .collect()
}

/// The sides of closed contours.
fn of_contours(random: &mut Random, span: i32) -> Vec<Segment> {
    let mut segments = Vec::new();
    for shape in [fadrinzo::ShapeType::Subject, fadrinzo::ShapeType::Clip] {
        let contour: Vec<IntPoint> = (0..3 + random.below(4))
            .map(|_| IntPoint::new(random.below(span) - span / 2, random.below(span) - span / 2))
            .collect();
        shape.push_contour(&contour, &mut segments).unwrap();
    }
    segments
}

/// A few long segments that are nearly parallel.
fn slivers(random: &mut Random, most: i32) -> Vec<Segment> {
    let count = ShapeCountBoolean { subj: 1, clip: 0 };
    let x = |random: &mut Random, side: i32| side * (most - 1 - random.below(most / 2));
    let y = |random: &mut Random| random.below(7) - 3;
    (0..2 + random.below(3))
        .map(|_| Segment {
            a: IntPoint::new(x(random, -1), y(random)),
            b: IntPoint::new(x(random, 1), y(random)),
            count,
        })
        .collect()
}

/// Segments between points beside the limits of an engine's coordinates.
fn at_the_limits(random: &mut Random, most: i32) -> Vec<Segment> {
    let coordinate = |random: &mut Random| match random.below(5) {
        0 => -most + random.below(3),
        1 => most - 1 - random.below(3),
        2 => random.below(5) - 2,
        _ => random.below(2 * (most - 1)) - most + 1,
    };
    let corner = |random: &mut Random| IntPoint::new(coordinate(random), coordinate(random));
    let count = |random: &mut Random| match random.below(8) {
        0 => i32::MAX - random.below(2),
        _ => 1,
    };
    (0..2 + random.below(6))
        .map(|_| Segment {
            a: corner(random),
            b: corner(random),
            count: ShapeCountBoolean { subj: count(random), clip: random.below(2) },
        })
        .collect()
}

/// A run of one of four kinds.
fn run(random: &mut Random, number: usize) -> Run {
    let engine = pick(random, &[Engine::I32, Engine::I16]);
    let most = if engine == Engine::I16 { 1 << 14 } else { 1 << 30 };
    let mut segments = match number % 4 {
        0 => on_a_lattice(random),
        1 => {
            let span = pick(random, &[7, 40, 2000]);
            of_contours(random, span)
        }
        2 => slivers(random, most),
        _ => at_the_limits(random, most),
    };
    segments.retain(|it| it.a != it.b && (it.count.subj, it.count.clip) != (0, 0));
    Run {
        engine,
        limit: pick(random, &LIMITS),
        solver: Solver { strategy: pick(random, &STRATEGIES), precision: pick(random, &PRECISIONS) },
        fill_rule: pick(random, &FILL_RULES),
        rule: RuleTable::new(random.below(16) as u8).expect("16 tables"),
        segments,
    }
}

/// The lines of a run, as the programs read them, but for the counts.
fn lines_of(segments: &[Segment]) -> String {
    segments.iter().fold(String::new(), |mut text, Segment { a, b, count }| {
        writeln!(text, "{} {} {} {} counts {} {}", a.x, a.y, b.x, b.y, count.subj, count.clip).expect("text");
        text
    })
}

/// What the definition leaves of segments that count 1, with the number of passes, under the precision `HIGH`.
fn split_by_definition(given: &[[i128; 4]], limit: u128) -> (Vec<([i128; 4], i64)>, u128) {
    let given: Vec<(Point, Point, Count)> =
        given.iter().map(|&[ax, ay, bx, by]| ((ax, ay), (bx, by), (1, 0))).collect();
    let radius = Radius { start: 0, step: 1, cap: 56, limit };
    let split = model::split(&given, &radius, (1000, 1000)).expect("few passes").expect("small counts");
    let left = listed(&split).into_iter().map(|((ax, ay), (bx, by), (count, _))| ([ax, ay, bx, by], count));
    (left.collect(), split.passes)
}

/// The definition itself, by rows that were worked by hand.
#[test]
fn definition_by_hand() {
    let cross = split_by_definition(&[[0, 0, 100, 1], [0, 1, 100, 0]], 256);
    let quarters = [[0, 0, 50, 1], [0, 1, 50, 1], [50, 1, 100, 0], [50, 1, 100, 1]];
    assert_eq!(cross, (quarters.map(|it| (it, 1)).to_vec(), 2));
    // halves go up, so the crossing at (1/2, -1/2) goes to (1, 0)
    let settled = split_by_definition(&[[-1, 1, 2, -2], [0, -1, 1, 0]], 0);
    assert_eq!(settled.0, [([-1, 1, 1, 0], 1), ([0, -1, 1, 0], 1), ([1, 0, 2, -2], 1)]);
    // marks of one x are passed downward where the path comes from above
    let downward = model::path_of(((0, 10), (2, 0)), &[(1, 3), (1, 7)]);
    assert_eq!(downward, [(0, 10), (1, 7), (1, 3), (2, 0)]);
    // one mark a pass, where the radius never grows
    let three = [[282, 3, 1000, 0], [143, 2, 886, 1], [164, 2, 705, 1]];
    let slow = split_by_definition(&three, 0);
    assert_eq!((slow.0.len(), slow.1), (282, 278));
    assert_eq!(split_by_definition(&three, 256).1, 4);
}

/// 200,000 runs, or as many as `RUNS` says, from the seed `SEED`.
#[test]
fn runs_are_as_defined() {
    let number = |name: &str, default: u64| std::env::var(name).map_or(default, |text| text.parse().expect("a number"));
    let (runs, seed) = (number("RUNS", 200_000), number("SEED", 1));
    let mut overlays = Vec::new();
    for limit in LIMITS {
        for engine in [Engine::I32, Engine::I16] {
            overlays
                .push(Overlay::with_snap_limit(limit).unwrap().with_rounding(Rounding::Pairwise).with_engine(engine));
        }
    }
    let (mut random, mut compared, mut refused) = (Random(seed), 0, 0);
    for number in 0..runs {
        let run = run(&mut random, number as usize);
        let Some(wanted) = run.split() else { continue };
        compared += 1;
        refused += u64::from(wanted.is_err());
        if run.difference(&mut overlays, &wanted).is_some() {
            let (run, said) = run.shrunk(&mut overlays);
            panic!(
                "run {number} of seed {seed}: {said}\n{:?}\n{}",
                Run { segments: Vec::new(), ..run },
                lines_of(&run.segments)
            );
        }
    }
    println!("{compared} of {runs} runs compared, {refused} of them refused");
    assert!(compared >= runs * 9 / 10, "only {compared} of {runs} were compared");
}
