//! Memory that is refused: each growth of each call in turn, whether the engine or this package makes it. Both take their memory
//! from the C library.
#![cfg(all(target_os = "linux", target_env = "gnu"))]

#[allow(dead_code, reason = "blocks are counted by another test")]
mod counted;

use counted::{has_refused, inside, outside, refused, Refusals};
use fadrinzo::{square, ClipRule, DataSegment, Error, Fault, FillRule, FloatError, FloatOverlay, IntPoint};
use fadrinzo::{LineSegment, Overlay, OverlayRule, Segment, ShapeType, Solver, TileProgress, TiledError, TiledOverlay};
use std::cell::Cell;
use std::fmt::Debug;
use std::sync::atomic::{AtomicUsize, Ordering};

/// Makes a call with its growth of this number refused, counted from 1, and returns whether there was such a growth.
fn refuse<T>(growth: u64, call: impl FnOnce() -> T) -> (T, bool) {
    let result = refused(Refusals { after: growth - 1, all: false }, || inside(call));
    (result, has_refused())
}

/// What a call makes, and the part of its error that is looked at.
trait Refusal: Debug {
    fn is_of_memory(&self) -> bool;
}

impl Refusal for Error {
    fn is_of_memory(&self) -> bool {
        *self == Error::Fault(Fault::Memory)
    }
}

impl Refusal for FloatError {
    fn is_of_memory(&self) -> bool {
        *self == FloatError::Overlay(Error::Fault(Fault::Memory))
    }
}

thread_local! {
    static GROWTHS: Cell<u64> = const { Cell::new(0) };
}

/// Refuses each growth of a call in turn, over a value that is made anew each time. The call returns an error of memory, or what
/// it returns where none is refused; and so it does afterwards, over the same value.
fn try_each<V, T: PartialEq + Debug, E: Refusal>(
    name: &str,
    make: impl Fn() -> V,
    mut call: impl FnMut(&mut V) -> Result<T, E>,
) {
    let wanted = call(&mut make()).unwrap();
    for growth in 1.. {
        let mut value = make();
        let (found, was_refused) = refuse(growth, || call(&mut value));
        match &found {
            Err(error) => assert!(error.is_of_memory() && was_refused, "{name}, growth {growth}: {error:?}"),
            Ok(found) => assert_eq!(*found, wanted, "{name}, growth {growth}"),
        }
        assert_eq!(call(&mut value).unwrap(), wanted, "{name}, after growth {growth}");
        if !was_refused {
            assert!(growth > 1, "{name} takes no memory");
            GROWTHS.set(GROWTHS.get() + growth - 1);
            return;
        }
    }
}

const RULE: OverlayRule = OverlayRule::Xor;
const FILL: FillRule = FillRule::NonZero;
const RULES: [OverlayRule; 3] = [OverlayRule::Union, OverlayRule::Intersect, OverlayRule::Difference];

/// Squares with crossings at whole points, and two triangles that cross at halves.
fn contours() -> [Vec<Vec<IntPoint>>; 2] {
    let square = |low, high| square(low, high).to_vec();
    let triangle = |corners: [[i32; 2]; 3]| corners.map(IntPoint::from).to_vec();
    [
        vec![square(0, 9), square(20, 30), triangle([[40, 0], [45, 5], [40, 5]])],
        vec![square(3, 6), square(25, 40), triangle([[40, 5], [45, 0], [45, 5]])],
    ]
}

fn full() -> Overlay {
    let [subject, clip] = contours();
    Overlay::with_contours(&subject, &clip).unwrap()
}

fn segments() -> Vec<Segment> {
    let mut segments = Vec::new();
    for (contours, shape_type) in contours().iter().zip([ShapeType::Subject, ShapeType::Clip]) {
        contours.iter().for_each(|contour| shape_type.push_contour(contour, &mut segments).unwrap());
    }
    segments
}

#[test]
fn each_growth_of_contours_is_refused() {
    let [subject, clip] = contours();
    try_each("with_contours", || (), |()| Overlay::with_contours(&subject, &clip)?.overlay(RULE, FILL));
    let add = |overlay: &mut Overlay| {
        overlay.clear();
        overlay.add_contour(&subject[0], ShapeType::Subject)?;
        overlay.add_polygon(&subject[1], &clip[..1], ShapeType::Subject)?;
        overlay.overlay(RULE, FILL)
    };
    try_each("add_polygon", || Overlay::new().unwrap(), add);
    try_each("overlay", full, |overlay| overlay.overlay(RULE, FILL));
    try_each("overlay_with_solver", full, |overlay| overlay.overlay_with_solver(RULE, FILL, Solver::TREE));
    try_each("overlay_by_rules", full, |overlay| overlay.overlay_by_rules(&RULES, FILL));
    try_each("overlay_shapes", full, |overlay| overlay.overlay_shapes(RULE, FILL));
    let solver = Solver::LIST;
    try_each("overlay_shapes_with_solver", full, |overlay| overlay.overlay_shapes_with_solver(RULE, FILL, solver));
    try_each("arrange", full, |overlay| {
        let mut arrangement = overlay.arrange(FILL)?;
        let contours = (arrangement.contours(RULE)?, arrangement.contours_without_collinear(RULE)?);
        Ok::<_, Error>((contours, arrangement.shapes(RULE)?, arrangement.shapes_without_collinear(RULE)?))
    });
    assert!(GROWTHS.get() > 500, "{}", GROWTHS.get());
}

#[test]
fn each_growth_of_segments_is_refused() {
    let given = segments();
    let numbered: Vec<DataSegment> =
        given.iter().zip(0..).map(|(&segment, data)| DataSegment { segment, data }).collect();
    let side = |it: &Segment| LineSegment::side(it.a, it.b);
    let line = LineSegment::line(IntPoint::new(-5, 5), IntPoint::new(35, 6));
    let lines: Vec<LineSegment> = given.iter().filter(|it| it.count.subj != 0).map(side).chain([line]).collect();
    let new = || Overlay::new().unwrap();
    let links = |graph: fadrinzo::OverlayGraph<'_>| (graph.links().to_vec(), graph.data().to_vec(), graph.node_count());
    try_each("push_contour", Vec::new, |list: &mut Vec<Segment>| {
        list.clear();
        ShapeType::Clip.push_contour(&square(0, 4), list)?;
        Ok::<_, Error>(list.len())
    });
    // what is copied out of a graph is the test's own, and no part of the call
    try_each("build_graph", new, |it| it.build_graph(&given, RULE, FILL).map(|graph| outside(|| links(graph))));
    try_each("build_graph_with_solver", new, |it| {
        it.build_graph_with_solver(&given, RULE, FILL, Solver::FRAG).map(|graph| outside(|| links(graph)))
    });
    try_each("build_graph_with_data", new, |it| {
        it.build_graph_with_data(&numbered, RULE, FILL, Solver::AUTO).map(|graph| outside(|| links(graph)))
    });
    try_each("build_contours", new, |it| it.build_contours(&given, RULE, FILL, Solver::AUTO));
    try_each("build_all", new, |it| it.build_all(&given, FILL, Solver::AUTO).map(|graph| outside(|| links(graph))));
    let clip_rule = ClipRule::default();
    try_each("build_clip", new, |it| {
        it.build_clip(&lines, clip_rule, FILL, Solver::AUTO).map(|graph| outside(|| links(graph)))
    });
    try_each("split", new, |it| {
        it.split(&given, Solver::AUTO)?;
        it.segments().map(|segments| outside(|| segments.to_vec()))
    });
    try_each("join", new, |it| {
        it.join(&given)?;
        it.segments().map(|segments| outside(|| segments.to_vec()))
    });
    try_each("lines", new, |it| {
        it.build_clip(&lines, clip_rule, FILL, Solver::AUTO)?;
        it.lines().map(|lines| outside(|| lines.to_vec()))
    });
    let polygons = &contours()[0];
    let track = [vec![IntPoint::new(-5, 5), IntPoint::new(8, 5), IntPoint::new(35, 28)], vec![IntPoint::ZERO; 2]];
    try_each("clip_lines", new, |it| it.clip_lines(polygons, &track, clip_rule, FILL));
    assert!(GROWTHS.get() > 200, "{}", GROWTHS.get());
}

#[test]
fn each_growth_of_floats_is_refused() {
    let floats = contours().map(|side| {
        let contours = side.iter().map(|it| it.iter().map(|at| [f64::from(at.x) / 4.0, f64::from(at.y) / 8.0]));
        contours.map(Iterator::collect).collect::<Vec<Vec<_>>>()
    });
    let make = || FloatOverlay::with_contours(&floats[0], &floats[1]).unwrap();
    let adapter = *make().adapter();
    try_each(
        "FloatOverlay::with_contours",
        || (),
        |()| FloatOverlay::with_contours(&floats[0], &floats[1])?.overlay(RULE, FILL),
    );
    try_each(
        "FloatOverlay::add_polygon",
        || (),
        |()| {
            let mut overlay = FloatOverlay::with_adapter(adapter)?;
            overlay.add_polygon(&floats[0][0], &floats[1][..1], ShapeType::Clip)?;
            overlay.overlay(OverlayRule::Clip, FILL)
        },
    );
    try_each("FloatOverlay::overlay", make, |overlay| overlay.overlay(RULE, FILL));
    try_each("FloatOverlay::overlay_shapes", make, |overlay| overlay.overlay_shapes(RULE, FILL));
    try_each("FloatOverlay::arrange", make, |overlay| overlay.arrange(FILL)?.shapes(RULE));
    let clip_rule = ClipRule { invert: true, boundary_included: false };
    try_each("FloatOverlay::clip_lines", make, |it| it.clip_lines(&floats[0], &floats[1], clip_rule, FILL));
}

/// A name is read and written without memory, but for the word that an error keeps.
#[test]
fn names_take_no_memory() {
    use std::fmt::Write;
    let mut text = String::with_capacity(64);
    let (read, was_refused) = refuse(1, || {
        let rule: OverlayRule = "table:11".parse().unwrap();
        write!(text, "{rule} {}", fadrinzo::Precision { start: 7, progression: usize::MAX }).unwrap();
        rule.code_of_test()
    });
    assert!(!was_refused);
    assert_eq!((read, text.as_str()), (11, "table:11 7,18446744073709551615"));
    let (unknown, was_refused) = refuse(1, || "some rule".parse::<OverlayRule>().unwrap_err());
    assert!(was_refused);
    assert!(unknown.to_string().starts_with("`` is no overlay rule; write subject"), "{unknown}");
}

/// An overlay by tiles of one thread that is refused memory names the tile, and begins no other.
#[test]
fn each_growth_of_tiles_is_refused() {
    let [subject, clip] = contours();
    let done = AtomicUsize::new(0);
    let count = |_: TileProgress| {
        done.fetch_add(1, Ordering::Relaxed);
    };
    let (mut named, mut growths) = (0, 0);
    let wanted = TiledOverlay::new(&subject, &clip).unwrap().with_tiles(4).overlay_shapes(RULE, FILL).unwrap();
    for growth in 1.. {
        done.store(0, Ordering::Relaxed);
        let (found, was_refused) = refuse(growth, || {
            let overlay = TiledOverlay::new(&subject, &clip)?.with_tiles(4).with_threads(1).with_progress(&count);
            overlay.overlay_shapes(RULE, FILL)
        });
        match &found {
            Ok(found) => assert_eq!(*found, wanted, "growth {growth}"),
            Err(TiledError { error, .. }) if !error.is_of_memory() => panic!("growth {growth}: {error:?}"),
            Err(TiledError { tile: Some(tile), .. }) => {
                let tiles = TiledOverlay::new(&subject, &clip).unwrap().with_tiles(4).tiles().unwrap();
                assert_eq!(tiles[done.load(Ordering::Relaxed)], *tile, "growth {growth}");
                named += 1;
            }
            Err(TiledError { tile: None, .. }) => {}
        }
        if !was_refused {
            growths = growth;
            break;
        }
    }
    assert!(named > 100 && growths > named, "{named} of {growths}");
}

trait CodeOfTest {
    fn code_of_test(self) -> u8;
}

impl CodeOfTest for OverlayRule {
    fn code_of_test(self) -> u8 {
        match self {
            OverlayRule::Table(table) => table.bits(),
            _ => unreachable!(),
        }
    }
}
