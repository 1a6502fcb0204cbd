//! The exports of the archive below the package, in random sequences of calls: records and codes of any value, empty lists from a
//! null pointer, and growths that are refused. Each status is known beforehand. What a call leaves is what it leaves in an engine of
//! its own, and in the end no memory is kept.

mod common;
mod counted;
#[allow(dead_code, reason = "the crossing of two segments has conditions, so it takes no wild records")]
#[path = "../src/ffi.rs"]
mod ffi;
#[allow(dead_code, reason = "the rest of the package pushes too")]
#[path = "../src/memory.rs"]
mod memory;

use common::Random;
use counted::{blocks, Refusals};
use fadrinzo::{
    DataSegment, Fault, IntContour, IntPoint, IntShape, LineSegment, OverlayLink, Segment, ShapeCountBoolean, Tile,
};
use ffi::{Engine, Settings};

/// A call of an export, with all that it is given.
#[derive(Debug)]
enum Call {
    Overlay { given: Vec<Segment>, settings: Settings, rule: u8, walks: bool },
    OverlayWithData { given: Vec<DataSegment>, settings: Settings, rule: u8 },
    Split { given: Vec<Segment>, settings: Settings },
    All { given: Vec<Segment>, settings: Settings },
    Join { given: Vec<Segment>, width: u8 },
    Clip { given: Vec<LineSegment>, settings: Settings, invert: bool, boundary_included: bool },
    AddContour { contour: IntContour, shape: u8, tile: Option<Tile> },
    Given { shape: u8 },
    Polygons { settings: Settings, rule: u8 },
    Shapes { settings: Settings, rule: u8 },
    Clear,
}

/// Everything that a call leaves to be read.
#[derive(Debug, Default, PartialEq)]
struct Left {
    segments: Vec<Segment>,
    lines: Vec<LineSegment>,
    links: Vec<OverlayLink>,
    data: Vec<u64>,
    nodes: (Vec<usize>, Vec<usize>),
    walks: Option<(Vec<usize>, Vec<usize>)>,
    has_changed: Option<bool>,
    passes: Option<u64>,
    contours: Vec<IntContour>,
    shapes: Vec<IntShape>,
    report: Option<(u128, u128)>,
}

impl Call {
    /// Makes the call, with room for the links that it writes. Returns its status.
    fn make(&self, engine: &mut Engine, links: &mut Vec<OverlayLink>) -> u8 {
        counted::inside(|| match self {
            Call::Overlay { given, settings, rule, walks } => engine.overlay(given, settings, *rule, *walks),
            Call::OverlayWithData { given, settings, rule } => engine.overlay_with_data(given, settings, *rule),
            Call::Split { given, settings } => engine.split(given, settings),
            Call::All { given, settings } => engine.all(given, settings, links),
            Call::Join { given, width } => engine.join(given, *width),
            Call::Clip { given, settings, invert, boundary_included } => {
                engine.clip(given, settings, *invert, *boundary_included)
            }
            Call::AddContour { contour, shape, tile } => add(engine, contour, *shape, tile),
            Call::Given { shape } => engine.given(*shape),
            Call::Polygons { settings, rule } => engine.polygons(settings, *rule),
            Call::Shapes { settings, rule } => engine.shapes_of_polygons(settings, *rule),
            Call::Clear => {
                engine.clear();
                0
            }
        })
    }

    /// Whether the engine has to refuse what it is given.
    fn is_refused(&self) -> bool {
        let is_bad = |it: &Segment, settings: u8| {
            let ShapeCountBoolean { subj, clip } = it.count;
            let is_counted = subj != i32::MIN && clip != i32::MIN && (subj, clip) != (0, 0);
            are_bad_ends(it.a, it.b, settings) || !is_counted
        };
        match self {
            Call::Overlay { given, settings, .. } | Call::Split { given, settings } | Call::All { given, settings } => {
                given.iter().any(|it| is_bad(it, settings.engine))
            }
            Call::OverlayWithData { given, settings, .. } => {
                given.iter().any(|it| is_bad(&it.segment, settings.engine))
            }
            Call::Join { given, width } => given.iter().any(|it| is_bad(it, *width)),
            Call::Clip { given, settings, .. } => given.iter().any(|it| {
                let is_counted = it.subj != i32::MIN && it.mask < 4 && (it.subj, it.mask) != (0, 0);
                are_bad_ends(it.a, it.b, settings.engine) || !is_counted
            }),
            Call::AddContour { contour, .. } => contour.iter().any(|&point| is_out_of_range(point, 0)),
            Call::Given { .. } | Call::Polygons { .. } | Call::Shapes { .. } | Call::Clear => false,
        }
    }

    /// What the call has left, by the sizes that the engine reports, and the links that it wrote.
    fn left(&self, Kept { engine, links, .. }: &mut Kept) -> Left {
        let mut left = Left::default();
        let sizes = engine.sizes();
        match self {
            Call::Overlay { .. }
            | Call::OverlayWithData { .. }
            | Call::Split { .. }
            | Call::All { .. }
            | Call::Join { .. } => {
                engine.copy_segments(&mut left.segments).unwrap();
            }
            Call::Clip { .. } => engine.copy_lines(&mut left.lines).unwrap(),
            Call::AddContour { .. } | Call::Clear => {}
            Call::Given { .. } => left.contours = engine.contours().unwrap(),
            Call::Polygons { .. } | Call::Shapes { .. } => {
                left.contours = engine.contours().unwrap();
                left.shapes = engine.shapes().unwrap();
                let report = engine.report();
                left.report = Some((report.passes.number(), report.reach.number()));
            }
        }
        if matches!(self, Call::Overlay { .. } | Call::OverlayWithData { .. } | Call::All { .. } | Call::Clip { .. }) {
            engine.copy_nodes(&mut left.nodes.0, &mut left.nodes.1).unwrap();
        }
        match self {
            Call::All { .. } => left.links.clone_from(links),
            Call::Overlay { .. } | Call::OverlayWithData { .. } | Call::Clip { .. } => {
                engine.copy_links(&mut left.links).unwrap()
            }
            _ => {}
        }
        if matches!(self, Call::Split { .. } | Call::Join { .. }) {
            left.has_changed = Some(sizes.has_changed);
        }
        if matches!(self, Call::Overlay { .. } | Call::OverlayWithData { .. } | Call::Split { .. } | Call::All { .. }) {
            left.passes = Some(sizes.passes);
        }
        if matches!(self, Call::OverlayWithData { .. }) {
            engine.copy_link_data(&mut left.data).unwrap();
        }
        if matches!(self, Call::Overlay { walks: true, .. }) && sizes.has_walks {
            let walks = left.walks.insert(Default::default());
            engine.copy_walks(&mut walks.0, &mut walks.1).unwrap();
        }
        left
    }
}

fn is_out_of_range(point: IntPoint, engine: u8) -> bool {
    let most = if engine == 0 { 1 << 30 } else { 1 << 14 };
    [point.x, point.y].iter().any(|number| !(-most..most).contains(number))
}

/// Adds a contour, or what a tile has of it.
fn add(engine: &mut Engine, contour: &[IntPoint], shape: u8, tile: &Option<Tile>) -> u8 {
    match tile {
        Some(tile) => engine.add_contour_in_tile(contour, shape, tile),
        None => engine.add_contour(contour, shape),
    }
}

fn are_bad_ends(a: IntPoint, b: IntPoint, engine: u8) -> bool {
    a == b || is_out_of_range(a, engine) || is_out_of_range(b, engine)
}

/// An engine, and the contours that it was given.
struct Kept {
    engine: Engine,
    /// Room for the links that a call writes.
    links: Vec<OverlayLink>,
    contours: Vec<(IntContour, u8, Option<Tile>)>,
    snap_limit: u32,
}

impl Kept {
    fn new(snap_limit: u32) -> Kept {
        let engine = counted::inside(|| Engine::new(snap_limit)).expect("memory");
        Kept { engine, links: Vec::with_capacity(1 << 16), contours: Vec::new(), snap_limit }
    }

    /// Makes a call, first with growths that are refused, and compares what it leaves with what it leaves in another engine.
    fn make(&mut self, call: &Call, refusals: Option<Refusals>) -> u8 {
        let mut other = Kept::new(self.snap_limit);
        for (contour, shape, tile) in &self.contours {
            let added = counted::inside(|| add(&mut other.engine, contour, *shape, tile));
            assert_eq!(added, 0);
        }
        let wanted = call.make(&mut other.engine, &mut other.links);
        let may_overflow = !matches!(call, Call::AddContour { .. } | Call::Given { .. } | Call::Clear);
        let is_known = match (call.is_refused(), call) {
            (true, Call::AddContour { .. }) => wanted == 4,
            (true, _) => wanted == 3,
            (false, _) => wanted == 0 || wanted == 2 && may_overflow,
        };
        assert!(is_known, "status {wanted} of {call:?}");
        let is_added = refusals.is_some_and(|refusals| self.try_refused(call, refusals, wanted));
        if !is_added {
            self.make_alone(call, wanted, &mut other);
        }
        other.drop_engine();
        wanted
    }

    /// Makes a call of which growths are refused. Returns whether it added a contour, since none was.
    fn try_refused(&mut self, call: &Call, refusals: Refusals, wanted: u8) -> bool {
        let status = counted::refused(refusals, || call.make(&mut self.engine, &mut self.links));
        let has_refused = counted::has_refused();
        // a call may do without what it was refused: a tree serves where there is no grid
        assert!(status == wanted || has_refused && status == 1, "status {status}, {refusals:?}: {call:?}");
        let is_added = matches!(call, Call::AddContour { .. }) && status == 0;
        if is_added {
            self.note(call, status);
        }
        is_added
    }

    /// Makes a call, and compares what it leaves with what it left in another engine.
    fn make_alone(&mut self, call: &Call, wanted: u8, other: &mut Kept) {
        let status = call.make(&mut self.engine, &mut self.links);
        assert_eq!(status, wanted, "the same call in an engine that was used before: {call:?}");
        if status == 0 {
            assert_eq!(call.left(self), call.left(other), "{call:?}");
        }
        self.note(call, status);
    }

    /// Notes the contours that the engine has after a call.
    fn note(&mut self, call: &Call, status: u8) {
        match call {
            Call::AddContour { contour, shape, tile } if status == 0 => {
                self.contours.push((contour.clone(), *shape, *tile));
            }
            Call::Clear => self.contours.clear(),
            _ => {}
        }
    }

    fn drop_engine(self) {
        counted::inside(|| drop(self.engine));
    }
}

/// A number that is small, or anything.
fn coordinate(random: &mut Random, span: i32) -> i32 {
    match random.below(400) {
        0 => *[i32::MIN, i32::MAX, 1 << 30, -(1 << 30), (1 << 30) - 1].get(random.below(5) as usize).unwrap_or(&0),
        _ => random.below(span) - span / 3,
    }
}

fn point(random: &mut Random, span: i32) -> IntPoint {
    IntPoint::new(coordinate(random, span), coordinate(random, span))
}

fn count(random: &mut Random) -> i32 {
    match random.below(60) {
        0 => i32::MIN,
        1 => i32::MAX,
        2 => 0,
        number => number % 5 - 2,
    }
}

fn segment(random: &mut Random, span: i32) -> Segment {
    let mut segment = Segment {
        a: point(random, span),
        b: point(random, span),
        count: ShapeCountBoolean { subj: count(random), clip: count(random) },
    };
    if random.below(50) > 0 {
        // mostly segments that may be split
        segment.b.x += i32::from(segment.a == segment.b);
        segment.count.subj += i32::from((segment.count.subj, segment.count.clip) == (0, 0));
    }
    segment
}

fn segments(random: &mut Random) -> Vec<Segment> {
    let span = 3 + random.below(30);
    (0..random.below(9)).map(|_| segment(random, span)).collect()
}

/// A code: mostly one that names something.
fn code(random: &mut Random, names: i32) -> u8 {
    match random.below(8) {
        0 => random.below(256) as u8,
        _ => random.below(names) as u8,
    }
}

fn settings(random: &mut Random) -> Settings {
    let exponent = |random: &mut Random| match random.below(6) {
        0 => usize::MAX - random.below(2) as usize,
        number => number as usize,
    };
    Settings {
        start: exponent(random),
        progression: 1 + exponent(random) / 2,
        strategy: code(random, 4),
        fill_rule: code(random, 4),
        engine: code(random, 2),
        rounding: code(random, 2),
    }
}

fn call(random: &mut Random) -> Call {
    let rule = code(random, 32);
    match random.below(13) {
        0 => Call::Overlay { given: segments(random), settings: settings(random), rule, walks: random.below(2) == 0 },
        1 => {
            let given = segments(random);
            let data = |random: &mut Random| random.below(4) as u64;
            let given = given.into_iter().map(|segment| DataSegment { segment, data: data(random) }).collect();
            Call::OverlayWithData { given, settings: settings(random), rule }
        }
        2 => Call::Split { given: segments(random), settings: settings(random) },
        3 => Call::All { given: segments(random), settings: settings(random) },
        4 => Call::Join { given: segments(random), width: code(random, 2) },
        5 => {
            let mask = |random: &mut Random| random.below(9).min(4) as u8 % 5;
            let line = |random: &mut Random, it: Segment| {
                let (subj, mask) = if random.below(3) == 0 { (it.count.subj, 0) } else { (0, mask(random)) };
                LineSegment { a: it.a, b: it.b, subj, mask }
            };
            let given = segments(random).into_iter().map(|it| line(random, it)).collect();
            let (invert, boundary_included) = (random.below(2) == 0, random.below(2) == 0);
            Call::Clip { given, settings: settings(random), invert, boundary_included }
        }
        6..=8 => {
            let span = 3 + random.below(20);
            let contour = (0..random.below(7)).map(|_| point(random, span)).collect();
            let tile = Tile::new(point(random, span), point(random, span));
            Call::AddContour { contour, shape: code(random, 2), tile }
        }
        9 => Call::Polygons { settings: settings(random), rule },
        10 => Call::Shapes { settings: settings(random), rule },
        11 => Call::Given { shape: code(random, 2) },
        _ if random.below(6) == 0 => Call::Clear,
        _ => Call::Polygons { settings: settings(random), rule },
    }
}

/// Which growths of a call are refused: none, one, or all from one on.
fn refusals(random: &mut Random) -> Option<Refusals> {
    (random.below(3) == 0).then(|| Refusals { after: random.below(24) as u64, all: random.below(2) == 0 })
}

/// 200,000 sequences of up to ten calls, or as many as `RUNS` says, from the seed `SEED`; a third of the calls with refused growths.
#[test]
fn sequences_of_calls() {
    let number = |name: &str, default: u64| std::env::var(name).map_or(default, |text| text.parse().expect("a number"));
    let mut random = Random(number("SEED", 1));
    let mut done = [0_u64; 5];
    for _ in 0..number("RUNS", 200_000) {
        let mut kept = Kept::new([256, 0, 1, 3][random.below(4) as usize]);
        for _ in 0..=random.below(10) {
            let (call, refusals) = (call(&mut random), refusals(&mut random));
            done[usize::from(kept.make(&call, refusals))] += 1;
        }
        kept.drop_engine();
        assert_eq!(blocks(), 0, "blocks of memory are kept");
    }
    println!("{done:?} calls by status, {} growths refused", counted::refused_growths());
    assert!(done[0] > 10 * done[2] && [2, 3, 4].iter().all(|&status| done[status] > 0));
}

/// A null pointer is an empty list.
#[test]
fn null_is_an_empty_list() {
    #[repr(C)]
    struct Handle(*mut u8);
    #[allow(clashing_extern_declarations, reason = "the package declares its own handle")]
    extern "C" {
        fn overlay_c_new(handle: &mut Handle, snap_limit: u32) -> bool;
        fn overlay_c_free(handle: &mut Handle);
        fn overlay_c_split(handle: &mut Handle, given: *const Segment, given_len: usize, settings: &Settings) -> u8;
        fn overlay_c_join(handle: &mut Handle, given: *const Segment, given_len: usize, width: u8) -> u8;
        fn overlay_c_add_contour(handle: &mut Handle, contour: *const IntPoint, contour_len: usize, shape: u8) -> u8;
        fn overlay_c_segments(handle: &mut Handle, out: *mut Segment, out_len: usize);
    }
    let settings = Settings { start: 0, progression: 1, strategy: 3, fill_rule: 1, engine: 0, rounding: 0 };
    let mut handle = Handle(std::ptr::null_mut());
    // SAFETY: the handle is empty before `new` and full after it, and each list has no elements.
    unsafe {
        assert!(overlay_c_new(&mut handle, 256));
        assert_eq!(overlay_c_split(&mut handle, std::ptr::null(), 0, &settings), 0);
        assert_eq!(overlay_c_join(&mut handle, std::ptr::null(), 0, 0), 0);
        assert_eq!(overlay_c_add_contour(&mut handle, std::ptr::null(), 0, 0), 0);
        overlay_c_segments(&mut handle, std::ptr::null_mut(), 0);
        overlay_c_free(&mut handle);
    }
    assert!(handle.0.is_null());
}
