//! Joins the parts of tiles along the lines between them, in time that is linear but for sorts of what lies on these lines. Plain
//! Rust, tested against the proved overlay of the parts.
//!
//! The contours of parts are cut into chains at each of their points on a line between tiles, and where two of them meet. Edges along
//! such a line are cut at all ends of chains on it, and those that run against one another are taken away together. Then each chain that
//! comes to a node is led on by the next one clockwise, which has the same sector of the region on its left.

use crate::memory::{collect, extend, push, reserve};
use crate::{doubled_area, Axis, Fault, IntContour, IntPoint, IntShape, Tile};
use std::cmp::{Ordering, Reverse};

/// The borders of a tile that are borders of other tiles too.
#[derive(Clone, Copy, Debug)]
pub(crate) struct Seams {
    x: [Option<i32>; 2],
    y: [Option<i32>; 2],
}

impl Seams {
    /// Those of a tile that are none of the tile around all.
    pub fn new(tile: &Tile, whole: &Tile) -> Seams {
        let of = |axis| {
            let ((low, high), (least, greatest)) = (tile.borders(axis), whole.borders(axis));
            [(low != least).then_some(low), (high != greatest).then_some(high)]
        };
        Seams { x: of(Axis::X), y: of(Axis::Y) }
    }

    pub fn have(&self, point: &IntPoint) -> bool {
        self.x.contains(&Some(point.x)) || self.y.contains(&Some(point.y))
    }

    /// The line along which an edge runs, if it runs along one.
    fn line_of(&self, a: IntPoint, b: IntPoint) -> Option<Line> {
        if a.x == b.x && self.x.contains(&Some(a.x)) {
            Some(Line { axis: Axis::Y, at: a.x })
        } else if a.y == b.y && self.y.contains(&Some(a.y)) {
            Some(Line { axis: Axis::X, at: a.y })
        } else {
            None
        }
    }
}

/// A line that runs along an axis: its points have one coordinate of the other axis.
#[derive(Clone, Copy, Debug, PartialEq, Eq, PartialOrd, Ord)]
struct Line {
    axis: Axis,
    at: i32,
}

impl Line {
    fn point(self, along: i32) -> IntPoint {
        match self.axis {
            Axis::X => IntPoint::new(along, self.at),
            Axis::Y => IntPoint::new(self.at, along),
        }
    }

    fn along(self, point: IntPoint) -> i32 {
        match self.axis {
            Axis::X => point.x,
            Axis::Y => point.y,
        }
    }

    /// The line of this axis through a point, and where the point lies on it.
    fn through(axis: Axis, point: IntPoint) -> (Line, i32) {
        match axis {
            Axis::X => (Line { axis, at: point.y }, point.x),
            Axis::Y => (Line { axis, at: point.x }, point.y),
        }
    }
}

/// The shapes of a tile that have points on its seams, and the other points at which two of their contours meet, in order.
#[derive(Debug)]
pub(crate) struct Reaching {
    pub seams: Seams,
    pub shapes: Vec<IntShape>,
    meetings: Vec<IntPoint>,
}

impl Reaching {
    pub fn new(seams: Seams, shapes: Vec<IntShape>) -> Result<Reaching, Fault> {
        let mut points = collect(shapes.iter().flatten().flatten().copied())?;
        points.sort_unstable();
        let twice = points.windows(2).filter(|pair| pair[0] == pair[1]).map(|pair| pair[0]);
        let meetings = collect(twice)?;
        Ok(Reaching { seams, shapes, meetings })
    }

    fn is_node(&self, point: &IntPoint) -> bool {
        self.seams.have(point) || (!self.meetings.is_empty() && self.meetings.binary_search(point).is_ok())
    }
}

/// A way from one node to another, and the shape of a tile that it belongs to.
#[derive(Clone, Copy)]
struct Chain {
    shape: usize,
    way: Way,
}

#[derive(Clone, Copy)]
enum Way {
    /// So many edges of a contour that is cut, from a point on.
    Through { contour: usize, from: usize, edges: usize },
    /// One edge along a seam.
    Along([IntPoint; 2]),
}

/// An edge along a seam, from its lower end to its upper one, or back.
#[derive(Clone, Copy)]
struct Side {
    line: Line,
    ends: [i32; 2],
    is_upward: bool,
    shape: usize,
}

/// Shapes that are joined: of each the number of one that it is joined with.
struct Classes(Vec<usize>);

impl Classes {
    fn of(&mut self, mut shape: usize) -> usize {
        while self.0[shape] != shape {
            self.0[shape] = self.0[self.0[shape]];
            shape = self.0[shape];
        }
        shape
    }

    fn join(&mut self, one: usize, other: usize) {
        let (one, other) = (self.of(one), self.of(other));
        self.0[one.max(other)] = one.min(other);
    }
}

/// A contour of a joined shape, with what its order is by: its shape, its least point, and twice its area.
struct Joined {
    class: usize,
    least: IntPoint,
    size: Reverse<u128>,
    contour: IntContour,
}

/// What is joined, while it is.
struct Joining {
    /// The contours that are cut.
    cut: Vec<IntContour>,
    /// Those that come to no node, with their shapes.
    whole: Vec<(usize, IntContour)>,
    chains: Vec<Chain>,
    sides: Vec<Side>,
    classes: Classes,
}

/// The shapes of all tiles, joined along their seams: the first contour of each has its least point.
pub(crate) fn joined(parts: Vec<Reaching>) -> Result<Vec<IntShape>, Fault> {
    let count = parts.iter().map(|part| part.shapes.len()).sum();
    let classes = Classes(collect(0..count)?);
    let mut joining = Joining { cut: Vec::new(), whole: Vec::new(), chains: Vec::new(), sides: Vec::new(), classes };
    let mut shape = 0;
    for mut part in parts {
        for contours in std::mem::take(&mut part.shapes) {
            for contour in contours {
                joining.add(contour, shape, &part)?;
            }
            shape += 1;
        }
    }
    joining.take_opposite_sides_away()?;
    let mut contours = joining.contours()?;
    for (shape, contour) in std::mem::take(&mut joining.whole) {
        push(&mut contours, joining.finished(contour, shape))?;
    }
    shapes_of(contours)
}

/// The contours of each class as a shape.
fn shapes_of(mut contours: Vec<Joined>) -> Result<Vec<IntShape>, Fault> {
    contours.sort_unstable_by_key(|it| (it.class, it.least, it.size));
    let mut shapes: Vec<IntShape> = Vec::new();
    let mut last = None;
    for Joined { class, contour, .. } in contours {
        if last != Some(class) {
            push(&mut shapes, Vec::new())?;
            last = Some(class);
        }
        if let Some(shape) = shapes.last_mut() {
            push(shape, contour)?;
        }
    }
    Ok(shapes)
}

impl Joining {
    /// Cuts a contour at its nodes.
    fn add(&mut self, contour: IntContour, shape: usize, part: &Reaching) -> Result<(), Fault> {
        let Some(first) = contour.iter().position(|point| part.is_node(point)) else {
            return push(&mut self.whole, (shape, contour));
        };
        let count = contour.len();
        let mut from = first;
        for at in first + 1..=first + count {
            let [a, b] = [contour[from % count], contour[at % count]];
            if !part.is_node(&b) {
                continue;
            }
            match part.seams.line_of(a, b).filter(|_| at == from + 1) {
                Some(line) => {
                    let [one, other] = [line.along(a), line.along(b)];
                    let (ends, is_upward) = ([one.min(other), one.max(other)], one < other);
                    push(&mut self.sides, Side { line, ends, is_upward, shape })?;
                }
                None => {
                    let way = Way::Through { contour: self.cut.len(), from: from % count, edges: at - from };
                    push(&mut self.chains, Chain { shape, way })?;
                }
            }
            from = at;
        }
        push(&mut self.cut, contour)
    }

    /// The point of a chain after so many of its edges.
    fn point(&self, chain: Chain, after: usize) -> IntPoint {
        match chain.way {
            Way::Through { contour, from, .. } => {
                let points = &self.cut[contour];
                points[(from + after) % points.len()]
            }
            Way::Along(ends) => ends[after],
        }
    }

    /// Its first and its last point.
    fn ends(&self, chain: Chain) -> [IntPoint; 2] {
        [self.point(chain, 0), self.point(chain, edges_of(chain))]
    }

    /// All ends of chains and sides, as points of lines that run along an axis, in order.
    fn nodes_along(&self, axis: Axis) -> Result<Vec<(Line, i32)>, Fault> {
        let of_chains = self.chains.iter().flat_map(|&chain| self.ends(chain));
        let of_sides = self.sides.iter().flat_map(|side| side.ends.map(|end| side.line.point(end)));
        let mut nodes = collect(of_chains.chain(of_sides).map(|point| Line::through(axis, point)))?;
        nodes.sort_unstable();
        nodes.dedup();
        Ok(nodes)
    }

    /// Makes chains of what is left of sides where those that run against one another are taken away, and joins the shapes of
    /// these.
    fn take_opposite_sides_away(&mut self) -> Result<(), Fault> {
        let nodes = [self.nodes_along(Axis::X)?, self.nodes_along(Axis::Y)?];
        let mut events = Vec::new();
        for side in std::mem::take(&mut self.sides) {
            let [low, high] = side.ends;
            extend(
                &mut events,
                [(side.line, low, true, side.is_upward, side.shape), (side.line, high, false, side.is_upward, 0)],
            )?;
        }
        events.sort_unstable();
        // the shapes whose sides run downward and upward along a piece of a line
        let mut running = [None; 2];
        for (index, &(line, from, is_start, is_upward, shape)) in events.iter().enumerate() {
            running[usize::from(is_upward)] = is_start.then_some(shape);
            let Some(&(next_line, to, ..)) = events.get(index + 1) else { break };
            if next_line != line || from == to {
                continue;
            }
            match running {
                [None, None] => {}
                [Some(one), Some(other)] => self.classes.join(one, other),
                [None, Some(shape)] => self.add_pieces(line, [from, to], true, shape, &nodes)?,
                [Some(shape), None] => self.add_pieces(line, [from, to], false, shape, &nodes)?,
            }
        }
        Ok(())
    }

    /// Makes chains of a piece of a line, cut at the nodes on it.
    fn add_pieces(
        &mut self,
        line: Line,
        [from, to]: [i32; 2],
        is_upward: bool,
        shape: usize,
        nodes: &[Vec<(Line, i32)>; 2],
    ) -> Result<(), Fault> {
        let nodes = &nodes[line.axis as usize];
        let first = nodes.partition_point(|&node| node <= (line, from));
        let inner = nodes[first..].iter().take_while(|&&node| node < (line, to)).map(|&(_, at)| at);
        let mut low = from;
        for high in inner.chain([to]) {
            let ends = if is_upward { [low, high] } else { [high, low] };
            push(&mut self.chains, Chain { shape, way: Way::Along(ends.map(|end| line.point(end))) })?;
            low = high;
        }
        Ok(())
    }

    /// For each chain its first node, and the chain that leads on from its last.
    fn leads(&self) -> Result<(Vec<usize>, Vec<usize>), Fault> {
        let mut ways = Vec::new();
        for (number, &chain) in self.chains.iter().enumerate() {
            let [start, end] = self.ends(chain);
            extend(&mut ways, [(start, true, number), (end, false, number)])?;
        }
        ways.sort_unstable();
        let mut starts = collect(self.chains.iter().map(|_| 0))?;
        let mut leads = collect(self.chains.iter().map(|_| 0))?;
        let mut rays = Vec::new();
        for (node, group) in ways.chunk_by(|one, other| one.0 == other.0).enumerate() {
            rays.clear();
            for &(at, is_out, number) in group {
                let next = if is_out { 1 } else { edges_of(self.chains[number]) - 1 };
                push(&mut rays, (at, self.point(self.chains[number], next), is_out, number))?;
                if is_out {
                    starts[number] = node;
                }
            }
            rays.sort_unstable_by(|one, other| by_angle(one.0, one.1, other.1));
            for (index, &(.., is_out, number)) in rays.iter().enumerate() {
                if !is_out {
                    // the next one clockwise has the sector on its left
                    leads[number] = rays[(index + rays.len() - 1) % rays.len()].3;
                }
            }
        }
        Ok((starts, leads))
    }

    /// The contours that chains make up: each cycle is cut where it comes to a node twice.
    fn contours(&mut self) -> Result<Vec<Joined>, Fault> {
        let (starts, leads) = self.leads()?;
        let mut contours = Vec::new();
        let mut is_taken = collect(self.chains.iter().map(|_| false))?;
        // of each node on the current way after how many chains it is come to, and one more; else 0
        let mut comes_at = collect((0..2 * starts.len()).map(|_| 0))?;
        let mut way = Vec::new();
        for first in 0..self.chains.len() {
            let mut chain = first;
            while !is_taken[chain] {
                is_taken[chain] = true;
                if comes_at[starts[chain]] > 0 {
                    let loop_at = comes_at[starts[chain]] - 1;
                    way[loop_at..].iter().for_each(|&it: &usize| comes_at[starts[it]] = 0);
                    push(&mut contours, self.contour_of(&way[loop_at..])?)?;
                    way.truncate(loop_at);
                }
                push(&mut way, chain)?;
                comes_at[starts[chain]] = way.len();
                chain = leads[chain];
            }
            if !way.is_empty() {
                way.iter().for_each(|&it| comes_at[starts[it]] = 0);
                push(&mut contours, self.contour_of(&way)?)?;
                way.clear();
            }
        }
        Ok(contours)
    }

    /// The contour of chains that lead back to the first.
    fn contour_of(&mut self, chains: &[usize]) -> Result<Joined, Fault> {
        let mut points = Vec::new();
        reserve(&mut points, chains.iter().map(|&it| edges_of(self.chains[it])).sum())?;
        for &number in chains {
            match self.chains[number].way {
                Way::Through { contour, from, edges } => {
                    let of = &self.cut[contour];
                    let first = edges.min(of.len() - from);
                    points.extend_from_slice(&of[from..from + first]);
                    points.extend_from_slice(&of[..edges - first]);
                }
                Way::Along([start, _]) => points.push(start),
            }
        }
        Ok(self.finished(points, self.chains[chains[0]].shape))
    }

    /// A contour of a tile's shape, as one of the shape that this is joined to.
    fn finished(&mut self, contour: IntContour, shape: usize) -> Joined {
        let least = contour.iter().copied().min().unwrap_or_default();
        Joined { class: self.classes.of(shape), least, size: Reverse(doubled_area(&contour).unsigned_abs()), contour }
    }
}

fn edges_of(chain: Chain) -> usize {
    match chain.way {
        Way::Through { edges, .. } => edges,
        Way::Along(_) => 1,
    }
}

/// The order of two points by their angle around another one, counterclockwise from its right.
fn by_angle(around: IntPoint, one: IntPoint, other: IntPoint) -> Ordering {
    let [u, v] =
        [one, other].map(|it| (i128::from(it.x) - i128::from(around.x), i128::from(it.y) - i128::from(around.y)));
    let is_lower = |(x, y): (i128, i128)| y < 0 || (y == 0 && x < 0);
    is_lower(u).cmp(&is_lower(v)).then_with(|| 0.cmp(&(u.0 * v.1 - u.1 * v.0)))
}
