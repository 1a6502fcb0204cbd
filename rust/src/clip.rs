//! Lines that polygons cut, each with its number.

use crate::error::{fault_of_line, outcome, range_error};
use crate::memory::{collect, extend, push};
use crate::{
    bounding_box, ClipRule, Error, Fault, FillRule, IntContour, IntPoint, LineSegment, Overlay, ShapeType, Solver,
};

/// How far beside the box of all lines points have to lie that are left out, in units.
const FAR: i64 = 1024;

/// The box of all lines.
#[derive(Clone, Copy)]
struct Beside {
    low: IntPoint,
    high: IntPoint,
}

impl Beside {
    /// On which sides of it a point lies, far from it: a sum of 1 for left, 2 for right, 4 for below and 8 for above.
    fn sides(&self, point: IntPoint) -> u8 {
        let is_far = |before: i32, after: i32| i64::from(before) + FAR < i64::from(after);
        let (left, right) = (is_far(point.x, self.low.x), is_far(self.high.x, point.x));
        let (below, above) = (is_far(point.y, self.low.y), is_far(self.high.y, point.y));
        u8::from(left) | u8::from(right) << 1 | u8::from(below) << 2 | u8::from(above) << 3
    }
}

/// The points of a contour that are kept beside the box: those within a run along one side of it, far from it, are not.
///
/// Such a run lies in a half-plane that has no point of the box. So does the step from its first point to its last one, and
/// both wind around each point of the box alike.
struct Run<'a> {
    beside: Beside,
    kept: &'a mut IntContour,
    last: IntPoint,
    /// On which sides all points from the last one that is kept lie.
    shared: u8,
}

impl Run<'_> {
    fn start(&mut self, first: IntPoint) -> Result<(), Fault> {
        (self.last, self.shared) = (first, self.beside.sides(first));
        push(self.kept, first)
    }

    fn go(&mut self, point: IntPoint) -> Result<(), Fault> {
        let sides = self.beside.sides(point);
        if self.shared & sides == 0 {
            if self.kept.last() != Some(&self.last) {
                push(self.kept, self.last)?;
            }
            self.shared = self.beside.sides(self.last);
        }
        (self.last, self.shared) = (point, self.shared & sides);
        if self.shared == 0 {
            self.shared = sides;
            push(self.kept, point)?;
        }
        Ok(())
    }
}

/// Pushes sides that wind around each point of the box as a contour does, and that are those of the contour near it.
fn push_sides(contour: &[IntPoint], beside: Beside, segments: &mut Vec<LineSegment>) -> Result<(), Fault> {
    let Some(&first) = contour.first() else { return Ok(()) };
    let mut kept = Vec::new();
    let mut run = Run { beside, kept: &mut kept, last: first, shared: 0 };
    run.start(first)?;
    contour.iter().chain([&first]).try_for_each(|&point| run.go(point))?;
    let ends = kept.iter().zip(kept.iter().cycle().skip(1));
    extend(segments, ends.filter(|(p, q)| p != q).map(|(&p, &q)| LineSegment::side(p, q)))
}

/// A step of a line, between two points.
#[derive(Clone, Copy)]
struct Step {
    line: usize,
    a: IntPoint,
    b: IntPoint,
}

impl Step {
    /// How far along it a point lies.
    fn along(&self, point: IntPoint) -> i128 {
        let wide = |p: i32, q: i32| i128::from(p) - i128::from(q);
        let (dx, dy) = (wide(self.b.x, self.a.x), wide(self.b.y, self.a.y));
        wide(point.x, self.a.x) * dx + wide(point.y, self.a.y) * dy
    }
}

/// A part of the step at an index, in its direction.
#[derive(Clone, Copy, PartialEq)]
struct Piece {
    step: usize,
    ends: [IntPoint; 2],
}

/// The pieces of steps that are kept, in order along the steps, and the ends of sides of polygons, in order.
struct Cut {
    pieces: Vec<Piece>,
    corners: Vec<IntPoint>,
}

impl Cut {
    /// Puts pieces together that follow one another along a line. Points at which lines alone meet are left out.
    fn parts(&self, steps: &[Step]) -> Result<Vec<(usize, Vec<IntPoint>)>, Fault> {
        let mut found: Vec<(usize, Vec<IntPoint>)> = Vec::new();
        let mut pieces = self.pieces.iter().peekable();
        // the line of the step before, if its last piece comes to the end of that step
        let mut open = None;
        for (index, step) in steps.iter().enumerate() {
            let mut last = None;
            while let Some(&Piece { ends: [start, end], .. }) = pieces.next_if(|piece| piece.step == index) {
                let goes_on = last.is_some() || open == Some(step.line);
                match found.last_mut() {
                    Some((_, part)) if goes_on && part.last() == Some(&start) => {
                        if last.is_some() && self.corners.binary_search(&start).is_err() {
                            part.pop();
                        }
                        push(part, end)?;
                    }
                    _ => push(&mut found, (step.line, collect([start, end])?))?,
                }
                last = Some(end);
            }
            open = (last == Some(step.b)).then_some(step.line);
        }
        Ok(found)
    }
}

/// The steps of lines, in order, but those between two equal points.
fn steps_of<L: AsRef<[IntPoint]>>(lines: &[L]) -> Result<Vec<Step>, Fault> {
    let all = lines.iter().map(AsRef::as_ref).enumerate();
    let steps = all.flat_map(|(line, points)| points.windows(2).map(move |two| Step { line, a: two[0], b: two[1] }));
    collect(steps.filter(|step| step.a != step.b))
}

/// The piece of the step at an index that a segment is.
fn piece_of(steps: &[Step], step: usize, segment: &LineSegment) -> Piece {
    let (p, q) = (segment.a, segment.b);
    let is_back = steps[step].along(q) < steps[step].along(p);
    Piece { step, ends: if is_back { [q, p] } else { [p, q] } }
}

impl Overlay {
    /// The parts of lines that a clip rule keeps, inside polygons or outside of them: each with the index of its line, in
    /// the direction of the line, and in order along it.
    ///
    /// A line is a list of points, each joined to the next one. The direction of a contour counts, as for
    /// [`Overlay::overlay`]. A part goes on from one step of its line to the next where it comes to the end of the step. Where
    /// lines overlap each has its part.
    ///
    /// Polygons and lines are split together, in one call of the engine, which is proved, with the numbers of the lines that
    /// run along each piece. So the points of a part lie within half a unit of its steps, in `x` and in `y`, and under
    /// `Rounding::Pairwise` as near as the passes move crossings. Points at which lines meet one another, and no polygon,
    /// are left out. What puts pieces together is tested, not proved. Contours that were added count for nothing here, and
    /// stay.
    ///
    /// Sides far from all lines are left out, so few short lines cost what lies near them.
    ///
    /// Returns `Error::Point` or `Error::Line` where a point is out of range.
    ///
    /// ```
    /// use fadrinzo::{square, ClipRule, FillRule, IntPoint, Overlay};
    ///
    /// let lines = [[[-5, 5], [5, 5], [5, 20]], [[1, 1], [9, 1], [9, 1]]].map(|line| line.map(IntPoint::from));
    /// let mut overlay = Overlay::new()?;
    /// let inside = overlay.clip_lines(&[square(0, 10)], &lines, ClipRule::default(), FillRule::NonZero)?;
    /// let (first, second) = (vec![[0, 5], [5, 5], [5, 10]], vec![[1, 1], [9, 1]]);
    /// let wanted = [(0, first), (1, second)].map(|(line, part)| (line, part.into_iter().map(IntPoint::from).collect()));
    /// assert_eq!(inside, wanted);
    /// # Ok::<(), fadrinzo::Error>(())
    /// ```
    pub fn clip_lines<C: AsRef<[IntPoint]>, L: AsRef<[IntPoint]>>(
        &mut self,
        polygons: &[C],
        lines: &[L],
        clip_rule: ClipRule,
        fill_rule: FillRule,
    ) -> Result<Vec<(usize, Vec<IntPoint>)>, Error> {
        self.check_ranges(polygons, lines)?;
        let steps = steps_of(lines)?;
        let Some([low, high]) = bounding_box(steps.iter().flat_map(|step| [&step.a, &step.b])) else {
            return Ok(Vec::new());
        };
        let mut segments = Vec::new();
        for contour in polygons {
            push_sides(contour.as_ref(), Beside { low, high }, &mut segments)?;
        }
        let sides = segments.len();
        extend(&mut segments, steps.iter().map(|step| LineSegment::line(step.a, step.b)))?;
        let cut = self.cut(&segments, &steps, sides, clip_rule, fill_rule)?;
        Ok(cut.parts(&steps)?)
    }

    /// Cuts the steps behind so many sides.
    fn cut(
        &mut self,
        segments: &[LineSegment],
        steps: &[Step],
        sides: usize,
        clip_rule: ClipRule,
        fill_rule: FillRule,
    ) -> Result<Cut, Error> {
        let ClipRule { invert, boundary_included } = clip_rule;
        let settings = self.settings(Solver::AUTO, fill_rule);
        let status = self.engine.clip_with_numbers(segments, &settings, invert, boundary_included);
        outcome(status, segments, |segment| fault_of_line(segment, self.width))?;
        let (mut lines, mut links, mut counts, mut numbers) = (Vec::new(), Vec::new(), Vec::new(), Vec::new());
        self.engine.copy_lines(&mut lines)?;
        self.engine.copy_links(&mut links)?;
        self.engine.copy_line_numbers(&mut counts, &mut numbers)?;
        let (mut pieces, mut corners) = (Vec::new(), Vec::new());
        let (mut links, mut rest) = (links.iter().peekable(), numbers.as_slice());
        for (segment, &count) in lines.iter().zip(&counts) {
            let (own, later) = rest.split_at(count);
            rest = later;
            // links are in the order of the segments
            if links.next_if(|link| link.a.point == segment.a && link.b.point == segment.b).is_some() {
                extend(&mut pieces, own.iter().map(|&number| piece_of(steps, number - sides, segment)))?;
            }
            if segment.subj != 0 {
                extend(&mut corners, [segment.a, segment.b])?;
            }
        }
        pieces.sort_unstable_by_key(|&Piece { step, ends: [p, q] }| {
            (step, steps[step].along(p) + steps[step].along(q), p, q)
        });
        pieces.dedup();
        corners.sort_unstable();
        Ok(Cut { pieces, corners })
    }

    /// The error of the first point out of range, of a polygon or of a line.
    fn check_ranges<C: AsRef<[IntPoint]>, L: AsRef<[IntPoint]>>(
        &self,
        polygons: &[C],
        lines: &[L],
    ) -> Result<(), Error> {
        for (contour, points) in polygons.iter().enumerate() {
            if let Some((point, fault)) = range_error(points.as_ref(), self.width) {
                return Err(Error::Point { shape_type: ShapeType::Subject, contour, point, fault });
            }
        }
        for (line, points) in lines.iter().enumerate() {
            if let Some((point, fault)) = range_error(points.as_ref(), self.width) {
                return Err(Error::Line { line, point, fault });
            }
        }
        Ok(())
    }
}

#[cfg(test)]
mod tests {
    use super::*;

    /// The numbers of a linear congruence, each below a bound.
    fn random(mut state: u64) -> impl FnMut(i32) -> i32 {
        move |bound| {
            state = state.wrapping_mul(6_364_136_223_846_793_005).wrapping_add(1_442_695_040_888_963_407);
            ((state >> 33) % bound as u64) as i32
        }
    }

    /// How often sides wind around a point that lies on none of them, and whether it lies on one.
    fn winding(at: IntPoint, sides: &[LineSegment]) -> (i32, bool) {
        let turn = |p: IntPoint, q: IntPoint| {
            let [px, py, qx, qy, x, y] = [p.x, p.y, q.x, q.y, at.x, at.y].map(i128::from);
            (qx - px) * (y - py) - (qy - py) * (x - px)
        };
        let is_on = |side: &LineSegment| {
            let [low, high] = bounding_box(&[side.a, side.b]).unwrap();
            let is_within = low.x <= at.x && at.x <= high.x && low.y <= at.y && at.y <= high.y;
            is_within && turn(side.a, side.b) == 0
        };
        let count = |side: &LineSegment| {
            let (a, b) = (side.a, side.b);
            let (is_up, is_down) = (a.y <= at.y && at.y < b.y, b.y <= at.y && at.y < a.y);
            i32::from(is_up && turn(a, b) > 0) - i32::from(is_down && turn(a, b) < 0)
        };
        (sides.iter().map(count).sum(), sides.iter().any(is_on))
    }

    fn all_sides(contours: &[IntContour]) -> Vec<LineSegment> {
        let steps = contours.iter().flat_map(|it| it.iter().zip(it.iter().cycle().skip(1)));
        steps.filter(|(p, q)| p != q).map(|(&p, &q)| LineSegment::side(p, q)).collect()
    }

    fn sides_beside(contours: &[IntContour], a: IntPoint, b: IntPoint) -> Vec<LineSegment> {
        let [low, high] = bounding_box(&[a, b]).unwrap();
        let mut sides = Vec::new();
        for contour in contours {
            push_sides(contour, Beside { low, high }, &mut sides).unwrap();
        }
        sides
    }

    #[test]
    fn sides_wind_around_the_box_as_all_do() {
        let mut below = random(7);
        let (mut left_out, mut given) = (0, 0);
        for round in 0..3000 {
            let span = [3_000, 20_000, 1_000_000][round % 3];
            let mut point = |span| IntPoint::new(below(2 * span) - span, below(2 * span) - span);
            let counts = [3, 20, 40, 300];
            let contours: Vec<IntContour> =
                (0..round % 4).map(|of| (0..counts[(round + of) % 4]).map(|_| point(span)).collect()).collect();
            let a = point(span);
            let b = IntPoint::new(a.x + point(400).x, a.y + point(400).y);
            let (all, sides) = (all_sides(&contours), sides_beside(&contours, a, b));
            for (x, y) in [(a.x, a.y), (b.x, b.y), (a.x, b.y), (b.x, a.y), ((a.x + b.x) / 2, (a.y + b.y) / 2)] {
                let at = IntPoint::new(x, y);
                assert_eq!(winding(at, &sides), winding(at, &all), "{at:?} of {contours:?}");
            }
            (left_out, given) = (left_out + all.len() - sides.len().min(all.len()), given + all.len());
        }
        assert!(left_out > given / 4, "{left_out} of {given}");
    }

    /// Beside a short step through a star of 4,000 sides few sides are handed to the engine.
    #[test]
    fn few_sides_are_handed_on() {
        let star: IntContour = (0..4000)
            .map(|index| {
                let (angle, radius) =
                    (f64::from(index) * std::f64::consts::TAU / 4000.0, [8e8, 7e8][index as usize % 2]);
                IntPoint::new((radius * angle.cos()) as i32, (radius * angle.sin()) as i32)
            })
            .collect();
        let contours = [star];
        for index in 0..400 {
            let x = -500_000_000 + 2_500_000 * index;
            let handed = sides_beside(&contours, IntPoint::new(x, 0), IntPoint::new(x + 250_000, 1)).len();
            assert!(handed < 16, "{handed} at {x}");
        }
    }
}
