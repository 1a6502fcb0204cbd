//! A stand-in: a stable sort by first ends, then second ends.

use crate::segm::segment::Segment;
use i_float::int::number::int::IntNumber;

pub(crate) trait ShapeSegmentsSort {
    fn sort_by_ab(&mut self, parallel: bool);
}

impl<C, I: IntNumber, D> ShapeSegmentsSort for [Segment<C, I, D>] {
    #[inline]
    fn sort_by_ab(&mut self, _parallel: bool) {
        self.sort_by(|left, right| left.x_segment.cmp(&right.x_segment));
    }
}
