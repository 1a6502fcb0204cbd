//! A stand-in: a point, and the number of its node.

use i_float::int::number::int::IntNumber;
use i_float::int::point::IntPoint;

#[derive(Debug, Clone, Copy, PartialEq, Eq)]
pub(crate) struct IdPoint<I: IntNumber> {
    pub(crate) id: usize,
    pub(crate) point: IntPoint<I>,
}

impl<I: IntNumber> IdPoint<I> {
    #[inline(always)]
    pub(crate) fn new(id: usize, point: IntPoint<I>) -> Self {
        Self { id, point }
    }
}
