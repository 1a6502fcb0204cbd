//! A stand-in: a closed range of coordinates.

use i_float::int::number::int::IntNumber;

#[derive(Debug, Clone, Copy, PartialEq, Eq)]
pub(crate) struct LineRange<I: IntNumber> {
    pub(crate) min: I,
    pub(crate) max: I,
}
