//! A stand-in: a guess at how many segments are live at once. It only sizes
//! buffers, so no result depends on it.

pub(crate) trait Int {
    fn log2_sqrt(&self) -> usize;
}

impl Int for usize {
    #[inline]
    fn log2_sqrt(&self) -> usize {
        if *self == 0 {
            1
        } else {
            1 << (self.ilog2() / 2)
        }
    }
}
