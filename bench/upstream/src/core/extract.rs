//! A stand-in: the two states that the link filters set.

#[derive(Debug, Clone, Copy, PartialEq, Eq)]
pub(crate) enum VisitState {
    Unvisited,
    Skipped,
}

impl VisitState {
    #[inline(always)]
    pub(crate) fn new(skipped: bool) -> Self {
        if skipped {
            Self::Skipped
        } else {
            Self::Unvisited
        }
    }
}
