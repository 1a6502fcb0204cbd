//! A stand-in: which parts of lines a clip keeps.

#[derive(Debug, Clone, Copy, PartialEq, Eq)]
pub struct ClipRule {
    pub invert: bool,
    pub boundary_included: bool,
}
