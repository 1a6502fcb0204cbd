//! A stand-in: the shape type, and options that the segment layer only hands on.

#[derive(Debug, Clone, Copy, PartialEq, Eq)]
pub enum ShapeType {
    Subject,
    Clip,
}

pub struct IntOverlayOptions<U> {
    wide: core::marker::PhantomData<U>,
}

impl<U> Default for IntOverlayOptions<U> {
    fn default() -> Self {
        Self { wide: core::marker::PhantomData }
    }
}
