#![doc = include_str!("../README.md")]
#![deny(missing_docs, missing_debug_implementations)]
#![deny(unsafe_code)]

#[allow(unsafe_code)]
mod ffi;

#[allow(unsafe_code)]
mod heap;

#[cfg(shipped)]
#[allow(unsafe_code)]
mod shipped;

mod arrangement;
mod clip;
mod cross;
mod error;
mod float;
mod float_arrangement;
mod float_lines;
mod float_point;
mod graph;
mod joining;
mod measure;
mod memory;
mod names;
mod overlay;
mod point;
mod regions;
mod related;
mod relations;
mod rules;
mod segment;
mod solver;
mod tile;
mod tiled;
mod tiling;

pub use arrangement::Arrangement;
pub use cross::{cross, CollinearMask, CrossResult, CrossType};
pub use error::{Axis, Error, Fault, RangeFault, SegmentFault};
pub use float::{area, area_of_shape};
pub use float::{FloatContour, FloatError, FloatOverlay, FloatPoint, FloatPointAdapter, FloatShape};
pub use float_arrangement::FloatArrangement;
pub use float_point::FloatPointCompatible;
pub use graph::{IdPoint, OverlayGraph, OverlayLink, OverlayNode, SegmentFill};
pub use measure::{bounding_box, doubled_area, doubled_area_of_shape, PointLocation};
pub use names::UnknownName;
pub use overlay::{Change, Overlay};
pub use point::{square, Engine, IntContour, IntPoint, IntShape, MAX_COORD, MIN_COORD};
pub use regions::Regions;
pub use related::{related_pairs, PairError, Predicate};
pub use relations::{Part, Relation};
pub use rules::{ClipRule, FillRule, OverlayRule, RuleTable};
pub use segment::{DataSegment, LineSegment, Segment, ShapeCountBoolean, ShapeType};
pub use solver::{Precision, Rounding, Solver, Strategy};
pub use tile::{clip_to_tile, Tile};
pub use tiled::{TileProgress, TiledError, TiledOverlay};
