pub(crate) mod cross_solver;
pub(crate) mod fragment;
pub(crate) mod grid_layout;
pub(crate) mod line_mark;
pub(crate) mod snap_radius;
pub(crate) mod solver;
pub(crate) mod solver_fragment;
pub(crate) mod solver_list;
pub(crate) mod solver_tree;

use crate::geom::x_segment::XSegment;
use cross_solver::{CrossSolver, CrossType};
use i_float::int::number::int::IntNumber;
use i_float::int::point::IntPoint;

/// How two segments meet, as `cross` prints it.
pub(crate) enum Meeting<I: IntNumber> {
    None,
    Point(&'static str, IntPoint<I>, bool),
    Overlay(u8),
}

pub(crate) fn meeting<I: IntNumber>(
    target: &XSegment<I>,
    other: &XSegment<I>,
    radius_squared: I::WideUInt,
) -> Meeting<I> {
    match CrossSolver::<I>::cross(target, other, radius_squared) {
        None => Meeting::None,
        Some(result) => match result.cross_type {
            CrossType::Pure => Meeting::Point("pure", result.point, result.is_round),
            CrossType::TargetEnd => Meeting::Point("target-end", result.point, result.is_round),
            CrossType::OtherEnd => Meeting::Point("other-end", result.point, result.is_round),
            CrossType::Overlay => Meeting::Overlay(CrossSolver::<I>::collinear(target, other)),
        },
    }
}
