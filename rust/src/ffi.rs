//! The exports of the proved archive, as `crates/overlay_c/src/lib.rt` declares them, and safe calls of them. All
//! unsafe code of this package is here. `tools/c_header.py --check` compares these declarations with those of the exports.
//!
//! A slice crosses as a pointer and a length; a `Global` takes no bytes, and does not cross. Beside each call, `SAFETY`
//! names the conditions (`requires`) of the export and says why they hold.

use crate::memory::{collect, collect_all, copy, reserve};
use crate::{DataSegment, Fault, IntContour, IntPoint, IntShape, LineSegment, OverlayLink, Segment, Tile};

/// What holds an engine: `Handle` of `crates/overlay_c`. Null where it is empty.
#[derive(Debug)]
#[repr(C)]
struct Handle {
    at: *mut u8,
}

/// `SettingsRecord` of `crates/overlay_c`. Each code is tested there, so any value may cross.
#[derive(Debug)]
#[repr(C)]
pub struct Settings {
    pub start: usize,
    pub progression: usize,
    pub strategy: u8,
    pub fill_rule: u8,
    pub engine: u8,
    pub rounding: u8,
}

/// `SizesRecord` of `crates/overlay_c`: how much an engine keeps.
#[derive(Debug)]
#[repr(C)]
pub struct Sizes {
    pub segments: usize,
    pub lines: usize,
    pub line_counts: usize,
    pub line_numbers: usize,
    pub links: usize,
    pub link_data: usize,
    pub nodes: usize,
    pub node_links: usize,
    pub walks: usize,
    pub walk_links: usize,
    pub contours: usize,
    pub contour_points: usize,
    pub shapes: usize,
    pub has_walks: bool,
    pub has_changed: bool,
    pub passes: u64,
}

/// `WordsRecord` of `crates/overlay_c`: a number of 128 bits.
#[derive(Debug)]
#[repr(C)]
pub struct Words {
    pub low: u64,
    pub high: u64,
}

impl Words {
    /// The number.
    pub fn number(&self) -> u128 {
        u128::from(self.high) << 64 | u128::from(self.low)
    }
}

/// `ReportRecord` of `crates/overlay_c`: what an overlay of contours, or their arrangement, reports of its run.
#[derive(Debug)]
#[repr(C)]
pub struct Report {
    pub passes: Words,
    pub reach: Words,
}

/// `CrossRecord` of `crates/overlay_c`.
#[derive(Debug)]
#[repr(C)]
pub struct Cross {
    pub point: IntPoint,
    pub kind: u8,
    pub is_rounded: bool,
    pub mask: u8,
}

/// `MatrixRecord` of `crates/overlay_c`: which parts of the subject meet which parts of the clip.
#[derive(Debug, Default)]
#[repr(C)]
pub struct Matrix {
    pub interior_interior: bool,
    pub interior_boundary: bool,
    pub interior_exterior: bool,
    pub boundary_interior: bool,
    pub boundary_boundary: bool,
    pub boundary_exterior: bool,
    pub exterior_interior: bool,
    pub exterior_boundary: bool,
    pub exterior_exterior: bool,
}

extern "C" {
    fn overlay_c_cross(target: &Segment, other: &Segment, radius_squared: i64) -> Cross;
    fn overlay_c_new(handle: &mut Handle, snap_limit: u32) -> bool;
    fn overlay_c_free(handle: &mut Handle);
    fn overlay_c_overlay(
        handle: &mut Handle,
        given: *const Segment,
        given_len: usize,
        settings: &Settings,
        rule: u8,
        walks: bool,
    ) -> u8;
    fn overlay_c_overlay_with_data(
        handle: &mut Handle,
        given: *const DataSegment,
        given_len: usize,
        settings: &Settings,
        rule: u8,
    ) -> u8;
    fn overlay_c_split(handle: &mut Handle, given: *const Segment, given_len: usize, settings: &Settings) -> u8;
    fn overlay_c_build(handle: &mut Handle, settings: &Settings, links: *mut OverlayLink, links_len: usize) -> u8;
    fn overlay_c_join(handle: &mut Handle, given: *const Segment, given_len: usize, width: u8) -> u8;
    fn overlay_c_clip(
        handle: &mut Handle,
        given: *const LineSegment,
        given_len: usize,
        settings: &Settings,
        invert: bool,
        boundary_included: bool,
    ) -> u8;
    fn overlay_c_clip_with_numbers(
        handle: &mut Handle,
        given: *const LineSegment,
        given_len: usize,
        settings: &Settings,
        invert: bool,
        boundary_included: bool,
    ) -> u8;
    fn overlay_c_add_contour(handle: &mut Handle, contour: *const IntPoint, contour_len: usize, shape: u8) -> u8;
    fn overlay_c_add_contour_in_tile(
        handle: &mut Handle,
        contour: *const IntPoint,
        contour_len: usize,
        shape: u8,
        borders: &Tile,
    ) -> u8;
    fn overlay_c_given(handle: &mut Handle, shape: u8) -> u8;
    fn overlay_c_polygons(handle: &mut Handle, settings: &Settings, rule: u8) -> u8;
    fn overlay_c_shapes(handle: &mut Handle, settings: &Settings, rule: u8) -> u8;
    fn overlay_c_polygons_by_rules(handle: &mut Handle, settings: &Settings, rules: *const u8, rules_len: usize) -> u8;
    fn overlay_c_arrange(handle: &mut Handle, settings: &Settings) -> u8;
    fn overlay_c_arranged_contours(handle: &mut Handle, rule: u8, corners: bool) -> u8;
    fn overlay_c_arranged_shapes(handle: &mut Handle, rule: u8, corners: bool) -> u8;
    fn overlay_c_locate(handle: &mut Handle, point: &IntPoint, shape: u8, fill: u8) -> u8;
    fn overlay_c_relation(handle: &mut Handle, settings: &Settings, code: u8, holds: &mut bool) -> u8;
    fn overlay_c_relate(handle: &mut Handle, settings: &Settings, matrix: &mut Matrix) -> u8;
    fn overlay_c_add_region(handle: &mut Handle, settings: &Settings) -> u8;
    fn overlay_c_region_relation(
        handle: &mut Handle,
        settings: &Settings,
        first: usize,
        second: usize,
        code: u8,
        holds: &mut bool,
    ) -> u8;
    fn overlay_c_region_relate(
        handle: &mut Handle,
        settings: &Settings,
        first: usize,
        second: usize,
        matrix: &mut Matrix,
    ) -> u8;
    fn overlay_c_report(handle: &mut Handle) -> Report;
    fn overlay_c_arranged_report(handle: &mut Handle) -> Report;
    fn overlay_c_clear(handle: &mut Handle);
    fn overlay_c_sizes(handle: &mut Handle) -> Sizes;
    fn overlay_c_segments(handle: &mut Handle, out: *mut Segment, out_len: usize);
    fn overlay_c_lines(handle: &mut Handle, out: *mut LineSegment, out_len: usize);
    fn overlay_c_line_numbers(
        handle: &mut Handle,
        counts: *mut usize,
        counts_len: usize,
        numbers: *mut usize,
        numbers_len: usize,
    );
    fn overlay_c_links(handle: &mut Handle, out: *mut OverlayLink, out_len: usize);
    fn overlay_c_link_data(handle: &mut Handle, out: *mut u64, out_len: usize);
    fn overlay_c_nodes(
        handle: &mut Handle,
        degrees: *mut usize,
        degrees_len: usize,
        indexes: *mut usize,
        indexes_len: usize,
    );
    fn overlay_c_walks(
        handle: &mut Handle,
        lengths: *mut usize,
        lengths_len: usize,
        indexes: *mut usize,
        indexes_len: usize,
    );
    fn overlay_c_contours(
        handle: &mut Handle,
        lengths: *mut usize,
        lengths_len: usize,
        points: *mut IntPoint,
        points_len: usize,
    );
    fn overlay_c_shape_lengths(handle: &mut Handle, out: *mut usize, out_len: usize);
}

/// Stops the build where there is no archive, with the sentence of the build script. The constant of a generic function is
/// computed where code is made of it, so what makes no code (`cargo check`, `cargo doc`) needs no archive.
#[allow(clippy::extra_unused_type_parameters, reason = "it makes the function generic")]
fn need_archive<T>() {
    const {
        if let Some(sentence) = option_env!("FADRINZO_FAULT") {
            panic!("{}", sentence)
        }
    }
}

/// Where two segments meet. All coordinates have to be in range, and the ends of each segment have to differ; the
/// caller tests both.
pub fn cross(target: &Segment, other: &Segment, radius_squared: i64) -> Cross {
    need_archive::<()>();
    // SAFETY: `target` and `other` (in range), `target_apart` and `other_apart` (ends that differ) are what the caller
    // has tested; `radius` is at least 1 here.
    unsafe { overlay_c_cross(target, other, radius_squared.max(1)) }
}

/// The status of a call for which there was no memory.
pub const NO_MEMORY: u8 = 1;

/// An engine of the archive. Its handle is full from `new` until it is dropped, which is the condition `engine` of
/// every other export.
#[derive(Debug)]
pub struct Engine {
    handle: Handle,
    /// How many regions it keeps.
    regions: usize,
}

// SAFETY: `Send` is proved of the handle, by `crates/overlay_c/proofs/handle/Handle/TheSendSync/Send.antt`: what it owns is
// the same to every thread, so it may go to another one, for one call at a time. Each call takes `&mut self`, and in safe
// Rust what one thread did with an engine happens before what the next one does.
unsafe impl Send for Engine {}

impl Engine {
    /// An engine that snaps in that many passes. `None` where a growth was refused.
    pub fn new(snap_limit: u32) -> Option<Engine> {
        need_archive::<()>();
        let mut handle = Handle { at: std::ptr::null_mut() };
        // SAFETY: the handle is empty.
        let is_full = unsafe { overlay_c_new(&mut handle, snap_limit) };
        // an engine is made of a full handle alone, since it frees its own at the end
        is_full.then(|| Engine { handle, regions: 0 })
    }

    /// Splits segments and builds a rule's graph, with closed walks if `walks` is true. Returns a status.
    pub fn overlay(&mut self, given: &[Segment], settings: &Settings, rule: u8, walks: bool) -> u8 {
        // SAFETY: the handle is full. Nothing is required of segments and codes.
        unsafe { overlay_c_overlay(&mut self.handle, given.as_ptr(), given.len(), settings, rule, walks) }
    }

    /// Splits segments with numbers and builds a rule's graph, with the number of each link. Returns a status.
    pub fn overlay_with_data(&mut self, given: &[DataSegment], settings: &Settings, rule: u8) -> u8 {
        // SAFETY: the handle is full. Nothing is required of segments, numbers and codes.
        unsafe { overlay_c_overlay_with_data(&mut self.handle, given.as_ptr(), given.len(), settings, rule) }
    }

    /// Splits segments. Returns a status.
    pub fn split(&mut self, given: &[Segment], settings: &Settings) -> u8 {
        // SAFETY: the handle is full. Nothing is required of segments and codes.
        unsafe { overlay_c_split(&mut self.handle, given.as_ptr(), given.len(), settings) }
    }

    /// Splits segments and builds the graph of all, whose links are written in place of what the list had: of none where
    /// it is refused. Returns a status.
    pub fn all(&mut self, given: &[Segment], settings: &Settings, links: &mut Vec<OverlayLink>) -> u8 {
        links.clear();
        let status = self.split(given, settings);
        if status != 0 {
            return status;
        }
        let len = self.sizes().segments;
        if reserve(links, len).is_err() {
            return NO_MEMORY;
        }
        // SAFETY: the handle is full, the split has returned 0 (`arranged`), and there is room for as many links as the engine
        // reports segments (`length`).
        let status = unsafe { overlay_c_build(&mut self.handle, settings, links.as_mut_ptr(), len) };
        if status == 0 {
            // SAFETY: there is room for them, and each was written.
            unsafe { links.set_len(len) }
        }
        status
    }

    /// Joins segments on each pair of ends. Returns a status.
    pub fn join(&mut self, given: &[Segment], width: u8) -> u8 {
        // SAFETY: the handle is full. Nothing is required of segments and codes.
        unsafe { overlay_c_join(&mut self.handle, given.as_ptr(), given.len(), width) }
    }

    /// Splits polygons and lines and builds a clip rule's graph. Returns a status.
    pub fn clip(&mut self, given: &[LineSegment], settings: &Settings, invert: bool, boundary_included: bool) -> u8 {
        let (first, len) = (given.as_ptr(), given.len());
        // SAFETY: the handle is full. Nothing is required of segments and codes.
        unsafe { overlay_c_clip(&mut self.handle, first, len, settings, invert, boundary_included) }
    }

    /// Does the same, and finds which of the given lines run along each segment of the arrangement. Returns a status.
    pub fn clip_with_numbers(
        &mut self,
        given: &[LineSegment],
        settings: &Settings,
        invert: bool,
        boundary_included: bool,
    ) -> u8 {
        let (first, len) = (given.as_ptr(), given.len());
        // SAFETY: the handle is full. Nothing is required of segments and codes.
        unsafe { overlay_c_clip_with_numbers(&mut self.handle, first, len, settings, invert, boundary_included) }
    }

    /// Copies a contour behind the others of its shape. Returns a status.
    pub fn add_contour(&mut self, contour: &[IntPoint], shape: u8) -> u8 {
        // SAFETY: the handle is full. Nothing is required of points and codes.
        unsafe { overlay_c_add_contour(&mut self.handle, contour.as_ptr(), contour.len(), shape) }
    }

    /// Copies what a tile has of a contour behind the others of its shape. Returns a status.
    pub fn add_contour_in_tile(&mut self, contour: &[IntPoint], shape: u8, tile: &Tile) -> u8 {
        let (first, len) = (contour.as_ptr(), contour.len());
        // SAFETY: the handle is full. Nothing is required of points, codes and borders.
        unsafe { overlay_c_add_contour_in_tile(&mut self.handle, first, len, shape, tile) }
    }

    /// Keeps the contours of a shape that were added as those of a result, which `contours` copies out. Returns a status.
    pub fn given(&mut self, shape: u8) -> u8 {
        // SAFETY: the handle is full. Nothing is required of codes.
        unsafe { overlay_c_given(&mut self.handle, shape) }
    }

    /// Overlays the contours that were added. Returns a status.
    pub fn polygons(&mut self, settings: &Settings, rule: u8) -> u8 {
        // SAFETY: the handle is full. Nothing is required of codes.
        unsafe { overlay_c_polygons(&mut self.handle, settings, rule) }
    }

    /// Overlays the contours that were added, in shapes. Returns a status.
    pub fn shapes_of_polygons(&mut self, settings: &Settings, rule: u8) -> u8 {
        // SAFETY: the handle is full. Nothing is required of codes.
        unsafe { overlay_c_shapes(&mut self.handle, settings, rule) }
    }

    /// Overlays the contours that were added by several rules. Returns a status.
    pub fn polygons_by_rules(&mut self, settings: &Settings, rules: &[u8]) -> u8 {
        // SAFETY: the handle is full. Nothing is required of codes.
        unsafe { overlay_c_polygons_by_rules(&mut self.handle, settings, rules.as_ptr(), rules.len()) }
    }

    /// Arranges the contours that were added. Returns a status.
    pub fn arrange(&mut self, settings: &Settings) -> u8 {
        // SAFETY: the handle is full. Nothing is required of codes.
        unsafe { overlay_c_arrange(&mut self.handle, settings) }
    }

    /// Overlays the contours that are arranged. Returns a status.
    pub fn arranged_contours(&mut self, rule: u8, corners: bool) -> u8 {
        // SAFETY: the handle is full. Nothing is required of codes.
        unsafe { overlay_c_arranged_contours(&mut self.handle, rule, corners) }
    }

    /// Overlays the contours that are arranged, in shapes. Returns a status.
    pub fn arranged_shapes(&mut self, rule: u8, corners: bool) -> u8 {
        // SAFETY: the handle is full. Nothing is required of codes.
        unsafe { overlay_c_arranged_shapes(&mut self.handle, rule, corners) }
    }

    /// The code of where a point lies with respect to the contours of a shape.
    pub fn locate(&mut self, point: IntPoint, shape: u8, fill: u8) -> u8 {
        // SAFETY: the handle is full. Nothing is required of points and codes.
        unsafe { overlay_c_locate(&mut self.handle, &point, shape, fill) }
    }

    /// Whether a relation holds between the subject and the clip, by its code, or the status of a refusal.
    pub fn relation(&mut self, settings: &Settings, code: u8) -> Result<bool, u8> {
        let mut holds = false;
        // SAFETY: the handle is full. Nothing is required of codes.
        match unsafe { overlay_c_relation(&mut self.handle, settings, code, &mut holds) } {
            0 => Ok(holds),
            status => Err(status),
        }
    }

    /// Which parts of the subject meet which parts of the clip, or the status of a refusal.
    pub fn relate(&mut self, settings: &Settings) -> Result<Matrix, u8> {
        let mut matrix = Matrix::default();
        // SAFETY: the handle is full. Nothing is required of codes.
        match unsafe { overlay_c_relate(&mut self.handle, settings, &mut matrix) } {
            0 => Ok(matrix),
            status => Err(status),
        }
    }

    /// Keeps the region of the subject that was added, with the next number. Returns a status.
    pub fn add_region(&mut self, settings: &Settings) -> u8 {
        // SAFETY: the handle is full. Nothing is required of codes.
        let status = unsafe { overlay_c_add_region(&mut self.handle, settings) };
        self.regions += usize::from(status == 0);
        status
    }

    /// Panics unless both are numbers of regions that are kept.
    fn check_numbers(&self, numbers: [usize; 2]) {
        for number in numbers {
            assert!(number < self.regions, "there is no region {number} among {}", self.regions);
        }
    }

    /// Whether a relation holds between two regions, by its code, or the status of a refusal.
    pub fn region_relation(&mut self, settings: &Settings, numbers: [usize; 2], code: u8) -> Result<bool, u8> {
        self.check_numbers(numbers);
        let ([first, second], mut holds) = (numbers, false);
        // SAFETY: the handle is full, and both numbers are below that of the regions. Nothing is required of codes.
        match unsafe { overlay_c_region_relation(&mut self.handle, settings, first, second, code, &mut holds) } {
            0 => Ok(holds),
            status => Err(status),
        }
    }

    /// Which parts of two regions meet, or the status of a refusal.
    pub fn region_relate(&mut self, settings: &Settings, numbers: [usize; 2]) -> Result<Matrix, u8> {
        self.check_numbers(numbers);
        let ([first, second], mut matrix) = (numbers, Matrix::default());
        // SAFETY: the handle is full, and both numbers are below that of the regions. Nothing is required of codes.
        match unsafe { overlay_c_region_relate(&mut self.handle, settings, first, second, &mut matrix) } {
            0 => Ok(matrix),
            status => Err(status),
        }
    }

    /// What the last overlay of contours reports of its run, if it was not refused.
    pub fn report(&mut self) -> Report {
        // SAFETY: the handle is full.
        unsafe { overlay_c_report(&mut self.handle) }
    }

    /// What the arrangement that is kept reports of its run; numbers of 0 where no contours are arranged.
    pub fn arranged_report(&mut self) -> Report {
        // SAFETY: the handle is full.
        unsafe { overlay_c_arranged_report(&mut self.handle) }
    }

    /// Drops the contours that were added.
    pub fn clear(&mut self) {
        // SAFETY: the handle is full.
        unsafe { overlay_c_clear(&mut self.handle) }
    }

    /// How much the engine keeps.
    pub fn sizes(&mut self) -> Sizes {
        // SAFETY: the handle is full.
        unsafe { overlay_c_sizes(&mut self.handle) }
    }

    /// Copies the arrangement out, in place of what the list had.
    pub fn copy_segments(&mut self, segments: &mut Vec<Segment>) -> Result<(), Fault> {
        let len = self.sizes().segments;
        // SAFETY: the handle is full, and the slice has the `length` that the engine reports.
        unsafe { fill(segments, len, |first| overlay_c_segments(&mut self.handle, first, len)) }
    }

    /// Copies the arrangement of polygons and lines out, in place of what the list had.
    pub fn copy_lines(&mut self, lines: &mut Vec<LineSegment>) -> Result<(), Fault> {
        let len = self.sizes().lines;
        // SAFETY: the handle is full, and the slice has the `length` that the engine reports.
        unsafe { fill(lines, len, |first| overlay_c_lines(&mut self.handle, first, len)) }
    }

    /// Copies out how many given lines run along each segment of that arrangement, and then the indexes of these lines, segment
    /// after segment: those of the last `clip_with_numbers`.
    pub fn copy_line_numbers(&mut self, counts: &mut Vec<usize>, numbers: &mut Vec<usize>) -> Result<(), Fault> {
        let Sizes { line_counts, line_numbers, .. } = self.sizes();
        let handle = &mut self.handle;
        // SAFETY: the handle is full, and the two slices, which do not overlap, have the lengths that the engine
        // reports (`counts`, `numbers`).
        unsafe {
            fill_both(counts, line_counts, numbers, line_numbers, |one, other| {
                overlay_c_line_numbers(handle, one, line_counts, other, line_numbers)
            })
        }
    }

    /// Copies the links out, in place of what the list had.
    pub fn copy_links(&mut self, links: &mut Vec<OverlayLink>) -> Result<(), Fault> {
        let len = self.sizes().links;
        // SAFETY: the handle is full, and the slice has the `length` that the engine reports.
        unsafe { fill(links, len, |first| overlay_c_links(&mut self.handle, first, len)) }
    }

    /// Copies the numbers of links out, in place of what the list had: those of the last overlay with data.
    pub fn copy_link_data(&mut self, data: &mut Vec<u64>) -> Result<(), Fault> {
        let len = self.sizes().link_data;
        // SAFETY: the handle is full, and the slice has the `length` that the engine reports.
        unsafe { fill(data, len, |first| overlay_c_link_data(&mut self.handle, first, len)) }
    }

    /// Copies out how many links meet at each node, and then the indexes of these links, node after node.
    pub fn copy_nodes(&mut self, degrees: &mut Vec<usize>, indexes: &mut Vec<usize>) -> Result<(), Fault> {
        let Sizes { nodes, node_links, .. } = self.sizes();
        let handle = &mut self.handle;
        // SAFETY: the handle is full, and the two slices, which do not overlap, have the lengths that the engine
        // reports (`degrees`, `indexes`).
        unsafe {
            fill_both(degrees, nodes, indexes, node_links, |one, other| {
                overlay_c_nodes(handle, one, nodes, other, node_links)
            })
        }
    }

    /// Copies out how many links each walk has, and then the indexes of these links, walk after walk. There are none
    /// where the last call made no walks.
    pub fn copy_walks(&mut self, lengths: &mut Vec<usize>, indexes: &mut Vec<usize>) -> Result<(), Fault> {
        let Sizes { walks, walk_links, .. } = self.sizes();
        let handle = &mut self.handle;
        // SAFETY: the handle is full, and the two slices, which do not overlap, have the lengths that the engine
        // reports (`lengths`, `indexes`).
        unsafe {
            fill_both(lengths, walks, indexes, walk_links, |one, other| {
                overlay_c_walks(handle, one, walks, other, walk_links)
            })
        }
    }

    /// The shapes of the last overlay of contours, if it was in shapes, or the contours of each rule, if it was by several;
    /// else none.
    pub fn shapes(&mut self) -> Result<Vec<IntShape>, Fault> {
        let len = self.sizes().shapes;
        let mut lengths = Vec::new();
        // SAFETY: the handle is full, and the slice has the `length` that the engine reports.
        unsafe { fill(&mut lengths, len, |first| overlay_c_shape_lengths(&mut self.handle, first, len)) }?;
        let mut contours = self.contours()?.into_iter();
        collect_all(lengths.into_iter().map(|length| collect(contours.by_ref().take(length))))
    }

    /// The contours of the last overlay of contours, those of shapes shape by shape.
    pub fn contours(&mut self) -> Result<Vec<IntContour>, Fault> {
        let Sizes { contours, contour_points: count, .. } = self.sizes();
        let (mut lengths, mut points) = (Vec::new(), Vec::new());
        let handle = &mut self.handle;
        // SAFETY: the handle is full, and the two slices, which do not overlap, have the lengths that the engine
        // reports (`lengths`, `points`).
        unsafe {
            fill_both(&mut lengths, contours, &mut points, count, |one, other| {
                overlay_c_contours(handle, one, contours, other, count)
            })
        }?;
        let mut rest = points.as_slice();
        collect_all(lengths.into_iter().map(|length| {
            let (contour, later) = rest.split_at(length);
            rest = later;
            copy(contour)
        }))
    }
}

impl Drop for Engine {
    fn drop(&mut self) {
        // SAFETY: the handle is full. It is not used again.
        unsafe { overlay_c_free(&mut self.handle) }
    }
}

/// Fills a list with the elements that a call writes from a pointer on, in place of what the list had. The call gets memory
/// that nothing was written to, where any bytes are numbers of its records. Where there is none the list is empty.
///
/// # Safety
///
/// The call has to write that many elements.
unsafe fn fill<T: Copy>(list: &mut Vec<T>, len: usize, write: impl FnOnce(*mut T)) -> Result<(), Fault> {
    list.clear();
    reserve(list, len)?;
    write(list.as_mut_ptr());
    // SAFETY: there is room for them, and each was written.
    unsafe { list.set_len(len) }
    Ok(())
}

/// Fills two lists in the same way. The first gets room for one element more, the end of the last list.
///
/// # Safety
///
/// The call has to write that many elements from each pointer on.
unsafe fn fill_both<T: Copy, U: Copy>(
    first: &mut Vec<T>,
    first_len: usize,
    second: &mut Vec<U>,
    second_len: usize,
    write: impl FnOnce(*mut T, *mut U),
) -> Result<(), Fault> {
    first.clear();
    second.clear();
    reserve(first, first_len + 1)?;
    reserve(second, second_len)?;
    write(first.as_mut_ptr(), second.as_mut_ptr());
    // SAFETY: there is room for both, and each element was written.
    unsafe {
        first.set_len(first_len);
        second.set_len(second_len);
    }
    Ok(())
}
