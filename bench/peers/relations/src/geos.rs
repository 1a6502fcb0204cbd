//! GEOS by its C interface.

use fadrinzo::IntContour;
use std::ffi::{c_char, c_int, c_uint, c_void, CStr};

#[link(name = "geos_c")]
extern "C" {
    fn GEOS_init_r() -> *mut c_void;
    fn GEOSversion() -> *const c_char;
    fn GEOSCoordSeq_create_r(handle: *mut c_void, size: c_uint, dims: c_uint) -> *mut c_void;
    fn GEOSCoordSeq_setXY_r(handle: *mut c_void, points: *mut c_void, index: c_uint, x: f64, y: f64) -> c_int;
    fn GEOSGeom_createLinearRing_r(handle: *mut c_void, points: *mut c_void) -> *mut c_void;
    fn GEOSGeom_createPolygon_r(
        handle: *mut c_void,
        outer: *mut c_void,
        holes: *mut *mut c_void,
        count: c_uint,
    ) -> *mut c_void;
    fn GEOSGeom_destroy_r(handle: *mut c_void, shape: *mut c_void);
    fn GEOSisValid_r(handle: *mut c_void, shape: *const c_void) -> c_char;
    fn GEOSRelate_r(handle: *mut c_void, one: *const c_void, other: *const c_void) -> *mut c_char;
    fn GEOSFree_r(handle: *mut c_void, bytes: *mut c_void);
    fn GEOSCovers_r(handle: *mut c_void, one: *const c_void, other: *const c_void) -> c_char;
    fn GEOSCoveredBy_r(handle: *mut c_void, one: *const c_void, other: *const c_void) -> c_char;
    fn GEOSEquals_r(handle: *mut c_void, one: *const c_void, other: *const c_void) -> c_char;
    fn GEOSTouches_r(handle: *mut c_void, one: *const c_void, other: *const c_void) -> c_char;
    fn GEOSDisjoint_r(handle: *mut c_void, one: *const c_void, other: *const c_void) -> c_char;
    fn GEOSRelatePattern_r(
        handle: *mut c_void,
        one: *const c_void,
        other: *const c_void,
        pattern: *const c_char,
    ) -> c_char;
    fn GEOSPrepare_r(handle: *mut c_void, shape: *const c_void) -> *const c_void;
    fn GEOSPreparedGeom_destroy_r(handle: *mut c_void, shape: *const c_void);
    fn GEOSPreparedIntersects_r(handle: *mut c_void, one: *const c_void, other: *const c_void) -> c_char;
    fn GEOSPreparedTouches_r(handle: *mut c_void, one: *const c_void, other: *const c_void) -> c_char;
    fn GEOSPreparedCovers_r(handle: *mut c_void, one: *const c_void, other: *const c_void) -> c_char;
    fn GEOSSTRtree_create_r(handle: *mut c_void, capacity: usize) -> *mut c_void;
    fn GEOSSTRtree_insert_r(handle: *mut c_void, tree: *mut c_void, shape: *const c_void, item: *mut c_void);
    fn GEOSSTRtree_query_r(
        handle: *mut c_void,
        tree: *mut c_void,
        shape: *const c_void,
        found: extern "C" fn(*mut c_void, *mut c_void),
        user: *mut c_void,
    );
    fn GEOSSTRtree_destroy_r(handle: *mut c_void, tree: *mut c_void);
}

pub struct Geos(*mut c_void);

/// A polygon of GEOS, which lives as long as the process if it is not destroyed.
#[derive(Clone, Copy)]
pub struct Polygon(*mut c_void);

/// A polygon that GEOS prepared.
#[derive(Clone, Copy)]
pub struct Prepared(*const c_void);

extern "C" fn keep(item: *mut c_void, user: *mut c_void) {
    // SAFETY: `find_near` passes a vector, and has the items be numbers and no addresses
    unsafe { (*user.cast::<Vec<usize>>()).push(item as usize) }
}

// SAFETY, of all calls below: the handle is one of GEOS, made once; shapes and trees come from these calls and are not used after
// they are destroyed
impl Geos {
    pub fn new() -> Geos {
        Geos(unsafe { GEOS_init_r() })
    }

    pub fn version() -> String {
        unsafe { CStr::from_ptr(GEOSversion()) }.to_string_lossy().into_owned()
    }

    fn ring(&self, contour: &IntContour) -> *mut c_void {
        unsafe {
            let points = GEOSCoordSeq_create_r(self.0, contour.len() as c_uint + 1, 2);
            for (index, point) in contour.iter().chain(contour.first()).enumerate() {
                GEOSCoordSeq_setXY_r(self.0, points, index as c_uint, point.x.into(), point.y.into());
            }
            GEOSGeom_createLinearRing_r(self.0, points)
        }
    }

    /// A polygon of an outer boundary and holes, if it is valid.
    pub fn valid_polygon(&self, contours: &[IntContour]) -> Option<Polygon> {
        let (outer, holes) = contours.split_first()?;
        if contours.iter().any(|contour| contour.len() < 3) {
            return None;
        }
        let mut holes: Vec<*mut c_void> = holes.iter().map(|hole| self.ring(hole)).collect();
        unsafe {
            let shape = GEOSGeom_createPolygon_r(self.0, self.ring(outer), holes.as_mut_ptr(), holes.len() as c_uint);
            if shape.is_null() {
                return None;
            }
            if GEOSisValid_r(self.0, shape) != 1 {
                GEOSGeom_destroy_r(self.0, shape);
                return None;
            }
            Some(Polygon(shape))
        }
    }

    pub fn destroy(&self, polygon: Polygon) {
        unsafe { GEOSGeom_destroy_r(self.0, polygon.0) }
    }

    /// OGC's matrix of nine letters.
    pub fn relate(&self, one: Polygon, other: Polygon) -> String {
        unsafe {
            let text = GEOSRelate_r(self.0, one.0, other.0);
            if text.is_null() {
                return "failed".to_string();
            }
            let owned = CStr::from_ptr(text).to_string_lossy().into_owned();
            GEOSFree_r(self.0, text.cast());
            owned
        }
    }

    /// Whether interiors meet, the first covers the second, is covered by it, both are equal, touch, and are disjoint.
    pub fn predicates(&self, one: Polygon, other: Polygon) -> [bool; 6] {
        let (a, b) = (one.0, other.0);
        unsafe {
            [
                GEOSRelatePattern_r(self.0, a, b, c"T********".as_ptr()),
                GEOSCovers_r(self.0, a, b),
                GEOSCoveredBy_r(self.0, a, b),
                GEOSEquals_r(self.0, a, b),
                GEOSTouches_r(self.0, a, b),
                GEOSDisjoint_r(self.0, a, b),
            ]
        }
        .map(|it| it == 1)
    }

    pub fn prepare(&self, polygon: Polygon) -> Prepared {
        Prepared(unsafe { GEOSPrepare_r(self.0, polygon.0) })
    }

    pub fn release(&self, prepared: Prepared) {
        unsafe { GEOSPreparedGeom_destroy_r(self.0, prepared.0) }
    }

    pub fn intersects(&self, one: Prepared, other: Polygon) -> bool {
        unsafe { GEOSPreparedIntersects_r(self.0, one.0, other.0) == 1 }
    }

    pub fn touches(&self, one: Prepared, other: Polygon) -> bool {
        unsafe { GEOSPreparedTouches_r(self.0, one.0, other.0) == 1 }
    }

    pub fn covers(&self, one: Prepared, other: Polygon) -> bool {
        unsafe { GEOSPreparedCovers_r(self.0, one.0, other.0) == 1 }
    }

    /// The pairs of numbers of which a predicate of prepared polygons holds, in order, by an STRtree of the second ones.
    pub fn related_pairs(
        &self,
        first: &[Polygon],
        second: &[Polygon],
        predicate: fn(&Geos, Prepared, Polygon) -> bool,
    ) -> Vec<(usize, usize)> {
        let mut pairs = Vec::new();
        unsafe {
            let tree = GEOSSTRtree_create_r(self.0, 10);
            for (number, polygon) in second.iter().enumerate() {
                GEOSSTRtree_insert_r(self.0, tree, polygon.0, number as *mut c_void);
            }
            let mut near: Vec<usize> = Vec::new();
            for (number, polygon) in first.iter().enumerate() {
                near.clear();
                GEOSSTRtree_query_r(self.0, tree, polygon.0, keep, std::ptr::from_mut(&mut near).cast());
                near.sort_unstable();
                let prepared = self.prepare(*polygon);
                pairs.extend(near.iter().filter(|&&it| predicate(self, prepared, second[it])).map(|&it| (number, it)));
                self.release(prepared);
            }
            GEOSSTRtree_destroy_r(self.0, tree);
        }
        pairs
    }
}
