//! The C library's `malloc` and its kin, in front of its own: of a call into the archive the blocks are counted, and growths can be
//! refused. What runs outside of such a call gets memory as ever.

use std::cell::Cell;
use std::ffi::c_void;

/// Which growths of a call are refused: the one after so many, and all later ones if `all` is true.
#[derive(Clone, Copy, Debug)]
pub struct Refusals {
    pub after: u64,
    pub all: bool,
}

thread_local! {
    static IS_INSIDE: Cell<bool> = const { Cell::new(false) };
    static REFUSALS: Cell<Option<Refusals>> = const { Cell::new(None) };
    static HAS_REFUSED: Cell<bool> = const { Cell::new(false) };
    static REFUSED: Cell<u64> = const { Cell::new(0) };
    static BLOCKS: Cell<i64> = const { Cell::new(0) };
}

/// Runs a call whose memory is counted.
pub fn inside<T>(call: impl FnOnce() -> T) -> T {
    IS_INSIDE.set(true);
    let result = call();
    IS_INSIDE.set(false);
    result
}

/// Runs what belongs to no call, within one.
#[allow(dead_code, reason = "not every test has such a part")]
pub fn outside<T>(part: impl FnOnce() -> T) -> T {
    let was_inside = IS_INSIDE.replace(false);
    let result = part();
    IS_INSIDE.set(was_inside);
    result
}

/// Runs a call of which growths are refused.
pub fn refused<T>(refusals: Refusals, call: impl FnOnce() -> T) -> T {
    REFUSALS.set(Some(refusals));
    HAS_REFUSED.set(false);
    let result = call();
    REFUSALS.set(None);
    result
}

/// Whether a growth of the last `refused` was refused.
pub fn has_refused() -> bool {
    HAS_REFUSED.get()
}

/// How many growths were refused.
pub fn refused_growths() -> u64 {
    REFUSED.get()
}

/// How many blocks were taken and not given back.
pub fn blocks() -> i64 {
    BLOCKS.get()
}

/// Notes a growth. Returns whether it is refused.
fn is_refused() -> bool {
    if !IS_INSIDE.get() {
        return false;
    }
    let Some(Refusals { after, all }) = REFUSALS.get() else { return false };
    if after > 0 {
        REFUSALS.set(Some(Refusals { after: after - 1, all }));
        return false;
    }
    if !all {
        REFUSALS.set(None);
    }
    HAS_REFUSED.set(true);
    REFUSED.set(REFUSED.get() + 1);
    true
}

/// Notes that blocks were taken, or given back.
fn note(blocks: i64) {
    if IS_INSIDE.get() {
        BLOCKS.set(BLOCKS.get() + blocks);
    }
}

extern "C" {
    fn __libc_malloc(size: usize) -> *mut c_void;
    fn __libc_calloc(count: usize, size: usize) -> *mut c_void;
    fn __libc_realloc(block: *mut c_void, size: usize) -> *mut c_void;
    fn __libc_free(block: *mut c_void);
}

#[no_mangle]
extern "C" fn malloc(size: usize) -> *mut c_void {
    if is_refused() {
        return std::ptr::null_mut();
    }
    note(1);
    // SAFETY: any size may be requested.
    unsafe { __libc_malloc(size) }
}

#[no_mangle]
extern "C" fn calloc(count: usize, size: usize) -> *mut c_void {
    if is_refused() {
        return std::ptr::null_mut();
    }
    note(1);
    // SAFETY: any size may be requested.
    unsafe { __libc_calloc(count, size) }
}

#[no_mangle]
extern "C" fn realloc(block: *mut c_void, size: usize) -> *mut c_void {
    if is_refused() {
        return std::ptr::null_mut();
    }
    note(i64::from(block.is_null()));
    // SAFETY: the block, if there is one, is of the C library, as each function here returns one.
    unsafe { __libc_realloc(block, size) }
}

#[no_mangle]
extern "C" fn free(block: *mut c_void) {
    note(-i64::from(!block.is_null()));
    // SAFETY: the same.
    unsafe { __libc_free(block) }
}
