//! Counts the passes of a split: `build.py` puts one call of `note_pass` into upstream's `radius_squared`, which each
//! splitting loop calls exactly once a pass.

use std::cell::Cell;

/// The program ends with status 6 after this many passes, since upstream has no bound on them.
const MOST: u64 = 100_000;

thread_local! {
    static PASSES: Cell<u64> = const { Cell::new(0) };
    static LIMIT: Cell<u64> = const { Cell::new(u64::MAX) };
}

/// Lets a split panic after so many passes.
pub(crate) fn stop_after(passes: u64) {
    LIMIT.set(passes);
}

pub(crate) fn reset() {
    PASSES.with(|passes| passes.set(0));
}

pub(crate) fn count() -> u64 {
    PASSES.with(Cell::get)
}

#[inline(never)]
pub(crate) fn note_pass() {
    let passes = count() + 1;
    PASSES.with(|count| count.set(passes));
    assert!(passes <= LIMIT.get(), "no end");
    if passes > MOST {
        eprintln!("no end after {MOST} passes");
        std::process::exit(6);
    }
}
