//! The three functions for memory that the proved library calls and does not define. What its proofs assume of them is in `c/heap.c` of
//! the repository, which has them for C.
//!
//! Their names are weak, so that an archive that `FADRINZO_LIB` names, or another library, may have them too.

use std::arch::global_asm;
use std::ffi::c_void;

extern "C" {
    fn malloc(size: usize) -> *mut c_void;
    fn realloc(at: *mut c_void, size: usize) -> *mut c_void;
    fn free(at: *mut c_void);
}

/// Gives a function a weak name.
macro_rules! weak {
    ($name:literal, $function:ident) => {
        #[cfg(target_arch = "x86_64")]
        global_asm!(concat!(".weak ", $name), concat!($name, ":"), "jmp {}", sym $function);
        #[cfg(target_arch = "aarch64")]
        global_asm!(concat!(".weak ", $name), concat!($name, ":"), "b {}", sym $function);
    };
}

weak!("rattle_alloc", alloc);
weak!("rattle_realloc", resize);
weak!("rattle_dealloc", end);

/// Whether there is memory, and where. If there is none, the place is not null, and nothing lies there.
#[repr(C)]
struct Tried {
    ok: bool,
    at: *mut c_void,
}

fn tried(at: *mut c_void) -> Tried {
    Tried { ok: !at.is_null(), at: if at.is_null() { std::ptr::NonNull::dangling().as_ptr() } else { at } }
}

/// A new block of so many bytes, aligned to 16 or a divisor of it. A block of none has a place of its own all the same.
extern "C" fn alloc(size: usize, align: usize) -> Tried {
    // SAFETY: `malloc` takes any size.
    tried(unsafe { malloc(if size == 0 { align } else { size }) })
}

/// Gives a block another size. It may move, and keeps its first `kept` bytes.
unsafe extern "C" fn resize(at: *mut c_void, _kept: usize, size: usize, align: usize) -> Tried {
    // SAFETY: the library hands in what one of these two returned, and has not ended it.
    tried(unsafe { realloc(at, if size == 0 { align } else { size }) })
}

/// Ends a block.
unsafe extern "C" fn end(at: *mut c_void) {
    // SAFETY: the library hands in what one of the two returned, and does so once.
    unsafe { free(at) }
}

#[cfg(test)]
mod tests {
    use super::*;
    use std::hint::black_box;

    #[test]
    fn blocks_are_as_the_proofs_assume() {
        let blocks: Vec<*mut u8> = (0..64_u8)
            .map(|size| {
                let block = alloc(size.into(), 8);
                assert!(block.ok && block.at as usize % 16 == 0);
                // SAFETY: the block has that many bytes.
                unsafe { std::ptr::write_bytes(block.at.cast::<u8>(), size, size.into()) };
                block.at.cast()
            })
            .collect();
        for (size, &block) in (0..64_usize).zip(&blocks) {
            assert!(blocks[..size].iter().all(|&other| other != block));
            // SAFETY: the block was returned above, is not ended yet, and its first `size` bytes were written.
            unsafe {
                let refused = black_box(resize(block.cast(), size, black_box(1 << 62), 8));
                assert!(!refused.ok && !refused.at.is_null());
                let grown = resize(block.cast(), size, 100 * size, 8);
                assert!(grown.ok);
                assert!(std::slice::from_raw_parts(grown.at.cast::<u8>(), size)
                    .iter()
                    .all(|&it| usize::from(it) == size));
                end(grown.at);
            }
        }
        // the compiler would take it that a block that is not used is there
        let refused = black_box(alloc(black_box(1 << 62), 8));
        assert!(!refused.ok && !refused.at.is_null());
    }
}
