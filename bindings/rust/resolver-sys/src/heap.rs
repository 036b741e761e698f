//! What the archive takes memory with: three functions over the C library's `malloc`.
//!
//! Each size is at most 2^63 - 1 and each alignment divides 16, which `malloc` gives by itself on the
//! machines of 64 bits that the archive is built for. A block of no bytes has an address of its own.

use core::ffi::c_void;
use core::ptr::null_mut;

unsafe extern "C" {
    fn malloc(size: usize) -> *mut c_void;
    fn realloc(block: *mut c_void, size: usize) -> *mut c_void;
    fn free(block: *mut c_void);
}

/// Whether there is memory, and where. The archive reads no address where there is none, but
/// it wants one that isn't null.
#[repr(C)]
pub struct Tried {
    is_there: bool,
    block: *mut c_void,
}

/// What an address points to that is handed out where there is no memory.
static NOWHERE: u8 = 0;

fn tried(block: *mut c_void) -> Tried {
    if block.is_null() {
        Tried { is_there: false, block: (&raw const NOWHERE).cast_mut().cast() }
    } else {
        Tried { is_there: true, block }
    }
}

/// How many bytes to ask for, so that a block of none is a block.
fn at_least(size: usize, align: usize) -> usize {
    if size == 0 { align } else { size }
}

/// Whether memory is refused for a test.
fn is_refused() -> bool {
    #[cfg(feature = "refusals")]
    return crate::refusals::is_next();
    #[cfg(not(feature = "refusals"))]
    false
}

/// Tries to get a block of this size.
#[unsafe(no_mangle)]
extern "C" fn rattle_alloc(size: usize, align: usize) -> Tried {
    if is_refused() {
        return tried(null_mut());
    }
    // SAFETY: malloc may be called with every size.
    tried(unsafe { malloc(at_least(size, align)) })
}

/// Tries to make a block one of this size, whose first bytes stay. Where that fails the block is as
/// it was.
///
/// # Safety
///
/// The block is one that these functions answered and that wasn't freed.
#[unsafe(no_mangle)]
unsafe extern "C" fn rattle_realloc(
    block: *mut c_void,
    _kept: usize,
    size: usize,
    align: usize,
) -> Tried {
    if is_refused() {
        return tried(null_mut());
    }
    // SAFETY: the block is one of malloc's, by what is asked of the caller.
    tried(unsafe { realloc(block, at_least(size, align)) })
}

/// Frees a block.
///
/// # Safety
///
/// The block is one that these functions answered and that wasn't freed.
#[unsafe(no_mangle)]
unsafe extern "C" fn rattle_dealloc(block: *mut c_void) {
    // SAFETY: the block is one of malloc's, by what is asked of the caller.
    unsafe { free(block) }
}
