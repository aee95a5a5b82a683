//! Blocks whose sizes the C library reports.
use super::{c_free, c_realloc, malloc};
use std::ffi::c_void;

// SAFETY: it belongs to the C library, as its headers declare it: GNU's and musl's both have it.
unsafe extern "C" {
    fn malloc_usable_size(at: *mut c_void) -> usize;
}

/// Allocates a block of at least this many bytes; null if that fails.
#[inline]
pub fn make(bytes: usize) -> *mut c_void {
    // SAFETY: `malloc` takes any size.
    unsafe { malloc(bytes) }
}

/// Resizes a block, perhaps moving it; null if that fails, and the block is unchanged.
///
/// # Safety
/// The block comes from `make` or `resize`, and wasn't freed.
#[inline]
pub unsafe fn resize(at: *mut c_void, bytes: usize) -> *mut c_void {
    // SAFETY: as this function's.
    unsafe { c_realloc(at, bytes) }
}

/// Frees a block.
///
/// # Safety
/// As for `resize`.
#[inline]
pub unsafe fn free(at: *mut c_void) {
    // SAFETY: as this function's.
    unsafe { c_free(at) }
}

/// Returns how many bytes a block has.
///
/// # Safety
/// As for `resize`.
#[inline]
pub unsafe fn size(at: *mut c_void) -> usize {
    // SAFETY: as this function's.
    unsafe { malloc_usable_size(at) }
}
