//! Blocks with their size stored before them, for a C library that doesn't report sizes.
use super::{c_free, c_realloc, malloc};
use std::ffi::c_void;
use std::ptr::null_mut;

/// How many bytes precede a block: the alignment of C's functions, so that the block itself is
/// aligned too.
const HEADER: usize = 16;

/// Allocates a block of this many bytes; null if that fails.
pub fn make(bytes: usize) -> *mut c_void {
    let Some(whole) = bytes.checked_add(HEADER) else {
        return null_mut();
    };
    // SAFETY: `malloc` takes any size.
    let front = unsafe { malloc(whole) };
    // SAFETY: it is null or a block of this many bytes, which nobody else uses.
    unsafe { behind(front, whole) }
}

/// Resizes a block, perhaps moving it; null if that fails, and the block is unchanged.
///
/// # Safety
/// The block comes from `make` or `resize`, and wasn't freed.
pub unsafe fn resize(at: *mut c_void, bytes: usize) -> *mut c_void {
    let Some(whole) = bytes.checked_add(HEADER) else {
        return null_mut();
    };
    // SAFETY: as this function's.
    let front = unsafe { front(at) };
    // SAFETY: C's block begins there.
    let front = unsafe { c_realloc(front, whole) };
    // SAFETY: it is null or a block of this many bytes, which nobody else uses.
    unsafe { behind(front, whole) }
}

/// Frees a block.
///
/// # Safety
/// As for `resize`.
pub unsafe fn free(at: *mut c_void) {
    // SAFETY: as this function's.
    let front = unsafe { front(at) };
    // SAFETY: C's block begins there.
    unsafe { c_free(front) }
}

/// Returns how many bytes a block takes, including those before it.
///
/// # Safety
/// As for `resize`.
pub unsafe fn size(at: *mut c_void) -> usize {
    // SAFETY: as this function's.
    let front = unsafe { front(at) };
    // SAFETY: `behind` wrote it there.
    unsafe { front.cast::<usize>().read() }
}

/// Stores the size of a C block, and returns the address behind it; null for null.
///
/// # Safety
/// It is null or a C block of this many bytes, at least `HEADER`, and nobody else uses it.
unsafe fn behind(front: *mut c_void, whole: usize) -> *mut c_void {
    if front.is_null() {
        return front;
    }
    // SAFETY: the block is aligned to 16 bytes, and has at least as many.
    unsafe { front.cast::<usize>().write(whole) };
    // SAFETY: it has at least as many bytes.
    unsafe { front.byte_add(HEADER) }
}

/// Returns where C's block begins.
///
/// # Safety
/// As for `resize`.
unsafe fn front(at: *mut c_void) -> *mut c_void {
    // SAFETY: `behind` moved the address by as much.
    unsafe { at.byte_sub(HEADER) }
}

#[cfg(test)]
mod tests {
    use super::{free, make, resize, size};

    #[test]
    fn a_block_keeps_its_bytes_and_knows_its_size() {
        let at = make(100);
        assert!(!at.is_null() && at.addr().is_multiple_of(16));
        // SAFETY: the block has as many bytes.
        unsafe { at.cast::<[u8; 100]>().write([7; 100]) };
        // SAFETY: it was just made.
        assert_eq!(unsafe { size(at) }, 116);
        // SAFETY: the same.
        let at = unsafe { resize(at, 100_000) };
        assert!(!at.is_null() && at.addr().is_multiple_of(16));
        // SAFETY: it was just made.
        assert_eq!(unsafe { size(at) }, 100_016);
        // SAFETY: the bytes before are kept.
        assert_eq!(unsafe { at.cast::<[u8; 100]>().read() }, [7; 100]);
        // SAFETY: it wasn't given back.
        assert!(unsafe { resize(at, usize::MAX) }.is_null());
        // SAFETY: a block that couldn't be resized is unchanged.
        unsafe { free(at) };
    }

    #[test]
    fn what_no_address_space_has_is_refused() {
        assert!(make(usize::MAX).is_null() && make(usize::MAX - 15).is_null());
    }
}
