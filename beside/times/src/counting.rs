//! Counts the memory of both sides. The timed build has none of this: there Rust uses its usual allocator and Rattle
//! the kit's c/liblibc_c.a, and both call C's malloc.

use std::alloc::{GlobalAlloc, Layout, System};
use std::sync::atomic::{AtomicBool, AtomicUsize, Ordering::Relaxed};

extern "C" {
    fn malloc(n: usize) -> *mut u8;
    fn realloc(p: *mut u8, n: usize) -> *mut u8;
    fn free(p: *mut u8);
    fn malloc_usable_size(p: *mut u8) -> usize;
}

static COUNTS: AtomicBool = AtomicBool::new(false);
static NOW: AtomicUsize = AtomicUsize::new(0);
static PEAK: AtomicUsize = AtomicUsize::new(0);
static CALLS: AtomicUsize = AtomicUsize::new(0);

#[inline(always)]
fn came(p: *mut u8) {
    if COUNTS.load(Relaxed) {
        let n = NOW.load(Relaxed) + unsafe { malloc_usable_size(p) } + 8;
        NOW.store(n, Relaxed);
        CALLS.store(CALLS.load(Relaxed) + 1, Relaxed);
        if n > PEAK.load(Relaxed) {
            PEAK.store(n, Relaxed);
        }
    }
}
#[inline(always)]
fn goes(p: *mut u8) {
    if COUNTS.load(Relaxed) && !p.is_null() {
        NOW.store(NOW.load(Relaxed).wrapping_sub(unsafe { malloc_usable_size(p) } + 8), Relaxed);
    }
}

/// (peak bytes with malloc's own words, calls of malloc and realloc) of a run.
pub fn counted<R>(run: impl FnOnce() -> R) -> (usize, usize) {
    NOW.store(0, Relaxed);
    PEAK.store(0, Relaxed);
    CALLS.store(0, Relaxed);
    COUNTS.store(true, Relaxed);
    drop(run());
    COUNTS.store(false, Relaxed);
    (PEAK.load(Relaxed), CALLS.load(Relaxed))
}

struct Counting;
unsafe impl GlobalAlloc for Counting {
    #[inline]
    unsafe fn alloc(&self, l: Layout) -> *mut u8 {
        let p = if l.align() <= 16 { malloc(l.size()) } else { System.alloc(l) };
        came(p);
        p
    }
    #[inline]
    unsafe fn dealloc(&self, p: *mut u8, _: Layout) {
        goes(p);
        free(p)
    }
    #[inline]
    unsafe fn realloc(&self, p: *mut u8, l: Layout, n: usize) -> *mut u8 {
        goes(p);
        let q = if l.align() <= 16 { realloc(p, n) } else { System.realloc(p, l, n) };
        came(q);
        q
    }
}
#[global_allocator]
static COUNTING: Counting = Counting;

// ---- Rattle's `Global`: the same calls as the kit's c/liblibc_c.a makes (malloc, realloc, free).
#[repr(C)]
pub struct Given {
    ok: u64,
    at: *mut u8,
}
#[no_mangle]
pub unsafe extern "C" fn rattle_alloc(n: usize, or: usize) -> Given {
    let p = malloc(if n == 0 { or } else { n });
    came(p);
    Given { ok: u64::from(!p.is_null()), at: p }
}
#[no_mangle]
pub unsafe extern "C" fn rattle_realloc(p: *mut u8, _old: usize, n: usize, or: usize) -> Given {
    goes(p);
    let q = realloc(p, if n == 0 { or } else { n });
    came(q);
    Given { ok: u64::from(!q.is_null()), at: q }
}
#[no_mangle]
pub unsafe extern "C" fn rattle_dealloc(p: *mut u8) {
    goes(p);
    free(p)
}
