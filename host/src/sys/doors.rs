//! The three functions through which the library allocates: C's `malloc`, `realloc` and `free`,
//! which align a block to 16 bytes. Each block counts for the world whose call is running, and is
//! refused if that world would hold more than it may.
use super::account;
use super::blocks;
use std::ffi::c_void;

/// The alignment of blocks from C's functions, and the most that the library may ask for. (A block
/// is freed without its alignment.)
const ALIGN: usize = 16;

/// Whether the allocation succeeded, and where. If it failed, the address is still not null.
#[repr(C)]
struct Tried {
    is_there: bool,
    at: *mut c_void,
}

impl Tried {
    fn of(at: *mut c_void) -> Tried {
        static NOWHERE: u8 = 0;
        if at.is_null() {
            return Tried { is_there: false, at: std::ptr::addr_of!(NOWHERE).cast_mut().cast() };
        }
        Tried { is_there: true, at }
    }
}

fn at_least(size: usize, align: usize) -> usize {
    debug_assert!(align <= ALIGN, "a block of alignment {align}");
    if size == 0 {
        align
    } else {
        size
    }
}

// SAFETY: the library expects this function under this name, and no other item of the program has
// the name: `SAFETY.md` treats a second such library.
#[unsafe(no_mangle)]
extern "C" fn rattle_alloc(size: usize, align: usize) -> Tried {
    let size = at_least(size, align);
    if is_refused() || !account::has_room(size) {
        return Tried::of(std::ptr::null_mut());
    }
    let at = blocks::make(size);
    if !at.is_null() {
        // SAFETY: it was just allocated.
        account::take(unsafe { blocks::size(at) });
    }
    Tried::of(at)
}

// SAFETY: as for `rattle_alloc`.
#[unsafe(no_mangle)]
unsafe extern "C" fn rattle_realloc(at: *mut c_void, _kept: usize, size: usize, align: usize) -> Tried {
    let size = at_least(size, align);
    // SAFETY: the library passes a block that one of these functions returned, and that it has not
    // freed.
    let before = unsafe { blocks::size(at) };
    if is_refused() || !account::has_room(size.saturating_sub(before)) {
        return Tried::of(std::ptr::null_mut());
    }
    // SAFETY: as above. The library no longer uses the old block if there is a new one, and keeps
    // it otherwise.
    let new = unsafe { blocks::resize(at, size) };
    if !new.is_null() {
        account::give(before);
        // SAFETY: it was just allocated.
        account::take(unsafe { blocks::size(new) });
    }
    Tried::of(new)
}

// SAFETY: as for `rattle_alloc`.
#[unsafe(no_mangle)]
unsafe extern "C" fn rattle_dealloc(at: *mut c_void) {
    // SAFETY: the library passes a block that one of these functions returned, once.
    account::give(unsafe { blocks::size(at) });
    // SAFETY: the same.
    unsafe { blocks::free(at) }
}

#[cfg(not(feature = "faults"))]
fn is_refused() -> bool {
    false
}

#[cfg(feature = "faults")]
pub use faults::{is_refused, refuse};

#[cfg(feature = "faults")]
mod faults {
    use std::cell::Cell;

    thread_local! {
        static NTH: Cell<u64> = const { Cell::new(u64::MAX) };
        static LASTS: Cell<bool> = const { Cell::new(false) };
        static SO_FAR: Cell<u64> = const { Cell::new(0) };
    }

    /// Does the work; the allocation of this number, counted from 0, fails, and so does each later
    /// one if `lasts` is set. Returns how many allocations were tried.
    pub fn refuse<T>(nth: u64, lasts: bool, work: impl FnOnce() -> T) -> (T, u64) {
        NTH.set(nth);
        LASTS.set(lasts);
        SO_FAR.set(0);
        let done = work();
        NTH.set(u64::MAX);
        (done, SO_FAR.get())
    }

    pub fn is_refused() -> bool {
        let n = SO_FAR.get();
        SO_FAR.set(n + 1);
        n == NTH.get() || LASTS.get() && n > NTH.get()
    }
}

#[cfg(test)]
mod tests {
    use super::{rattle_alloc, rattle_dealloc, rattle_realloc};
    use crate::sys::account::Account;
    use std::num::NonZeroUsize;

    #[test]
    fn what_is_refused_changes_nothing() {
        let account = Account::new();
        account.set_cap(NonZeroUsize::new(10_000));
        let _entered = account.enter();
        let block = rattle_alloc(1_000, 8);
        assert!(block.is_there && account.held() >= 1_000);
        // SAFETY: the block has as many bytes.
        unsafe { block.at.cast::<[u8; 1_000]>().write([7; 1_000]) };
        let held = account.held();
        assert!(!rattle_alloc(10_000, 8).is_there && !rattle_alloc(usize::MAX, 8).is_there);
        // SAFETY: the block was not freed.
        let refused = unsafe { rattle_realloc(block.at, 1_000, 20_000, 8) };
        assert!(!refused.is_there && account.held() == held);
        // SAFETY: it has as many bytes.
        assert_eq!(unsafe { block.at.cast::<[u8; 1_000]>().read() }, [7; 1_000]);
        // SAFETY: it is freed once.
        unsafe { rattle_dealloc(block.at) };
        assert_eq!((account.held(), account.most()), (0, held));
    }

    #[test]
    fn past_the_cap_a_block_may_become_smaller() {
        let account = Account::new();
        let _entered = account.enter();
        let block = rattle_alloc(100_000, 8);
        account.set_cap(NonZeroUsize::new(10));
        // SAFETY: the block was not freed.
        let smaller = unsafe { rattle_realloc(block.at, 100_000, 100, 8) };
        assert!(smaller.is_there && account.held() >= 100 && account.held() < 100_000);
        // SAFETY: the same.
        let larger = unsafe { rattle_realloc(smaller.at, 100, 50_000, 8) };
        assert!(!larger.is_there);
        // SAFETY: it is freed once.
        unsafe { rattle_dealloc(smaller.at) };
        assert_eq!(account.held(), 0);
    }
}
