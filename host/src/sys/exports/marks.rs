//! Of the module `marks`: written by `tools/host_declarations` from the lines of `crates/rhai_host`.

use crate::sys::Handle;
use crate::sys::Told;

unsafe extern "C" {
    fn rhai_host_unmark(handle: *mut Handle, mark: usize, told: &mut Told) -> u32;
    fn rhai_host_write_marked(handle: *mut Handle, mark: usize, i: usize, told: &mut Told) -> u32;
    fn rhai_host_read_marked(handle: *mut Handle, mark: usize, told: &mut Told) -> u32;
}

/// Removes the mark at this position from the list, and unlocks its cell. Later marks move up.
#[inline]
pub fn unmark(handle: &Handle, mark: usize, told: &mut Told) -> u32 {
    // SAFETY: `handle` is zeros or what a call left, and this call's alone: it is no `Sync`, and the library comes back by
    // the doors only. `told` is a whole `Told` that nobody else has. Any `mark` will do.
    unsafe { rhai_host_unmark(handle.lent().at(), mark, told) }
}

/// Moves the value at the hand position into the cell of the mark at this position, and leaves unit
/// in its place.
#[inline]
pub fn write_marked(handle: &Handle, mark: usize, i: usize, told: &mut Told) -> u32 {
    // SAFETY: `handle` is zeros or what a call left, and this call's alone: it is no `Sync`, and the library comes back by
    // the doors only. `told` is a whole `Told` that nobody else has. Any `mark`, `i` will do.
    unsafe { rhai_host_write_marked(handle.lent().at(), mark, i, told) }
}

/// Appends a copy of the content of the cell of the mark at this position.
#[inline]
pub fn read_marked(handle: &Handle, mark: usize, told: &mut Told) -> u32 {
    // SAFETY: `handle` is zeros or what a call left, and this call's alone: it is no `Sync`, and the library comes back by
    // the doors only. `told` is a whole `Told` that nobody else has. Any `mark` will do.
    unsafe { rhai_host_read_marked(handle.lent().at(), mark, told) }
}
