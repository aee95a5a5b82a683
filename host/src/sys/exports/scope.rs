//! Of the module `scope`: written by `tools/host_declarations` from the lines of `crates/rhai_host`.

use crate::sys::Handle;
use crate::sys::Told;

unsafe extern "C" {
    fn rhai_host_pop(handle: *mut Handle, told: &mut Told) -> u32;
    fn rhai_host_rewind(handle: *mut Handle, count: usize, told: &mut Told) -> u32;
    fn rhai_host_clear(handle: *mut Handle, told: &mut Told) -> u32;
    fn rhai_host_len(handle: *mut Handle, told: &mut Told) -> u32;
    fn rhai_host_is_empty(handle: *mut Handle, told: &mut Told) -> u32;
    fn rhai_host_keep_visible(handle: *mut Handle, told: &mut Told) -> u32;
    fn rhai_host_copy_scope(handle: *mut Handle, told: &mut Told) -> u32;
    fn rhai_host_entries(handle: *mut Handle, told: &mut Told) -> u32;
    fn rhai_host_names(handle: *mut Handle, told: &mut Told) -> u32;
    fn rhai_host_show_scope(handle: *mut Handle, told: &mut Told) -> u32;
    fn rhai_host_hash_scope(handle: *mut Handle, told: &mut Told) -> u32;
}

/// Drops the last entry.
#[inline]
pub fn pop(handle: &Handle, told: &mut Told) -> u32 {
    // SAFETY: `handle` is zeros or what a call left, and this call's alone: it is no `Sync`, and the library comes back by
    // the doors only. `told` is a whole `Told` that nobody else has.
    unsafe { rhai_host_pop(handle.lent().at(), told) }
}

/// Keeps the oldest entries, as many as the number says, and drops the others.
#[inline]
pub fn rewind(handle: &Handle, count: usize, told: &mut Told) -> u32 {
    // SAFETY: `handle` is zeros or what a call left, and this call's alone: it is no `Sync`, and the library comes back by
    // the doors only. `told` is a whole `Told` that nobody else has. Any `count` will do.
    unsafe { rhai_host_rewind(handle.lent().at(), count, told) }
}

/// Drops all entries.
#[inline]
pub fn clear(handle: &Handle, told: &mut Told) -> u32 {
    // SAFETY: `handle` is zeros or what a call left, and this call's alone: it is no `Sync`, and the library comes back by
    // the doors only. `told` is a whole `Told` that nobody else has.
    unsafe { rhai_host_clear(handle.lent().at(), told) }
}

/// Returns how many entries there are.
#[inline]
pub fn len(handle: &Handle, told: &mut Told) -> u32 {
    // SAFETY: `handle` is zeros or what a call left, and this call's alone: it is no `Sync`, and the library comes back by
    // the doors only. `told` is a whole `Told` that nobody else has.
    unsafe { rhai_host_len(handle.lent().at(), told) }
}

/// Returns whether there are no entries.
#[inline]
pub fn is_empty(handle: &Handle, told: &mut Told) -> u32 {
    // SAFETY: `handle` is zeros or what a call left, and this call's alone: it is no `Sync`, and the library comes back by
    // the doors only. `told` is a whole `Told` that nobody else has.
    unsafe { rhai_host_is_empty(handle.lent().at(), told) }
}

/// Keeps a copy of the newest entry of each name, newest first.
#[inline]
pub fn keep_visible(handle: &Handle, told: &mut Told) -> u32 {
    // SAFETY: `handle` is zeros or what a call left, and this call's alone: it is no `Sync`, and the library comes back by
    // the doors only. `told` is a whole `Told` that nobody else has.
    unsafe { rhai_host_keep_visible(handle.lent().at(), told) }
}

/// Replaces the scope with a copy of all entries.
#[inline]
pub fn copy_scope(handle: &Handle, told: &mut Told) -> u32 {
    // SAFETY: `handle` is zeros or what a call left, and this call's alone: it is no `Sync`, and the library comes back by
    // the doors only. `told` is a whole `Told` that nobody else has.
    unsafe { rhai_host_copy_scope(handle.lent().at(), told) }
}

/// Appends copies of the values of all entries, without their holders.
#[inline]
pub fn entries(handle: &Handle, told: &mut Told) -> u32 {
    // SAFETY: `handle` is zeros or what a call left, and this call's alone: it is no `Sync`, and the library comes back by
    // the doors only. `told` is a whole `Told` that nobody else has.
    unsafe { rhai_host_entries(handle.lent().at(), told) }
}

/// Returns the names of the entries, newest first, one a line, with `const ` before that of a
/// constant.
#[inline]
pub fn names(handle: &Handle, told: &mut Told) -> u32 {
    // SAFETY: `handle` is zeros or what a call left, and this call's alone: it is no `Sync`, and the library comes back by
    // the doors only. `told` is a whole `Told` that nobody else has.
    unsafe { rhai_host_names(handle.lent().at(), told) }
}

/// Returns the text of the scope.
#[inline]
pub fn show_scope(handle: &Handle, told: &mut Told) -> u32 {
    // SAFETY: `handle` is zeros or what a call left, and this call's alone: it is no `Sync`, and the library comes back by
    // the doors only. `told` is a whole `Told` that nobody else has.
    unsafe { rhai_host_show_scope(handle.lent().at(), told) }
}

/// Returns the hash bytes of the scope.
#[inline]
pub fn hash_scope(handle: &Handle, told: &mut Told) -> u32 {
    // SAFETY: `handle` is zeros or what a call left, and this call's alone: it is no `Sync`, and the library comes back by
    // the doors only. `told` is a whole `Told` that nobody else has.
    unsafe { rhai_host_hash_scope(handle.lent().at(), told) }
}
