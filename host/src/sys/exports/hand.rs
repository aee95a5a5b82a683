//! Of the module `hand`: written by `tools/host_declarations` from the lines of `crates/rhai_host`.

use crate::sys::Handle;
use crate::sys::Told;

unsafe extern "C" {
    fn rhai_host_make_array(handle: *mut Handle, count: usize, told: &mut Told) -> u32;
    fn rhai_host_copy(handle: *mut Handle, i: usize, told: &mut Told) -> u32;
    fn rhai_host_flatten_clone(handle: *mut Handle, i: usize, told: &mut Told) -> u32;
    fn rhai_host_take(handle: *mut Handle, i: usize, told: &mut Told) -> u32;
    fn rhai_host_drop(handle: *mut Handle, told: &mut Told) -> u32;
    fn rhai_host_share(handle: *mut Handle, i: usize, told: &mut Told) -> u32;
    fn rhai_host_flatten(handle: *mut Handle, i: usize, told: &mut Told) -> u32;
    fn rhai_host_make_read_only(handle: *mut Handle, i: usize, told: &mut Told) -> u32;
    fn rhai_host_set_tag(handle: *mut Handle, i: usize, tag: i32, told: &mut Told) -> u32;
    fn rhai_host_write_int(handle: *mut Handle, i: usize, n: i64, told: &mut Told) -> u32;
    fn rhai_host_write(handle: *mut Handle, i: usize, j: usize, told: &mut Told) -> u32;
    fn rhai_host_scan_tags(handle: *mut Handle, i: usize, tag: i32, told: &mut Told) -> u32;
    fn rhai_host_scan_zero(handle: *mut Handle, i: usize, told: &mut Told) -> u32;
    fn rhai_host_scan_no_share(handle: *mut Handle, i: usize, told: &mut Told) -> u32;
    fn rhai_host_scan_cut(handle: *mut Handle, i: usize, count: usize, told: &mut Told) -> u32;
}

/// Removes this many values from the end of the hand, and appends an array of them in order.
#[inline]
pub fn make_array(handle: &Handle, count: usize, told: &mut Told) -> u32 {
    // SAFETY: `handle` is zeros or what a call left, and this call's alone: it is no `Sync`, and the library comes back by
    // the doors only. `told` is a whole `Told` that nobody else has. Any `count` will do.
    unsafe { rhai_host_make_array(handle.lent().at(), count, told) }
}

/// Appends a copy of the value at the hand position.
#[inline]
pub fn copy(handle: &Handle, i: usize, told: &mut Told) -> u32 {
    // SAFETY: `handle` is zeros or what a call left, and this call's alone: it is no `Sync`, and the library comes back by
    // the doors only. `told` is a whole `Told` that nobody else has. Any `i` will do.
    unsafe { rhai_host_copy(handle.lent().at(), i, told) }
}

/// Appends a copy of the value at the hand position, without its holders.
#[inline]
pub fn flatten_clone(handle: &Handle, i: usize, told: &mut Told) -> u32 {
    // SAFETY: `handle` is zeros or what a call left, and this call's alone: it is no `Sync`, and the library comes back by
    // the doors only. `told` is a whole `Told` that nobody else has. Any `i` will do.
    unsafe { rhai_host_flatten_clone(handle.lent().at(), i, told) }
}

/// Moves the value at the hand position to the end, and leaves unit in its place.
#[inline]
pub fn take(handle: &Handle, i: usize, told: &mut Told) -> u32 {
    // SAFETY: `handle` is zeros or what a call left, and this call's alone: it is no `Sync`, and the library comes back by
    // the doors only. `told` is a whole `Told` that nobody else has. Any `i` will do.
    unsafe { rhai_host_take(handle.lent().at(), i, told) }
}

/// Drops the last value.
#[inline]
pub fn drop(handle: &Handle, told: &mut Told) -> u32 {
    // SAFETY: `handle` is zeros or what a call left, and this call's alone: it is no `Sync`, and the library comes back by
    // the doors only. `told` is a whole `Told` that nobody else has.
    unsafe { rhai_host_drop(handle.lent().at(), told) }
}

/// Moves the value at the hand position into a new cell, and leaves a holder of that cell. A holder
/// is left as it is.
#[inline]
pub fn share(handle: &Handle, i: usize, told: &mut Told) -> u32 {
    // SAFETY: `handle` is zeros or what a call left, and this call's alone: it is no `Sync`, and the library comes back by
    // the doors only. `told` is a whole `Told` that nobody else has. Any `i` will do.
    unsafe { rhai_host_share(handle.lent().at(), i, told) }
}

/// Replaces a holder at the hand position with the held value, without its holders.
#[inline]
pub fn flatten(handle: &Handle, i: usize, told: &mut Told) -> u32 {
    // SAFETY: `handle` is zeros or what a call left, and this call's alone: it is no `Sync`, and the library comes back by
    // the doors only. `told` is a whole `Told` that nobody else has. Any `i` will do.
    unsafe { rhai_host_flatten(handle.lent().at(), i, told) }
}

/// Makes the value at the hand position a constant.
#[inline]
pub fn make_read_only(handle: &Handle, i: usize, told: &mut Told) -> u32 {
    // SAFETY: `handle` is zeros or what a call left, and this call's alone: it is no `Sync`, and the library comes back by
    // the doors only. `told` is a whole `Told` that nobody else has. Any `i` will do.
    unsafe { rhai_host_make_read_only(handle.lent().at(), i, told) }
}

/// Sets the tag of the value at the hand position.
#[inline]
pub fn set_tag(handle: &Handle, i: usize, tag: i32, told: &mut Told) -> u32 {
    // SAFETY: `handle` is zeros or what a call left, and this call's alone: it is no `Sync`, and the library comes back by
    // the doors only. `told` is a whole `Told` that nobody else has. Any `i`, `tag` will do.
    unsafe { rhai_host_set_tag(handle.lent().at(), i, tag, told) }
}

/// Overwrites the int held at the hand position.
#[inline]
pub fn write_int(handle: &Handle, i: usize, n: i64, told: &mut Told) -> u32 {
    // SAFETY: `handle` is zeros or what a call left, and this call's alone: it is no `Sync`, and the library comes back by
    // the doors only. `told` is a whole `Told` that nobody else has. Any `i`, `n` will do.
    unsafe { rhai_host_write_int(handle.lent().at(), i, n, told) }
}

/// Overwrites the first content of the value at the first hand position with the value at the
/// second, and leaves unit at the second.
#[inline]
pub fn write(handle: &Handle, i: usize, j: usize, told: &mut Told) -> u32 {
    // SAFETY: `handle` is zeros or what a call left, and this call's alone: it is no `Sync`, and the library comes back by
    // the doors only. `told` is a whole `Told` that nobody else has. Any `i`, `j` will do.
    unsafe { rhai_host_write(handle.lent().at(), i, j, told) }
}

/// Sets the tag of each value that a scan of the hand position visits, and returns how many there
/// are.
#[inline]
pub fn scan_tags(handle: &Handle, i: usize, tag: i32, told: &mut Told) -> u32 {
    // SAFETY: `handle` is zeros or what a call left, and this call's alone: it is no `Sync`, and the library comes back by
    // the doors only. `told` is a whole `Told` that nobody else has. Any `i`, `tag` will do.
    unsafe { rhai_host_scan_tags(handle.lent().at(), i, tag, told) }
}

/// Sets each int that a scan of the hand position visits to 0, and returns how many values it
/// visited.
#[inline]
pub fn scan_zero(handle: &Handle, i: usize, told: &mut Told) -> u32 {
    // SAFETY: `handle` is zeros or what a call left, and this call's alone: it is no `Sync`, and the library comes back by
    // the doors only. `told` is a whole `Told` that nobody else has. Any `i` will do.
    unsafe { rhai_host_scan_zero(handle.lent().at(), i, told) }
}

/// Replaces each holder that a scan of the hand position visits with unit, and returns how many
/// values it visited.
#[inline]
pub fn scan_no_share(handle: &Handle, i: usize, told: &mut Told) -> u32 {
    // SAFETY: `handle` is zeros or what a call left, and this call's alone: it is no `Sync`, and the library comes back by
    // the doors only. `told` is a whole `Told` that nobody else has. Any `i` will do.
    unsafe { rhai_host_scan_no_share(handle.lent().at(), i, told) }
}

/// Truncates each array that a scan of the hand position visits to this many items, and returns how
/// many values it visited.
#[inline]
pub fn scan_cut(handle: &Handle, i: usize, count: usize, told: &mut Told) -> u32 {
    // SAFETY: `handle` is zeros or what a call left, and this call's alone: it is no `Sync`, and the library comes back by
    // the doors only. `told` is a whole `Told` that nobody else has. Any `i`, `count` will do.
    unsafe { rhai_host_scan_cut(handle.lent().at(), i, count, told) }
}
