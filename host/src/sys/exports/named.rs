//! Of the module `named`: written by `tools/host_declarations` from the lines of `crates/rhai_host`.

use crate::sys::Handle;
use crate::sys::Told;

unsafe extern "C" {
    fn rhai_host_make_fn(handle: *mut Handle, name: usize, count: usize, told: &mut Told) -> u32;
    fn rhai_host_push(handle: *mut Handle, name: usize, i: usize, told: &mut Told) -> u32;
    fn rhai_host_push_dynamic(handle: *mut Handle, name: usize, i: usize, told: &mut Told) -> u32;
    fn rhai_host_push_constant(handle: *mut Handle, name: usize, i: usize, told: &mut Told) -> u32;
    fn rhai_host_set_entry(handle: *mut Handle, name: usize, i: usize, told: &mut Told) -> u32;
    fn rhai_host_set_or_push(handle: *mut Handle, name: usize, i: usize, told: &mut Told) -> u32;
    fn rhai_host_set_value(handle: *mut Handle, name: usize, i: usize, told: &mut Told) -> u32;
    fn rhai_host_contains(handle: *mut Handle, name: usize, told: &mut Told) -> u32;
    fn rhai_host_search(handle: *mut Handle, name: usize, told: &mut Told) -> u32;
    fn rhai_host_is_constant(handle: *mut Handle, name: usize, told: &mut Told) -> u32;
    fn rhai_host_get(handle: *mut Handle, name: usize, told: &mut Told) -> u32;
    fn rhai_host_set_ref(handle: *mut Handle, name: usize, value: i64, told: &mut Told) -> u32;
    fn rhai_host_aliases(handle: *mut Handle, name: usize, told: &mut Told) -> u32;
}

/// Removes this many values from the end of the hand, and appends the function pointer of the name
/// with these values curried in order.
#[inline]
pub fn make_fn(handle: &Handle, name: usize, count: usize, told: &mut Told) -> u32 {
    // SAFETY: `handle` is zeros or what a call left, and this call's alone: it is no `Sync`, and the library comes back by
    // the doors only. `told` is a whole `Told` that nobody else has. Any `name`, `count` will do.
    unsafe { rhai_host_make_fn(handle.lent().at(), name, count, told) }
}

/// Moves the value at the hand position into a new writable entry with the name, and leaves unit in
/// its place.
#[inline]
pub fn push(handle: &Handle, name: usize, i: usize, told: &mut Told) -> u32 {
    // SAFETY: `handle` is zeros or what a call left, and this call's alone: it is no `Sync`, and the library comes back by
    // the doors only. `told` is a whole `Told` that nobody else has. Any `name`, `i` will do.
    unsafe { rhai_host_push(handle.lent().at(), name, i, told) }
}

/// Moves the value at the hand position into a new entry with the name, and leaves unit in its
/// place. The entry is a constant if the value is.
#[inline]
pub fn push_dynamic(handle: &Handle, name: usize, i: usize, told: &mut Told) -> u32 {
    // SAFETY: `handle` is zeros or what a call left, and this call's alone: it is no `Sync`, and the library comes back by
    // the doors only. `told` is a whole `Told` that nobody else has. Any `name`, `i` will do.
    unsafe { rhai_host_push_dynamic(handle.lent().at(), name, i, told) }
}

/// Moves the value at the hand position into a new constant entry with the name, and leaves unit in
/// its place.
#[inline]
pub fn push_constant(handle: &Handle, name: usize, i: usize, told: &mut Told) -> u32 {
    // SAFETY: `handle` is zeros or what a call left, and this call's alone: it is no `Sync`, and the library comes back by
    // the doors only. `told` is a whole `Told` that nobody else has. Any `name`, `i` will do.
    unsafe { rhai_host_push_constant(handle.lent().at(), name, i, told) }
}

/// Replaces the value of the newest entry with the name by the value at the hand position, and
/// leaves unit in its place.
#[inline]
pub fn set_entry(handle: &Handle, name: usize, i: usize, told: &mut Told) -> u32 {
    // SAFETY: `handle` is zeros or what a call left, and this call's alone: it is no `Sync`, and the library comes back by
    // the doors only. `told` is a whole `Told` that nobody else has. Any `name`, `i` will do.
    unsafe { rhai_host_set_entry(handle.lent().at(), name, i, told) }
}

/// Moves the value at the hand position into the newest entry with the name, or into a new entry if
/// there is none or it may not be written.
#[inline]
pub fn set_or_push(handle: &Handle, name: usize, i: usize, told: &mut Told) -> u32 {
    // SAFETY: `handle` is zeros or what a call left, and this call's alone: it is no `Sync`, and the library comes back by
    // the doors only. `told` is a whole `Told` that nobody else has. Any `name`, `i` will do.
    unsafe { rhai_host_set_or_push(handle.lent().at(), name, i, told) }
}

/// Moves the value at the hand position into the newest entry with the name, or into a new entry if
/// there is none.
#[inline]
pub fn set_value(handle: &Handle, name: usize, i: usize, told: &mut Told) -> u32 {
    // SAFETY: `handle` is zeros or what a call left, and this call's alone: it is no `Sync`, and the library comes back by
    // the doors only. `told` is a whole `Told` that nobody else has. Any `name`, `i` will do.
    unsafe { rhai_host_set_value(handle.lent().at(), name, i, told) }
}

/// Returns whether an entry has the name.
#[inline]
pub fn contains(handle: &Handle, name: usize, told: &mut Told) -> u32 {
    // SAFETY: `handle` is zeros or what a call left, and this call's alone: it is no `Sync`, and the library comes back by
    // the doors only. `told` is a whole `Told` that nobody else has. Any `name` will do.
    unsafe { rhai_host_contains(handle.lent().at(), name, told) }
}

/// Returns the position of the newest entry with the name, counted from 0, or nothing.
#[inline]
pub fn search(handle: &Handle, name: usize, told: &mut Told) -> u32 {
    // SAFETY: `handle` is zeros or what a call left, and this call's alone: it is no `Sync`, and the library comes back by
    // the doors only. `told` is a whole `Told` that nobody else has. Any `name` will do.
    unsafe { rhai_host_search(handle.lent().at(), name, told) }
}

/// Returns whether the newest entry with the name is a constant, or nothing.
#[inline]
pub fn is_constant(handle: &Handle, name: usize, told: &mut Told) -> u32 {
    // SAFETY: `handle` is zeros or what a call left, and this call's alone: it is no `Sync`, and the library comes back by
    // the doors only. `told` is a whole `Told` that nobody else has. Any `name` will do.
    unsafe { rhai_host_is_constant(handle.lent().at(), name, told) }
}

/// Appends a copy of the value of the newest entry with the name.
#[inline]
pub fn get(handle: &Handle, name: usize, told: &mut Told) -> u32 {
    // SAFETY: `handle` is zeros or what a call left, and this call's alone: it is no `Sync`, and the library comes back by
    // the doors only. `told` is a whole `Told` that nobody else has. Any `name` will do.
    unsafe { rhai_host_get(handle.lent().at(), name, told) }
}

/// Overwrites the int that the newest entry with the name itself is; returns nothing if there is no
/// such int.
#[inline]
pub fn set_ref(handle: &Handle, name: usize, value: i64, told: &mut Told) -> u32 {
    // SAFETY: `handle` is zeros or what a call left, and this call's alone: it is no `Sync`, and the library comes back by
    // the doors only. `told` is a whole `Told` that nobody else has. Any `name`, `value` will do.
    unsafe { rhai_host_set_ref(handle.lent().at(), name, value, told) }
}

/// Returns the aliases of the newest entry with the name, one a line.
#[inline]
pub fn aliases(handle: &Handle, name: usize, told: &mut Told) -> u32 {
    // SAFETY: `handle` is zeros or what a call left, and this call's alone: it is no `Sync`, and the library comes back by
    // the doors only. `told` is a whole `Told` that nobody else has. Any `name` will do.
    unsafe { rhai_host_aliases(handle.lent().at(), name, told) }
}
