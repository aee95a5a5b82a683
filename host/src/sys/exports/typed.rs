//! Of the module `typed`: written by `tools/host_declarations` from the lines of `crates/rhai_host`.

use crate::sys::Handle;
use crate::sys::Told;

unsafe extern "C" {
    fn rhai_host_cast(handle: *mut Handle, i: usize, kind: u32, told: &mut Told) -> u32;
    fn rhai_host_is_held(handle: *mut Handle, i: usize, kind: u32, told: &mut Told) -> u32;
    fn rhai_host_is_type(handle: *mut Handle, i: usize, kind: u32, told: &mut Told) -> u32;
    fn rhai_host_binary(handle: *mut Handle, operator: u32, i: usize, j: usize, told: &mut Told) -> u32;
    fn rhai_host_assign(handle: *mut Handle, operator: u32, is_entry: bool, at: usize, j: usize, told: &mut Told) -> u32;
    fn rhai_host_get_value(handle: *mut Handle, name: usize, kind: u32, told: &mut Told) -> u32;
    fn rhai_host_get_ref(handle: *mut Handle, name: usize, kind: u32, told: &mut Told) -> u32;
    fn rhai_host_remove(handle: *mut Handle, name: usize, kind: u32, told: &mut Told) -> u32;
}

/// Appends the value at the hand position cast to this type, copied without its holders.
#[inline]
pub fn cast(handle: &Handle, i: usize, kind: u32, told: &mut Told) -> u32 {
    // SAFETY: `handle` is zeros or what a call left, and this call's alone: it is no `Sync`, and the library comes back by
    // the doors only. `told` is a whole `Told` that nobody else has. Any `i`, `kind` will do.
    unsafe { rhai_host_cast(handle.lent().at(), i, kind, told) }
}

/// Returns whether this type is held at the hand position.
#[inline]
pub fn is_held(handle: &Handle, i: usize, kind: u32, told: &mut Told) -> u32 {
    // SAFETY: `handle` is zeros or what a call left, and this call's alone: it is no `Sync`, and the library comes back by
    // the doors only. `told` is a whole `Told` that nobody else has. Any `i`, `kind` will do.
    unsafe { rhai_host_is_held(handle.lent().at(), i, kind, told) }
}

/// Returns whether the value at the hand position is of this type: by its variant, or for a holder
/// by the held type.
#[inline]
pub fn is_type(handle: &Handle, i: usize, kind: u32, told: &mut Told) -> u32 {
    // SAFETY: `handle` is zeros or what a call left, and this call's alone: it is no `Sync`, and the library comes back by
    // the doors only. `told` is a whole `Told` that nobody else has. Any `i`, `kind` will do.
    unsafe { rhai_host_is_type(handle.lent().at(), i, kind, told) }
}

/// Appends the operator's result for the values at the two hand positions.
#[inline]
pub fn binary(handle: &Handle, operator: u32, i: usize, j: usize, told: &mut Told) -> u32 {
    // SAFETY: `handle` is zeros or what a call left, and this call's alone: it is no `Sync`, and the library comes back by
    // the doors only. `told` is a whole `Told` that nobody else has. Any `operator`, `i`, `j` will do.
    unsafe { rhai_host_binary(handle.lent().at(), operator, i, j, told) }
}

/// Applies the operator's assignment to the value at the place and the value at the hand position.
#[inline]
pub fn assign(handle: &Handle, operator: u32, is_entry: bool, at: usize, j: usize, told: &mut Told) -> u32 {
    // SAFETY: `handle` is zeros or what a call left, and this call's alone: it is no `Sync`, and the library comes back by
    // the doors only. `told` is a whole `Told` that nobody else has. Any `operator`, `is_entry`, `at`, `j` will do.
    unsafe { rhai_host_assign(handle.lent().at(), operator, is_entry, at, j, told) }
}

/// Appends the value of the newest entry with the name cast to this type, copied without its
/// holders; returns nothing if there is no such value.
#[inline]
pub fn get_value(handle: &Handle, name: usize, kind: u32, told: &mut Told) -> u32 {
    // SAFETY: `handle` is zeros or what a call left, and this call's alone: it is no `Sync`, and the library comes back by
    // the doors only. `told` is a whole `Told` that nobody else has. Any `name`, `kind` will do.
    unsafe { rhai_host_get_value(handle.lent().at(), name, kind, told) }
}

/// Appends a copy of the newest entry's own value as a reference of this type; returns nothing if
/// there is no such value.
#[inline]
pub fn get_ref(handle: &Handle, name: usize, kind: u32, told: &mut Told) -> u32 {
    // SAFETY: `handle` is zeros or what a call left, and this call's alone: it is no `Sync`, and the library comes back by
    // the doors only. `told` is a whole `Told` that nobody else has. Any `name`, `kind` will do.
    unsafe { rhai_host_get_ref(handle.lent().at(), name, kind, told) }
}

/// Removes the newest entry with the name, and appends its value cast to this type, without its
/// holders; returns nothing if there is no such value.
#[inline]
pub fn remove(handle: &Handle, name: usize, kind: u32, told: &mut Told) -> u32 {
    // SAFETY: `handle` is zeros or what a call left, and this call's alone: it is no `Sync`, and the library comes back by
    // the doors only. `told` is a whole `Told` that nobody else has. Any `name`, `kind` will do.
    unsafe { rhai_host_remove(handle.lent().at(), name, kind, told) }
}
