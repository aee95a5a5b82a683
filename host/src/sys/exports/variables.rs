//! Of the module `variables`: written by `tools/host_declarations` from the lines of `crates/rhai_host`.

use crate::sys::Handle;
use crate::sys::Told;

unsafe extern "C" {
    fn rhai_host_variable_push(handle: *mut Handle, name: *const u8, name_len: usize, value: *const u8, value_len: usize) -> u32;
    fn rhai_host_variable_set(handle: *mut Handle, number: usize, value: *const u8, value_len: usize) -> u32;
    fn rhai_host_variable_rewind(handle: *mut Handle, count: usize) -> u32;
    fn rhai_host_variable_count(handle: *mut Handle) -> usize;
    fn rhai_host_variable_name(handle: *mut Handle, number: usize, told: &mut Told) -> u32;
    fn rhai_host_variable_value(handle: *mut Handle, number: usize, told: &mut Told) -> u32;
}

/// Declares a variable after the others, with the value of these hash bytes.
#[inline]
pub fn variable_push(handle: &Handle, name: &[u8], value: &[u8]) -> u32 {
    // SAFETY: `handle` is zeros or what a call left, and this call's alone: it is no `Sync`, and the library comes back by
    // the doors only. `name` is a slice with its own length, and is read. `value` is a slice with its own length, and is
    // read.
    unsafe { rhai_host_variable_push(handle.lent().at(), name.as_ptr(), name.len(), value.as_ptr(), value.len()) }
}

/// Overwrites the variable of this number, the oldest being 0, with the value of these hash bytes.
/// If closures share the variable, they see the new value.
#[inline]
pub fn variable_set(handle: &Handle, number: usize, value: &[u8]) -> u32 {
    // SAFETY: `handle` is zeros or what a call left, and this call's alone: it is no `Sync`, and the library comes back by
    // the doors only. `value` is a slice with its own length, and is read. Any `number` will do.
    unsafe { rhai_host_variable_set(handle.lent().at(), number, value.as_ptr(), value.len()) }
}

/// Drops the variables from this number on.
#[inline]
pub fn variable_rewind(handle: &Handle, count: usize) -> u32 {
    // SAFETY: `handle` is zeros or what a call left, and this call's alone: it is no `Sync`, and the library comes back by
    // the doors only. Any `count` will do.
    unsafe { rhai_host_variable_rewind(handle.lent().at(), count) }
}

/// Returns the number of variables, 0 if no world is open.
#[inline]
pub fn variable_count(handle: &Handle) -> usize {
    // SAFETY: `handle` is zeros or what a call left, and this call's alone: it is no `Sync`, and the library comes back by
    // the doors only.
    unsafe { rhai_host_variable_count(handle.lent().at()) }
}

/// Returns the name of the variable of this number.
#[inline]
pub fn variable_name(handle: &Handle, number: usize, told: &mut Told) -> u32 {
    // SAFETY: `handle` is zeros or what a call left, and this call's alone: it is no `Sync`, and the library comes back by
    // the doors only. `told` is a whole `Told` that nobody else has. Any `number` will do.
    unsafe { rhai_host_variable_name(handle.lent().at(), number, told) }
}

/// Returns the value of the variable of this number, as `rhai_host_script_argument` does.
#[inline]
pub fn variable_value(handle: &Handle, number: usize, told: &mut Told) -> u32 {
    // SAFETY: `handle` is zeros or what a call left, and this call's alone: it is no `Sync`, and the library comes back by
    // the doors only. `told` is a whole `Told` that nobody else has. Any `number` will do.
    unsafe { rhai_host_variable_value(handle.lent().at(), number, told) }
}
