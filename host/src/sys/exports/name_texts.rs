//! Of the module `name_texts`: written by `tools/host_declarations` from the lines of `crates/rhai_host`.

use crate::sys::Handle;
use crate::sys::Told;

unsafe extern "C" {
    fn rhai_host_name_text(handle: *mut Handle, number: usize, told: &mut Told) -> u32;
    fn rhai_host_entry(handle: *mut Handle, i: usize, is_constant: &mut bool, told: &mut Told) -> u32;
}

/// Returns the name of a number, as a text.
#[inline]
pub fn name_text(handle: &Handle, number: usize, told: &mut Told) -> u32 {
    // SAFETY: `handle` is zeros or what a call left, and this call's alone: it is no `Sync`, and the library comes back by
    // the doors only. `told` is a whole `Told` that nobody else has. Any `number` will do.
    unsafe { rhai_host_name_text(handle.lent().at(), number, told) }
}

/// Returns the name of the entry at this position, counted from the oldest, as a text, and reports
/// whether the entry is a constant.
#[inline]
pub fn entry(handle: &Handle, i: usize, is_constant: &mut bool, told: &mut Told) -> u32 {
    // SAFETY: `handle` is zeros or what a call left, and this call's alone: it is no `Sync`, and the library comes back by
    // the doors only. `is_constant` is a whole `bool` that nobody else has. `told` is a whole `Told` that nobody else has.
    // Any `i` will do.
    unsafe { rhai_host_entry(handle.lent().at(), i, is_constant, told) }
}
