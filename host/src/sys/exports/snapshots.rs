//! Of the module `snapshots`: written by `tools/host_declarations` from the lines of `crates/rhai_host`.

use crate::sys::Handle;
use crate::sys::Told;

unsafe extern "C" {
    fn rhai_host_script_snapshot(handle: *mut Handle, told: &mut Told) -> u32;
    fn rhai_host_snapshot(handle: *mut Handle, told: &mut Told) -> u32;
}

/// Returns a snapshot: of the active functions with their visible variables while there is a run,
/// otherwise of the variables alone. `Engine::snapshot` describes the bytes.
#[inline]
pub fn script_snapshot(handle: &Handle, told: &mut Told) -> u32 {
    // SAFETY: `handle` is zeros or what a call left, and this call's alone: it is no `Sync`, and the library comes back by
    // the doors only. `told` is a whole `Told` that nobody else has.
    unsafe { rhai_host_script_snapshot(handle.lent().at(), told) }
}

/// Returns a snapshot of the world: the byte 2; the byte 1 for each open mark, the oldest first,
/// and 0 after the last one; the entries, the newest first, each behind the byte 1, and 0 after the
/// last one; the values of the hand in the same way; and what each cell holds. The first cells are
/// those of the marks.
#[inline]
pub fn snapshot(handle: &Handle, told: &mut Told) -> u32 {
    // SAFETY: `handle` is zeros or what a call left, and this call's alone: it is no `Sync`, and the library comes back by
    // the doors only. `told` is a whole `Told` that nobody else has.
    unsafe { rhai_host_snapshot(handle.lent().at(), told) }
}
