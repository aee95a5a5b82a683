//! Of the module `answering`: written by `tools/host_declarations` from the lines of `crates/rhai_host`.

use crate::sys::Handle;
use crate::sys::ScriptStop;
use crate::sys::Told;

unsafe extern "C" {
    fn rhai_host_script_argument(handle: *mut Handle, number: usize, told: &mut Told) -> u32;
    fn rhai_host_script_value(handle: *mut Handle, told: &mut Told) -> u32;
    fn rhai_host_script_answer(handle: *mut Handle, value: *const u8, value_len: usize) -> u32;
    fn rhai_host_script_answer_and_go(handle: *mut Handle, kind: u32, number: i64, operations: u64, stop: &mut ScriptStop)
        -> u32;
    fn rhai_host_script_refuse(handle: *mut Handle, why: *const u8, why_len: usize, stop: &mut ScriptStop) -> u32;
}

/// Returns an argument of the host function being called: unit, a boolean and an int as they are,
/// and others as their hash bytes.
#[inline]
pub fn script_argument(handle: &Handle, number: usize, told: &mut Told) -> u32 {
    // SAFETY: `handle` is zeros or what a call left, and this call's alone: it is no `Sync`, and the library comes back by
    // the doors only. `told` is a whole `Told` that nobody else has. Any `number` will do.
    unsafe { rhai_host_script_argument(handle.lent().at(), number, told) }
}

/// Returns the run's value, as `rhai_host_script_argument` does.
#[inline]
pub fn script_value(handle: &Handle, told: &mut Told) -> u32 {
    // SAFETY: `handle` is zeros or what a call left, and this call's alone: it is no `Sync`, and the library comes back by
    // the doors only. `told` is a whole `Told` that nobody else has.
    unsafe { rhai_host_script_value(handle.lent().at(), told) }
}

/// Passes the value of these hash bytes to the script, as the result of the host function being
/// called.
#[inline]
pub fn script_answer(handle: &Handle, value: &[u8]) -> u32 {
    // SAFETY: `handle` is zeros or what a call left, and this call's alone: it is no `Sync`, and the library comes back by
    // the doors only. `value` is a slice with its own length, and is read.
    unsafe { rhai_host_script_answer(handle.lent().at(), value.as_ptr(), value.len()) }
}

/// Passes unit (kind 0), a boolean (1, true unless the number is 0) or an int (2) to the script,
/// as the result of the host function being called, and continues the run for at most this many
/// operations.
#[inline]
pub fn script_answer_and_go(handle: &Handle, kind: u32, number: i64, operations: u64, stop: &mut ScriptStop) -> u32 {
    // SAFETY: `handle` is zeros or what a call left, and this call's alone: it is no `Sync`, and the library comes back by
    // the doors only. `stop` is a whole `ScriptStop` that nobody else has. Any `kind`, `number`, `operations` will do.
    unsafe { rhai_host_script_answer_and_go(handle.lent().at(), kind, number, operations, stop) }
}

/// Fails the call of the host function with a text, which the script may catch: it continues then,
/// and the stop is of kind 1.
#[inline]
pub fn script_refuse(handle: &Handle, why: &[u8], stop: &mut ScriptStop) -> u32 {
    // SAFETY: `handle` is zeros or what a call left, and this call's alone: it is no `Sync`, and the library comes back by
    // the doors only. `why` is a slice with its own length, and is read. `stop` is a whole `ScriptStop` that nobody else
    // has.
    unsafe { rhai_host_script_refuse(handle.lent().at(), why.as_ptr(), why.len(), stop) }
}
