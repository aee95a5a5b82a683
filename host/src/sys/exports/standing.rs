//! Of the module `standing`: written by `tools/host_declarations` from the lines of `crates/rhai_host`.

use crate::sys::Handle;
use crate::sys::Told;

unsafe extern "C" {
    fn rhai_host_script_function(
        handle: *mut Handle,
        number: usize,
        line: &mut usize,
        column: &mut usize,
        told: &mut Told,
    ) -> u32;
    fn rhai_host_script_debugs(handle: *mut Handle, told: &mut Told) -> u32;
    fn rhai_host_script_variable(handle: *mut Handle, function: usize, before: usize, number: &mut usize, told: &mut Told)
        -> u32;
    fn rhai_host_script_variable_value(handle: *mut Handle, function: usize, before: usize, told: &mut Told) -> u32;
    fn rhai_host_script_restore(handle: *mut Handle, bytes: *const u8, bytes_len: usize) -> u32;
}

/// Returns the name of an active function, and reports where it is: number 0 runs, or failed, and
/// each is called by the next. The name is empty for the statements outside functions, and begins
/// with `anon$` for a closure. NO_COMMAND means that there is no such function.
#[inline]
pub fn script_function(handle: &Handle, number: usize, line: &mut usize, column: &mut usize, told: &mut Told) -> u32 {
    // SAFETY: `handle` is zeros or what a call left, and this call's alone: it is no `Sync`, and the library comes back by
    // the doors only. `line` is a whole `usize` that nobody else has. `column` is a whole `usize` that nobody else has.
    // `told` is a whole `Told` that nobody else has. Any `number` will do.
    unsafe { rhai_host_script_function(handle.lent().at(), number, line, column, told) }
}

/// Returns which lines `debug` printed of those that the last stop reported, for each four numbers
/// of eight bytes: how many printed bytes are before it, how many it has with its line feed, and
/// the line and column of the call. Each is returned once. There are none before
/// `rhai_host_script_note_debugs`.
#[inline]
pub fn script_debugs(handle: &Handle, told: &mut Told) -> u32 {
    // SAFETY: `handle` is zeros or what a call left, and this call's alone: it is no `Sync`, and the library comes back by
    // the doors only. `told` is a whole `Told` that nobody else has.
    unsafe { rhai_host_script_debugs(handle.lent().at(), told) }
}

/// Returns the name of the newest visible variable of an active function before the one of this
/// number, and reports its own number: starting from the largest number, each leads to the next.
/// NO_COMMAND means that there is none.
#[inline]
pub fn script_variable(handle: &Handle, function: usize, before: usize, number: &mut usize, told: &mut Told) -> u32 {
    // SAFETY: `handle` is zeros or what a call left, and this call's alone: it is no `Sync`, and the library comes back by
    // the doors only. `number` is a whole `usize` that nobody else has. `told` is a whole `Told` that nobody else has. Any
    // `function`, `before` will do.
    unsafe { rhai_host_script_variable(handle.lent().at(), function, before, number, told) }
}

/// Returns the value of that variable, as `rhai_host_script_argument` does. NO_COMMAND means that
/// there is none, or that its value has no hash bytes.
#[inline]
pub fn script_variable_value(handle: &Handle, function: usize, before: usize, told: &mut Told) -> u32 {
    // SAFETY: `handle` is zeros or what a call left, and this call's alone: it is no `Sync`, and the library comes back by
    // the doors only. `told` is a whole `Told` that nobody else has. Any `function`, `before` will do.
    unsafe { rhai_host_script_variable_value(handle.lent().at(), function, before, told) }
}

/// Replaces the variables by those of a snapshot without functions, with everything that they
/// share. A run ends, and functions that the host kept are freed. NO_COMMAND means that the bytes
/// are no such snapshot; the variables are unchanged then.
#[inline]
pub fn script_restore(handle: &Handle, bytes: &[u8]) -> u32 {
    // SAFETY: `handle` is zeros or what a call left, and this call's alone: it is no `Sync`, and the library comes back by
    // the doors only. `bytes` is a slice with its own length, and is read.
    unsafe { rhai_host_script_restore(handle.lent().at(), bytes.as_ptr(), bytes.len()) }
}
