//! Of the module `functions`: written by `tools/host_declarations` from the lines of `crates/rhai_host`.

use crate::sys::Handle;
use crate::sys::ScriptStop;
use crate::sys::Told;

unsafe extern "C" {
    fn rhai_host_function_keep(handle: *mut Handle, source: u32, at: usize, number: &mut usize) -> u32;
    fn rhai_host_function_of(handle: *mut Handle, name: *const u8, name_len: usize, number: &mut usize) -> u32;
    fn rhai_host_function_let_go(handle: *mut Handle, number: usize) -> u32;
    fn rhai_host_function_value(handle: *mut Handle, number: usize, told: &mut Told) -> u32;
    fn rhai_host_function_answer(handle: *mut Handle, number: usize) -> u32;
    fn rhai_host_script_change(handle: *mut Handle, value: *const u8, value_len: usize) -> u32;
    fn rhai_host_function_call(handle: *mut Handle, number: usize, arguments: *const u8, arguments_len: usize) -> u32;
    fn rhai_host_script_throw(handle: *mut Handle, value: *const u8, value_len: usize, stop: &mut ScriptStop) -> u32;
}

/// Keeps a function of a script, with the cells that it captured, and reports its number: the
/// function in an argument of the host function being called (source 0), the value that the run or
/// a call within it has just returned (source 1), or the function in a variable (source 2).
/// NO_COMMAND means that there is no function.
#[inline]
pub fn function_keep(handle: &Handle, source: u32, at: usize, number: &mut usize) -> u32 {
    // SAFETY: `handle` is zeros or what a call left, and this call's alone: it is no `Sync`, and the library comes back by
    // the doors only. `number` is a whole `usize` that nobody else has. Any `source`, `at` will do.
    unsafe { rhai_host_function_keep(handle.lent().at(), source, at, number) }
}

/// Keeps a pointer to the function with this name, whether a script has one or not, and reports its
/// number. NO_COMMAND means that the bytes are not a text.
#[inline]
pub fn function_of(handle: &Handle, name: &[u8], number: &mut usize) -> u32 {
    // SAFETY: `handle` is zeros or what a call left, and this call's alone: it is no `Sync`, and the library comes back by
    // the doors only. `name` is a slice with its own length, and is read. `number` is a whole `usize` that nobody else has.
    unsafe { rhai_host_function_of(handle.lent().at(), name.as_ptr(), name.len(), number) }
}

/// Frees the kept function of this number, which another one may get. NO_COMMAND means that there
/// is none.
#[inline]
pub fn function_let_go(handle: &Handle, number: usize) -> u32 {
    // SAFETY: `handle` is zeros or what a call left, and this call's alone: it is no `Sync`, and the library comes back by
    // the doors only. Any `number` will do.
    unsafe { rhai_host_function_let_go(handle.lent().at(), number) }
}

/// Returns the hash bytes of the kept function of this number: its name, and its curried values.
#[inline]
pub fn function_value(handle: &Handle, number: usize, told: &mut Told) -> u32 {
    // SAFETY: `handle` is zeros or what a call left, and this call's alone: it is no `Sync`, and the library comes back by
    // the doors only. `told` is a whole `Told` that nobody else has. Any `number` will do.
    unsafe { rhai_host_function_value(handle.lent().at(), number, told) }
}

/// Passes the kept function of this number to the script, as the result of the host function being
/// called. NO_COMMAND means that none is being called, or that there is no such kept function.
#[inline]
pub fn function_answer(handle: &Handle, number: usize) -> u32 {
    // SAFETY: `handle` is zeros or what a call left, and this call's alone: it is no `Sync`, and the library comes back by
    // the doors only. Any `number` will do.
    unsafe { rhai_host_function_answer(handle.lent().at(), number) }
}

/// Replaces the first argument of the host function being called by the value of these hash bytes.
/// If the function was compiled with ` mut`, the place that the argument came from has the new
/// value once the function has returned. NO_COMMAND means that no host function is being called, or
/// that it has no arguments.
#[inline]
pub fn script_change(handle: &Handle, value: &[u8]) -> u32 {
    // SAFETY: `handle` is zeros or what a call left, and this call's alone: it is no `Sync`, and the library comes back by
    // the doors only. `value` is a slice with its own length, and is read.
    unsafe { rhai_host_script_change(handle.lent().at(), value.as_ptr(), value.len()) }
}

/// Starts a call of a kept function with these arguments: the hash bytes of an array of them. While
/// a host function is being called, the run continues to a stop of kind 7 or 8, after which that
/// call is open as before, or of kind 0, by `exit`, after which it is not. Otherwise the script's
/// body has to be done, and no call may be open. NO_COMMAND means that neither is the case, or that
/// no such function takes this many arguments.
#[inline]
pub fn function_call(handle: &Handle, number: usize, arguments: &[u8]) -> u32 {
    // SAFETY: `handle` is zeros or what a call left, and this call's alone: it is no `Sync`, and the library comes back by
    // the doors only. `arguments` is a slice with its own length, and is read. Any `number` will do.
    unsafe { rhai_host_function_call(handle.lent().at(), number, arguments.as_ptr(), arguments.len()) }
}

/// Fails the call of the host function with the value of these hash bytes, as if the script had
/// thrown it: the script may catch it and continues then, and the stop is of kind 1.
#[inline]
pub fn script_throw(handle: &Handle, value: &[u8], stop: &mut ScriptStop) -> u32 {
    // SAFETY: `handle` is zeros or what a call left, and this call's alone: it is no `Sync`, and the library comes back by
    // the doors only. `value` is a slice with its own length, and is read. `stop` is a whole `ScriptStop` that nobody else
    // has.
    unsafe { rhai_host_script_throw(handle.lent().at(), value.as_ptr(), value.len(), stop) }
}
