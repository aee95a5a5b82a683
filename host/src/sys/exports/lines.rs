//! Of the module `lines`: written by `tools/host_declarations` from the lines of `crates/rhai_host`.

use crate::sys::Handle;
use crate::sys::Told;

unsafe extern "C" {
    fn rhai_host_line(handle: *mut Handle, line: *const u8, line_len: usize, told: &mut Told) -> u32;
    fn rhai_host_run_lines(handle: *mut Handle, input: *const u8, input_len: usize, told: &mut Told) -> u32;
    fn rhai_host_journal(handle: *mut Handle, lines: *const u8, lines_len: usize, told: &mut Told) -> u32;
}

/// Executes the command of a line; `docs/LINES.md` has the lines.
#[inline]
pub fn line(handle: &Handle, line: &[u8], told: &mut Told) -> u32 {
    // SAFETY: `handle` is zeros or what a call left, and this call's alone: it is no `Sync`, and the library comes back by
    // the doors only. `line` is a slice with its own length, and is read. `told` is a whole `Told` that nobody else has.
    unsafe { rhai_host_line(handle.lent().at(), line.as_ptr(), line.len(), told) }
}

/// Runs lines on a new world, and returns the bytes that they print; the handle's world is
/// unchanged.
#[inline]
pub fn run_lines(handle: &Handle, input: &[u8], told: &mut Told) -> u32 {
    // SAFETY: `handle` is zeros or what a call left, and this call's alone: it is no `Sync`, and the library comes back by
    // the doors only. `input` is a slice with its own length, and is read. `told` is a whole `Told` that nobody else has.
    unsafe { rhai_host_run_lines(handle.lent().at(), input.as_ptr(), input.len(), told) }
}

/// Returns the journal of the commands in these lines: the lines as the library writes them, in
/// order, each with a line feed.
#[inline]
pub fn journal(handle: &Handle, lines: &[u8], told: &mut Told) -> u32 {
    // SAFETY: `handle` is zeros or what a call left, and this call's alone: it is no `Sync`, and the library comes back by
    // the doors only. `lines` is a slice with its own length, and is read. `told` is a whole `Told` that nobody else has.
    unsafe { rhai_host_journal(handle.lent().at(), lines.as_ptr(), lines.len(), told) }
}
