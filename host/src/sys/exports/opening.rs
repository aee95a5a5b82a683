//! Of the module `opening`: written by `tools/host_declarations` from the lines of `crates/rhai_host`.

use crate::sys::Handle;

unsafe extern "C" {
    fn rhai_host_new(handle: *mut Handle, text: usize, items: usize) -> u32;
    fn rhai_host_close(handle: *mut Handle);
    fn rhai_host_is_open(handle: *mut Handle) -> bool;
    fn rhai_host_name(handle: *mut Handle, text: *const u8, text_len: usize, number: &mut usize) -> u32;
    fn rhai_host_hand_len(handle: *mut Handle) -> usize;
    fn rhai_host_answer(handle: *mut Handle, second: bool, room: *mut u8, room_len: usize) -> usize;
    fn rhai_host_forget_name(handle: *mut Handle, number: usize) -> u32;
    fn rhai_host_collect(handle: *mut Handle) -> u32;
    fn rhai_host_handle_size() -> usize;
    fn rhai_host_handle_align() -> usize;
}

/// Opens a world with these limits, 0 meaning no limit, and closes the one that was open before.
#[inline]
pub fn new(handle: &Handle, text: usize, items: usize) -> u32 {
    // SAFETY: `handle` is zeros or what a call left, and this call's alone: it is no `Sync`, and the library comes back by
    // the doors only. Any `text`, `items` will do.
    unsafe { rhai_host_new(handle.lent().at(), text, items) }
}

/// Closes the world, if one is open.
#[inline]
pub fn close(handle: &Handle) {
    // SAFETY: `handle` is zeros or what a call left, and this call's alone: it is no `Sync`, and the library comes back by
    // the doors only.
    unsafe { rhai_host_close(handle.lent().at()) }
}

/// Returns whether a world is open.
#[inline]
pub fn is_open(handle: &Handle) -> bool {
    // SAFETY: `handle` is zeros or what a call left, and this call's alone: it is no `Sync`, and the library comes back by
    // the doors only.
    unsafe { rhai_host_is_open(handle.lent().at()) }
}

/// Assigns a number to a name, which commands use in its place. It only allocates a slot if no
/// freed number is available.
#[inline]
pub fn name(handle: &Handle, text: &[u8], number: &mut usize) -> u32 {
    // SAFETY: `handle` is zeros or what a call left, and this call's alone: it is no `Sync`, and the library comes back by
    // the doors only. `text` is a slice with its own length, and is read. `number` is a whole `usize` that nobody else has.
    unsafe { rhai_host_name(handle.lent().at(), text.as_ptr(), text.len(), number) }
}

/// Returns how many values are in the hand, 0 where no world is open.
#[inline]
pub fn hand_len(handle: &Handle) -> usize {
    // SAFETY: `handle` is zeros or what a call left, and this call's alone: it is no `Sync`, and the library comes back by
    // the doors only.
    unsafe { rhai_host_hand_len(handle.lent().at()) }
}

/// Copies the bytes of the last text, bytes or refusal that was returned, or those of its second
/// name, as far as there is room; returns how many there are.
#[inline]
pub fn answer(handle: &Handle, second: bool, room: &mut [u8]) -> usize {
    // SAFETY: `handle` is zeros or what a call left, and this call's alone: it is no `Sync`, and the library comes back by
    // the doors only. `room` is a slice with its own length, and is written. Any `second` will do.
    unsafe { rhai_host_answer(handle.lent().at(), second, room.as_mut_ptr(), room.len()) }
}

/// Frees the number of a name. A new name may get it.
#[inline]
pub fn forget_name(handle: &Handle, number: usize) -> u32 {
    // SAFETY: `handle` is zeros or what a call left, and this call's alone: it is no `Sync`, and the library comes back by
    // the doors only. Any `number` will do.
    unsafe { rhai_host_forget_name(handle.lent().at(), number) }
}

/// Frees each unreachable cell.
#[inline]
pub fn collect(handle: &Handle) -> u32 {
    // SAFETY: `handle` is zeros or what a call left, and this call's alone: it is no `Sync`, and the library comes back by
    // the doors only.
    unsafe { rhai_host_collect(handle.lent().at()) }
}

/// Returns how many bytes a handle takes.
#[inline]
pub fn handle_size() -> usize {
    // SAFETY: It takes nothing.
    unsafe { rhai_host_handle_size() }
}

/// Returns the alignment of a handle.
#[inline]
pub fn handle_align() -> usize {
    // SAFETY: It takes nothing.
    unsafe { rhai_host_handle_align() }
}
