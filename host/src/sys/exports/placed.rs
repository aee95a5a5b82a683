//! Of the module `placed`: written by `tools/host_declarations` from the lines of `crates/rhai_host`.

use crate::sys::Handle;
use crate::sys::Told;

unsafe extern "C" {
    fn rhai_host_mark(handle: *mut Handle, is_entry: bool, at: usize, told: &mut Told) -> u32;
    fn rhai_host_write_bit(handle: *mut Handle, is_entry: bool, at: usize, bit: u8, j: usize, told: &mut Told) -> u32;
    fn rhai_host_write_field(
        handle: *mut Handle,
        is_entry: bool,
        at: usize,
        mask: i64,
        shift: u8,
        j: usize,
        told: &mut Told,
    ) -> u32;
    fn rhai_host_write_byte(handle: *mut Handle, is_entry: bool, at: usize, index: usize, j: usize, told: &mut Told) -> u32;
    fn rhai_host_write_char(handle: *mut Handle, is_entry: bool, at: usize, index: usize, j: usize, told: &mut Told) -> u32;
    fn rhai_host_write_slice(
        handle: *mut Handle,
        is_entry: bool,
        at: usize,
        start: usize,
        end: usize,
        exclusive: bool,
        j: usize,
        told: &mut Told,
    ) -> u32;
}

/// Locks the cell of the holder at the place: from then on it is read and written only through the
/// mark. Appends the mark to the list of marks.
#[inline]
pub fn mark(handle: &Handle, is_entry: bool, at: usize, told: &mut Told) -> u32 {
    // SAFETY: `handle` is zeros or what a call left, and this call's alone: it is no `Sync`, and the library comes back by
    // the doors only. `told` is a whole `Told` that nobody else has. Any `is_entry`, `at` will do.
    unsafe { rhai_host_mark(handle.lent().at(), is_entry, at, told) }
}

/// Writes the boolean at the hand position to this bit of the int at the place.
#[inline]
pub fn write_bit(handle: &Handle, is_entry: bool, at: usize, bit: u8, j: usize, told: &mut Told) -> u32 {
    // SAFETY: `handle` is zeros or what a call left, and this call's alone: it is no `Sync`, and the library comes back by
    // the doors only. `told` is a whole `Told` that nobody else has. Any `is_entry`, `at`, `bit`, `j` will do.
    unsafe { rhai_host_write_bit(handle.lent().at(), is_entry, at, bit, j, told) }
}

/// Writes the int at the hand position, shifted left, to the bits of the mask in the int at the
/// place.
#[inline]
pub fn write_field(handle: &Handle, is_entry: bool, at: usize, mask: i64, shift: u8, j: usize, told: &mut Told) -> u32 {
    // SAFETY: `handle` is zeros or what a call left, and this call's alone: it is no `Sync`, and the library comes back by
    // the doors only. `told` is a whole `Told` that nobody else has. Any `is_entry`, `at`, `mask`, `shift`, `j` will do.
    unsafe { rhai_host_write_field(handle.lent().at(), is_entry, at, mask, shift, j, told) }
}

/// Writes the int at the hand position to the byte at this index of the blob at the place.
#[inline]
pub fn write_byte(handle: &Handle, is_entry: bool, at: usize, index: usize, j: usize, told: &mut Told) -> u32 {
    // SAFETY: `handle` is zeros or what a call left, and this call's alone: it is no `Sync`, and the library comes back by
    // the doors only. `told` is a whole `Told` that nobody else has. Any `is_entry`, `at`, `index`, `j` will do.
    unsafe { rhai_host_write_byte(handle.lent().at(), is_entry, at, index, j, told) }
}

/// Writes the character at the hand position over the character at this index of the text at the
/// place.
#[inline]
pub fn write_char(handle: &Handle, is_entry: bool, at: usize, index: usize, j: usize, told: &mut Told) -> u32 {
    // SAFETY: `handle` is zeros or what a call left, and this call's alone: it is no `Sync`, and the library comes back by
    // the doors only. `told` is a whole `Told` that nobody else has. Any `is_entry`, `at`, `index`, `j` will do.
    unsafe { rhai_host_write_char(handle.lent().at(), is_entry, at, index, j, told) }
}

/// Replaces the characters from the first index up to the second one with the printed value at the
/// hand position. The second one is replaced too, unless the slice is exclusive.
#[inline]
#[allow(clippy::too_many_arguments)]
pub fn write_slice(
    handle: &Handle,
    is_entry: bool,
    at: usize,
    start: usize,
    end: usize,
    exclusive: bool,
    j: usize,
    told: &mut Told,
) -> u32 {
    // SAFETY: `handle` is zeros or what a call left, and this call's alone: it is no `Sync`, and the library comes back by
    // the doors only. `told` is a whole `Told` that nobody else has. Any `is_entry`, `at`, `start`, `end`, `exclusive`, `j`
    // will do.
    unsafe { rhai_host_write_slice(handle.lent().at(), is_entry, at, start, end, exclusive, j, told) }
}
