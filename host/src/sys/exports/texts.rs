//! Of the module `texts`: written by `tools/host_declarations` from the lines of `crates/rhai_host`.

use crate::sys::Handle;
use crate::sys::Told;

unsafe extern "C" {
    fn rhai_host_put_u128(handle: *mut Handle, low: u64, high: u64, told: &mut Told) -> u32;
    fn rhai_host_put_i128(handle: *mut Handle, low: u64, high: u64, told: &mut Told) -> u32;
    fn rhai_host_put_text(handle: *mut Handle, text: *const u8, text_len: usize, told: &mut Told) -> u32;
    fn rhai_host_put_blob(handle: *mut Handle, bytes: *const u8, bytes_len: usize, told: &mut Told) -> u32;
    fn rhai_host_put_char(handle: *mut Handle, code: u32, told: &mut Told) -> u32;
}

/// Appends a `u128` of the host, passed as its lower and its upper 64 bits.
#[inline]
pub fn put_u128(handle: &Handle, low: u64, high: u64, told: &mut Told) -> u32 {
    // SAFETY: `handle` is zeros or what a call left, and this call's alone: it is no `Sync`, and the library comes back by
    // the doors only. `told` is a whole `Told` that nobody else has. Any `low`, `high` will do.
    unsafe { rhai_host_put_u128(handle.lent().at(), low, high, told) }
}

/// Appends an `i128` of the host, passed as the lower and the upper 64 bits of its two's
/// complement.
#[inline]
pub fn put_i128(handle: &Handle, low: u64, high: u64, told: &mut Told) -> u32 {
    // SAFETY: `handle` is zeros or what a call left, and this call's alone: it is no `Sync`, and the library comes back by
    // the doors only. `told` is a whole `Told` that nobody else has. Any `low`, `high` will do.
    unsafe { rhai_host_put_i128(handle.lent().at(), low, high, told) }
}

/// Appends a text of these bytes, which are UTF-8.
#[inline]
pub fn put_text(handle: &Handle, text: &[u8], told: &mut Told) -> u32 {
    // SAFETY: `handle` is zeros or what a call left, and this call's alone: it is no `Sync`, and the library comes back by
    // the doors only. `text` is a slice with its own length, and is read. `told` is a whole `Told` that nobody else has.
    unsafe { rhai_host_put_text(handle.lent().at(), text.as_ptr(), text.len(), told) }
}

/// Appends a blob of these bytes.
#[inline]
pub fn put_blob(handle: &Handle, bytes: &[u8], told: &mut Told) -> u32 {
    // SAFETY: `handle` is zeros or what a call left, and this call's alone: it is no `Sync`, and the library comes back by
    // the doors only. `bytes` is a slice with its own length, and is read. `told` is a whole `Told` that nobody else has.
    unsafe { rhai_host_put_blob(handle.lent().at(), bytes.as_ptr(), bytes.len(), told) }
}

/// Appends the character with this code.
#[inline]
pub fn put_char(handle: &Handle, code: u32, told: &mut Told) -> u32 {
    // SAFETY: `handle` is zeros or what a call left, and this call's alone: it is no `Sync`, and the library comes back by
    // the doors only. `told` is a whole `Told` that nobody else has. Any `code` will do.
    unsafe { rhai_host_put_char(handle.lent().at(), code, told) }
}
