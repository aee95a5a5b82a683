//! Of the module `literals`: written by `tools/host_declarations` from the lines of `crates/rhai_host`.

use crate::sys::Handle;
use crate::sys::Told;

unsafe extern "C" {
    fn rhai_host_put_unit(handle: *mut Handle, told: &mut Told) -> u32;
    fn rhai_host_put_bool(handle: *mut Handle, truth: bool, told: &mut Told) -> u32;
    fn rhai_host_put_int(handle: *mut Handle, n: i64, told: &mut Told) -> u32;
    fn rhai_host_put_range(handle: *mut Handle, start: i64, end: i64, told: &mut Told) -> u32;
    fn rhai_host_put_range_with_end(handle: *mut Handle, start: i64, end: i64, told: &mut Told) -> u32;
    fn rhai_host_put_u8(handle: *mut Handle, n: u8, told: &mut Told) -> u32;
    fn rhai_host_put_u16(handle: *mut Handle, n: u16, told: &mut Told) -> u32;
    fn rhai_host_put_u32(handle: *mut Handle, n: u32, told: &mut Told) -> u32;
    fn rhai_host_put_u64(handle: *mut Handle, n: u64, told: &mut Told) -> u32;
    fn rhai_host_put_i8(handle: *mut Handle, n: i8, told: &mut Told) -> u32;
    fn rhai_host_put_i16(handle: *mut Handle, n: i16, told: &mut Told) -> u32;
    fn rhai_host_put_i32(handle: *mut Handle, n: i32, told: &mut Told) -> u32;
}

/// Appends the unit value.
#[inline]
pub fn put_unit(handle: &Handle, told: &mut Told) -> u32 {
    // SAFETY: `handle` is zeros or what a call left, and this call's alone: it is no `Sync`, and the library comes back by
    // the doors only. `told` is a whole `Told` that nobody else has.
    unsafe { rhai_host_put_unit(handle.lent().at(), told) }
}

/// Appends a boolean.
#[inline]
pub fn put_bool(handle: &Handle, truth: bool, told: &mut Told) -> u32 {
    // SAFETY: `handle` is zeros or what a call left, and this call's alone: it is no `Sync`, and the library comes back by
    // the doors only. `told` is a whole `Told` that nobody else has. Any `truth` will do.
    unsafe { rhai_host_put_bool(handle.lent().at(), truth, told) }
}

/// Appends an int.
#[inline]
pub fn put_int(handle: &Handle, n: i64, told: &mut Told) -> u32 {
    // SAFETY: `handle` is zeros or what a call left, and this call's alone: it is no `Sync`, and the library comes back by
    // the doors only. `told` is a whole `Told` that nobody else has. Any `n` will do.
    unsafe { rhai_host_put_int(handle.lent().at(), n, told) }
}

/// Appends the range from one int to another, end excluded.
#[inline]
pub fn put_range(handle: &Handle, start: i64, end: i64, told: &mut Told) -> u32 {
    // SAFETY: `handle` is zeros or what a call left, and this call's alone: it is no `Sync`, and the library comes back by
    // the doors only. `told` is a whole `Told` that nobody else has. Any `start`, `end` will do.
    unsafe { rhai_host_put_range(handle.lent().at(), start, end, told) }
}

/// Appends the range from one int to another, end included.
#[inline]
pub fn put_range_with_end(handle: &Handle, start: i64, end: i64, told: &mut Told) -> u32 {
    // SAFETY: `handle` is zeros or what a call left, and this call's alone: it is no `Sync`, and the library comes back by
    // the doors only. `told` is a whole `Told` that nobody else has. Any `start`, `end` will do.
    unsafe { rhai_host_put_range_with_end(handle.lent().at(), start, end, told) }
}

/// Appends a `u8` of the host.
#[inline]
pub fn put_u8(handle: &Handle, n: u8, told: &mut Told) -> u32 {
    // SAFETY: `handle` is zeros or what a call left, and this call's alone: it is no `Sync`, and the library comes back by
    // the doors only. `told` is a whole `Told` that nobody else has. Any `n` will do.
    unsafe { rhai_host_put_u8(handle.lent().at(), n, told) }
}

/// Appends a `u16` of the host.
#[inline]
pub fn put_u16(handle: &Handle, n: u16, told: &mut Told) -> u32 {
    // SAFETY: `handle` is zeros or what a call left, and this call's alone: it is no `Sync`, and the library comes back by
    // the doors only. `told` is a whole `Told` that nobody else has. Any `n` will do.
    unsafe { rhai_host_put_u16(handle.lent().at(), n, told) }
}

/// Appends a `u32` of the host.
#[inline]
pub fn put_u32(handle: &Handle, n: u32, told: &mut Told) -> u32 {
    // SAFETY: `handle` is zeros or what a call left, and this call's alone: it is no `Sync`, and the library comes back by
    // the doors only. `told` is a whole `Told` that nobody else has. Any `n` will do.
    unsafe { rhai_host_put_u32(handle.lent().at(), n, told) }
}

/// Appends a `u64` of the host.
#[inline]
pub fn put_u64(handle: &Handle, n: u64, told: &mut Told) -> u32 {
    // SAFETY: `handle` is zeros or what a call left, and this call's alone: it is no `Sync`, and the library comes back by
    // the doors only. `told` is a whole `Told` that nobody else has. Any `n` will do.
    unsafe { rhai_host_put_u64(handle.lent().at(), n, told) }
}

/// Appends an `i8` of the host.
#[inline]
pub fn put_i8(handle: &Handle, n: i8, told: &mut Told) -> u32 {
    // SAFETY: `handle` is zeros or what a call left, and this call's alone: it is no `Sync`, and the library comes back by
    // the doors only. `told` is a whole `Told` that nobody else has. Any `n` will do.
    unsafe { rhai_host_put_i8(handle.lent().at(), n, told) }
}

/// Appends an `i16` of the host.
#[inline]
pub fn put_i16(handle: &Handle, n: i16, told: &mut Told) -> u32 {
    // SAFETY: `handle` is zeros or what a call left, and this call's alone: it is no `Sync`, and the library comes back by
    // the doors only. `told` is a whole `Told` that nobody else has. Any `n` will do.
    unsafe { rhai_host_put_i16(handle.lent().at(), n, told) }
}

/// Appends an `i32` of the host.
#[inline]
pub fn put_i32(handle: &Handle, n: i32, told: &mut Told) -> u32 {
    // SAFETY: `handle` is zeros or what a call left, and this call's alone: it is no `Sync`, and the library comes back by
    // the doors only. `told` is a whole `Told` that nobody else has. Any `n` will do.
    unsafe { rhai_host_put_i32(handle.lent().at(), n, told) }
}
