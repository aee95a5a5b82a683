//! Of the module `asks`: written by `tools/host_declarations` from the lines of `crates/rhai_host`.

use crate::sys::Handle;
use crate::sys::Told;

unsafe extern "C" {
    fn rhai_host_tag(handle: *mut Handle, i: usize, told: &mut Told) -> u32;
    fn rhai_host_is_variant(handle: *mut Handle, i: usize, told: &mut Told) -> u32;
    fn rhai_host_is_shared(handle: *mut Handle, i: usize, told: &mut Told) -> u32;
    fn rhai_host_is_read_only(handle: *mut Handle, i: usize, told: &mut Told) -> u32;
    fn rhai_host_is_locked(handle: *mut Handle, i: usize, told: &mut Told) -> u32;
    fn rhai_host_type_name(handle: *mut Handle, i: usize, told: &mut Told) -> u32;
    fn rhai_host_is_hashable(handle: *mut Handle, i: usize, told: &mut Told) -> u32;
    fn rhai_host_as_unit(handle: *mut Handle, i: usize, told: &mut Told) -> u32;
    fn rhai_host_as_int(handle: *mut Handle, i: usize, told: &mut Told) -> u32;
    fn rhai_host_as_bool(handle: *mut Handle, i: usize, told: &mut Told) -> u32;
    fn rhai_host_as_char(handle: *mut Handle, i: usize, told: &mut Told) -> u32;
    fn rhai_host_show(handle: *mut Handle, i: usize, told: &mut Told) -> u32;
    fn rhai_host_debug(handle: *mut Handle, i: usize, told: &mut Told) -> u32;
    fn rhai_host_hash(handle: *mut Handle, i: usize, told: &mut Told) -> u32;
    fn rhai_host_offset(handle: *mut Handle, length: usize, start: i64, count: i64, told: &mut Told) -> u32;
    fn rhai_host_index(handle: *mut Handle, length: usize, index: i64, from_end: bool, told: &mut Told) -> u32;
}

/// Returns the tag of the value at the hand position.
#[inline]
pub fn tag(handle: &Handle, i: usize, told: &mut Told) -> u32 {
    // SAFETY: `handle` is zeros or what a call left, and this call's alone: it is no `Sync`, and the library comes back by
    // the doors only. `told` is a whole `Told` that nobody else has. Any `i` will do.
    unsafe { rhai_host_tag(handle.lent().at(), i, told) }
}

/// Returns whether the value at the hand position is of one of the host's types.
#[inline]
pub fn is_variant(handle: &Handle, i: usize, told: &mut Told) -> u32 {
    // SAFETY: `handle` is zeros or what a call left, and this call's alone: it is no `Sync`, and the library comes back by
    // the doors only. `told` is a whole `Told` that nobody else has. Any `i` will do.
    unsafe { rhai_host_is_variant(handle.lent().at(), i, told) }
}

/// Returns whether the value at the hand position is a holder.
#[inline]
pub fn is_shared(handle: &Handle, i: usize, told: &mut Told) -> u32 {
    // SAFETY: `handle` is zeros or what a call left, and this call's alone: it is no `Sync`, and the library comes back by
    // the doors only. `told` is a whole `Told` that nobody else has. Any `i` will do.
    unsafe { rhai_host_is_shared(handle.lent().at(), i, told) }
}

/// Returns whether the first content of the value at the hand position is a constant.
#[inline]
pub fn is_read_only(handle: &Handle, i: usize, told: &mut Told) -> u32 {
    // SAFETY: `handle` is zeros or what a call left, and this call's alone: it is no `Sync`, and the library comes back by
    // the doors only. `told` is a whole `Told` that nobody else has. Any `i` will do.
    unsafe { rhai_host_is_read_only(handle.lent().at(), i, told) }
}

/// Returns whether the value at the hand position is, or contains, a holder of a marked cell.
#[inline]
pub fn is_locked(handle: &Handle, i: usize, told: &mut Told) -> u32 {
    // SAFETY: `handle` is zeros or what a call left, and this call's alone: it is no `Sync`, and the library comes back by
    // the doors only. `told` is a whole `Told` that nobody else has. Any `i` will do.
    unsafe { rhai_host_is_locked(handle.lent().at(), i, told) }
}

/// Returns the name of the type held at the hand position.
#[inline]
pub fn type_name(handle: &Handle, i: usize, told: &mut Told) -> u32 {
    // SAFETY: `handle` is zeros or what a call left, and this call's alone: it is no `Sync`, and the library comes back by
    // the doors only. `told` is a whole `Told` that nobody else has. Any `i` will do.
    unsafe { rhai_host_type_name(handle.lent().at(), i, told) }
}

/// Returns whether the value at the hand position can be hashed.
#[inline]
pub fn is_hashable(handle: &Handle, i: usize, told: &mut Told) -> u32 {
    // SAFETY: `handle` is zeros or what a call left, and this call's alone: it is no `Sync`, and the library comes back by
    // the doors only. `told` is a whole `Told` that nobody else has. Any `i` will do.
    unsafe { rhai_host_is_hashable(handle.lent().at(), i, told) }
}

/// Succeeds if unit is held at the hand position.
#[inline]
pub fn as_unit(handle: &Handle, i: usize, told: &mut Told) -> u32 {
    // SAFETY: `handle` is zeros or what a call left, and this call's alone: it is no `Sync`, and the library comes back by
    // the doors only. `told` is a whole `Told` that nobody else has. Any `i` will do.
    unsafe { rhai_host_as_unit(handle.lent().at(), i, told) }
}

/// Returns the int held at the hand position.
#[inline]
pub fn as_int(handle: &Handle, i: usize, told: &mut Told) -> u32 {
    // SAFETY: `handle` is zeros or what a call left, and this call's alone: it is no `Sync`, and the library comes back by
    // the doors only. `told` is a whole `Told` that nobody else has. Any `i` will do.
    unsafe { rhai_host_as_int(handle.lent().at(), i, told) }
}

/// Returns the boolean held at the hand position.
#[inline]
pub fn as_bool(handle: &Handle, i: usize, told: &mut Told) -> u32 {
    // SAFETY: `handle` is zeros or what a call left, and this call's alone: it is no `Sync`, and the library comes back by
    // the doors only. `told` is a whole `Told` that nobody else has. Any `i` will do.
    unsafe { rhai_host_as_bool(handle.lent().at(), i, told) }
}

/// Returns the character held at the hand position, as a text.
#[inline]
pub fn as_char(handle: &Handle, i: usize, told: &mut Told) -> u32 {
    // SAFETY: `handle` is zeros or what a call left, and this call's alone: it is no `Sync`, and the library comes back by
    // the doors only. `told` is a whole `Told` that nobody else has. Any `i` will do.
    unsafe { rhai_host_as_char(handle.lent().at(), i, told) }
}

/// Returns the text of the value at the hand position, in display format.
#[inline]
pub fn show(handle: &Handle, i: usize, told: &mut Told) -> u32 {
    // SAFETY: `handle` is zeros or what a call left, and this call's alone: it is no `Sync`, and the library comes back by
    // the doors only. `told` is a whole `Told` that nobody else has. Any `i` will do.
    unsafe { rhai_host_show(handle.lent().at(), i, told) }
}

/// Returns the text of the value at the hand position, in debug format.
#[inline]
pub fn debug(handle: &Handle, i: usize, told: &mut Told) -> u32 {
    // SAFETY: `handle` is zeros or what a call left, and this call's alone: it is no `Sync`, and the library comes back by
    // the doors only. `told` is a whole `Told` that nobody else has. Any `i` will do.
    unsafe { rhai_host_debug(handle.lent().at(), i, told) }
}

/// Returns the hash bytes of the value at the hand position.
#[inline]
pub fn hash(handle: &Handle, i: usize, told: &mut Told) -> u32 {
    // SAFETY: `handle` is zeros or what a call left, and this call's alone: it is no `Sync`, and the library comes back by
    // the doors only. `told` is a whole `Told` that nobody else has. Any `i` will do.
    unsafe { rhai_host_hash(handle.lent().at(), i, told) }
}

/// Returns where a slice of a list of this length starts and how many items it has, for a start and
/// a number of items.
#[inline]
pub fn offset(handle: &Handle, length: usize, start: i64, count: i64, told: &mut Told) -> u32 {
    // SAFETY: `handle` is zeros or what a call left, and this call's alone: it is no `Sync`, and the library comes back by
    // the doors only. `told` is a whole `Told` that nobody else has. Any `length`, `start`, `count` will do.
    unsafe { rhai_host_offset(handle.lent().at(), length, start, count, told) }
}

/// Returns the position of an item in a list of this length, or nothing; with the flag a negative
/// index counts from the end.
#[inline]
pub fn index(handle: &Handle, length: usize, index: i64, from_end: bool, told: &mut Told) -> u32 {
    // SAFETY: `handle` is zeros or what a call left, and this call's alone: it is no `Sync`, and the library comes back by
    // the doors only. `told` is a whole `Told` that nobody else has. Any `length`, `index`, `from_end` will do.
    unsafe { rhai_host_index(handle.lent().at(), length, index, from_end, told) }
}
