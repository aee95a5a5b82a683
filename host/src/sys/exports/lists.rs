//! Of the module `lists`: written by `tools/host_declarations` from the lines of `crates/rhai_host`.

use crate::sys::Handle;
use crate::sys::Told;

unsafe extern "C" {
    fn rhai_host_make_map(handle: *mut Handle, keys: *const usize, keys_len: usize, told: &mut Told) -> u32;
    fn rhai_host_extend(handle: *mut Handle, names: *const usize, names_len: usize, told: &mut Told) -> u32;
    fn rhai_host_extend_flagged(
        handle: *mut Handle,
        names: *const usize,
        names_len: usize,
        constants: *const bool,
        constants_len: usize,
        told: &mut Told,
    ) -> u32;
    fn rhai_host_set_alias(handle: *mut Handle, name: usize, alias: *const u8, alias_len: usize, told: &mut Told) -> u32;
}

/// Removes as many values from the end of the hand as there are keys, and appends the map from the
/// keys to these values, in order; for duplicate keys the last value counts.
#[inline]
pub fn make_map(handle: &Handle, keys: &[usize], told: &mut Told) -> u32 {
    // SAFETY: `handle` is zeros or what a call left, and this call's alone: it is no `Sync`, and the library comes back by
    // the doors only. `keys` is a slice with its own length, and is read. `told` is a whole `Told` that nobody else has.
    unsafe { rhai_host_make_map(handle.lent().at(), keys.as_ptr(), keys.len(), told) }
}

/// Removes as many values from the end of the hand as there are names, and adds a writable entry
/// for each name and value.
#[inline]
pub fn extend(handle: &Handle, names: &[usize], told: &mut Told) -> u32 {
    // SAFETY: `handle` is zeros or what a call left, and this call's alone: it is no `Sync`, and the library comes back by
    // the doors only. `names` is a slice with its own length, and is read. `told` is a whole `Told` that nobody else has.
    unsafe { rhai_host_extend(handle.lent().at(), names.as_ptr(), names.len(), told) }
}

/// Removes as many values from the end of the hand as there are names, and adds an entry for each
/// name and value; it is a constant if its flag is set.
#[inline]
pub fn extend_flagged(handle: &Handle, names: &[usize], constants: &[bool], told: &mut Told) -> u32 {
    // SAFETY: `handle` is zeros or what a call left, and this call's alone: it is no `Sync`, and the library comes back by
    // the doors only. `names` is a slice with its own length, and is read. `constants` is a slice with its own length, and
    // is read. `told` is a whole `Told` that nobody else has.
    unsafe {
        rhai_host_extend_flagged(handle.lent().at(), names.as_ptr(), names.len(), constants.as_ptr(), constants.len(), told)
    }
}

/// Gives the newest entry with the name this alias, unless it has it; an empty alias means the name
/// itself.
#[inline]
pub fn set_alias(handle: &Handle, name: usize, alias: &[u8], told: &mut Told) -> u32 {
    // SAFETY: `handle` is zeros or what a call left, and this call's alone: it is no `Sync`, and the library comes back by
    // the doors only. `alias` is a slice with its own length, and is read. `told` is a whole `Told` that nobody else has.
    // Any `name` will do.
    unsafe { rhai_host_set_alias(handle.lent().at(), name, alias.as_ptr(), alias.len(), told) }
}
