//! Of the module `stamp`: written by `tools/host_declarations` from the lines of `crates/rhai_host`.

unsafe extern "C" {
    fn rhai_host_stamp_3b4407ede9898e77();
}

/// Does nothing: its name is a sum of all that is exported, so that a host of other declarations
/// doesn't link.
#[inline]
pub fn stamp() {
    // SAFETY: It takes nothing.
    unsafe { rhai_host_stamp_3b4407ede9898e77() }
}
