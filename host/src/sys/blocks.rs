//! Blocks of C's memory, and how many bytes each of them takes.

#[cfg(any(test, not(all(target_os = "linux", any(target_env = "gnu", target_env = "musl")))))]
mod headed;
#[cfg(all(target_os = "linux", any(target_env = "gnu", target_env = "musl")))]
mod measured;

#[cfg(not(all(target_os = "linux", any(target_env = "gnu", target_env = "musl"))))]
pub use headed::{free, make, resize, size};
#[cfg(all(target_os = "linux", any(target_env = "gnu", target_env = "musl")))]
pub use measured::{free, make, resize, size};

use std::ffi::c_void;

// SAFETY: these are the C library's own, as C declares them.
unsafe extern "C" {
    fn malloc(size: usize) -> *mut c_void;
    #[link_name = "realloc"]
    fn c_realloc(at: *mut c_void, size: usize) -> *mut c_void;
    #[link_name = "free"]
    fn c_free(at: *mut c_void);
}
