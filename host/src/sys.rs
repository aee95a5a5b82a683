//! What crosses to the library. All `unsafe` of this crate stands in this module; `SAFETY.md` goes through it.
#![allow(unsafe_code)]

mod account;
mod blocks;
mod doors;
mod exports;
mod handle;
pub mod numbers;

#[cfg(feature = "faults")]
pub use doors::refuse;
pub use exports::*;
pub use handle::Handle;
