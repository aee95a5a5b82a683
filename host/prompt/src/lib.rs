//! The program `rhai-world`: runs a script from a file or from an argument, or is a prompt for
//! scripts.
//!
//! ```text
//! rhai-world FILE
//! rhai-world -e 'let x = 6; x * 7'
//! rhai-world
//! ```
//!
//! The prompt shows the value of each script, as `debug` does, and keeps variables and functions.
//! `:help` lists its commands, `--help` the limits. Operations and time have no limit by default,
//! memory has 256 MB.
//!
//! An error goes to standard error, with its line and a caret. The exit status is 1 if a script
//! failed, 2 if nothing could be run. A prompt ends with 1 if a line failed and lines don't come
//! from a terminal.
//!
//! The program uses no other crate, and has no line editor: use `rlwrap rhai-world`. The crate in
//! `host/prompt/editing` is the same program with history and completion by `rustyline`, from
//! cargo's registry, or from Debian's package, which `host/registry` makes available to cargo.
//!
//! It is also a library, so that a program with a line editor of its own can have the same prompt:
//! it implements [`Lines`], and calls [`program`].
#![forbid(unsafe_code)]
#![deny(missing_docs)]

mod arguments;
mod cells;
mod lines;
mod paint;
mod program;
mod report;
mod scan;
mod session;

pub use lines::{Lines, Plain};
pub use program::program;
