//! How fast rows of docs/SPEED.md could be under the port's promises: forms in plain Rust that do the same work and return the same
//! checksum.
//!
//! | promise | what it requires of a form |
//! |---|---|
//! | a value has tag, mode and numbers of 128 bits in place | 48 bytes |
//! | an operator returns a value or a named error | 64 bytes |
//! | a command returns a number of 128 bits or a named refusal | 64 bytes |
//! | `pop_first` returns a key and allocates nothing | keys are strings with blocks of their own |
//! | a copy of a text shares its bytes, and is one pointer wide | a count before the bytes; a text of a hundred takes two blocks |
//! | `hashed` returns the hash bytes | they are written, and then hashed |
//! | `clone_visible` allocates for the copies alone | no set of names |
//! | no call of the C library but for memory | bytes are compared in registers, not by `memcmp` |
//!
//! A form marked `(beside)` breaks one, and is there for comparison. If an allocation fails, some forms end the program, after the test
//! by which others return an error.

pub mod assigns;
pub mod commands;
pub mod evaluates;
pub mod forms;
pub mod given;
pub mod hashes;
pub mod ints;
pub mod maps;
pub mod measured;
pub mod operators;
pub mod prints;
pub mod scopes;
pub mod singles;
pub mod sip;
pub mod text;
pub mod texts;
pub mod value;
pub mod visible;
