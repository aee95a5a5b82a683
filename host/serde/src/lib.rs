//! Converts Rust types to script values, and back, with [serde](https://serde.rs).
//!
//! ```
//! use rhai_world::{Error, Value};
//! use rhai_world_serde::{from_value, to_value};
//! use serde::{Deserialize, Serialize};
//!
//! #[derive(Serialize, Deserialize, Debug, PartialEq)]
//! struct Order {
//!     of: String,
//!     amount: u32,
//! }
//!
//! let order = Order { of: "apple".to_owned(), amount: 3 };
//! let value = to_value(&order)?;
//! assert_eq!(format!("{value:?}"), r#"{"amount": Int(3), "of": Text("apple")}"#);
//! assert_eq!(from_value::<Order>(value)?, order);
//! # Ok::<(), rhai_world_serde::Error>(())
//! ```
//!
//! [`Scope::push`](rhai_world::Scope::push) passes a value into a script, and
//! [`Engine::eval`](rhai_world::Engine::eval) gets one out of it. [`Wire`] is a value for other
//! formats.
//!
//! | Rust | value |
//! |---|---|
//! | `()`, `None`, a unit struct | unit |
//! | `bool`, `char`, `&str`, bytes | bool, character, text, blob |
//! | an integer that fits an `i64` | int |
//! | a sequence, a tuple | array |
//! | a map, a struct | map |
//! | a variant | its name as a text; with content, a map from the name to the content |
//! | `Some(x)`, a newtype struct of `x` | `x` |
//!
//! Keys are texts. A character, an integer, a `bool` and a variant without content become texts, as
//! in `serde_json`.
//!
//! `examples/orders.rs` passes a struct into a script, and gets another one out of it. The crate
//! uses `serde`, from cargo's registry, or from Debian's packages, which `host/registry` makes
//! available to cargo.
//!
//! What can't be converted is refused by a name in [`Error`]: a number out of range, a float in
//! either direction, a script's function pointer or range, a duplicate key, and nesting deeper than
//! [`LEVELS`], so that stack use is bounded. For untagged, internally tagged and flattened types
//! serde buffers the fields, and then converts an int to a float if one is expected. Unknown fields
//! are ignored unless the type denies them.
#![forbid(unsafe_code)]
#![deny(missing_docs)]

mod de;
mod error;
mod ser;
pub mod wire;

pub use de::Deserializer;
pub use error::Error;
pub use ser::Serializer;
pub use wire::Wire;

use rhai_world::Value;
use serde::de::DeserializeOwned;
use serde::Serialize;

/// How deep arrays, maps, options and newtypes may nest.
pub const LEVELS: usize = 128;

/// Converts a Rust value to a script value.
///
/// Errors: a float, a number that doesn't fit an `i64`, a key that can't be a text, a duplicate
/// key, more than [`LEVELS`] levels, and the type's own errors.
pub fn to_value<T: Serialize + ?Sized>(of: &T) -> Result<Value, Error> {
    of.serialize(Serializer::new())
}

/// Converts a script value to a Rust value.
///
/// Errors: a float is expected, a number is out of range, a function pointer or a range is found,
/// more than [`LEVELS`] levels, and the type's own errors.
pub fn from_value<T: DeserializeOwned>(value: Value) -> Result<T, Error> {
    T::deserialize(Deserializer::new(value))
}
