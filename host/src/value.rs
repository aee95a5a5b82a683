//! Rust values that are copied out of a world and into it.
mod array;
mod builder;
mod convert;
pub(crate) mod head;
mod integers;
mod items;
mod map;
mod misfit;
mod put;
pub(crate) mod read;
mod shed;
mod show;
mod walk;
mod write;

pub use array::Array;
pub use integers::NoIntError;
pub use items::{FromItem, IntoItem};
pub use map::{Fields, Map};
pub use misfit::{Misfit, TryFromValueError};

use builder::Builder;
use head::Parts;
use std::fmt;
use std::hash::{Hash, Hasher};
use walk::Walk;

/// How many levels of a value the debug format shows.
const SHOWN: usize = 64;

/// A value without holders, tags and modes.
///
/// It may nest as deep as memory allows: to pass, read, clone, compare and drop it takes a bounded
/// part of the stack. Its debug format shows 64 levels.
///
/// ```
/// use rhai_world::{Array, Limits, Value, World};
///
/// let mut world = World::new(Limits::default())?;
/// let value: Value = [Value::from(7), Value::from("seven")].into_iter().collect::<Array>().into();
/// world.put(&value)?;
/// assert_eq!(world.show(0)?, "[7, \"seven\"]");
/// assert_eq!(world.value(0)?, Some(value));
/// # Ok::<(), rhai_world::Error>(())
/// ```
#[non_exhaustive]
pub enum Value {
    /// The unit value.
    Unit,
    /// A boolean.
    Bool(bool),
    /// An int.
    Int(i64),
    /// A character.
    Char(char),
    /// A text.
    Text(String),
    /// Bytes.
    Blob(Vec<u8>),
    /// Values in order.
    Array(Array),
    /// Values by keys.
    Map(Map),
    /// A function's name, and its curried values.
    FnPtr(String, Array),
    /// A `u8` of the host.
    U8(u8),
    /// A `u16` of the host.
    U16(u16),
    /// A `u32` of the host.
    U32(u32),
    /// A `u64` of the host.
    U64(u64),
    /// A `u128` of the host.
    U128(u128),
    /// An `i8` of the host.
    I8(i8),
    /// An `i16` of the host.
    I16(i16),
    /// An `i32` of the host.
    I32(i32),
    /// An `i128` of the host.
    I128(i128),
    /// The ints from one to another, end excluded.
    Range(i64, i64),
    /// The ints from one to another, end included.
    RangeWithEnd(i64, i64),
}

impl PartialEq for Value {
    fn eq(&self, other: &Value) -> bool {
        // (each head counts its children, so two walks that are equal so far end together)
        Walk::of(self).eq(Walk::of(other))
    }
}

impl Eq for Value {}

impl Hash for Value {
    fn hash<H: Hasher>(&self, state: &mut H) {
        Walk::of(self).for_each(|part| part.hash(state));
    }
}

impl Clone for Value {
    fn clone(&self) -> Value {
        let mut builder = Builder::default();
        for (key, head) in Walk::of(self) {
            if builder.add(key, head).is_err() {
                std::alloc::handle_alloc_error(std::alloc::Layout::new::<Value>());
            }
        }
        builder.whole().unwrap_or(Value::Unit)
    }
}

impl fmt::Debug for Value {
    fn fmt(&self, f: &mut fmt::Formatter<'_>) -> fmt::Result {
        Shown { value: self, levels: SHOWN }.fmt(f)
    }
}

/// The first levels of a value, as many as this says.
struct Shown<'a> {
    value: &'a Value,
    levels: usize,
}

impl fmt::Debug for Shown<'_> {
    fn fmt(&self, f: &mut fmt::Formatter<'_>) -> fmt::Result {
        let Some(levels) = self.levels.checked_sub(1) else {
            return f.write_str("..");
        };
        let inside = |value| Shown { value, levels };
        match self.value.parts() {
            Parts::Leaf(leaf) => leaf.fmt(f),
            Parts::Array(items) => f.debug_list().entries(items.iter().map(inside)).finish(),
            Parts::Map(fields) => f.debug_map().entries(fields.iter().map(|(key, value)| (key, inside(value)))).finish(),
            Parts::FnPtr(name, curried) => {
                let mut shown = f.debug_tuple("FnPtr");
                curried.iter().fold(shown.field(&name), |shown, value| shown.field(&inside(value))).finish()
            }
        }
    }
}
