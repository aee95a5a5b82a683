//! A value without its children.
use super::{Array, Map, Value};
use crate::error::Error;
use crate::world::copied;
use std::slice;

/// A value without children.
#[derive(Clone, Copy, Debug, PartialEq, Eq, Hash)]
pub(crate) enum Leaf<'a> {
    Unit,
    Bool(bool),
    Int(i64),
    Char(char),
    Text(&'a str),
    Blob(&'a [u8]),
    U8(u8),
    U16(u16),
    U32(u32),
    U64(u64),
    U128(u128),
    I8(i8),
    I16(i16),
    I32(i32),
    I128(i128),
    Range(i64, i64),
    RangeWithEnd(i64, i64),
}

/// A value with the number of its children in their place.
#[derive(Clone, Copy, Debug, PartialEq, Eq, Hash)]
pub(crate) enum Head<'a> {
    Leaf(Leaf<'a>),
    Array(usize),
    Map(usize),
    FnPtr(&'a str, usize),
}

/// A value by its parts.
#[derive(Clone, Copy)]
pub(crate) enum Parts<'a> {
    Leaf(Leaf<'a>),
    Array(&'a Array),
    Map(&'a Map),
    FnPtr(&'a str, &'a Array),
}

impl Value {
    pub(crate) fn parts(&self) -> Parts<'_> {
        Parts::Leaf(match self {
            Value::Array(items) => return Parts::Array(items),
            Value::Map(fields) => return Parts::Map(fields),
            Value::FnPtr(name, curried) => return Parts::FnPtr(name, curried),
            Value::Unit => Leaf::Unit,
            Value::Bool(truth) => Leaf::Bool(*truth),
            Value::Int(n) => Leaf::Int(*n),
            Value::Char(character) => Leaf::Char(*character),
            Value::Text(text) => Leaf::Text(text),
            Value::Blob(bytes) => Leaf::Blob(bytes),
            Value::U8(n) => Leaf::U8(*n),
            Value::U16(n) => Leaf::U16(*n),
            Value::U32(n) => Leaf::U32(*n),
            Value::U64(n) => Leaf::U64(*n),
            Value::U128(n) => Leaf::U128(*n),
            Value::I8(n) => Leaf::I8(*n),
            Value::I16(n) => Leaf::I16(*n),
            Value::I32(n) => Leaf::I32(*n),
            Value::I128(n) => Leaf::I128(*n),
            Value::Range(start, end) => Leaf::Range(*start, *end),
            Value::RangeWithEnd(start, end) => Leaf::RangeWithEnd(*start, *end),
        })
    }

    /// Returns the name of the value's kind, for messages.
    pub(crate) fn kind_name(&self) -> &'static str {
        match self {
            Value::Unit => "()",
            Value::Bool(_) => "a bool",
            Value::Int(_) => "an int",
            Value::Char(_) => "a character",
            Value::Text(_) => "a text",
            Value::Blob(_) => "a blob",
            Value::Array(_) => "an array",
            Value::Map(_) => "a map",
            Value::FnPtr(_, _) => "a function pointer",
            Value::U8(_) => "a u8",
            Value::U16(_) => "a u16",
            Value::U32(_) => "a u32",
            Value::U64(_) => "a u64",
            Value::U128(_) => "a u128",
            Value::I8(_) => "an i8",
            Value::I16(_) => "an i16",
            Value::I32(_) => "an i32",
            Value::I128(_) => "an i128",
            Value::Range(_, _) | Value::RangeWithEnd(_, _) => "a range",
        }
    }

    pub(crate) fn head(&self) -> Head<'_> {
        match self.parts() {
            Parts::Leaf(leaf) => Head::Leaf(leaf),
            Parts::Array(items) => Head::Array(items.len()),
            Parts::Map(fields) => Head::Map(fields.len()),
            Parts::FnPtr(name, curried) => Head::FnPtr(name, curried.len()),
        }
    }

    /// Returns the children, each with its key if it is in a map.
    pub(crate) fn children(&self) -> Children<'_> {
        match self.parts() {
            Parts::Leaf(_) => Children::Values([].iter()),
            Parts::Array(items) | Parts::FnPtr(_, items) => Children::Values(items.iter()),
            Parts::Map(fields) => Children::Fields(fields.as_slice().iter()),
        }
    }

    pub(crate) fn has_inside(&self) -> bool {
        match self.parts() {
            Parts::Leaf(_) => false,
            Parts::Array(items) | Parts::FnPtr(_, items) => !items.is_empty(),
            Parts::Map(fields) => !fields.is_empty(),
        }
    }
}

impl Leaf<'_> {
    /// Returns the value, with copies of texts and bytes.
    pub(crate) fn value(self) -> Result<Value, Error> {
        Ok(match self {
            Leaf::Unit => Value::Unit,
            Leaf::Bool(truth) => Value::Bool(truth),
            Leaf::Int(n) => Value::Int(n),
            Leaf::Char(character) => Value::Char(character),
            Leaf::Text(text) => Value::Text(copied(text)?),
            Leaf::Blob(bytes) => Value::Blob(copied_bytes(bytes)?),
            Leaf::U8(n) => Value::U8(n),
            Leaf::U16(n) => Value::U16(n),
            Leaf::U32(n) => Value::U32(n),
            Leaf::U64(n) => Value::U64(n),
            Leaf::U128(n) => Value::U128(n),
            Leaf::I8(n) => Value::I8(n),
            Leaf::I16(n) => Value::I16(n),
            Leaf::I32(n) => Value::I32(n),
            Leaf::I128(n) => Value::I128(n),
            Leaf::Range(start, end) => Value::Range(start, end),
            Leaf::RangeWithEnd(start, end) => Value::RangeWithEnd(start, end),
        })
    }
}

fn copied_bytes(bytes: &[u8]) -> Result<Vec<u8>, Error> {
    let mut copy = Vec::new();
    copy.try_reserve_exact(bytes.len())?;
    copy.extend_from_slice(bytes);
    Ok(copy)
}

/// The children of a value.
pub(crate) enum Children<'a> {
    Values(slice::Iter<'a, Value>),
    Fields(slice::Iter<'a, (String, Value)>),
}

impl<'a> Iterator for Children<'a> {
    type Item = (&'a str, &'a Value);

    fn next(&mut self) -> Option<(&'a str, &'a Value)> {
        match self {
            Children::Values(left) => left.next().map(|value| ("", value)),
            Children::Fields(left) => left.next().map(|(key, value)| (key.as_str(), value)),
        }
    }
}
