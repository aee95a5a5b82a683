//! Drops deeply nested values, without recursion and without allocation.
use super::{Array, Map, Value};
use std::mem::take;

/// The children of a value.
pub(crate) enum Nest {
    Values(Vec<Value>),
    Fields(Vec<(String, Value)>),
}

impl Nest {
    const fn nothing() -> Nest {
        Nest::Values(Vec::new())
    }

    fn is_empty(&self) -> bool {
        match self {
            Nest::Values(values) => values.is_empty(),
            Nest::Fields(fields) => fields.is_empty(),
        }
    }

    fn pop(&mut self) -> Option<Value> {
        match self {
            Nest::Values(values) => values.pop(),
            Nest::Fields(fields) => fields.pop().map(|(_, value)| value),
        }
    }

    /// Moves another nest below all values, into the capacity of a value that was taken out.
    fn put_under(&mut self, other: Nest) {
        let held = match other {
            Nest::Values(values) => Value::Array(Array::from(values)),
            Nest::Fields(fields) => Value::Map(Map::of_any(fields)),
        };
        match self {
            Nest::Values(values) => {
                values.push(held);
                let last = values.len() - 1;
                values.swap(0, last);
            }
            Nest::Fields(fields) => {
                fields.push((String::new(), held));
                let last = fields.len() - 1;
                fields.swap(0, last);
            }
        }
    }
}

impl Value {
    /// Takes the children out.
    fn take_inside(&mut self) -> Nest {
        match self {
            Value::Array(items) | Value::FnPtr(_, items) => Nest::Values(take(items.as_mut_vec())),
            Value::Map(fields) => Nest::Fields(take(fields.as_mut_vec())),
            Value::Unit | Value::Bool(_) | Value::Int(_) | Value::Char(_) | Value::Text(_) | Value::Blob(_) => Nest::nothing(),
            Value::U8(_) | Value::U16(_) | Value::U32(_) | Value::U64(_) | Value::U128(_) => Nest::nothing(),
            Value::I8(_) | Value::I16(_) | Value::I32(_) | Value::I128(_) => Nest::nothing(),
            Value::Range(_, _) | Value::RangeWithEnd(_, _) => Nest::nothing(),
        }
    }
}

/// Drops everything. When the walk enters a child, it moves what is left of the parent below the
/// child's own children, into the slot of the first one taken out. So each value is entered once
/// and left once.
pub(crate) fn shed(mut nest: Nest) {
    while let Some(mut value) = nest.pop() {
        loop {
            let mut inside = value.take_inside();
            let Some(last) = inside.pop() else { break };
            if !nest.is_empty() {
                inside.put_under(nest);
            }
            nest = inside;
            value = last;
        }
    }
}
