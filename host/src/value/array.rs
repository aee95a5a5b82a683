//! Values in order.
use super::shed::{shed, Nest};
use super::Value;
use std::fmt;
use std::mem::take;

/// Values in order: an array, or the curried values of a function pointer.
///
/// ```
/// use rhai_world::{Array, Value};
///
/// let items: Array = (1..4).map(Value::from).collect();
/// assert_eq!(items.len(), 3);
/// assert_eq!(items.as_slice()[2], Value::Int(3));
/// ```
#[derive(Clone, Default, PartialEq, Eq, Hash)]
pub struct Array {
    items: Vec<Value>,
}

impl Array {
    /// Makes an empty array.
    pub const fn new() -> Array {
        Array { items: Vec::new() }
    }

    /// Returns the number of values.
    pub fn len(&self) -> usize {
        self.items.len()
    }

    /// Returns whether there are no values.
    pub fn is_empty(&self) -> bool {
        self.items.is_empty()
    }

    /// Adds a value.
    pub fn push(&mut self, value: Value) {
        self.items.push(value);
    }

    /// Borrows the values as a slice.
    pub fn as_slice(&self) -> &[Value] {
        &self.items
    }

    /// Borrows the values as a mutable slice.
    pub fn as_mut_slice(&mut self) -> &mut [Value] {
        &mut self.items
    }

    /// Iterates over the values in order.
    pub fn iter(&self) -> std::slice::Iter<'_, Value> {
        self.items.iter()
    }

    /// Iterates over the values in order, by mutable reference.
    pub fn iter_mut(&mut self) -> std::slice::IterMut<'_, Value> {
        self.items.iter_mut()
    }

    /// Returns the values as a vector.
    pub fn into_vec(mut self) -> Vec<Value> {
        take(&mut self.items)
    }

    pub(super) fn as_mut_vec(&mut self) -> &mut Vec<Value> {
        &mut self.items
    }
}

impl Drop for Array {
    fn drop(&mut self) {
        if self.items.iter().any(Value::has_inside) {
            shed(Nest::Values(take(&mut self.items)));
        }
    }
}

impl fmt::Debug for Array {
    fn fmt(&self, f: &mut fmt::Formatter<'_>) -> fmt::Result {
        f.debug_list().entries(&self.items).finish()
    }
}

impl From<Vec<Value>> for Array {
    fn from(items: Vec<Value>) -> Array {
        Array { items }
    }
}

impl From<Array> for Vec<Value> {
    fn from(array: Array) -> Vec<Value> {
        array.into_vec()
    }
}

impl FromIterator<Value> for Array {
    fn from_iter<I: IntoIterator<Item = Value>>(values: I) -> Array {
        Array { items: values.into_iter().collect() }
    }
}

impl Extend<Value> for Array {
    fn extend<I: IntoIterator<Item = Value>>(&mut self, values: I) {
        self.items.extend(values);
    }
}

impl AsRef<[Value]> for Array {
    fn as_ref(&self) -> &[Value] {
        &self.items
    }
}

impl IntoIterator for Array {
    type Item = Value;
    type IntoIter = std::vec::IntoIter<Value>;

    fn into_iter(self) -> std::vec::IntoIter<Value> {
        self.into_vec().into_iter()
    }
}

impl<'a> IntoIterator for &'a Array {
    type Item = &'a Value;
    type IntoIter = std::slice::Iter<'a, Value>;

    fn into_iter(self) -> std::slice::Iter<'a, Value> {
        self.iter()
    }
}

impl<'a> IntoIterator for &'a mut Array {
    type Item = &'a mut Value;
    type IntoIter = std::slice::IterMut<'a, Value>;

    fn into_iter(self) -> std::slice::IterMut<'a, Value> {
        self.iter_mut()
    }
}
