//! Values by keys.
use super::shed::{shed, Nest};
use super::Value;
use std::collections::BTreeMap;
use std::fmt;
use std::iter::FusedIterator;
use std::mem::{replace, take};

/// Values by keys, in the byte order of the keys.
///
/// ```
/// use rhai_world::{Map, Value};
///
/// let mut map = Map::new();
/// map.insert("b", Value::Int(2));
/// map.insert("a", Value::Int(1));
/// assert_eq!(map.get("b"), Some(&Value::Int(2)));
/// assert_eq!(map.iter().map(|(key, _)| key).collect::<String>(), "ab");
/// ```
#[derive(Clone, Default, PartialEq, Eq, Hash)]
pub struct Map {
    /// Sorted, without duplicate keys.
    fields: Vec<(String, Value)>,
}

impl Map {
    /// Makes an empty map.
    pub const fn new() -> Map {
        Map { fields: Vec::new() }
    }

    /// Makes a map from fields without duplicate keys, in any order.
    pub(super) fn of_fields(mut fields: Vec<(String, Value)>) -> Map {
        if !fields.is_sorted_by(|one, next| one.0 < next.0) {
            fields.sort_unstable_by(|one, other| one.0.cmp(&other.0));
        }
        Map { fields }
    }

    /// Makes a map from fields that are only dropped.
    pub(super) fn of_any(fields: Vec<(String, Value)>) -> Map {
        Map { fields }
    }

    /// Returns the number of keys.
    pub fn len(&self) -> usize {
        self.fields.len()
    }

    /// Returns whether there are no keys.
    pub fn is_empty(&self) -> bool {
        self.fields.is_empty()
    }

    /// Returns the value of a key, if there is one.
    pub fn get(&self, key: &str) -> Option<&Value> {
        self.place(key).ok().map(|at| &self.fields[at].1)
    }

    /// Sets the value of a key, and returns its previous value, if any.
    pub fn insert(&mut self, key: impl Into<String>, value: Value) -> Option<Value> {
        let key = key.into();
        match self.place(&key) {
            Ok(at) => Some(replace(&mut self.fields[at].1, value)),
            Err(at) => {
                self.fields.insert(at, (key, value));
                None
            }
        }
    }

    /// Removes a key, and returns its value, if there is one.
    pub fn remove(&mut self, key: &str) -> Option<Value> {
        self.place(key).ok().map(|at| self.fields.remove(at).1)
    }

    /// Iterates over the keys and their values, in key order.
    pub fn iter(&self) -> Fields<'_> {
        Fields { left: self.fields.iter() }
    }

    fn place(&self, key: &str) -> Result<usize, usize> {
        self.fields.binary_search_by(|(one, _)| one.as_str().cmp(key))
    }

    pub(super) fn as_slice(&self) -> &[(String, Value)] {
        &self.fields
    }

    pub(super) fn as_mut_vec(&mut self) -> &mut Vec<(String, Value)> {
        &mut self.fields
    }
}

impl Drop for Map {
    fn drop(&mut self) {
        if self.fields.iter().any(|(_, value)| value.has_inside()) {
            shed(Nest::Fields(take(&mut self.fields)));
        }
    }
}

impl fmt::Debug for Map {
    fn fmt(&self, f: &mut fmt::Formatter<'_>) -> fmt::Result {
        f.debug_map().entries(self).finish()
    }
}

/// The keys of a map with their values.
#[derive(Clone, Debug)]
pub struct Fields<'a> {
    left: std::slice::Iter<'a, (String, Value)>,
}

impl<'a> Iterator for Fields<'a> {
    type Item = (&'a str, &'a Value);

    fn next(&mut self) -> Option<(&'a str, &'a Value)> {
        self.left.next().map(|(key, value)| (key.as_str(), value))
    }

    fn size_hint(&self) -> (usize, Option<usize>) {
        self.left.size_hint()
    }
}

impl DoubleEndedIterator for Fields<'_> {
    fn next_back(&mut self) -> Option<Self::Item> {
        self.left.next_back().map(|(key, value)| (key.as_str(), value))
    }
}

impl ExactSizeIterator for Fields<'_> {}

impl FusedIterator for Fields<'_> {}

impl<'a> IntoIterator for &'a Map {
    type Item = (&'a str, &'a Value);
    type IntoIter = Fields<'a>;

    fn into_iter(self) -> Fields<'a> {
        self.iter()
    }
}

impl IntoIterator for Map {
    type Item = (String, Value);
    type IntoIter = std::vec::IntoIter<(String, Value)>;

    fn into_iter(mut self) -> std::vec::IntoIter<(String, Value)> {
        take(&mut self.fields).into_iter()
    }
}

/// For duplicate keys the last value counts.
impl FromIterator<(String, Value)> for Map {
    fn from_iter<I: IntoIterator<Item = (String, Value)>>(fields: I) -> Map {
        Map::from(fields.into_iter().collect::<BTreeMap<_, _>>())
    }
}

impl Extend<(String, Value)> for Map {
    fn extend<I: IntoIterator<Item = (String, Value)>>(&mut self, fields: I) {
        for (key, value) in fields {
            self.insert(key, value);
        }
    }
}

impl From<BTreeMap<String, Value>> for Map {
    fn from(fields: BTreeMap<String, Value>) -> Map {
        Map { fields: fields.into_iter().collect() }
    }
}

impl From<Map> for BTreeMap<String, Value> {
    fn from(map: Map) -> BTreeMap<String, Value> {
        map.into_iter().collect()
    }
}
