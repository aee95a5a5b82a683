//! The standard library's ordered map with the values in it.

use super::Keyed;
use crate::value::Value;
use std::collections::BTreeMap;

/// Values in the nodes.
pub struct Tree(BTreeMap<String, Value>);

impl Keyed for Tree {
    fn new() -> Self {
        Tree(BTreeMap::new())
    }

    fn count(&self) -> usize {
        self.0.len()
    }

    fn get(&self, key: &str) -> Option<&Value> {
        self.0.get(key)
    }

    fn insert(&mut self, key: String, value: Value) -> Result<Option<Value>, (String, Value)> {
        Ok(self.0.insert(key, value))
    }

    fn remove(&mut self, key: &str) -> Option<Value> {
        self.0.remove(key)
    }

    fn entries(&self) -> impl Iterator<Item = (&str, &Value)> {
        self.0.iter().map(|(key, value)| (key.as_str(), value))
    }

    /// Node by node, in one pass.
    fn copied(&self) -> Option<Self> {
        Some(Tree(self.0.clone()))
    }
}
